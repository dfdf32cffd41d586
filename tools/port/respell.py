#!/usr/bin/env python3
"""Brings the repository's own definitions, constructors, fields and lemmas to the spelling of today's Rattle: words in snake case.

usage: python3 tools/port/respell.py          at the top of the repository, once, after the kit's port.py

`rowAt` becomes `row_at` and `held-all` becomes `held_all`; types and modules keep their capitals, and names of kinds stay in capitals
(`SITE-CLASS` is `SITE_CLASS`). Only names that a file of specs/ or proofs/ of this repository declares are turned, in the files that declare
or import them; what Rust declares, what Rattle makes, and the names of other libraries stay. Two names that would fall together stop it.
"""
import collections
import glob
import os
import re
import sys

NAME = r"[^\s(){}\[\],;.\"`«»]+"
DECLARED = re.compile(r"^(\s*)((?:(?:abbrev|unfoldable|pub|data|record|rec)\s+)*)((?:" + NAME + r"\s+)*?" + NAME + r")((?:\s+[({][^:]*:[^:=]*[)}])*)\s+:(?:\s|$)")
MADE = ("declared", "contracts")
# Where two names of one file would fall together, and what one of them is called then.
# A lemma that would have the name of what it speaks of takes `_lem`, as the kit's own lemmas do.
APART = {
    ("Rattle.lexer.proofs.Answers", "no-token"): "no_token_lem",
    ("Rattle.lexer.proofs.Edge", "too_long"): "too_long_lem",
    ("Rattle.lexer.proofs.First", "newline-at"): "newline_at_lem",
    ("Rattle.lines.proofs.Stated", "on_line"): "on_line_lem",
    ("Rattle.lookup.specs.Samples", "in-force"): "in_force_lem",
    ("Rattle.numeral.proofs.Word", "below-nought"): "below_nought_lem",
    ("Rattle.parser.proofs.Listed", "in-turn"): "in_turn_lem",
    ("Rattle.reader.proofs.Turning", "turn-of"): "turn_of_lem",
    ("Rattle.render.proofs.AfterItems", "is-rect"): "is_rect_lem",
    ("Rattle.render.proofs.Coming", "may-end"): "may_end_lem",
    ("Rattle.render.proofs.FormsRead", "of-code"): "of_code_lem",
    ("Rattle.render.proofs.LineKinds", "on_line"): "on_line_lem",
    ("Rattle.render.proofs.WordsBack", "first_key"): "first_key_lem",
    ("Rattle.settled.proofs.Images", "as-taken"): "as_taken_lem",
    ("Rattle.settled.proofs.Images", "as-word"): "as_word_lem",
    ("Rattle.settled.proofs.Images", "as-peeked"): "as_peeked_lem",
    ("Rattle.settled.proofs.Images", "as_step"): "as_step_lem",
    ("Rattle.settled.proofs.Images", "as-number"): "as_number_lem",
}


def spelled(name, owner=None):
    if (owner, name) in APART:
        return APART[(owner, name)]
    if not re.search(r"[a-z]", name):
        return name.replace("-", "_")
    out = []
    for part in name.split("-"):
        if part[:1].isupper():
            out.append(part)
        else:
            out.append(re.sub(r"([a-z0-9₀-₉])([A-Z])", lambda m: m.group(1) + "_" + m.group(2).lower(), part))
    return "_".join(out)


# Variables, aliases of names and names in comments, which no file declares.
LOCAL = {
    "codeFor": "code_for",
    "List·take": "list_take",
    "List·drop": "list_drop",
    "noIndex": "no_index",
    "noPlace": "no_place",
    "hasRoom": "has_room",
    "numeralOf": "numeral_of",
    "whyWord": "why_word",
    "whyTaken": "why_taken",
    "whyPeeked": "why_peeked",
    "whyNumber": "why_number",
    "whyDrafted": "why_drafted",
    "ifMore": "if_more",
}


def own_files():
    for crate in sorted(os.listdir("crates")):
        for part in ("specs", "proofs"):
            for folder, dirs, files in os.walk(os.path.join("crates", crate, part)):
                dirs.sort()
                for f in sorted(files):
                    if f.endswith(".antt"):
                        yield os.path.join(folder, f)


def module(path):
    """crates/c/specs/A/B.antt is Rattle.c.specs.A.B."""
    parts = path[: -len(".antt")].split(os.sep)[1:]
    return "Rattle." + ".".join(parts)


def declarations(text):
    for line in text.splitlines():
        if line.lstrip().startswith(("--", "use ", "let ", "open ", "|", "λ", "(", "→", "∷", "++")):
            continue
        m = DECLARED.match(line)
        if m:
            words = m.group(3).split()
            if any(w in ("let", "elim", "as", "in", "where", "=", "≡", "→", "unfolding", "rw", "use", "λ") for w in words):
                continue
            for w in words:
                yield m.group(1), m.group(2), w


USE = re.compile(r"^(\s*(?:ghost\s+|pub\s+)*use\s+)([^\s{};]+?)(\.\{([^}]*)\})?(\s+as\s+(" + NAME + r"))?\s*;?\s*$")


def imports(text, modules):
    """What a file imports from this repository's own modules: names, and aliases of modules; and what it imports from elsewhere."""
    names, aliases, foreign = {}, {}, set()
    for line in text.splitlines():
        m = USE.match(line)
        if not m:
            continue
        path, braces, alias = m.group(2), m.group(4), m.group(6)
        owner = next((p for p in (path, path.rsplit(".", 1)[0], path.rsplit(".", 2)[0]) if p in modules), None)
        if any("." + w in path for w in MADE):
            owner = None
        if braces is None:
            if owner and path == owner:
                aliases[alias or path.rsplit(".", 1)[1]] = owner
            continue
        for item in braces.split(","):
            words = item.split()
            if not words:
                continue
            here = words[2] if len(words) == 3 and words[1] == "as" else words[0]
            if owner and words[0] in modules[owner]:
                names[words[0]] = spelled(words[0], owner)
                if here != words[0]:
                    names[here] = spelled(here)
            else:
                foreign.add(words[0])
                foreign.add(here)
    return names, aliases, foreign


TOKEN = re.compile(r"(\.?)(" + NAME + r")")


def turned(text, names, aliases, fields, modules, rust):
    def code(part):
        out, at, before = [], 0, None
        for m in TOKEN.finditer(part):
            dot, word = m.group(1), m.group(2)
            new = word
            if dot:
                if before in aliases and word in modules[aliases[before]]:
                    new = spelled(word, aliases[before])
                elif word in fields:
                    new = spelled(word)
            elif word in names:
                new = names[word]
            out.append(part[at : m.start(2)])
            out.append(new)
            at = m.end(2)
            before = word
        return "".join(out) + part[at:]

    def comment(part):
        return re.sub(r"`([^`]+)`", lambda m: "`" + code(m.group(1)) + "`", part)

    lines = []
    for line in text.split("\n"):
        mark = line.find("//" if rust else "-- ")
        if line.startswith("--") and not rust:
            mark = 0
        body, said = (line, "") if mark < 0 else (line[:mark], line[mark:])
        pieces = re.split(r'("(?:[^"\\]|\\.)*")', body)
        lines.append("".join(p if i % 2 else code(p) for i, p in enumerate(pieces)) + comment(said))
    return "\n".join(lines)


def plain(text, rust):
    """The text without comments and strings; of a Rust file its parameters and locals alone, since ghost names stand apart from functions."""
    text = re.sub(r'"(?:[^"\\\\]|\\\\.)*"', "", re.sub(r"(?m)//.*$" if rust else r"(?m)(^--|-- ).*$", "", text))
    return " ".join(re.findall(r"\b(\w+): (?:&|\w)|let (?:mut )?(\w+)", text) and [a or b for a, b in re.findall(r"\b(\w+): (?:&|\w)|let (?:mut )?(\w+)", text)]) if rust else text


def main():
    paths = list(own_files())
    texts = {p: open(p, encoding="utf-8").read() for p in paths}
    modules, fields = {}, set()
    for p in paths:
        found = list(declarations(texts[p]))
        modules[module(p)] = {w for _, _, w in found}
        record = False
        for line in texts[p].splitlines():
            if re.match(r"^(\s*)((abbrev|unfoldable|pub)\s+)*record\s+\S+.*where\s*$", line):
                record = True
            elif line and not line[0].isspace():
                record = False
            elif record:
                for _, _, w in declarations(line + "\n"):
                    fields.add(w)
    fields = {f for f in fields if spelled(f) != f}
    bad = 0
    sources = [p for c in sorted(os.listdir("crates")) for p in sorted(glob.glob(f"crates/{c}/src/**/*.rt", recursive=True))]
    for p in sources:
        texts[p] = open(p, encoding="utf-8").read()
    new = {}
    for p, text in texts.items():
        names, aliases, foreign = imports(text, modules)
        if p.endswith(".antt"):
            for w in modules[module(p)]:
                names[w] = spelled(w, module(p))
            for f in fields:
                if f not in foreign:
                    names.setdefault(f, spelled(f))
        names = {a: b for a, b in names.items() if a != b}
        words = {m.group(2) for m in TOKEN.finditer(plain(text, p.endswith(".rt"))) if not m.group(1)}
        to = collections.defaultdict(set)
        for a, b in names.items():
            if a in words:
                to[b].add(a)
        for b, olds in to.items():
            if len(olds) > 1 or (b in words and b not in names):
                print(f"{p}: {sorted(olds)} and {b} fall together" if len(olds) == 1 else f"{p}: {sorted(olds)} fall together as {b}")
                bad += 1
        new[p] = turned(text, names, aliases, fields, modules, p.endswith(".rt"))
        for a, b in LOCAL.items():
            new[p] = re.sub(r"(?<![\w·-])" + a + r"(?![\w'-])", b, new[p])
    if bad and "--anyway" not in sys.argv:
        print(f"respell: {bad} names fall together: nothing was written")
        return 1
    n = 0
    for p, text in new.items():
        if text != texts[p]:
            with open(p, "w", encoding="utf-8") as f:
                f.write(text)
            n += 1
    print(f"respell: {n} files")
    return 0


if __name__ == "__main__":
    raise SystemExit(main())
