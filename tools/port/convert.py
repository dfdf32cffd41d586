#!/usr/bin/env python3
"""Turns proofs that walk the code by hand (proofs/F/Proof.antt over Tie) to Invariants.antt and Answers.antt.

usage: python3 tools/port/convert.py CRATE [F ..]     at the top of the repository, with rt on the PATH

The names of goals and steps come from `rt check --generated OUT --old-names`. An answer that only asks for the search is dropped. What the
script could not turn is left in the answer, and the check says where.
"""
import json
import os
import re
import subprocess
import sys
import tempfile

IDENT = r"[^\s(){}\[\],;.\"`«»]+"


def norm(s):
    return s.replace("-", "_")


def strip_comments(t):
    return t


def split_decls(text):
    """The file as use lines, and blocks: each top-level declaration with the comments above it."""
    uses, blocks, cur = [], [], []
    for line in text.split("\n"):
        if line.startswith("use ") or line.startswith("pub use "):
            uses.append(line)
            continue
        if line and not line[0].isspace() and not line.startswith(")"):
            m = re.match(r"^(--|abbrev |pub |unfolding |unfoldable |" + IDENT + ")", line)
            cur.append(line)
        else:
            cur.append(line)
    text2 = "\n".join(cur)
    # group: comment lines + signature + unfolding + clauses
    lines = text2.split("\n")
    groups, buf, name = [], [], None
    def flush():
        nonlocal buf
        if any(l.strip() for l in buf):
            groups.append(buf)
        buf = []
    i = 0
    for line in lines:
        sig = re.match(r"^(abbrev |pub |unfoldable )*(" + IDENT + r")( [({].*)? :( |$)", line) or re.match(r"^(module|data|record|pub data|pub record|mutual)\b", line)
        if line.startswith("--"):
            if buf and any(l.strip() and not l.startswith("--") for l in buf):
                flush()
            buf.append(line)
        elif sig and not line.startswith(" "):
            if any(l.strip() and not l.startswith("--") for l in buf):
                flush()
            buf.append(line)
        else:
            buf.append(line)
    flush()
    return uses, groups


def block_name(group):
    for line in group:
        if re.match(r"^(module|data|record|pub data|pub record|mutual)\b", line):
            return line, line
        m = re.match(r"^(?:abbrev |pub |unfoldable )*(" + IDENT + r")( [({].*)? :( |$)", line)
        if m:
            return m.group(1), line
    return None, None


def block_parts(group):
    """comment lines, signature text, unfolding line, body text (all clauses)."""
    comments = [l for l in group if l.startswith("--")]
    rest = [l for l in group if not l.startswith("--")]
    while rest and not rest[0].strip():
        rest.pop(0)
    while rest and not rest[-1].strip():
        rest.pop()
    # the signature may run over several lines, until a line that begins at column 0
    sig = [rest.pop(0)]
    while rest and rest[0][:1].isspace():
        sig.append(rest.pop(0))
    unf = None
    if rest and rest[0].startswith("unfolding"):
        unf = rest.pop(0)
    return comments, "\n".join(sig), unf, "\n".join(rest)


def args_of(text):
    """The arguments of an application, by parentheses, with comments dropped."""
    text = re.sub(r"(?m)^\s*--.*$", "", text)
    text = re.sub(r"(?m)\s--\s.*$", "", text)
    out, i, n = [], 0, len(text)
    while i < n:
        c = text[i]
        if c.isspace():
            i += 1
            continue
        if c == ")":
            break
        j, depth = i, 0
        while j < n:
            d = text[j]
            if d in "([{":
                depth += 1
            elif d in ")]}":
                if depth == 0:
                    break
                depth -= 1
            elif d.isspace() and depth == 0:
                break
            j += 1
        out.append(text[i:j])
        i = j
    return out, i


class Turn:
    def __init__(self, info, fn_module, crate):
        self.want = None
        self.info = info
        self.fields = {}
        self.raw = {}
        self.arms = {}
        self.parent = {}
        self.new_place = {}
        self.clauses = {}
        byname = info["places_by_name"]
        for k, p in enumerate(info["places"]):
            old, par, (of, nf), callee, extra = p
            self.parent[old] = par
            self.new_place[norm(old)] = byname[k]
            self.parent_new = None
            if of:
                self.fields.setdefault(norm(of), nf)
                for a, b in extra:
                    self.raw[(norm(of), a)] = b
            arm = info["arms"][k]
            if arm:
                for field, of2, path in arm[2]:
                    if path:
                        self.arms.setdefault((norm(of2), tuple(path)), (arm[0], field))
                    elif of2:
                        self.arms.setdefault((norm(of2), ()), (arm[0], field))
            cl = info["clauses"][k]
            if cl and nf:
                self.clauses[nf] = cl
        for (old, new), _ in info["loops"]:
            self.fields[norm(old)] = new
        # chain of new names
        self.chain = {}
        for k, p in enumerate(info["places"]):
            self.chain[byname[k]] = None
        old2new = {p[0]: byname[k] for k, p in enumerate(info["places"])}
        for k, p in enumerate(info["places"]):
            self.chain[byname[k]] = old2new.get(p[1])

    def steps(self, frm, to):
        n, at = 0, frm
        while at is not None and at != to:
            at = self.chain.get(at)
            n += 1
        return n if at == to else None

    def path(self, segs):
        """segs after the variable, without `before`."""
        if not segs:
            return segs
        head = norm(segs[0])
        # arms: the longest path first
        for ln in range(len(segs) - 1, 0, -1):
            key = (head, tuple(segs[1 : 1 + ln]))
            if key in self.arms:
                arm, field = self.arms[key]
                return [arm, field] + segs[1 + ln :]
        if head in self.fields:
            new = self.fields[head]
            rest = list(segs[1:])
            if rest and (head, rest[0]) in self.raw:
                rest[0] = self.raw[(head, rest[0])]
            if len(rest) > 1 and rest[0] == "ensures" and rest[1].isdigit() and new in self.clauses:
                cl = self.clauses[new]
                names = cl["fields"] or []
                if int(rest[1]) < len(names):
                    rest[1] = names[int(rest[1])]
            return [new] + rest
        return segs

    def body(self, text, var, place, helpers):
        """Turns a term: paths from `var`, and calls of helpers with a place."""
        alias = {var}
        for m in re.finditer(r"let (" + IDENT + r") = (" + IDENT + r")((?:\.before)+) in", text):
            alias.add(m.group(1))
        named, steps_named = {}, {}
        for m in re.finditer(r"let (" + IDENT + r") (?::[^=]*)?= (" + IDENT + r")((?:\.[^\s(){}\[\],;.\"`«»]+)+)\s+in", text):
            if m.group(2) in alias:
                segs = self.path([q for q in m.group(3).split(".")[1:] if q != "before"])
                if len(segs) == 2 and segs[1] == "ensures" and segs[0] in self.clauses:
                    named[m.group(1)] = self.clauses[segs[0]]["fields"] or []
                elif len(segs) == 1 and segs[0] in self.clauses:
                    steps_named[m.group(1)] = self.clauses[segs[0]]["fields"] or []
        tok = re.compile(r"(?<![\w'₀-₉.-])(" + IDENT + r")((?:\.[^\s(){}\[\],;.\"`«»]+)+)?")
        out, at, last = [], 0, None
        for m in tok.finditer(text):
            v, path = m.group(1), m.group(2) or ""
            new = m.group(0)
            if v in alias and (path or last in helpers):
                segs = [s for s in path.split(".")[1:] if s != "before"]
                if segs:
                    new = v + "." + ".".join(self.path(segs))
                elif last in helpers:
                    new = var
                    at_helper = next((k for k in range(len(out) - 1, -1, -1) if out[k] == last), None)
                    if at_helper is not None and self.want:
                        out[at_helper] = self.want(last, place)
                elif "before" in path:
                    new = v if v == var else v
            elif path and v in named and path[1:].split(".")[0].isdigit() and int(path[1:].split(".")[0]) < len(named[v]):
                segs = path[1:].split(".")
                new = ".".join([v, named[v][int(segs[0])]] + segs[1:])
            elif path and v in steps_named and re.match(r"^\.ensures\.\d+", path):
                segs = path[1:].split(".")
                if int(segs[1]) < len(steps_named[v]):
                    new = ".".join([v, "ensures", steps_named[v][int(segs[1])]] + segs[2:])
            elif path and v not in alias and v not in ("tie", "goal") and (v.islower() and len(v) <= 2):
                # a part of a record that an alias of a step is: its fields stay
                new = m.group(0)
            out.append(text[at : m.start()])
            out.append(new)
            at = m.end()
            last = v if not path else None
        return "".join(out) + text[at:]

    def types(self, text):
        text = re.sub(r"tie\.([A-Za-z][^\s(){}]*)((?: (?:invariant|decreases)[\w-]*)*)", lambda m: "goal." + self.new_place.get(norm(m.group(1)), m.group(1)), text)
        return text


def place_of(sig, t):
    m = re.search(r"\((" + IDENT + r") : tie\.([A-Za-z][^\s(){}]*)", sig)
    if m:
        return m.group(1), t.new_place.get(norm(m.group(2)))
    return None, None


def convert(crate, folder, info):
    path = os.path.join(folder, "Proof.antt")
    text = open(path, encoding="utf-8").read()
    if "tie.spec" not in text or "tie.close" not in text:
        return "not by tie.spec"
    rel = os.path.relpath(folder, os.path.join("crates", crate, "proofs")).split(os.sep)
    mod = f"Rattle.{crate}.proofs." + ".".join(rel)
    t = Turn(info, mod, crate)
    head = []
    for line in text.split("\n"):
        if line.startswith("--"):
            head.append(line)
        else:
            break
    text = "\n".join(text.split("\n")[len(head) :])
    uses, groups = split_decls(text)
    decls = {}
    order = []
    for g in groups:
        n, _ = block_name(g)
        if n:
            decls[n] = block_parts(g)
            order.append(n)
    main = next((n for n in order if "tie.spec" in decls[n][3]), None)
    if main is None:
        return "no spec"
    body = decls[main][3]
    i = body.index("tie.spec") + len("tie.spec")
    args, _ = args_of(body[i:])
    loops = info["loops"]
    needs = info["needs"]
    unf_main = decls[main][2]
    inv_names = [n for n in order if re.search(r": tie\.(invariant|decreases)", norm(decls[n][1]))]
    k = len(args) - len(needs)
    lead = []
    while args and (args[0] in inv_names):
        lead.append(args.pop(0))
    report = []
    if len(args) != len(needs):
        report.append(f"{len(args)} answers for {len(needs)} goals")
    # invariants
    inv_out = []
    for n in inv_names:
        comments, sig, unf, clause = decls[n]
        m = re.search(r"tie\.(invariant|decreases)[-_]?(.*)$", sig.strip())
        which, old = m.group(1), norm(m.group(2).split()[0] if m.group(2) else "")
        idx = next((j for j, ((o, nw), vs) in enumerate(loops) if norm(o) == old), None)
        if idx is None:
            report.append(f"loop {old}?")
            continue
        (o, new), vs = loops[idx]
        changed = info["changed"][idx] if idx < len(info["changed"]) else []
        mm = re.match(r"^" + re.escape(n) + r"((?:\s+\S+)*?)\s*=\s*(.*)$", clause, re.S)
        params = mm.group(1).split()
        term = mm.group(2)
        names = []
        for v, c in zip(vs, changed):
            names.append(("l.initial." if c else "l.") + v)
        for v, c in zip(vs, changed):
            if c:
                names.append("l." + v)
        if len(params) != len(names):
            report.append(f"{n}: {len(params)} parameters for {len(names)}: {params} {names}")
        mapping = dict(zip(params, names))
        term = re.sub(r"(?<![\w'₀-₉.-])(" + IDENT + r")", lambda m: mapping.get(m.group(1), m.group(1)), term)
        if unf:
            pass
        inv_out.append("\n".join(comments + [f"abbrev pub {which}-{new} : goal.{which}-{new}"] + ([unf] if unf else []) + [f"{which}-{new} l = {term}"]))
    # helpers
    helpers, helper_out = {}, []
    answer_names = set(a for a in args if a in decls)
    for n in order:
        if n == main or n in inv_names or n in answer_names:
            continue
        var, pl = place_of(decls[n][1], t)
        if pl:
            helpers[n] = pl
    made = {}

    def want(n, place):
        """The helper n, stated at a place: its paths are the same there."""
        place = place or helpers[n]
        if (n, place) in made:
            return made[(n, place)]
        first = not any(k[0] == n for k in made)
        name = n if first else n + "_" + norm(place).replace("+", "_").lower()
        made[(n, place)] = name
        comments, sig, unf, clause = decls[n]
        var, pl = place_of(sig, t)
        sig2 = re.sub(r"\((" + IDENT + r") : tie\.([A-Za-z][^\s(){}]*)((?: (?:invariant|decreases)[\w-]*)*)\)", lambda m: f"({m.group(1)} : goal.{place})", sig, count=1)
        sig2 = t.body(sig2, var, place, helpers)
        m = re.match(r"^" + re.escape(n) + r"\s+(\S+)", clause)
        v = m.group(1) if m else var
        clause2 = t.body(clause, v, place, helpers)
        if name != n:
            sig2 = re.sub(r"^((?:abbrev |pub )*)" + re.escape(n) + r"(?=\s)", lambda m: m.group(1) + name, sig2)
            clause2 = re.sub(r"(?m)^" + re.escape(n) + r"(?=\s)", name, clause2)
        helper_out.append("\n".join(comments + [sig2] + ([unf] if unf else []) + [clause2]))
        return name

    t.want = want
    for n in order:
        if n == main or n in inv_names or n in answer_names or n in helpers:
            continue
        comments, sig, unf, clause = decls[n]
        helper_out.append("\n".join(comments + [t.types(sig)] + ([unf] if unf else []) + ([clause] if clause else [])))
    ans_out = []
    named = {}
    positional = list(zip(args, needs)) if len(args) == len(needs) else []
    if not positional:
        olds = {norm(o): (o, nw) for o, nw in needs}
        news = {norm(nw): (o, nw) for o, nw in needs}
        for a in args:
            if a in decls:
                m = re.search(r"tie\.Need-(\S+)", decls[a][1])
                key = norm(m.group(1)) if m else None
                if key in olds:
                    positional.append((a, olds[key]))
                elif key in news:
                    positional.append((a, news[key]))
                else:
                    report.append(f"{a}: {key}?")
                    positional.append((a, None))
            elif "search rules" not in a:
                positional.append((a, None))
    asked = {nw: info["asked_at"][j][1] for j, (o, nw) in enumerate(needs) if j < len(info["asked_at"])}
    for a, need in positional:
        comments, unf = [], unf_main
        if a in decls:
            comments, sig, unf, clause = decls[a]
            m = re.match(r"^" + re.escape(a) + r"((?:\s+[^\s=]+)*?)\s*=\s*(.*)$", clause, re.S)
            params, term = m.group(1).split(), m.group(2)
        else:
            m = re.match(r"^\(\s*λ ((?:[^\s.]+ ?)+)\.\s*(.*)\)$", a, re.S)
            if not m:
                report.append(f"answer {a[:40]}?")
                continue
            params, term = m.group(1).split(), m.group(2)
        if term.strip() in ("search rules", "tt") or (need and re.match(r"enum_(known|told)-", need[1])):
            continue
        var = params[0] if params else "c"
        place = asked.get(need[1]) if need else None
        term = t.body(term, var, place, helpers)
        term = re.sub(r"(?<=\.)in-[\w]+\.rest\b", "in_default.in_default-own.rest", term)
        name = need[1] if need else "UNKNOWN"
        cl = info["asked"].get(need[0]) if need else None
        if cl:
            whole = term.rstrip()
            depth, start = 0, None
            for j in range(len(whole) - 1, -1, -1):
                if whole[j] == ")":
                    depth += 1
                elif whole[j] == "(":
                    depth -= 1
                    if depth == 0:
                        start = j
                        break
            before = whole[:start].rstrip() if start is not None else ""
            parts = split_tuple(whole[start:]) if start is not None and whole.endswith(")") else None
            if parts and len(parts) == len(cl) and (before == "" or before.endswith(" in") or before.endswith("\nin") or before.endswith(".")):
                term = whole[:start] + "record { " + "; ".join(f"{c} = {p}" for c, p in zip(cl, parts)) + " }"
            else:
                term = f"let both = {term.strip()} in\n    record {{ " + "; ".join(f"{c} = both.{j}" for j, c in enumerate(cl)) + " }"
                report.append(f"{name}: clauses {cl}")
        ans_out.append("\n".join(comments + [f"pub {name} : goal.{name}"] + ([unf] if unf else []) + [f"{name} {' '.join([var] + [x for x in params[1:] if x != 'κs'])} =\n    {term}"]))
    keep = [u for u in uses if not re.search(r"\.(Statement|Tie)(\.|\s|$)", u)]
    if inv_out:
        with open(os.path.join(folder, "Invariants.antt"), "w", encoding="utf-8") as f:
            f.write("\n".join(head + keep + [f"use {mod}.Given as goal", "", "\n\n".join(inv_out), ""]))
    if ans_out or (helper_out and ans_out):
        top = head if not inv_out else ["-- The answers that the search does not find."]
        with open(os.path.join(folder, "Answers.antt"), "w", encoding="utf-8") as f:
            f.write("\n".join(head + keep + [f"use {mod}.Goals as goal", "", "\n\n".join(helper_out + ans_out), ""]))
    os.remove(path)
    return "; ".join(report) if report else "turned"


def split_tuple(s):
    inner, parts, depth, cur = s[1:-1], [], 0, ""
    for ch in inner:
        if ch in "([{":
            depth += 1
        elif ch in ")]}":
            depth -= 1
            if depth < 0:
                return None
        if ch == "," and depth == 0:
            parts.append(cur.strip())
            cur = ""
        else:
            cur += ch
    if cur.strip():
        parts.append(cur.strip())
    return parts


def main():
    crate = sys.argv[1]
    only = sys.argv[2:]
    with tempfile.TemporaryDirectory(prefix="names-") as room:
        return turned(crate, only, os.path.join(room, "names"))


def turned(crate, only, out):
    r = subprocess.run(["rt", "check", "--generated", out, "--old-names"], cwd=f"crates/{crate}", stdout=subprocess.PIPE, stderr=subprocess.STDOUT, text=True)
    if not os.path.exists(out + "/names.json"):
        print("\n".join(l for l in r.stdout.splitlines() if "must-fail" not in l)[:3000])
        return 1
    d = json.load(open(out + "/names.json"))
    for folder, dirs, files in sorted(os.walk(f"crates/{crate}/proofs")):
        if "Proof.antt" not in files:
            continue
        rel = os.path.relpath(folder, f"crates/{crate}/proofs").split(os.sep)
        fn = ".".join(rel)
        if only and fn not in only:
            continue
        info = d.get(f"Rattle-{crate}-proofs.{fn}.Lts")
        if info is None:
            print(f"{fn}: no names")
            continue
        try:
            print(f"{fn}: {convert(crate, folder, info)}")
        except Exception as e:
            print(f"{fn}: {type(e).__name__} {e}")
    return 0


if __name__ == "__main__":
    raise SystemExit(main())
