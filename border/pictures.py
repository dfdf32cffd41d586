#!/usr/bin/env python3
"""pictures.py IN.lef MACRO PICTURE.svg: whether the picture shows the macro. What has to be there is taken from the words of the text, and from
neither records nor the library: each shape where its numbers put it beside the macro's outline, the names of the pins and layers, the size.
Texts are those of border/pictures and the sample, whose statements end with a semicolon that stands alone."""
import re, sys, xml.etree.ElementTree as tree

SVG = "{http://www.w3.org/2000/svg}"


def macro_of(text, name):
    words = re.sub(rb"#[^\n]*", b"", text).split()
    start = next(i for i in range(len(words)) if words[i] == b"MACRO" and words[i + 1] == name)
    stop = next(i for i in range(start, len(words)) if words[i] == b"END" and words[i + 1] == name)
    return [w.decode() for w in words[start + 2 : stop]]


def numbers_behind(words):
    found = []
    for w in words:
        if not re.fullmatch(r"-?[0-9.]+", w):
            break
        found.append(float(w))
    return found


def shapes(words):
    """The shapes as kind, numbers, pin, or None for an obstruction, and width of a path; the layers; the size; and the outline's box on the chip."""
    found, layers, size, origin, pin, width = [], [], None, (0.0, 0.0), None, 0
    for i, w in enumerate(words):
        numbers = numbers_behind(words[i + 1 :])
        if w == "PIN":
            pin = words[i + 1]
        elif w == "OBS":
            pin = None
        elif w == "LAYER" and words[i + 2] == ";":
            layers += [words[i + 1]] * (words[i + 1] not in layers)
            width = 0
        elif w == "WIDTH":
            width = numbers[0]
        elif w == "SIZE":
            size = float(words[i + 1]), float(words[i + 3])
        elif w == "ORIGIN":
            origin = tuple(numbers)
        elif w in ("RECT", "POLYGON", "PATH", "VIA") and numbers:
            found.append((w, numbers, pin, width if w == "PATH" else 0))
    return found, layers, size, size and (-origin[0], -origin[1], size[0] - origin[0], size[1] - origin[1])


def points(d):
    return [tuple(map(float, p)) for p in re.findall(r"[ML]([-0-9.]+) ([-0-9.]+)", d)]


def span(ps):
    return min(x for x, _ in ps), min(y for _, y in ps), max(x for x, _ in ps), max(y for _, y in ps)


def placed(drawn, numbers, outline, box):
    """Whether points on the drawing stand to the outline as the numbers stand to the macro's box. On a drawing y goes down."""
    scale = (outline[2] - outline[0]) / abs(box[2] - box[0])
    left, low = min(box[0], box[2]), min(box[1], box[3])
    wanted = [(outline[0] + (x - left) * scale, outline[3] - (y - low) * scale) for x, y in zip(numbers[::2], numbers[1::2])]
    return all(abs(a - c) < 0.05 and abs(b - d) < 0.05 for (a, b), (c, d) in zip(drawn, wanted)) and len(drawn) == len(wanted)


def shown(name):
    return "".join(c if "!" <= c <= "~" else "\\x%02x" % ord(c) for c in name)


def names(root, found, layers, size, name):
    texts, titles = (["".join(t.itertext()) for t in root.iter(SVG + tag)] for tag in ("text", "title"))
    assert titles[0] == name and name in texts
    for pin in {pin for _, _, pin, _ in found if pin}:
        assert shown(pin) in texts and any(t.split(",")[0] == "pin " + shown(pin) for t in titles), pin
    for layer in layers[:47]:
        assert shown(layer) in texts, layer
    assert ("all further layers" in texts) == (len(layers) > 47)
    assert not size or any(t.startswith("%s × %s µm" % tuple(("%.6f" % s).rstrip("0").rstrip(".") for s in size)) for t in texts)


def is_at(paths, kind, numbers, frame, box):
    """Whether one of the paths stands where the numbers put the shape."""
    if kind == "RECT":
        (x, u), (y, v) = sorted(numbers[::2]), sorted(numbers[1::2])
        numbers = [x, v, u, v, u, y, x, y]
    return any(placed(points(d), numbers, frame, box) for d in paths)


def main(lef, name, picture):
    found, layers, size, box = shapes(macro_of(open(lef, "rb").read(), name.encode()))
    root = tree.parse(picture).getroot()
    names(root, found, layers, size, name)
    paths = [(p.get("class"), p.get("d"), p.get("style")) for p in root.iter(SVG + "path")]
    frames = [d for c, d, _ in paths if c == "ink" and d.endswith("Z")]
    assert len(frames) == (1 if box else 0)
    drawn = [(c, d) for c, d, _ in paths if re.fullmatch(r"(pin|obs)\d+( line| via)?", c) and not re.fullmatch(r"M\d+ \d+h22v12h-22z", d)]
    wide = [(c, d, float(style.split(":")[1])) for c, d, style in paths if c.endswith(" wide")]
    assert len(drawn) == len(found), (len(drawn), len(found))
    assert len(wide) == sum(width > 0 for _, _, _, width in found)
    if not box or box[0] == box[2]:
        return
    frame = span(points(frames[0]))
    scale = (frame[2] - frame[0]) / abs(box[2] - box[0])
    for kind, numbers, pin, width in found:
        use = "pin" if pin else "obs"
        assert is_at([d for c, d in drawn if c.startswith(use)], kind, numbers, frame, box), (kind, numbers)
        assert not width or is_at([d for c, d, w in wide if c.startswith(use) and abs(w - width * scale) < 0.05], kind, numbers, frame, box), (numbers, width)


if __name__ == "__main__":
    main(*sys.argv[1:])
