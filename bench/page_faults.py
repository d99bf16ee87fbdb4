#!/usr/bin/env python3
"""What is wrong with pages that `trc show` wrote: a line for each fault, and how many pages were read.

    bench/page_faults.py PAGE..

A page has to be well-formed XML, with no name twice and no link to a name that isn't there, and to load nothing from elsewhere.
In a drawing no two boxes may overlap, all lie inside it, and each edge goes from the lower side of a box to the upper side of one.
"""
import re
import sys
import xml.etree.ElementTree as tree

NUMBER = r"-?\d+(?:\.\d+)?"


def local(name):
    return name.rpartition("}")[2]


def boxes_of(drawing):
    """The boxes of a drawing's blocks: left, top, width, height."""
    found = []
    for group in drawing.iter():
        if local(group.tag) == "g" and "block" in (group.get("class") or "").split():
            box = next(it for it in group if local(it.tag) == "rect" and it.get("class") != "heat")
            found.append(tuple(float(box.get(it)) for it in ("x", "y", "width", "height")))
    return found


def overlaps(one, other):
    (x, y, w, h), (u, v, s, t) = one, other
    return x < u + s and u < x + w and y < v + t and v < y + h


def faults_of_drawing(drawing):
    width, height = float(drawing.get("width")), float(drawing.get("height"))
    boxes = sorted(boxes_of(drawing), key=lambda it: (it[1], it[0]))
    for at, box in enumerate(boxes):
        x, y, w, h = box
        if x < 0 or y < 0 or x + w > width or y + h > height:
            yield f"the box at {x:g} {y:g} isn't inside the drawing"
        for other in boxes[at + 1 :]:
            if other[1] >= y + h:
                break
            if overlaps(box, other):
                yield f"the boxes at {x:g} {y:g} and {other[0]:g} {other[1]:g} overlap"
    on = lambda px, py, below: any(x <= px <= x + w and py == (y + h if below else y) for x, y, w, h in boxes)
    for path in drawing.iter():
        if local(path.tag) == "path" and "edge" in (path.get("class") or "").split():
            numbers = [float(it) for it in re.findall(NUMBER, path.get("d"))]
            if not on(*numbers[:2], True) or not on(*numbers[-2:], False):
                yield f"the edge {path.get('d')} doesn't go from a box to a box"


def faults_of(text):
    try:
        page = tree.fromstring(text)
    except tree.ParseError as error:
        yield f"no well-formed XML: {error}"
        return
    names, links = [], []
    for it in page.iter():
        names += [it.get("id")] if it.get("id") is not None else []
        links += [it.get(key) for key in it.keys() if local(key) == "href"]
        if local(it.tag) in ("link", "img", "iframe", "object") or it.get("src"):
            yield f"{local(it.tag)} loads something"
        if local(it.tag) == "svg" and "graph" in (it.get("class") or "").split():
            yield from faults_of_drawing(it)
    if len({*names}) < len(names):
        yield f"names stand twice: {sorted({it for it in names if names.count(it) > 1})[:5]}"
    for it in sorted({it for it in links if not it.startswith("#") or it[1:] not in names}):
        yield f"a link leads to {it}, which isn't there"


def main(files):
    bad = 0
    for file in files:
        with open(file, "rb") as it:
            found = list(faults_of(it.read()))
        bad += bool(found)
        for fault in found[:20]:
            print(f"{file}: {fault}")
    print(f"{len(files)} pages, {bad} with faults")
    return bad > 0


if __name__ == "__main__":
    sys.exit(main(sys.argv[1:]))
