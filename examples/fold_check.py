#!/usr/bin/env python3
"""Reads FOLD texts as any JSON reader does, and checks them by their exact coordinates.

    examples/fold_check.py [FILE.fold ..]        without files: each .fold beside this script

Of each file it checks that it is JSON with the keys of a FOLD text, that each decimal of
`vertices_coords` is the exact coordinate of `q2:vertices_exact` rounded down to twelve decimals,
that the triples are in lowest terms, and that vertices and edges ascend. Where NAME.cut stands
beside NAME.fold, vertices and edges have to be those of NAME.cut, and where NAME.cp stands beside
it, that file has to be the CP text of the same vertices and edges. Whole numbers alone are used.
"""

import json
import pathlib
import re
import sys
from math import gcd, isqrt

KEYS = [
    "file_spec", "file_creator", "file_classes", "frame_classes", "vertices_coords",
    "edges_vertices", "edges_assignment", "q2:vertices_exact",
]
TYPES = {"B": 1, "M": 2, "V": 3, "F": 4}


def floor(scale, a, b, d):
    """The whole part of scale times (a + b sqrt 2)/d."""
    root = isqrt(2 * (scale * b) ** 2)
    return (scale * a + (root if b >= 0 else -root - 1)) // d


def decimal(units):
    size = "%d.%012d" % divmod(abs(units), 10**12)
    return "-" + size if units < 0 else size


def is_less(x, y):
    """Whether the number x is below y, by squares."""
    a = y[0] * x[2] - x[0] * y[2]
    b = y[1] * x[2] - x[1] * y[2]
    return a * abs(a) + 2 * b * abs(b) > 0


def is_before(p, q):
    return is_less(p[:3], q[:3]) or (p[:3] == q[:3] and is_less(p[3:], q[3:]))


def triple(text):
    """The triple of a number text: A, Br or A+Br, and /D or not."""
    parts = re.fullmatch(r"(-?\d+(?!\d*r))?(?:([+-]?\d+)r)?(?:/(\d+))?", text)
    return [int(parts[1] or 0), int(parts[2] or 0), int(parts[3] or 1)]


def of_cut(lines):
    """The exact vertices, the edges and their assignments in a reply of cut."""
    words = [line.split() for line in lines]
    exact = [sum(map(triple, w[1].split(",")), []) for w in words if w[0] == "v"]
    edges = [w for w in words if w[0] == "e"]
    ends = [[int(w[1]), int(w[2])] for w in edges]
    return exact, ends, [w[3].replace("A", "F") for w in edges]


def cp_text(exact, ends, marks):
    def place(i):
        x, y = exact[i][:3], exact[i][3:]
        return " ".join(decimal(floor(400 * 10**12, *c) - 200 * 10**12) for c in (x, y))

    return "".join(f"{TYPES[m]} {place(i)} {place(j)}\n" for (i, j), m in zip(ends, marks))


def check(path):
    text = path.read_text()
    fold = json.loads(text, parse_float=str)
    assert list(fold) == KEYS, "the keys"
    assert text.count("\n") == 1 and text.endswith("}\n") and " " not in text, "one line"
    coords, exact = fold["vertices_coords"], fold["q2:vertices_exact"]
    ends, marks = fold["edges_vertices"], fold["edges_assignment"]
    assert len(coords) == len(exact) and len(ends) == len(marks), "lists of one length"
    for place, e in zip(coords, exact):
        assert len(e) == 6 and e[2] > 0 and e[5] > 0, f"two triples: {e}"
        assert gcd(*e[:3]) == 1 and gcd(*e[3:]) == 1, f"lowest terms: {e}"
        assert place == [decimal(floor(10**12, *c)) for c in (e[:3], e[3:])], f"{place}: {e}"
    assert all(map(is_before, exact, exact[1:])), "ascending vertices"
    assert all(i < j < len(exact) for i, j in ends), "edges between vertices"
    assert all(e < f for e, f in zip(ends, ends[1:])), "ascending edges"
    assert set(marks) <= set(TYPES), "assignments"
    cut, cp = path.with_suffix(".cut"), path.with_suffix(".cp")
    if cut.exists():
        assert of_cut(cut.read_text().splitlines()) == (exact, ends, marks), "those of cut"
    if cp.exists():
        assert cp.read_text() == cp_text(exact, ends, marks), "the CP text"
    return len(exact), len(ends)


def main():
    here = pathlib.Path(__file__).resolve().parent
    paths = [pathlib.Path(word) for word in sys.argv[1:]] or sorted(here.glob("*.fold"))
    bad = 0
    for path in paths:
        try:
            print("%s: %d vertices, %d edges" % (path.name, *check(path)))
        except (AssertionError, ValueError, KeyError, TypeError) as why:
            bad += 1
            print(f"{path.name}: {type(why).__name__} {why}")
    print(f"{len(paths) - bad} right, {bad} wrong")
    return 1 if bad else 0


if __name__ == "__main__":
    sys.exit(main())
