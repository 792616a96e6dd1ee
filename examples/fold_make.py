#!/usr/bin/env python3
# Makes the FOLD text NAME.fold of each pattern from the vertices and edges of NAME.cut, with whole numbers alone.
# A coordinate is the floor of 10^12 times (a + b r)/d, where r is the root of two.
import math
import pathlib

UNITS = 10 ** 12


def triple(text):
    """a, b and d of a number text."""
    text, _, below = text.partition("/")
    d = int(below) if below else 1
    if "r" not in text:
        return int(text), 0, d
    cut = max(text.rfind("+"), text.rfind("-"))
    return (int(text[:cut]) if cut > 0 else 0), int(text[max(cut, 0):-1]), d


def floor_of(a, b, d):
    """The greatest whole number that is at most UNITS times (a + b r)/d."""
    root = math.isqrt(2 * (b * UNITS) ** 2)
    if b < 0:
        root = -root - 1
    return (a * UNITS + root) // d


def decimal(units):
    return "%d.%012d" % divmod(units, UNITS)


def array(items):
    return "[" + ",".join(items) + "]"


def fold(reply):
    rows = reply.splitlines()
    vertices = [[triple(part) for part in row[2:].split(",")] for row in rows if row.startswith("v ")]
    edges = [row.split()[1:] for row in rows if row.startswith("e ")]
    letters = {"B": "B", "M": "M", "V": "V", "A": "F"}
    keys = [
        ("file_spec", "1.1"),
        ("file_creator", '"oriedit"'),
        ("file_classes", '["singleModel"]'),
        ("frame_classes", '["creasePattern"]'),
        ("vertices_coords", array(array(decimal(floor_of(*x)) for x in v) for v in vertices)),
        ("edges_vertices", array(array(edge[:2]) for edge in edges)),
        ("edges_assignment", array('"%s"' % letters[edge[2]] for edge in edges)),
        ("q2:vertices_exact", array(array(str(n) for x in v for n in x) for v in vertices)),
    ]
    return "{" + ",".join('"%s":%s' % key for key in keys) + "}\n"


for cut in sorted(pathlib.Path(__file__).resolve().parent.glob("*.cut")):
    cut.with_suffix(".fold").write_text(fold(cut.read_text()))
