#!/usr/bin/env python3
"""hold.py BOARD < corners: holds the corners that find-corners wrote of a board of this folder to the places that its perspective or its camera gives.

Every inner corner that lies 12 pixels and more inside the picture must have a corner within half a pixel, and no other corner may lie on the board. It says how many
there are, and the median and the worst distance; it fails where one is missing, where one is too many, or where the worst is above the limit of the board."""

import math
import sys

SIZE = 640, 480


def solve(rows):
    """The solution of a linear system, by Gauss and Jordan."""
    n = len(rows)
    for c in range(n):
        pivot = max(range(c, n), key=lambda r: abs(rows[r][c]))
        rows[c], rows[pivot] = rows[pivot], rows[c]
        rows[c] = [v / rows[c][c] for v in rows[c]]
        for r in range(n):
            if r != c:
                rows[r] = [a - rows[r][c] * b for a, b in zip(rows[r], rows[c])]
    return [row[-1] for row in rows]


def slant():
    """ImageMagick's perspective: the four pairs of `make`; it counts from the outer corner of the first pixel."""
    pairs = [((200, 200), (150, 60)), ((440, 200), (520, 110)), ((200, 380), (90, 400)), ((440, 380), (560, 440))]
    rows = []
    for (x, y), (u, v) in pairs:
        rows.append([x, y, 1, 0, 0, 0, -u * x, -u * y, u])
        rows.append([0, 0, 0, x, y, 1, -v * x, -v * y, v])
    a, b, c, d, e, f, g, h = solve([[float(v) for v in row] for row in rows])
    for j in range(1, 18):
        for i in range(1, 24):
            x, y = 200 + 10 * i, 200 + 10 * j
            w = g * x + h * y + 1
            yield (a * x + b * y + c) / w - 0.5, (d * x + e * y + f) / w - 0.5


def table():
    """The camera of board.pov."""
    sub = lambda p, q: [a - b for a, b in zip(p, q)]
    dot = lambda p, q: sum(a * b for a, b in zip(p, q))
    cross = lambda p, q: [p[1] * q[2] - p[2] * q[1], p[2] * q[0] - p[0] * q[2], p[0] * q[1] - p[1] * q[0]]
    unit = lambda p: [a / math.sqrt(dot(p, p)) for a in p]
    eye = [6.0, 15.0, -13.0]
    ahead = unit(sub([1.0, 0.0, 0.5], eye))
    right = unit(cross([0.0, 1.0, 0.0], ahead))
    up = cross(ahead, right)
    far = (SIZE[0] / 2) / math.tan(math.radians(52 / 2))
    for j in range(-6, 7):
        for i in range(-9, 10):
            p = sub([float(i), 0.0, float(j)], eye)
            depth = dot(p, ahead)
            yield SIZE[0] / 2 + far * dot(p, right) / depth - 0.5, SIZE[1] / 2 - far * dot(p, up) / depth - 0.5


# the places, and how far off the worst corner may be: about twice what was seen
BOARDS = {"slant": (slant, 0.15), "table": (table, 0.25), "table12": (table, 0.25)}


def main(name):
    places, most = BOARDS[name][0](), BOARDS[name][1]
    wanted = [(x, y) for x, y in places if 12 <= x <= SIZE[0] - 13 and 12 <= y <= SIZE[1] - 13]
    lines = sys.stdin.read().split("\n")
    found = [tuple(map(float, line.split()[:2])) for line in lines if line and not line.startswith("total")]
    if f"total {len(found)}" not in lines:
        sys.exit(f"hold: {name}: what was read is no list of corners: {lines[0]}")
    away = [min(math.dist(place, corner) for corner in found) for place in wanted]
    missing = sum(a > 0.5 for a in away)
    away.sort()
    used = sum(min(math.dist(place, corner) for place in wanted) <= 0.5 for corner in found)
    says = f"{name}: {len(wanted) - missing} of {len(wanted)} corners, {len(found) - used} elsewhere; off by {away[len(away) // 2]:.3f} pixels in the median, {away[-1]:.3f} at most"
    if missing or away[-1] > most:
        sys.exit(f"hold: FAILED: {says}; {missing} missing, {most} allowed")
    print(says)


if __name__ == "__main__":
    main(sys.argv[1])
