#!/usr/bin/env python3
"""find_corners.py FILE: the corners of a graymap, a line each: x, y and strength; then `total` and their count."""

import sys

import chess_corners as cc


def main(path):
    with open(path, "rb") as file:
        picture = cc.graymap(file.read())
    corners = cc.triples(cc.find_corners(picture, threshold=200.0))
    for corner in corners:
        print(*corner)
    print("total", len(corners))


if __name__ == "__main__":
    try:
        main(sys.argv[1])
    except cc.Refused as refused:
        sys.exit(f"find_corners: {refused}")
