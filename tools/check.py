"""check.py PROGRAMS EXAMPLES: what the three programs say, write and end with."""

import math
import os
import struct
import subprocess
import sys

PROGRAMS, EXAMPLES = sys.argv[1:3]
ran = 0


def run(name, *words, file=b"", out=subprocess.PIPE):
    global ran
    ran += 1
    done = subprocess.run([os.path.join(PROGRAMS, name), *words], input=file, stdout=out, stderr=subprocess.PIPE)
    return done.returncode, done.stdout, done.stderr.decode()


def read(*names):
    with open(os.path.join(EXAMPLES, *names), "rb") as file:
        return file.read()


def hold(what, got, want):
    if got != want:
        sys.exit(f"tools: FAILED: {what}: {got!r}, expected {want!r}")


def says(what, got, status, out, err=""):
    """The status, all of standard output (or how it begins, with ..), and a part of standard error."""
    text = got[1].decode()
    hold(what + ": status", got[0], status)
    hold(what + ": output", text if not out.endswith("..") else text[: len(out) - 2] + "..", out)
    if err not in got[2] or (not err and got[2]):
        sys.exit(f"tools: FAILED: {what}: standard error is {got[2]!r}, expected {err!r} in it")


def pgm(width, height, maximum, samples, header=b"P5\n%d %d\n%d\n"):
    body = bytes(samples) if maximum < 256 else b"".join(struct.pack(">H", v) for v in samples)
    return header % (width, height, maximum) + body


BOARD = pgm(128, 96, 255, read("board.gray"))
DEEP = pgm(128, 96, 4095, [16 * v for v in read("board.gray")])


def found():
    """The shipped board, by bits and by digits, and words in the place of bytes."""
    stored = read("board.corners").decode()
    says("the board in bits", run("find_corners", "threshold=200", "bits", file=BOARD), 0, stored)
    text = run("find_corners", "threshold=200", file=BOARD)[1].decode().split("\n")
    again = ["".join(f"{struct.unpack('<I', struct.pack('<f', float(v)))[0]:08X} " for v in line.split()).strip() for line in text[:-2]]
    hold("digits that give the same number back", again, stored.split("\n")[:-2])
    hold("the last line", text[-2], stored.split("\n")[-2])
    deep = [list(map(float, line.split())) for line in run("find_corners", "threshold=3200", file=DEEP)[1].decode().split("\n")[:-2]]
    flat = [list(map(float, line.split())) for line in text[:-2]]
    hold("twelve bits: as many", len(deep), len(flat))
    hold("twelve bits: the same places", max(math.dist(a[:2], b[:2]) for a, b in zip(deep, flat)) < 1e-3, True)
    single = lambda v: struct.unpack("<f", struct.pack("<f", v))[0]
    hold("twelve bits: sixteen times the strength", [single(a[2]) for a in deep], [16 * single(b[2]) for b in flat])


def true_places():
    for name in ("slant", "table", "table12"):
        scale = 16 if name.endswith("12") else 1
        status, corners, err = run("find_corners", f"threshold={200 * scale}", file=read("boards", name + ".pgm"))
        hold(f"{name}: status", (status, err), (0, ""))
        held = subprocess.run([sys.executable, os.path.join(EXAMPLES, "boards", "hold.py"), name], input=corners, capture_output=True)
        if held.returncode:
            sys.exit("tools: FAILED: " + held.stderr.decode().strip())
        print("tools:", held.stdout.decode().strip())


def settings():
    for word in ("ring=10", "window=8", "window=1", "threshold=-3.5", "cluster=0", "radius=1", "radius=7", "offset=0.25", "margin=0", "least=0", "merge=0", "merge=-1", "merge=1e9"):
        status, out, err = run("find_corners", word, file=BOARD)
        hold(f"{word}: taken", (status, err), (0, ""))
    for word in ("ring=6", "ring=", "window=0", "window=9", "radius=0", "radius=8", "offset=-1", "offset=nan", "threshold=inf", "cluster=-1", "cluster=4294967296", "merge=x", "colour=3", "bit", "=5", "window=3x"):
        says(f"{word}: not taken", run("find_corners", word, file=BOARD), 2, "", f"{word} is no setting")
    for name in ("find_corners", "draw_corners", "tie_board"):
        status, out, err = run(name, "help")
        hold(f"{name} help", (status, err, b"name" in out or b"ROWS" in out or b"ring=5" in out), (0, "", True))


def refusals():
    says("no graymap", run("find_corners", file=b"P6 1 1 255\n\0\0\0"), 1, "refused graymap 20 NoMagic\n")
    says("cut", run("find_corners", file=BOARD[:-1]), 1, "refused graymap 23 TooShort\n")
    says("too long", run("find_corners", file=BOARD + b"\n"), 1, "refused graymap 25 LeftOver\n")
    says("too wide", run("find_corners", file=b"P5 4097 1 255\n"), 1, "refused graymap 22 BadGraymapSize\n")
    says("maximum", run("find_corners", file=b"P5 1 1 4096\n\0\0"), 1, "refused graymap 21 BadHeader\n")
    says("above", run("find_corners", file=pgm(3, 2, 9, [0, 0, 0, 0, 10, 0])), 1, "refused graymap 24 AboveMaximum: pixel (1, 1)\n")
    says("above, deep", run("find_corners", file=pgm(3, 2, 256, [0, 0, 0, 0, 0, 257])), 1, "refused graymap 24 AboveMaximum: pixel (2, 1)\n")
    says("cut, deep", run("find_corners", file=DEEP[:-1]), 1, "refused graymap 23 TooShort\n")
    noise = [(x * 7919 + y * 104729 + (x * y) % 251) % 256 for y in range(480) for x in range(640)]
    says("noise", run("find_corners", "window=1", "cluster=0", file=pgm(640, 480, 255, noise)), 1, "refused peaks 16 TooMany: more than 4096 peaks..")
    says("a merge of nothing", run("find_corners", "merge=1e-30", "threshold=200", file=BOARD), 1, "refused merge 17 GridTooBig..")
    says("one pixel", run("find_corners", file=pgm(1, 1, 255, [7])), 0, "total 0\n")
    says("comments", run("find_corners", file=pgm(1, 1, 255, [7], b"P5 # a\n%d #b\n%d\r#c\r\n%d\n")), 0, "total 0\n")


def faults():
    says("nothing", run("find_corners"), 3, "", "standard input is empty")
    ours = os.path.join(PROGRAMS, "find_corners")
    closed = subprocess.run([ours], stdin=subprocess.DEVNULL, capture_output=True)
    hold("no input", closed.returncode, 3)
    folder = subprocess.run(["sh", "-c", f"'{ours}' < /"], capture_output=True)
    hold("a folder", (folder.returncode, b"cannot be read" in folder.stderr), (3, True))
    for name in ("find_corners", "draw_corners"):
        full = subprocess.run([os.path.join(PROGRAMS, name), "threshold=200"], input=BOARD, stdout=open("/dev/full", "wb"), stderr=subprocess.PIPE)
        hold(f"{name}: a full disk", (full.returncode, b"standard output cannot be written" in full.stderr), (3, True))
    says("too long to read", run("find_corners", file=bytes(35 << 20)), 3, "", "longer than any graymap")


def drawn():
    status, picture, err = run("draw_corners", "threshold=200", file=BOARD)
    hold("drawn", (status, err, picture[:15]), (0, "", b"P6\n128 96\n255\n" + picture[14:15]))
    rgb = picture[14:]
    hold("drawn: its size", len(rgb), 3 * 128 * 96)
    for line in run("find_corners", "threshold=200", file=BOARD)[1].decode().split("\n")[:-2]:
        x, y = (round(float(v)) for v in line.split()[:2])
        r, g, b = rgb[3 * (128 * y + x) :][:3]
        hold(f"a cross at ({x}, {y})", (r, b), (255, 0))
    grey = sum(rgb[3 * k] == rgb[3 * k + 1] == rgb[3 * k + 2] for k in range(128 * 96))
    hold("drawn: most of it is the picture", grey > 128 * 96 // 4, True)
    says("drawn: refused", run("draw_corners", file=BOARD[:-1]), 1, "refused graymap 23 TooShort\n")
    hold("drawn, deep", run("draw_corners", "threshold=3200", file=DEEP)[1][:14], b"P6\n128 96\n255\n")


def tied():
    corners = run("find_corners", "threshold=200", file=BOARD)[1]
    listed = [tuple(map(float, line.split()[:2])) for line in corners.decode().split("\n")[:-2]]
    x, y = zip(*listed)
    # three places at the first three corners: a board of 2 by 4 squares
    places = os.path.join(PROGRAMS, "places.txt")

    def lay(points):
        with open(places, "w") as file:
            file.writelines(f"{px} {py}\n" for px, py in points)

    lay(listed[:3])
    status, out, err = run("tie_board", "2", "4", "1", places, file=corners)
    hold("tied", (status, err, [line.split()[:3] for line in out.decode().split("\n")[:-2]]), (0, "", [["0", str(k), str(k)] for k in range(3)]))
    hold("tied: its last line", out.decode().split("\n")[-2], "total 3")
    lay([listed[0], (listed[1][0] + 3, listed[1][1]), listed[2]])
    says("no corner", run("tie_board", "2", "4", "1", places, file=corners), 1, "refused tie 33 NoCorner: no corner lies within the limit of place 1, row 0, column 1, all from 0\n")
    lay([listed[0], listed[1], listed[0]])
    says("used twice", run("tie_board", "2", "4", "1", places, file=corners), 1, "refused tie 34 UsedTwice: the corner of place 2, row 0, column 2, all from 0, is that of an earlier place\n")
    says("another board", run("tie_board", "3", "4", "1", places, file=corners), 1, "refused tie 30 BadBoard\n")
    says("no places", run("tie_board", "2", "4", "1", places + ".none", file=corners), 3, "", "No such file")
    says("cut corners", run("tie_board", "2", "4", "1", places, file=corners[:-9]), 3, "", "standard input")
    says("refused corners", run("tie_board", "2", "4", "1", places, file=b"refused peaks 16 TooMany\n"), 3, "", "no corner: x, y and strength")
    says("misused", run("tie_board", "2", "4"), 2, "", "usage: tie-board")


for part in (found, true_places, settings, refusals, faults, drawn, tied):
    part()
print(f"tools: {ran} runs of find-corners, draw-corners and tie-board, all as expected")
