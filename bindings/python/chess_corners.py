"""Proved chessboard corners, from Python: ctypes over the proved library, the standard library and nothing else.

The calls are those of include/chess_corners.h, which says of each what it takes and which elements it leaves. Whatever has the buffer protocol goes in without a
copy: bytes, bytearray, memoryview, array.array, a numpy array (contiguous, of the right element size). A refusal is raised as `Refused`, with its number and name.
Lists of corners are array.array('f'), x, y and strength of each.

    import chess_corners as cc
    picture = cc.graymap(open("board.pgm", "rb").read())
    for x, y, strength in cc.triples(cc.find_corners(picture)):
        print(x, y, strength)

The shared object is looked for where the environment's CHESS_CORNERS_SO says, else beside this file; `bindings/python/build FOLDER` makes it.
"""

import array
import collections
import ctypes
import os
import re

MOST_CORNERS = 4096
COLUMNS = 1125
OVERLAP = 225
TILES = 65

# Sixteen pairs dx, dy each, clockwise from the top: the rings of radius 5 and 10.
RING5 = (0, -5, 2, -5, 3, -3, 5, -2, 5, 0, 5, 2, 3, 3, 2, 5, 0, 5, -2, 5, -3, 3, -5, 2, -5, 0, -5, -2, -3, -3, -2, -5)
RING10 = (0, -10, 4, -10, 6, -6, 10, -4, 10, 0, 10, 4, 6, 6, 4, 10, 0, 10, -4, 10, -6, 6, -10, 4, -10, 0, -10, -4, -6, -6, -4, -10)

NAMES = {
    1: "Rejected", 2: "OutOfBounds", 3: "IllConditioned", 4: "BadSeed", 5: "AboveMargin", 6: "TooSmall", 7: "NotFinite",
    10: "BadImage", 11: "BadRadius", 12: "BadLimit", 13: "BadRing", 14: "EmptyRoi", 15: "BadOut", 16: "TooMany", 17: "GridTooBig",
    18: "BadScratch", 19: "BadLength", 20: "NoMagic", 21: "BadHeader", 22: "BadGraymapSize", 23: "TooShort", 24: "AboveMaximum", 25: "LeftOver",
    26: "BadSample", 27: "BadBuffer",
    30: "BadBoard", 31: "BadPlaces", 32: "BadList", 33: "NoCorner", 34: "UsedTwice", 35: "NoSuchCorner",
}


class Refused(Exception):
    """A call that was refused: its number, the number's name, and the place (33, 34) or pixel (24) at fault, else None."""

    def __init__(self, call, number, at=None):
        self.call, self.number, self.name, self.at = call, number, NAMES.get(number, "?"), at
        super().__init__(f"{call}: {number} {self.name}" + ("" if at is None else f" at {at}"))


Settings = collections.namedtuple("Settings", "radius det_margin max_offset min_abs_det", defaults=(2, 1e-3, 1.5, 1e-4))
Settings.__doc__ = "The refiner's settings, with the Rust's defaults."
Estimate = collections.namedtuple("Estimate", "number x y score converged tries covariance")
Estimate.__doc__ = "One seed: number 0 where it is accepted, else 1 to 7 with the seed's own x and y; covariance is (xx, xy, yy) or None."
Salvaged = collections.namedtuple("Salvaged", "records faults")
Salvaged.__doc__ = "The bytes of the kept records, and (record number, reason) for each dropped one: 1 cut, 2 not finite, 3 outside."


class Image:
    """Samples with width, height and pitch: the pixel (x, y) is at y * pitch + x. Without a pitch the rows have no padding. Samples of two bytes
    ('H', uint16) are of twelve bits, 0 to 4095: every call takes both."""

    def __init__(self, samples, width, height, pitch=None):
        self.samples, self.width, self.height = samples, width, height
        self.pitch = width if pitch is None else pitch


class Response:
    """Values of the ChESS response, row after row, in an array.array('f')."""

    def __init__(self, values, width, height):
        self.values, self.width, self.height = values, width, height


# ---- buffers
class _View(ctypes.Structure):
    """CPython's Py_buffer: the one way to the address of a buffer that may not be written."""

    _fields_ = [
        ("buf", ctypes.c_void_p), ("obj", ctypes.py_object), ("len", ctypes.c_ssize_t), ("itemsize", ctypes.c_ssize_t),
        ("readonly", ctypes.c_int), ("ndim", ctypes.c_int), ("format", ctypes.c_char_p), ("shape", ctypes.c_void_p),
        ("strides", ctypes.c_void_p), ("suboffsets", ctypes.c_void_p), ("internal", ctypes.c_void_p),
    ]


_get = ctypes.pythonapi.PyObject_GetBuffer
_get.argtypes = [ctypes.py_object, ctypes.POINTER(_View), ctypes.c_int]
_get.restype = ctypes.c_int
_release = ctypes.pythonapi.PyBuffer_Release
_release.argtypes = [ctypes.POINTER(_View)]
_release.restype = None
# Contiguous, with the format; CPython's PyBUF_C_CONTIGUOUS and PyBUF_FORMAT.
_WRITABLE, _FORMAT, _SPARE = 1, 0x38 | 4, ctypes.create_string_buffer(64)
# The letters of struct that stand for the elements of each kind.
_LETTERS = {"u8": "Bbc", "u16": "H", "f32": "f"}
_SIZES = {"u8": 1, "u16": 2, "f32": 4}


class _Lent:
    """A buffer for as long as a call lasts: its address and how many elements it has."""

    def __init__(self, what, kind, writable=False):
        self.view = _View()
        _get(what, ctypes.byref(self.view), _FORMAT | (_WRITABLE if writable else 0))
        letters = (self.view.format or b"B").decode().lstrip("@=<")
        if kind == "samples":
            kind = "u16" if letters in _LETTERS["u16"] else "u8"
        self.deep = kind == "u16"
        if self.view.itemsize != _SIZES[kind] or letters not in _LETTERS[kind]:
            _release(ctypes.byref(self.view))
            raise TypeError(f"a buffer of {kind} is wanted, not of {letters!r}")
        self.len = self.view.len // self.view.itemsize
        # A call wants an address that is not null, also of no elements.
        self.at = self.view.buf if self.len else ctypes.addressof(_SPARE)

    def __enter__(self):
        return self

    def __exit__(self, *_):
        _release(ctypes.byref(self.view))


def _floats(n):
    return array.array("f", bytes(4 * n))


def _words(n):
    return array.array("H", bytes(2 * n))


def _loaded():
    beside = os.path.join(os.path.dirname(os.path.abspath(__file__)), "libchess_corners.so")
    path = os.environ.get("CHESS_CORNERS_SO", beside)
    if not os.path.exists(path):
        raise ImportError(f"chess_corners: there is no shared object at {path}; make it with bindings/python/build FOLDER, or name it with CHESS_CORNERS_SO")
    return ctypes.CDLL(path)


_library = _loaded()
_size, _ptr, _f32, _u32 = ctypes.c_size_t, ctypes.c_void_p, ctypes.c_float, ctypes.c_uint32
_IMAGE = (_ptr, _size, _size, _size, _size)


def _call(name, *types):
    function = getattr(_library, "chess_corners_" + name)
    function.argtypes, function.restype = types, _u32
    return function


def _on_image(name, *types):
    """The call on an image of bytes and that on one of words: the samples that are lent say which."""
    both = [_call(name + depth, *_IMAGE, *types) for depth in ("", "_u16")]
    return lambda lent, *rest: both[lent.deep](lent.at, lent.len, *rest)


_CONFIG = (_size, _f32, _f32, _f32)
_old_number = _call("old_number", _u32)
_response = _on_image("response", _ptr, _size, _size, _size, _size, _size, _ptr, _size, _ptr, _ptr)
_peaks = _call("peaks", _ptr, _size, _size, _size, _size, _size, _size, _f32, _u32, _ptr, _size, _ptr)
_fit_operator = _call("fit_operator", _size, _ptr, _ptr)
_refine = _on_image("refine", *_CONFIG, _f32, _f32, _u32, _ptr, _ptr, _ptr)
_refine_with = _on_image("refine_with", *_CONFIG, _f32, _f32, _u32, _ptr, _ptr, _ptr, _ptr, _ptr)
_refine_list = _on_image("refine_list", *_CONFIG, _ptr, _size, _ptr, _size, _ptr)
_fallback = _on_image("refine_list_fallback", *_CONFIG, *_CONFIG, _ptr, _size, _ptr, _size, _ptr, _size, _ptr)
_fallback_with = _on_image("refine_list_fallback_with", *_CONFIG, *_CONFIG, _ptr, _ptr, _ptr, _size, _ptr, _size, _ptr, _size, _ptr)
_merge = _call("merge", _ptr, _size, _f32, _ptr, _size, _ptr, _size, _ptr)
_merge_heads = _call("merge_heads", _ptr, _size, _f32, _ptr)
_tie = _call("tie", _size, _size, _ptr, _size, _f32, _ptr, _size, _ptr, _size, _ptr)
_graymap = _call("graymap", _ptr, _size, _ptr, _ptr, _ptr, _ptr, _ptr)
_graymap_u16 = _call("graymap_u16", _ptr, _size, _ptr, _size, _ptr, _ptr, _ptr, _ptr, _ptr)
_salvage = _call("salvage", _ptr, _size, _size, _size, _ptr, _size, _ptr, _size, _ptr, _ptr)
_gradient = _call("gradient", _ptr, _size, _size, _ptr, _size, _size, _f32, _f32, _ptr, _size)
_coverage = _call("coverage", _size, _size, _ptr, _size, _ptr)
_coverage_add = _call("coverage_add", _size, _size, _ptr, _ptr, _ptr, _f32, _f32, _f32)
_coverage_replace = _call("coverage_replace", _size, _size, _ptr, _size, _ptr, _size, _f32, _f32, _f32)
_coverage_drop = _call("coverage_drop", _size, _size, _ptr, _ptr, _ptr, _size)


def _number(n):
    """A size as the library takes it; what is below zero or above 64 bits has no meaning there."""
    if not 0 <= n < 1 << 64:
        raise ValueError(f"{n} is no size")
    return n


def _ring(ring):
    if len(ring) != 32:
        raise ValueError("a ring is sixteen pairs, 32 numbers")
    return (ctypes.c_int32 * 32)(*ring)


def _refs(n):
    return [_size() for _ in range(n)]


def _sizes(image):
    return _number(image.width), _number(image.height), _number(image.pitch)


# ---- the calls
def old_number(number):
    """3 for 5, 6 and 7, every other number itself."""
    return _old_number(number)


_GAP = rb"(?:[ \t\n\r]|#[^\n\r]*[\n\r])*"
_HEADER = re.compile(rb"P5[ \t\n\r]" + _GAP + rb"([0-9]{1,9})[ \t\n\r]" + _GAP + rb"([0-9]{1,9})[ \t\n\r]" + _GAP + rb"([0-9]{1,9})[ \t\n\r]")


def graymap(file):
    """The image of a binary graymap (P5). With a maximum up to 255 its samples are a part of the file's own bytes; with one of 256 to 4095 they are two bytes
    each in the file and go to an array.array('H')."""
    header = _HEADER.match(file)
    deep = header and int(header[3]) > 255
    size = min(int(header[1]) * int(header[2]), 1 << 24) if deep else 0
    width, height, maximum, start, pixel = refs = _refs(5)
    samples = _words(size)
    with _Lent(file, "u8") as lent, _Lent(samples, "u16", True) as to:
        if deep:
            number = _graymap_u16(lent.at, lent.len, to.at, to.len, *map(ctypes.byref, refs))
        else:
            number = _graymap(lent.at, lent.len, *map(ctypes.byref, refs))
    if number:
        raise Refused("graymap", number, pixel.value if number == 24 else None)
    return Image(samples if deep else memoryview(file).cast("B")[start.value :], width.value, height.value)


def response(image, ring=RING5, radius=5, roi=None):
    """The response of the region roi, (x0, y0, x1, y1) without its last row and column, clamped to the image; of all of it without one."""
    x0, y0, x1, y1 = (0, 0, image.width, image.height) if roi is None else roi
    across = max(0, min(x1, image.width) - min(x0, image.width))
    down = max(0, min(y1, image.height) - min(y0, image.height))
    out = _floats(across * down)
    width, height = refs = _refs(2)
    with _Lent(image.samples, "samples") as img, _Lent(out, "f32", True) as to:
        number = _response(img, *_sizes(image), _ring(ring), _number(radius), *map(_number, (x0, y0, x1, y1)), to.at, to.len, *map(ctypes.byref, refs))
    if number:
        raise Refused("response", number)
    return Response(out, width.value, height.value)


def peaks(resp, ring_radius=5, window_radius=2, refine_radius=2, threshold=0.0, min_cluster_size=2, most=MOST_CORNERS):
    """The peaks of a response; TooMany where there are more than `most`."""
    out, count = _floats(3 * most), _size()
    with _Lent(resp.values, "f32") as values, _Lent(out, "f32", True) as to:
        number = _peaks(
            values.at, values.len, _number(resp.width), _number(resp.height), _number(ring_radius), _number(window_radius), _number(refine_radius),
            threshold, min_cluster_size, to.at, to.len, ctypes.byref(count))
    if number:
        raise Refused("peaks", number)
    return out[: 3 * count.value]


class Operator:
    """The least-squares operator of a refiner's radius, for many seeds."""

    def __init__(self, radius):
        self.columns, self.overlap = (ctypes.c_float * COLUMNS)(), (ctypes.c_float * OVERLAP)()
        number = _fit_operator(_number(radius), self.columns, self.overlap)
        if number:
            raise Refused("fit_operator", number)


def refine(image, x, y, settings=Settings(), covariance=False, operator=None):
    """One seed. A status from 1 to 7 is an answer, not an error; with an operator that was built before it is quicker."""
    place, state, spread = (ctypes.c_float * 3)(), (_u32 * 3)(), (ctypes.c_float * 3)()
    lent = () if operator is None else (operator.columns, operator.overlap)
    with _Lent(image.samples, "samples") as img:
        call = _refine if operator is None else _refine_with
        number = call(img, *_sizes(image), *settings, x, y, int(covariance), *lent, place, state, spread)
    if number >= 10:
        raise Refused("refine", number)
    if number:
        return Estimate(number, *place, False, 0, None)
    return Estimate(0, *place, bool(state[0]), state[1], tuple(spread) if state[2] else None)


def refine_list(image, corners, settings=Settings()):
    """The corners that are accepted, in input order with their own strength."""
    with _Lent(image.samples, "samples") as img, _Lent(corners, "f32") as list_:
        out, count = _floats(list_.len), _size()
        with _Lent(out, "f32", True) as to:
            number = _refine_list(img, *_sizes(image), *settings, list_.at, list_.len, to.at, to.len, ctypes.byref(count))
    if number:
        raise Refused("refine_list", number)
    return out[: 3 * count.value]


def refine_list_with_fallback(image, corners, first=Settings(), second=Settings(radius=1), operators=None):
    """The corners that the first settings accept, and else the second ones, in input order; and a byte each, 1 or 2, that says which it was.
    With a pair of operators that were built before it takes less stack and time."""
    lent = () if operators is None else tuple(operator.columns for operator in operators)
    with _Lent(image.samples, "samples") as img, _Lent(corners, "f32") as list_:
        out, passes, count = _floats(list_.len), array.array("B", bytes(list_.len // 3)), _size()
        with _Lent(out, "f32", True) as to, _Lent(passes, "u8", True) as marks:
            call = _fallback if operators is None else _fallback_with
            number = call(
                img, *_sizes(image), *first, *second, *lent, list_.at, list_.len, to.at, to.len, marks.at, marks.len, ctypes.byref(count))
    if number:
        raise Refused("refine_list_with_fallback", number)
    return out[: 3 * count.value], passes[: count.value]


def merge_heads(corners, radius=2.0):
    """How many heads the merge of these corners at this radius wants."""
    heads = _size()
    with _Lent(corners, "f32") as list_:
        number = _merge_heads(list_.at, list_.len, radius, ctypes.byref(heads))
    if number:
        raise Refused("merge_heads", number)
    return heads.value


def merge(corners, radius=2.0, heads=None):
    """The corners with those merged that lie within the radius; the list that goes in stays. As many heads are lent as it wants, up to
    16,777,216; GridTooBig where it wants more than are lent."""
    out = array.array("f", memoryview(corners).cast("B").tobytes())
    grid = _words(min(merge_heads(out, radius), 1 << 24) if heads is None else heads)
    links, count = _words(len(out) // 3), _size()
    with _Lent(out, "f32", True) as list_, _Lent(grid, "u16", True) as cells, _Lent(links, "u16", True) as chain:
        number = _merge(list_.at, list_.len, radius, cells.at, cells.len, chain.at, chain.len, ctypes.byref(count))
    if number:
        raise Refused("merge", number)
    return out[: 3 * count.value]


def tie_corners(rows, columns, places, limit, corners):
    """For each inner corner of a board of rows by columns squares the number of its corner; places has x and y of each, by row."""
    answers, place = _words(max(0, (rows - 1) * (columns - 1)) if rows <= 64 and columns <= 64 else 0), _size()
    with _Lent(places, "f32") as at, _Lent(corners, "f32") as list_, _Lent(answers, "u16", True) as to:
        number = _tie(_number(rows), _number(columns), at.at, at.len, limit, list_.at, list_.len, to.at, to.len, ctypes.byref(place))
    if number:
        raise Refused("tie", number, place.value if number in (33, 34) else None)
    return answers


def salvage(file, width, height):
    """What can be used of a damaged corner file."""
    with _Lent(file, "u8") as lent:
        out, faults = array.array("B", bytes(lent.len)), _words(2 * (lent.len // 12 + 1))
        kept, dropped = _refs(2)
        with _Lent(out, "u8", True) as to, _Lent(faults, "u16", True) as names:
            number = _salvage(
                lent.at, lent.len, _number(width), _number(height), to.at, to.len, names.at, names.len, ctypes.byref(kept), ctypes.byref(dropped))
    if number:
        raise Refused("salvage", number)
    return Salvaged(out[: 12 * kept.value].tobytes(), [(faults[2 * i], faults[2 * i + 1]) for i in range(dropped.value)])


def add_gradient(tile, side, x, y, grid, scale=(1.0, 1.0), ring=RING5):
    """Adds to the grid, two floats a cell, scale times how the response at the cell (x, y) of a tile moves with each of its side by side samples."""
    with _Lent(tile, "u8") as cells, _Lent(grid, "f32", True) as to:
        number = _gradient(cells.at, cells.len, _number(side), _ring(ring), _number(x), _number(y), *scale, to.at, to.len)
    if number:
        raise Refused("gradient", number)


class Coverage:
    """A list of up to 4,096 corners with its count in each of eight by eight tiles of the image, and last of those in none."""

    def __init__(self, width, height, corners=()):
        self.size = _number(width), _number(height)
        given = array.array("f", corners)
        if len(given) % 3 or len(given) > 3 * MOST_CORNERS:
            raise Refused("coverage", 19 if len(given) % 3 else 16)
        self._list, self._counts, self._count = (ctypes.c_float * (3 * MOST_CORNERS))(*given), (ctypes.c_uint16 * TILES)(), _size(len(given) // 3)
        self._done(_coverage(*self.size, self._list, self._count, self._counts))

    @staticmethod
    def _done(number):
        if number:
            raise Refused("coverage", number)

    @property
    def counts(self):
        return tuple(self._counts)

    @property
    def corners(self):
        return array.array("f", self._list[: 3 * self._count.value])

    def add(self, x, y, strength):
        self._done(_coverage_add(*self.size, self._list, ctypes.byref(self._count), self._counts, x, y, strength))

    def replace(self, number, x, y, strength):
        self._done(_coverage_replace(*self.size, self._list, self._count, self._counts, _number(number), x, y, strength))

    def drop(self, number):
        self._done(_coverage_drop(*self.size, self._list, ctypes.byref(self._count), self._counts, _number(number)))


# ---- the road
def triples(corners):
    """x, y and strength of each corner."""
    return list(zip(corners[0::3], corners[1::3], corners[2::3]))


def find_corners(image, ring=RING5, ring_radius=5, window_radius=2, threshold=0.0, min_cluster_size=2, settings=Settings(), merge_radius=2.0):
    """The corners of a picture: response, peaks, refined list, merge, with the Rust's defaults."""
    found = peaks(response(image, ring, ring_radius), ring_radius, window_radius, settings.radius, threshold, min_cluster_size)
    return merge(refine_list(image, found, settings), merge_radius)
