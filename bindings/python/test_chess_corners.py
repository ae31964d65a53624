"""Tests of the Python binding: python3 -m unittest, with CHESS_CORNERS_SO naming the shared object."""

import array
import math
import os
import struct
import unittest

import chess_corners as cc

EXAMPLES = os.path.join(os.path.dirname(os.path.abspath(__file__)), "..", "..", "examples")


def read(name):
    with open(os.path.join(EXAMPLES, name), "rb") as file:
        return file.read()


def board(wrap=bytes):
    return cc.Image(wrap(read("board.gray")), 128, 96)


def lines(corners):
    """As examples/board.corners has them."""
    return [" ".join(f"{struct.unpack('<I', struct.pack('<f', v))[0]:08X}" for v in corner) for corner in cc.triples(corners)]


class Road(unittest.TestCase):
    stored = read("board.corners").decode().split("\n")[:-2]

    def test_corners_are_the_oracles(self):
        self.assertEqual(lines(cc.find_corners(board(), threshold=200.0)), self.stored)

    def test_any_buffer_goes_in(self):
        for wrap in (bytearray, memoryview, lambda b: array.array("B", b), lambda b: memoryview(bytearray(b))):
            self.assertEqual(lines(cc.find_corners(board(wrap), threshold=200.0)), self.stored)

    def test_numpy_goes_in(self):
        try:
            import numpy
        except ImportError:
            self.skipTest("numpy is not there")
        samples = numpy.frombuffer(read("board.gray"), numpy.uint8).reshape(96, 128)
        self.assertEqual(lines(cc.find_corners(cc.Image(samples, 128, 96), threshold=200.0)), self.stored)

    def test_padding_is_not_read(self):
        rows = read("board.gray")
        padded = b"".join(rows[128 * y : 128 * y + 128] + bytes([y % 251] * 64) for y in range(96))
        self.assertEqual(lines(cc.find_corners(cc.Image(padded, 128, 96, 192), threshold=200.0)), self.stored)

    def test_regions_are_clamped(self):
        whole, part = cc.response(board()), cc.response(board(), roi=(100, 90, 500, 94))
        self.assertEqual((part.width, part.height), (28, 4))
        self.assertEqual(part.values[:28], whole.values[90 * 128 + 100 : 90 * 128 + 128])

    def test_an_operator_gives_the_same(self):
        operator = cc.Operator(2)
        for x, y, _ in cc.triples(cc.peaks(cc.response(board()), threshold=200.0)):
            self.assertEqual(cc.refine(board(), x, y, covariance=True, operator=operator), cc.refine(board(), x, y, covariance=True))


    def test_a_second_try(self):
        # The picture from three columns before its first corner on: there a patch of radius 6 does not fit.
        x0 = int(cc.find_corners(board(), threshold=200.0)[0]) - 3
        cut = cc.Image(read("board.gray")[x0 : x0 + 128 * 95], 128 - x0, 95, 128)
        seeds = array.array("f", [v for x, y, s in cc.triples(cc.find_corners(board(), threshold=200.0)) if x > x0 for v in (x - x0, y, s)])
        wide, small = cc.Settings(radius=6), cc.Settings(radius=1)
        found, passes = cc.refine_list_with_fallback(cut, seeds, wide, small)
        self.assertEqual(set(passes), {1, 2})
        firsts = [v for i, p in enumerate(passes) if p == 1 for v in found[3 * i : 3 * i + 3]]
        self.assertEqual(firsts, list(cc.refine_list(cut, seeds, wide)))
        self.assertEqual(cc.refine_list_with_fallback(cut, seeds, wide, small, [cc.Operator(6), cc.Operator(1)]), (found, passes))
        self.assertEqual(cc.refine_list_with_fallback(cut, seeds, wide, wide)[0], cc.refine_list(cut, seeds, wide))


class TwelveBits(unittest.TestCase):
    stored = Road.stored

    @staticmethod
    def words(times=1):
        return array.array("H", (times * b for b in read("board.gray")))

    @staticmethod
    def file(maximum, samples):
        return b"P5\n# deep\n128 96 %d\n" % maximum + b"".join(struct.pack(">H", v) for v in samples)

    def test_bytes_in_words_answer_alike(self):
        self.assertEqual(lines(cc.find_corners(cc.Image(self.words(), 128, 96), threshold=200.0)), self.stored)

    def test_sixteen_times_the_bytes_are_found_at_the_same_places(self):
        byte, word = cc.find_corners(board(), threshold=200.0), cc.find_corners(cc.Image(self.words(16), 128, 96), threshold=3200.0)
        for one, two in zip(cc.triples(byte), cc.triples(word)):
            self.assertAlmostEqual(one[0], two[0], 3)
            self.assertAlmostEqual(one[1], two[1], 3)
            self.assertEqual(16 * one[2], two[2])

    def test_a_sample_above_4095_is_refused_and_padding_is_not_looked_at(self):
        samples = array.array("H")
        for y in range(96):
            samples += self.words()[128 * y : 128 * y + 128] + array.array("H", [65535] * 8)
        image = cc.Image(samples, 128, 96, 136)
        self.assertEqual(lines(cc.find_corners(image, threshold=200.0)), self.stored)
        samples[136 * 95 + 127] = 4096
        for call in (lambda: cc.response(image), lambda: cc.refine(image, 9, 9), lambda: cc.refine_list(image, array.array("f"))):
            with self.assertRaises(cc.Refused) as refused:
                call()
            self.assertEqual((refused.exception.number, refused.exception.name), (26, "BadSample"))

    def test_a_deep_graymap(self):
        image = cc.graymap(self.file(4095, self.words(16)))
        self.assertEqual((image.width, image.height, image.samples), (128, 96, self.words(16)))
        with self.assertRaises(cc.Refused) as refused:
            cc.graymap(self.file(4096, self.words()))
        self.assertEqual(refused.exception.number, 21)
        above = self.words()
        above[7] = 257
        with self.assertRaises(cc.Refused) as refused:
            cc.graymap(self.file(256, above))
        self.assertEqual((refused.exception.number, refused.exception.at), (24, 7))

    def test_numpy_words_go_in(self):
        try:
            import numpy
        except ImportError:
            self.skipTest("numpy is not there")
        samples = numpy.array(self.words(), numpy.uint16).reshape(96, 128)
        self.assertEqual(lines(cc.find_corners(cc.Image(samples, 128, 96), threshold=200.0)), self.stored)


class Refusals(unittest.TestCase):
    def refused(self, number, name, call, *words, at=None, **more):
        with self.assertRaises(cc.Refused) as caught:
            call(*words, **more)
        self.assertEqual((caught.exception.number, caught.exception.name, caught.exception.at), (number, name, at))

    def test_images(self):
        self.refused(10, "BadImage", cc.response, cc.Image(b"abc", 2, 2))
        self.refused(10, "BadImage", cc.response, cc.Image(b"", 0, 0))
        self.refused(13, "BadRing", cc.response, board(), radius=4)
        self.refused(14, "EmptyRoi", cc.response, board(), roi=(5, 5, 5, 9))

    def test_lists(self):
        self.refused(16, "TooMany", cc.peaks, cc.response(board()), most=2)
        self.refused(19, "BadLength", cc.refine_list, board(), array.array("f", [1.0, 2.0]))
        self.refused(12, "BadLimit", cc.refine_list, board(), array.array("f"), cc.Settings(det_margin=math.nan))
        self.refused(17, "GridTooBig", cc.merge, array.array("f", [0, 0, 1, 600, 400, 1]), 1.0, heads=100)

    def test_a_seed_has_a_status(self):
        self.assertEqual(cc.refine(board(), math.nan, 3.0).number, 4)
        self.assertEqual(cc.refine(board(), 1.0, 1.0)[:3], (2, 1.0, 1.0))
        self.refused(11, "BadRadius", cc.refine, board(), 1.0, 1.0, cc.Settings(radius=8))
        self.assertEqual([cc.old_number(n) for n in (3, 4, 5, 6, 7, 10)], [3, 4, 3, 3, 3, 10])

    def test_graymaps(self):
        picture = cc.graymap(b"P5 # made by hand\n3 1 255\n\x00#\xff")
        self.assertEqual((picture.width, picture.height, bytes(picture.samples)), (3, 1, b"\x00#\xff"))
        self.refused(20, "NoMagic", cc.graymap, b"")
        self.refused(24, "AboveMaximum", cc.graymap, b"P5 2 1 7\n\x07\x08", at=1)
        self.refused(25, "LeftOver", cc.graymap, b"P5 1 1 7\n\x07\x07")

    def test_a_buffer_of_another_kind(self):
        self.assertRaises(TypeError, cc.refine_list, board(), array.array("d", [1.0, 2.0, 3.0]))
        self.assertRaises(TypeError, cc.response, cc.Image([1, 2, 3], 3, 1))
        self.assertRaises(ValueError, cc.response, cc.Image(b"", -1, 1))


class Beside(unittest.TestCase):
    def test_merging_leaves_the_list(self):
        corners = array.array("f", [0, 0, 1, 1, 0, 2, 9, 9, 3])
        self.assertEqual(list(cc.merge(corners, 2.0)), [1, 0, 2, 9, 9, 3])
        self.assertEqual(corners[0], 0.0)

    def test_the_grid_has_enough_heads(self):
        corners = array.array("f", [v for y in range(0, 480, 24) for x in range(0, 640, 24) for v in (x + 0.3, y + 0.7, 1)])
        for radius in (0.5, 1.0, 2.0, 3.1, 7.0, 23.9):
            self.assertEqual(cc.merge(corners, radius), corners)
        self.assertEqual(len(cc.merge(array.array("f", [math.nan, 1, 2, 5, 5, 2]), 2.0)), 6)
        self.assertEqual(len(cc.merge(array.array("f", [math.inf, 1, 2, 5, 5, 2]), 2.0)), 6)
        self.assertEqual(len(cc.merge(array.array("f"), 2.0)), 0)

    def test_ties(self):
        corners = array.array("f", [5, 5, 1, 1, 1, 1])
        self.assertEqual(list(cc.tie_corners(2, 3, array.array("f", [1, 1, 5, 5]), 0.5, corners)), [1, 0])
        with self.assertRaises(cc.Refused) as caught:
            cc.tie_corners(2, 3, array.array("f", [1, 1, 7, 5]), 0.5, corners)
        self.assertEqual((caught.exception.number, caught.exception.at), (33, 1))

    def test_salvage(self):
        good, bad = struct.pack("<3f", 1, 2, 3), struct.pack("<3f", math.nan, 2, 3)
        self.assertEqual(cc.salvage(good + bad + good + b"cut", 640, 480), cc.Salvaged(good + good, [(1, 2), (3, 1)]))

    def test_gradients(self):
        tile, grid = bytes((x * 37 + y * 91) % 256 for y in range(11) for x in range(11)), array.array("f", bytes(8 * 121))
        cc.add_gradient(tile, 11, 5, 5, grid, (1.0, -2.0))
        self.assertEqual([v * -2.0 for v in grid[0::2]], list(grid[1::2]))
        self.assertTrue(any(grid))
        with self.assertRaises(cc.Refused) as caught:
            cc.add_gradient(tile, 11, 4, 5, grid)
        self.assertEqual(caught.exception.number, 13)

    def test_coverage(self):
        covered = cc.Coverage(80, 80, [5, 5, 1])
        covered.add(79.5, 79.5, 1)
        covered.add(-1, 0, 1)
        self.assertEqual([i for i, n in enumerate(covered.counts) if n], [0, 63, 64])
        covered.replace(0, 15, 5, 1)
        covered.drop(2)
        self.assertEqual([i for i, n in enumerate(covered.counts) if n], [1, 63])
        self.assertEqual(list(covered.corners), [15, 5, 1, 79.5, 79.5, 1])
        with self.assertRaises(cc.Refused) as caught:
            covered.drop(2)
        self.assertEqual(caught.exception.number, 35)


if __name__ == "__main__":
    unittest.main()
