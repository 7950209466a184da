"""Functions of the library that the desk uses, compared with numbers that are computed another way."""
import unittest

from fixtures import has

from ribjasper.common import library


def rank(numbers: list[int]) -> int:
    """The number of independent differences from the first number, as sums without carry: each pack of a tile except
    the first, which sets two colours, adds one of them."""
    found: list[int] = []
    for number in numbers[1:]:
        difference = number ^ numbers[0]
        for one in found:
            difference = min(difference, difference ^ one)
        if difference:
            found.append(difference)
    return max(1, len(found))


@unittest.skipUnless(has("ribjasper_tile_weight"), "lib/ is not built, or has no ribjasper_tile_weight")
class TileTest(unittest.TestCase):
    def test_each_set_of_colours(self) -> None:
        for bits in range(1, 1 << 16):
            numbers = [number for number in range(16) if bits >> number & 1]
            self.assertEqual(library.tile_weight(frozenset(numbers)), rank(numbers), numbers)


if __name__ == "__main__":
    unittest.main()
