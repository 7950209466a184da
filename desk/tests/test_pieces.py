"""Unit tests of the pieces of a dump, whose times are continuous."""
import unittest
from unittest import mock

from ribjasper.dumps.pieces import Piece, framed_pieces, layers_of, lead_in_of
from ribjasper.dumps.survey import Stretch


class PiecesTest(unittest.TestCase):
    def test_small_pieces_alone(self) -> None:
        """None of two hundred pieces has a hundredth of the frames. The first of the largest pieces gives the lead-in."""
        first = range(100, 1300, 6)
        survey = mock.Mock(blocks=1300)
        survey.stretches.return_value = [Stretch(at, at + 2, at - 100 + number) for number, at in enumerate(first)]
        self.assertEqual(lead_in_of(survey), 100)

    def test_pieces_go_where_their_times_say(self) -> None:
        """A piece that is placed before the first one on the disc, in one layer; stale blocks in another layer."""
        swapped = [Stretch(0, 99, 500), Stretch(100, 299, 0)]
        self.assertEqual(layers_of(framed_pieces(swapped)), [[Piece(0, 100, 500, 100), Piece(100, 300, -100, 200)]])
        stale = [Stretch(0, 999, 0), Stretch(1000, 1099, 200), Stretch(1100, 1999, 1100)]
        own, beside = layers_of(framed_pieces(stale))
        self.assertEqual(own, [Piece(0, 1000, 0, 1000), Piece(1100, 2000, 0, 900)])
        self.assertEqual(beside, [Piece(1000, 1100, -800, 100)])
        self.assertEqual(layers_of([]), [[]])

    def test_stale_pieces_share_a_layer_where_they_can(self) -> None:
        stale = [Stretch(0, 999, 0), Stretch(1000, 1099, 200), Stretch(1100, 1999, 1100), Stretch(2000, 2099, 700)]
        own, beside = layers_of(framed_pieces([*stale, Stretch(2100, 2999, 2100)]))
        self.assertEqual([piece.first for piece in own], [0, 1100, 2100])
        self.assertEqual([piece.first for piece in beside], [1000, 2000])


if __name__ == "__main__":
    unittest.main()
