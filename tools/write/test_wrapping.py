#!/usr/bin/env python3
"""Tests of wrap_proofs.py: the places where lines are broken, and that only white space changes."""
import unittest

import wrap_proofs
from wrap_proofs import LIMIT, Room, lay, letters, wrapped

SUM = " ∙ ".join(f"ap (λ k. k * {number}) (rest_{number} size)" for number in range(8))
CALL = "first_law " + " ".join(f"(argument_{number} left right)" for number in range(9))


def broken(line: str) -> list[str]:
    """The lines of a broken line; lines that are still too long are broken again."""
    lines = [line]
    for _ in range(wrap_proofs.ROUNDS):
        lines = [part for it in lines for part in wrapped(it, False, False)]
    return lines


class LinesTest(unittest.TestCase):
    def lines_of(self, line: str) -> list[str]:
        """Breaks a line that is too long, and checks that the lines fit and have the same letters."""
        self.assertGreater(len(line), LIMIT)
        lines = broken(line)
        self.assertEqual(letters("\n".join(lines)), letters(line))
        self.assertLessEqual(max(map(len, lines)), LIMIT)
        return lines

    def test_a_line_that_fits_does_not_change(self) -> None:
        self.assertEqual(wrapped("    omega (arith, fits)", False, False), ["    omega (arith, fits)"])

    def test_an_outermost_operator_begins_each_line(self) -> None:
        first, *rest = self.lines_of("    " + SUM)
        self.assertTrue(first.startswith("    ap "))
        self.assertTrue(all(line.lstrip().startswith("∙ ap ") for line in rest))

    def test_a_call_is_broken_between_its_arguments(self) -> None:
        for line in self.lines_of("    " + CALL):
            self.assertEqual(line.count("("), line.count(")"))

    def test_a_bound_value_follows_its_name(self) -> None:
        first, *rest = self.lines_of(f"    let sum : whole ≡ parts = {SUM} in")
        self.assertEqual(first, "    let sum : whole ≡ parts =")
        self.assertTrue(rest[-1].endswith(" in"))

    def test_a_signature_is_broken_before_its_arrows(self) -> None:
        types = " → ".join(f"IsPart{number} bytes place" for number in range(9))
        _, *rest = self.lines_of(f"pub law : (bytes : List ℕ) (place : ℕ) → {types}")
        self.assertTrue(all(line.lstrip().startswith("→") for line in rest))

    def test_a_string_is_not_broken(self) -> None:
        words = " ".join("word" for _ in range(12))
        lines = self.lines_of(f'    say "{words}" {" ".join(f"(more_{number} left)" for number in range(8))}')
        self.assertIn(f'"{words}"', "\n".join(lines))

    def test_a_comment_is_reflowed(self) -> None:
        for line in self.lines_of("-- " + "a word of it " * 12):
            self.assertTrue(line.startswith("-- "))

    def test_an_import_is_broken_only_on_request(self) -> None:
        names = ", ".join(f"name_of_a_law_{number}" for number in range(9))
        line = f"use Rattle.crate.proofs.Laws.{{{names}}}"
        self.assertEqual(wrapped(line, False, False), [line])
        self.assertEqual(len(wrapped(line, False, True)), 9 + 2)


class RoomTest(unittest.TestCase):
    def test_text_before_and_after_needs_room(self) -> None:
        text = "a" * (LIMIT - 10)
        self.assertTrue(Room(4, 3, 3).fits(text))
        self.assertFalse(Room(4, 4, 3).fits(text))
        self.assertEqual(lay(text, Room(4, 4, 3)), [text])


class TokensTest(unittest.TestCase):
    def test_only_separators_of_a_broken_bracket_are_ignored(self) -> None:
        self.assertTrue(wrap_proofs.is_added(",", "x", ")"))
        self.assertTrue(wrap_proofs.is_added(";", "x", "}"))
        self.assertTrue(wrap_proofs.is_added("|", "[", "x"))
        self.assertFalse(wrap_proofs.is_added(",", "x", "y"))

    def test_a_changed_letter_is_detected(self) -> None:
        self.assertEqual(letters("f (a,\n  b,)"), letters("f (a, b)"))
        self.assertNotEqual(letters("f (a, c)"), letters("f (a, b)"))


if __name__ == "__main__":
    unittest.main()
