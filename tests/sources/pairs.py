#!/usr/bin/env python3
"""Tries build/pairs.py on texts: what is said otherwise, what is imported for it, and which changes
share a check.
usage: tests/sources/pairs.py
"""
import pathlib
import re
import sys
import tempfile
import unittest
from typing import List
from unittest import mock

sys.path.insert(0, str(pathlib.Path(__file__).resolve().parents[2] / "build"))
import crates  # noqa: E402 (it lies in the folder that was just named)
import pairs  # noqa: E402
from rattle_text import Key  # noqa: E402

SPECS = '''-- Bytes.
use Rattle.std.specs.Prelude.{ℕ, Bool, ◌==◌, ◌&&◌, true, false}

-- The byte is a mark.
abbrev pub is_mark : ℕ → Bool
is_mark b = b == octet "/" && true

-- A case.
abbrev pub case_of : Bool → ℕ
case_of true = 0
case_of false = 7
'''


def said_of(text: str) -> List[str]:
    """The changes of a file with this text."""
    with tempfile.TemporaryDirectory() as folder:
        path = pathlib.Path(folder, "crates", "low", "specs", "Bytes.antt")
        path.parent.mkdir(parents=True)
        path.write_text(text, encoding="utf-8")
        with mock.patch.object(crates, "TOP", pathlib.Path(folder)):
            return [it.said for it in pairs.changes_of("low", "specs/Bytes.antt")]


def change(name: str) -> pairs.Change:
    """A change of the definition of this name."""
    return pairs.Change(name, {}, Key("low", "Bytes", name))


class Changes(unittest.TestCase):
    """What is said otherwise."""

    def test_each_kind(self) -> None:
        self.assertEqual(said_of(SPECS), [
            'Bytes: is_mark b = b == octet "0" && true  (/)',
            'Bytes: is_mark b = b == octet "/" || true  (&&)',
            'Bytes: is_mark b = b == octet "/" && false  (true)',
            "Bytes: case_of false = 0  (true)",
            "Bytes: case_of true = 1  (0)",
            "Bytes: case_of true = 7 (exchanged with the next)",
            "Bytes: case_of true = 7  (false)",
            "Bytes: case_of false = 8  (7)",
            "Bytes: case_of false = 6  (7)",
        ])

    def test_those_that_a_file_tells_of_are_left_out(self) -> None:
        every = [change("one"), change("two"), change("two")]
        told = ["one: first.reads", "two: STANDS", "other"]
        self.assertEqual(pairs.without_told(every, told), every[1:])
        self.assertEqual(pairs.without_told(every, [*told, "two"]), [])

    def test_other_words_are_imported(self) -> None:
        changed = SPECS.replace('"/" && true', '"/" || true')
        self.assertIn("◌&&◌, ◌||◌, true", pairs.with_imports(changed))
        self.assertEqual(pairs.with_imports(SPECS), SPECS)


class Lots(unittest.TestCase):
    """Which changes share a check, and what a check says of them."""

    def test_each_has_a_clause_of_its_own(self) -> None:
        one, two, both = change("one"), change("two"), change("both")
        keys = {it.said: it.key for it in (one, two, both) if it.key}
        cited = {
            ("first", "reads"): pairs.Citing(frozenset([keys["one"], keys["both"]]), '"mark"'),
            ("second", "reads"): pairs.Citing(frozenset([keys["two"], keys["both"]]), ""),
        }
        self.assertEqual(pairs.put_together([one, two, both], cited), [[one, two], [both]])
        self.assertEqual(pairs.put_together([one, change("one")], cited), [[one], [change("one")]])

    def test_clauses_with_the_word_are_tried_first(self) -> None:
        texts = {"long": 'x "mark" y', "short": '"mark"', "least": '""', "other": '"marks"'}
        cited = {(name, ""): pairs.Citing(frozenset(), text) for name, text in texts.items()}
        said = pairs.Change("one", {}, None, "mark")
        self.assertEqual(pairs.first_tried(said, set(cited), cited), {"short", "long"})

    def test_clauses_that_are_not_proved(self) -> None:
        said = ["fn low::examples::marks::first: no proof: expected answers in"
                " ./proofs/Answers.antt; `search` did not prove `returns-clause-reads`, `returns`",
                "fn low::examples::marks::second: proved"]
        wanted = {("first", name) for name in ("reads", "ensures", "")}
        self.assertEqual(pairs.refused_clauses(said), wanted)

    def test_what_is_proved_by_hand_is_refused_as_a_whole(self) -> None:
        said = ["fn low::examples::marks::first: not proved", "fn low::laws::second: no proof"]
        self.assertEqual(pairs.refused_clauses(said), {("first", ""), ("second", "")})

    def test_a_line_that_does_not_compile(self) -> None:
        said = ["./specs/Bytes.antt:6:3: error: `nat_le` is not in scope"]
        hurt = pairs.Change("hurt", {("specs/Bytes.antt", 5): ""}, None)
        self.assertTrue(re.match("`nat_le`", pairs.rejection(hurt, said)))
        self.assertEqual(pairs.rejection(change("other"), said), "")


if __name__ == "__main__":
    unittest.main()
