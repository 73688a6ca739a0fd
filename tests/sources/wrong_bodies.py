#!/usr/bin/env python3
"""Tries build/wrong_bodies.py on a crate of its own: which functions an edit changes, when it is
alone in its check, and which edits share one.
usage: tests/sources/wrong_bodies.py
"""
import pathlib
import re
import sys
import tempfile
import unittest
from typing import Set

sys.path.insert(0, str(pathlib.Path(__file__).resolve().parents[2] / "build"))
import wrong_bodies  # noqa: E402 (it lies in the folder that was just named)

SOURCE = """\
use other::{Thing, more};

/// The most of a line.
pub const MOST: usize = 8;
const TWICE: usize = 2 * MOST;
const SIZE: usize = 4;
const TABLE: [u8; 3] = [
    1, 2,
    3,
];

struct Held {
    bytes: [u8; SIZE],
}

impl Held {
    fn first(&self) -> u8 {
        self.bytes[0]
    }

    fn again(&self) -> u8 {
        let it = self.bytes[0];
        it
    }
}

fn is_long(count: usize) -> bool {
    count > TWICE
}

fn entry(at: usize) -> u8 {
    TABLE[at % MOST]
}
"""


class Edits(unittest.TestCase):
    """What is known of an edit by its text."""

    def setUp(self) -> None:
        place = tempfile.TemporaryDirectory()
        self.addCleanup(place.cleanup)
        self.crate = pathlib.Path(place.name)
        (self.crate / "src").mkdir()
        (self.crate / "src/lib.rt").write_text(SOURCE, encoding="utf-8")

    def edit(self, *pairs: str) -> wrong_bodies.Edit:
        """The edit with these texts, each old one before its new one."""
        texts = [f"old: {pairs[i]}\nnew: {pairs[i + 1]}\n" for i in range(0, len(pairs), 2)]
        path = self.crate / f"{pairs[1].strip()[:9]}.edit"
        path.write_text("file: src/lib.rt\n" + "".join(texts), encoding="utf-8")
        return wrong_bodies.edit_of(path, self.crate)

    def changed(self, *pairs: str) -> Set[str]:
        """The names of the functions that this edit changes."""
        return {it.name for it in self.edit(*pairs).changed}

    def test_what_other_crates_know(self) -> None:
        def known(text: str) -> bytes:
            return wrong_bodies.without_bodies(text.encode())

        for old, new in (("count > TWICE", "count < TWICE"), ("self.bytes[0]", "self.bytes[1]")):
            self.assertEqual(known(SOURCE.replace(old, new)), known(SOURCE))
        for old, new in (("usize = 8", "usize = 9"), ("count: usize", "count: u8"), ("    1, 2,", "    2, 1,"),
                         ("u8 {\n        let", "u8\n        ensures { a }\n    {\n        let")):
            self.assertNotEqual(SOURCE.replace(old, new), SOURCE)
            self.assertNotEqual(known(SOURCE.replace(old, new)), known(SOURCE))

    def test_what_no_other_crate_can_call(self) -> None:
        def seen(text: str) -> bytes:
            return wrong_bodies.seen_from_outside(text.encode())

        hidden = SOURCE.replace("fn entry(at: usize) -> u8 {", "fn entry(at: u8) -> u8 {")
        self.assertEqual(seen(hidden), seen(SOURCE))
        within = SOURCE.replace("    fn first(", "    pub(crate) fn first(")
        self.assertEqual(seen(within), seen(SOURCE))
        told = SOURCE.replace("fn is_long", "#[inline(always)]\nfn is_long")
        self.assertEqual(seen(told), seen(SOURCE))
        public = SOURCE.replace("    fn first(", "    pub fn first(")
        self.assertNotEqual(seen(public), seen(SOURCE))
        self.assertNotEqual(seen(public.replace("-> u8", "-> u16")), seen(public))
        of_trait = SOURCE.replace("impl Held {", "impl Read for Held {")
        self.assertNotEqual(seen(of_trait.replace("-> u8", "-> u16")), seen(of_trait))
        self.assertNotEqual(seen(SOURCE.replace("usize = 8", "usize = 9")), seen(SOURCE))

    def test_what_nothing_of_it_names(self) -> None:
        def seen(text: str) -> bytes:
            return wrong_bodies.seen_from_outside(text.encode())

        self.assertEqual(seen(SOURCE.replace("2 * MOST", "3 * MOST")), seen(SOURCE))
        larger = SOURCE.replace("SIZE: usize = 4", "SIZE: usize = 5")
        self.assertNotEqual(seen(larger), seen(SOURCE))
        self.assertEqual(seen(SOURCE.replace("{Thing, more}", "{Thing, fewer}")), seen(SOURCE))
        public = SOURCE.replace("fn entry(at: usize)", "pub fn entry(at: Thing)")
        self.assertEqual(seen(public.replace("{Thing, more}", "{Thing}")), seen(public))
        self.assertNotEqual(seen(public.replace("{Thing, more}", "{other::Thing}")), seen(public))
        ghost = "ghost use math.{◌≤◌, ◌⊎◌};\n"
        low = "pub fn low(a: u8)\n    ensures { a ≤ 1 }\n{}\n"
        clause = low + SOURCE
        self.assertEqual(seen(ghost + clause), seen(ghost.replace(", ◌⊎◌", "") + clause))
        self.assertNotEqual(seen(ghost + clause), seen(ghost.replace("◌≤◌, ", "") + clause))
        self.assertEqual(seen(ghost + SOURCE), seen(SOURCE))

    def test_a_check_names_functions_by_paths(self) -> None:
        def fits(file: str, owner: str, path: str) -> bool:
            held = wrong_bodies.Function(file, 1, 2, owner, "first")
            return re.fullmatch(wrong_bodies.path_of(held), path) is not None

        self.assertTrue(fits("src/lib.rt", "", "first"))
        self.assertTrue(fits("src/row/view.rt", "", "row::view::first"))
        self.assertTrue(fits("src/row/view.rt", "View", "row::view::View::first"))
        self.assertTrue(fits("src/row/view.rt", "View", "row::view::ViewIterator::first"))
        self.assertFalse(fits("src/row/view.rt", "View", "row::view::first"))
        self.assertFalse(fits("src/row/view.rt", "", "row::view::View::first"))
        self.assertFalse(fits("src/view.rt", "View", "row::view::View::first"))

    def test_a_body_is_its_function(self) -> None:
        self.assertEqual(self.changed("count > TWICE", "count < TWICE"), {"is_long"})

    def test_a_constant_is_whoever_names_it(self) -> None:
        self.assertEqual(self.changed("usize = 8;", "usize = 9;"), {"is_long", "entry"})
        self.assertEqual(self.changed("2 * MOST", "3 * MOST"), {"is_long"})
        self.assertEqual(self.changed("    3,", "    4,"), {"entry"})
        self.assertFalse(self.edit("2 * MOST", "3 * MOST").is_alone)

    def test_a_type_is_alone(self) -> None:
        self.assertTrue(self.edit("usize = 4;", "usize = 5;").is_alone)
        self.assertTrue(self.edit("    bytes:", "    pub bytes:").is_alone)

    def test_an_import_is_nobodys(self) -> None:
        pairs = "use other::{Thing, more};", "use other::Thing;", "count > TWICE", "count > 1"
        self.assertEqual(self.changed(*pairs), {"is_long"})
        self.assertFalse(self.edit(*pairs).is_alone)

    def test_a_text_that_an_earlier_pair_leaves_once(self) -> None:
        edit = self.edit("it = self.bytes[0];", "it = self . bytes[0];", "self.bytes[0]", "0")
        self.assertEqual({it.name for it in edit.changed}, {"first", "again"})
        text = wrong_bodies.with_edits({"src/lib.rt": SOURCE}, [edit])["src/lib.rt"]
        self.assertIn("        0\n", text)

    def test_a_text_that_stands_twice_is_refused(self) -> None:
        with self.assertRaises(wrong_bodies.Unfit):
            self.edit("self.bytes[0]", "0")
        with self.assertRaises(wrong_bodies.Unfit):
            self.edit("nowhere", "0")

    def test_edits_of_one_function_share_no_check(self) -> None:
        first = self.edit("count > TWICE", "count < TWICE")
        same, other = self.edit("usize = 8;", "usize = 9;"), self.edit("    3,", "    5,")
        lots = wrong_bodies.lots([first, same, other], 60)
        self.assertEqual([len(it) for it in lots], [2, 1])
        text = wrong_bodies.with_edits({"src/lib.rt": SOURCE}, lots[0])["src/lib.rt"]
        self.assertIn("count < TWICE", text)
        self.assertIn("    5,\n", text)
        self.assertIn("usize = 8;", text)


if __name__ == "__main__":
    unittest.main()
