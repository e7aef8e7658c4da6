"""tools/crates: the list of crates, its picture, and what the heads of crates say."""

import os
import re
import tempfile
import unittest
import xml.etree.ElementTree as xml
from unittest import mock

from shared import called, loaded

from itslib import crates, lines
from itslib.house import Drawing, picture, rows_of

REAL = loaded("crates")

LISTED = """# What this is: no section
# Words and records: words
its_word: arrayvec
its_robin: its_word
# Text: lines
its_io: its_word
# Definitions: meanings
its_plain: its_robin its_word
# Stores: tables
its_core: its_plain its_word
# Processor: units
pdp_exec: its_core its_plain its_word
# Monitor: small steps
its_in_call: its_core its_word
its_tick: its_in_call pdp_exec its_word
# Second machine: whole steps
its_direct: pdp_exec its_io its_word
# Program: all
its_top: its_tick its_direct its_io its_word
its_web staticlib: its_top its_word
# Tests: trials
test_exec: pdp_exec its_word
"""
PAGE = "# Page\n\n%s%s\nEnd.\n" % (REAL.BEGIN, REAL.END)
HEAD = "//! %s: what it is (docs/A.md). More of it.\n//!\n//! Tests: test_exec/src/lib.rt.\n#![tactic(auto)]\n"


def changed(old, new):
    """The list with one change."""
    assert LISTED.count(old) == 1
    return crates.house_of(LISTED.replace(old, new))


class Lists(unittest.TestCase):
    """The sections of a list, and what its crates use."""

    def test_uses(self):
        house = crates.house_of(LISTED)
        self.assertEqual([crate.name for crate in house.of("Monitor")], ["its_in_call", "its_tick"])
        self.assertEqual(house.named("its_web").uses, ["its_top", "its_word"])
        self.assertEqual(house.below("its_in_call"), {"its_core", "its_plain", "its_robin", "its_word"})
        self.assertEqual(house.about["Stores"], "tables")

    def test_reduced(self):
        arrows = crates.house_of(LISTED).arrows()
        self.assertEqual(arrows["its_tick"], ["its_in_call", "pdp_exec"])
        self.assertEqual(arrows["its_top"], ["its_tick", "its_direct"])

    def test_order(self):
        self.assertEqual(list(crates.wrong_order(crates.house_of(LISTED))), [])
        for old, new, said in (("its_core: its_plain its_word", "its_core: its_tick", "its_core is above its_tick, which it uses"),
                               ("# Text: lines\n", "", "the sections have to be Words and records, Text, "),
                               ("# Words and records: words\n", "", "its_word is in no section"),
                               ("test_exec:", "tests:", "tests: crates of tests, and no others, are in the section Tests"),
                               ("its_in_call:", "test_calls:", "test_calls: crates of tests, and no others, ")):
            self.assertTrue(any(one.startswith(said) for one in crates.wrong_order(changed(old, new))), said)


class Heads(unittest.TestCase):
    """What the head of a crate says."""

    def test_summary(self):
        for head, said in (("Words of 36 bits. More.", "Words of 36 bits."), ("Calls on files: .IOT (docs/CALLS.md, \"Files\"). More.", "Calls on files: .IOT."),
                           ("One sentence", "One sentence.")):
            self.assertEqual(crates.summary_of(head), said)

    def test_places(self):
        house = crates.house_of(LISTED)
        with tempfile.TemporaryDirectory() as top:
            for name in ("its_plain", "its_core", "test_exec"):
                os.makedirs(os.path.join(top, "crates", name, "src"))
                open(os.path.join(top, "crates", name, "src", "lib.rt"), "w").close()
            open(os.path.join(top, "crates", "its_core", "src", "cores.rt"), "w").close()
            for name, said, wrong in (("its_core", "test_exec", None), ("its_core", "test_exec/src/lib.rt, its_core/src/cores.rt", None),
                                      ("its_plain", "none, because it has no code", None),
                                      ("its_core", "none, because it has no code", "it has code"),
                                      ("its_core", "test_exec/src/none.rt", "which are not there"),
                                      ("its_core", "its_plain", "which is no crate of tests that uses it")):
                found = list(crates.wrong_tests(house.named(name), house, "A crate. Tests: %s." % said, top))
                self.assertEqual([bool(wrong), wrong in "".join(found)] if wrong else found, [True, True] if wrong else [], said)
            self.assertIn("has to end with", list(crates.wrong_tests(house.named("its_core"), house, "A crate.", top))[0])


class Pictures(unittest.TestCase):
    """The picture of a list."""

    def test_rows(self):
        house = crates.house_of(LISTED)
        rows = rows_of(house)
        for crate in house.crates:
            self.assertTrue(all(rows[one] < rows[crate.name] for one in crate.uses))
        self.assertEqual(rows["its_direct"], rows["its_in_call"])

    def test_sides(self):
        drawing = Drawing(crates.house_of(LISTED))
        self.assertLess(drawing.boxes["its_tick"].x, drawing.boxes["its_direct"].x)
        self.assertLess(drawing.boxes["its_direct"].x, drawing.boxes["test_exec"].x)

    def test_apart(self):
        for row in Drawing(crates.house_of(LISTED)).rows:
            for one, other in zip(row, row[1:]):
                self.assertLessEqual(one.x + one.width() / 2, other.x - other.width() / 2)

    def test_drawn(self):
        text = picture(crates.house_of(LISTED))
        self.assertEqual(text, picture(crates.house_of(LISTED)))
        names = [one.text for one in xml.fromstring(text).iter() if one.get("class") == "box"]
        self.assertEqual(sorted(names), sorted(re.findall(r"(?m)^(\w+)(?: staticlib)?:", LISTED)))


class Lines(unittest.TestCase):
    """The lines of the crates' files."""

    def wrong(self, line, proof=False):
        """What is wrong with a line, up to the numbers."""
        return re.split(r" has | begins", lines.wrong_line(line, proof))[0]

    def test_lines(self):
        for line, proof, what in (
                ("    /// " + "x" * 92, False, ""), ("    /// " + "x" * 93, False, "a comment"), ("-- " + "é" * 97, True, ""),
                ("-- " + "x" * 98, True, "a comment"), ("    // The same of a word.", False, "a comment"), ("let the = 1; // The same", False, ""),
                ("    " + "x" * 160, True, ""), ("    " + "x" * 161, True, "a line of proof"), ("x" * 161, False, ""),
                ("use A.{" + "x" * 200 + "}", True, ""), ("pub ruleset a = (" + "x" * 200 + ")", True, ""),
                ("    #[tactic(auto, using(%s))]" % ("x" * 200), False, ""), ("    #[tactic(auto, using(%s))]" % ("x" * 201), False, "a list of laws"),
                ("#[tactic(using(a(b), c), unfolding(%s))]" % ("x" * 300), False, "")):
            with self.subTest(line=line):
                self.assertEqual(self.wrong(line, proof), what)

    def test_longest_list(self):
        self.assertEqual([lines.longest_list(line) for line in ("", "using()", "using(a(b), c)) using(d)", "using(a")], [0, 0, 7, 0])

    def test_files(self):
        with tempfile.TemporaryDirectory() as top:
            for name, text in (("src/a.rt", "use b;\n"), ("src/in/b.rt", "//! What.\n// The same.\n"), ("proofs/C.antt", "x" * 161 + "\n"),
                               ("specs/D.antt", "x" * 161 + "\n"), ("out/e.rt", "use b;\n")):
                path = os.path.join(top, "crates", "its_a", name)
                os.makedirs(os.path.dirname(path), exist_ok=True)
                with open(path, "w", encoding="utf-8") as file:
                    file.write(text)
            self.assertEqual([what.split(": ")[0] for what in lines.wrong_lines(top)],
                             ["crates/its_a/src/a.rt", "crates/its_a/src/in/b.rt:2", "crates/its_a/proofs/C.antt:1"])


class Calls(unittest.TestCase):
    """The tool on a repository."""

    def test_the_repository(self):
        self.assertEqual(called(REAL), (0, "", ""))

    def test_write(self):
        with tempfile.TemporaryDirectory() as top, mock.patch.object(REAL, "TOP", top):
            os.makedirs(os.path.join(top, "docs"))
            for name, text in (("docs/ARCHITECTURE.md", PAGE), ("crates.txt", LISTED)):
                with open(os.path.join(top, name), "w", encoding="utf-8") as file:
                    file.write(text)
            for crate in crates.house_of(LISTED).crates:
                os.makedirs(os.path.join(top, "crates", crate.name, "src"))
                with open(os.path.join(top, "crates", crate.name, "src", "lib.rt"), "w", encoding="utf-8") as file:
                    file.write(HEAD % crate.name)
            self.assertEqual(called(REAL).status, 1)
            with mock.patch.object(REAL, "wrong_tests", return_value=[]):
                self.assertEqual(called(REAL), (1, "docs/house.svg is not made from the crates (tools/crates --write)\n"
                                                   "docs/ARCHITECTURE.md is not made from the crates (tools/crates --write)\n", ""))
                self.assertEqual(called(REAL, "--write").status, 0)
                self.assertEqual(called(REAL), (0, "", ""))
            with open(os.path.join(top, "docs", "ARCHITECTURE.md"), encoding="utf-8") as file:
                self.assertIn("\n- `its_core`: its_core: what it is.\n", file.read())

    def test_no_list(self):
        with self.assertRaises(Exception):
            REAL.with_list("# Page\n", "")


if __name__ == "__main__":
    unittest.main()
