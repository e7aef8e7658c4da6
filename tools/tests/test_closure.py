"""tools/closure --check: what it refuses."""

import os
import unittest
from unittest import mock

from shared import TOP, called, loaded, path_of

PROMISE = os.path.join("crates", "its_top", "specs", "Promise.antt")
REAL = loaded("closure")


def changed(name, old, new):
    """The reader of files, with this file changed."""
    def read(path):
        with open(path, encoding="utf-8") as file:
            text = file.read()
        return text.replace(old, new) if os.path.relpath(path, TOP) == name else text
    return mock.patch.object(REAL, "text_of", read)


class Checks(unittest.TestCase):
    """What the check says of the repository, and of one that differs in one file."""

    def setUp(self):
        self.parts = REAL.closure(PROMISE)

    def refused(self, name, old, new, words):
        """The one complaint about a repository whose file has `new` for `old` contains these words."""
        with changed(name, old, new):
            found = list(REAL.complaints(self.parts))
        self.assertEqual(len(found), 1, found)
        self.assertIn(words, found[0])

    def test_the_repository(self):
        self.assertEqual(list(REAL.complaints(self.parts)), [])

    def test_figures(self):
        self.refused(os.path.join("docs", "PROVED.md"), "declared types", "types", "docs/PROVED.md: the promise rests on")

    def test_marks(self):
        inside, outside = REAL.MARKS[True], REAL.MARKS[False]
        self.refused(PROMISE, inside, outside, "Promise.antt: its head has to have the line '%s'" % inside)
        self.refused(PROMISE, inside, "--", "Promise.antt: its head has to have the line")
        self.refused(PROMISE, inside, inside + "\n" + outside, "Promise.antt: its head has to have the line")
        other = os.path.join("crates", "its_top", "specs", "Top.antt")
        self.refused(other, outside, inside, "Top.antt: its head has to have the line '%s'" % outside)

    def test_state(self):
        self.parts.append(REAL.Part("its_world", "crates/its_world/specs/Some.antt", 0))
        with mock.patch.object(REAL, "figures", lambda parts: ""), mock.patch.object(REAL, "wrong_marks", lambda inside: []):
            self.assertEqual(list(REAL.complaints(self.parts)), ["crates/its_world/specs/Some.antt: the promise may not rest on it"])

    def test_contracts(self):
        top, clause = os.path.join("crates", "its_top", "src", "top.rt"), "    ensures command {"
        self.refused(top, clause, "    ensures more { True }\n" * 2 + clause, "its has 15 clauses")
        self.refused(top, clause, clause + " " * 140, "its has a line of ")

    def test_splits(self):
        fair, highest = os.path.join("crates", "its_plain", "specs", "Promise", "Fair.antt"), "abbrev pub highest : ℕ"
        turns = os.path.join("crates", "its_plain", "specs", "Transcript", "Turns.antt")
        lines = os.path.join("crates", "its_stepped", "specs", "Lines.antt")
        checking = os.path.join("crates", "its_top", "specs", "Checking.antt")
        no_place = ": more distinguishes %s, and is no place for that (tools/itslib/splits.py)"
        more = "more : Event → ℕ\nmore (events.Run n q) = n\nmore e = 0\n"
        with open(os.path.join(TOP, turns), encoding="utf-8") as file:
            place = file.read().splitlines().index(highest) + 2
        self.split(turns, highest, more + highest, "%s:%d%s" % (turns, place, no_place % "the kinds of line"))
        more = "more : Lined → ℕ\nmore (Peeks s) = s\nmore _ = 0\n"
        self.split(lines, "abbrev pub refusal", more + "abbrev pub refusal", no_place % "what a line does")
        more = "more : List Item → ℕ\nmore [] = 0\nmore (Read e ∷ es) = more es + 1\n"
        self.split(checking, "abbrev pub checked_text", more + "abbrev pub checked_text", no_place % "a session")
        more = "data More : List Item → Type 0 where\n  rule : {e : Event} → More (Unread r ∷ [])\n\n"
        self.split(checking, "abbrev pub checked_text", more + "abbrev pub checked_text", ": More distinguishes a session")
        self.split(turns, "turns_asked", "turns_wanted", "turns_wanted distinguishes the kinds of line", "says that turns_asked distinguishes")
        more = "use Rattle.its_records.specs.Item.{Read as Seen}\nmore : List Item → ℕ\nmore (Seen e ∷ es) = 1\nmore es = 0\n"
        with changed(fair, "\n\n", "\n" + more + "\n"):
            self.assertIn(no_place % "a session", " ".join(REAL.complaints(self.parts)))

    def split(self, name, old, new, *words):
        """If a file has `new` for `old`, these are the complaints about the places that distinguish events."""
        with changed(name, old, new):
            found = list(REAL.wrong_splits(REAL.all_splits(), {part.name for part in self.parts}))
        self.assertEqual(len(found), len(words), found)
        for one, word in zip(found, words):
            self.assertIn(word, one)

    def test_tables(self):
        found, inside = REAL.all_splits(), {part.name for part in self.parts}
        course = os.path.join("crates", "its_plain", "specs", "Transcript", "Course.antt")
        wrong = list(REAL.wrong_splits(found, inside - {course}))
        self.assertEqual(wrong, ["%s: tools/itslib/splits.py has it in the wrong table" % course])

    def test_forms(self):
        path = path_of(PROMISE)
        crates = called(REAL, path).written.split("\n")
        files = called(REAL, "--files", path).written.split("\n")[:-1]
        self.assertEqual(sum(int(line.split()[0]) for line in files), sum(part.lines for part in self.parts))
        self.assertEqual([line for line in files if PROMISE in line][0].split()[1], PROMISE)
        self.assertTrue(any("its_plain" in line for line in crates))
        splits = called(REAL, "--splits", path).written.split("\n")
        self.assertIn(REAL.counted_splits(REAL.all_splits(), {part.name for part in self.parts}), splits)
        self.assertEqual(called(REAL, "--check", path), (0, "", ""))

    def test_refused(self):
        for name in ("README.md", "crates.txt", os.path.join("crates", "its_top", "src", "top.rt")):
            self.assertEqual(called(REAL, path_of(name)), (1, "", "closure: %s: no file of definitions of a crate\n" % path_of(name)))

    def test_counts(self):
        words = "docs/PROVED.md: of the definitions that distinguish events"
        self.refused(os.path.join("docs", "PROVED.md"), "of them walk a session", "walk", words)


if __name__ == "__main__":
    unittest.main()
