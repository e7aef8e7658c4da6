"""tools/edits: what rt says of must-fail edits, and what they say themselves."""

import os
import tempfile
import unittest
from unittest import mock

from shared import called, loaded

REAL = loaded("edits")
COMPARED = REAL.compared

CODE = """//! A crate.

/// The next one.
/// More of it.
#[tactic(auto)]
pub fn next(last: u8) -> u8
    ensures turn { result ≡ last + 1 }
{
    let next = last + 1;
    next
}

impl Rings {
    #[tactic(auto)]
    pub(crate) const fn first(&self) -> u8
    {
        0
    }
}
"""
# What rt says of an edit, and the function and the clause that this names
SAYS = (
    ("note: src/lib.rt:5:1: it is not proved that what the function ensures holds when it returns (`returns-in-None-clause-turn`)", "next turn"),
    ("note: src/lib.rt:3:1: it is not proved (`returns-clause-turn`); the facts known there allow values", "next turn"),
    ("note: src/lib.rt:9:13: it is not proved that the sum does not wrap (`add-no_wrap`)", "next add-no_wrap"),
    ("note: src/lib.rt:14:5: it is not proved (`returns-then-runs-slot`)", "first returns"),
    ("src/lib.rt:17:5: error: `returns`: no", "first returns"),
    ("note: src/lib.rt:16:5: it is not proved that a name which is very long is proved here (`returns-in-None-clause-tu", "first tu"),
    ("./proofs/links/Links/push_back/Answers.antt:19:192: error: `invariant_of-self`: the two types differ", "push_back invariant"),
    ("note: src/lib.rt:9:1: it is not proved that the `invariant` of the struct's `impl Model` holds of its fields where i", "next invariant"),
    ("proofs/links/next/Invariants.antt:1:1: error: `loop-run-preserved`: no", "next loop-run-preserved"),
    ("./proofs/ChartLaws.antt:37:12: error: `chart_is`: expected type `a`", "ChartLaws chart_is"),
    ("src/lib.rt:1:1: error: no goal is named", None),
    ("", None),
)
REFUSED = "rt: must-fail low/%s.edit: refused, as it must be: " + SAYS[0][0] + "\n"
LIMIT = "rt: must-fail low/a.edit: refused, as it must be (only by a limit of the prover, which gave no verdict, so this says less): src/lib.rt:5:1: error\n"
TAKEN = "rt: must-fail low/a.edit: refused, as it must be (only because a proof file names what the edit took away, so this says little): x\n"


class Edits(unittest.TestCase):
    """A repository of two edits."""

    def setUp(self):
        folder = tempfile.TemporaryDirectory()
        self.addCleanup(folder.cleanup)
        self.top = folder.name
        self.put("src/lib.rt", CODE)
        for name in "ab":
            self.put("must-fail/%s.edit" % name, "# clause: next turn\nfile: src/lib.rt\nold: 0\nnew: 1\n")

    def put(self, name, text):
        """Writes a file of the crate."""
        path = os.path.join(self.top, "crates", "low", name)
        os.makedirs(os.path.dirname(path), exist_ok=True)
        with open(path, "w", encoding="utf-8") as file:
            file.write(text)

    def wrong(self, log, *names):
        """What is wrong by a log."""
        return REAL.compared(log, list(names), self.top)[1]

    def test_refusing(self):
        for said, wanted in SAYS:
            self.assertEqual(REAL.refusing("low", "refused, as it must be" + (": " + said if said else ""), self.top), wanted, said)

    def test_right(self):
        log = "== low\n" + REFUSED % "a" + REFUSED % "b" + "3 passed, 0 failed\n"
        self.assertEqual(REAL.compared(log, [], self.top), (2, []))
        self.assertEqual(REAL.compared(log, ["low"], self.top), (2, []))
        self.assertEqual(REAL.compared(log, ["high"], self.top), (0, []))

    def test_clause(self):
        other = "low/a.edit is refused by next turn, and names %s (the line for it is '# clause: next turn')"
        for text, told in (("", "no clause"), ("# clause: next nearest\n", "next nearest"), ("# clause: first turn\n", "first turn"),
                           ("# clause: next turn\n# clause: first turn\n", "next turn and first turn"), ("clause: next turn\n", "no clause")):
            self.put("must-fail/a.edit", text + "file: src/lib.rt\nold: 0\nnew: 1\n")
            self.assertEqual(self.wrong(REFUSED % "a" + REFUSED % "b"), [other % told])

    def test_write(self):
        edit = "file: src/lib.rt\nold: \u2261\nnew: 1\n"
        for text in ("", "# clause: next nearest\n", "# clause: next turn\n# clause: next turn\n"):
            self.put("must-fail/a.edit", text + edit)
            REAL.write_all(REFUSED % "a" + LIMIT.replace("/a", "/b") + REFUSED % "c", [], self.top)
            for name, wanted in (("a", "# clause: next turn\n" + edit), ("b", "# clause: next turn\nfile: src/lib.rt\nold: 0\nnew: 1\n")):
                with open(os.path.join(self.top, "crates/low/must-fail", name + ".edit"), encoding="utf-8") as file:
                    self.assertEqual(file.read(), wanted)

    def test_poor(self):
        for line, told in ((LIMIT, "is refused only by a limit of the prover"), (TAKEN, "is refused only because a proof file names what it took away"),
                           ("rt: must-fail low/a.edit: BAD EDIT: an 'old:' text is in src/lib.rt 0 times, and not once\n", "is a bad edit"),
                           ("rt: must-fail low/a.edit: NOT REFUSED: the crate is still proved with this edit\n", "is not refused"),
                           ("rt: must-fail low/a.edit: NOT TRIED: its check was killed\n", "was not tried"),
                           ("rt: must-fail low/a.edit: refused, as it must be\n", "is refused, and no clause is named: refused, as it must be"),
                           ("", "is not mentioned in the log")):
            self.assertEqual(self.wrong(line + REFUSED % "b"), ["low/a.edit " + told])

    def test_others(self):
        log = REFUSED % "a" + REFUSED % "b"
        self.assertEqual(self.wrong(log + REFUSED % "c"), ["low/c.edit is in the log, and is no edit here"])
        bad = "crates/low/must-fail/c d.edit: BAD EDIT: an edit stands right in must-fail/"
        self.assertEqual(self.wrong(log + "rt: " + bad + "\n"), [bad])

    def test_status(self):
        log = os.path.join(self.top, "log")
        for text, status, said in ((REFUSED % "a", 0, "edits: 2, and each is refused by the clause that it names\n"),
                                   ("", 1, "edits: low/a.edit is not mentioned in the log\n")):
            with open(log, "w", encoding="utf-8") as file:
                file.write(text + REFUSED % "b")
            with mock.patch.object(REAL, "compared", lambda log, names: COMPARED(log, names, self.top)):
                self.assertEqual(called(REAL, log), (status, said, ""))
        with mock.patch.object(REAL, "compared", lambda log, names: (0, [])):
            self.assertEqual(called(REAL, log, "high"), (1, "", "edits: there is no edit of these crates\n"))


if __name__ == "__main__":
    unittest.main()
