"""The monitors that are wrong: their edits, their recorded transcripts, and the checks of tools/wrong."""

import contextlib
import io
import os
import unittest
from unittest import mock

from shared import loaded, text_of
from itslib import wrong
from itslib.program import TOP
from itslib.session import Wrong

TOOL = loaded("wrong")
EDIT = "# clause: run row\nfile: src/a.rt\nold: one\nnew: two\nold: three\nnew: four: five\n"


def said(act):
    """The status of a check, and what it writes."""
    out = io.StringIO()
    with contextlib.redirect_stdout(out), mock.patch.object(TOOL, "write", out.write):
        status = act()
    return status, out.getvalue()


class Edits(unittest.TestCase):
    """An edit as rt reads it."""

    def test_changes(self):
        self.assertEqual(wrong.changes_in(EDIT, "a"), [("src/a.rt", "one", "two"), ("src/a.rt", "three", "four: five")])
        for text in ("file: a\nnew: b\n", "old: a\nnew: b\n"):
            self.assertRaisesRegex(Wrong, "without 'file:' and 'old:'", wrong.changes_in, text, "a.edit")

    def test_changed(self):
        change = wrong.Change("a", "one", "two")
        self.assertEqual(wrong.changed("x one y", change, "a.edit"), "x two y")
        for text, count in (("none", 0), ("one one", 2)):
            self.assertRaisesRegex(Wrong, "the words 'one' are there %d times" % count, wrong.changed, text.replace("none", ""), change, "a.edit")

    def test_monitors(self):
        """Each monitor is an edit of the gate, names its clause, and its words are in the sources once."""
        self.assertEqual(wrong.names(), ["call-fails", "lost-byte", "stale-words", "taken-twice"])
        for name in wrong.names():
            monitor = wrong.monitor(name)
            self.assertTrue(monitor.clause and monitor.changes)
            for change in monitor.changes:
                with open(os.path.join(TOP, "crates", monitor.crate, change.path), encoding="utf-8") as file:
                    self.assertNotEqual(wrong.changed(file.read(), change, name), "")
        self.assertRaisesRegex(Wrong, "there is no monitor none: call-fails, ", wrong.monitor, "none")
        for edit in ("sessions/wrong/list.json", "crates/its_pclsr/must-fail/none.edit"):
            with mock.patch.object(wrong, "record", lambda edit=edit: {"some": {"edit": edit}}):
                self.assertRaisesRegex(Wrong, "is no edit of a crate", wrong.monitor, "some")


class Transcripts(unittest.TestCase):
    """What is recorded."""

    def test_recorded(self):
        """Four to eight sessions for each monitor; each transcript is that of the proved one up to the line that is refused, and not there."""
        for name in wrong.names():
            own = [one for one in wrong.recorded() if one.monitor == name]
            self.assertTrue(4 <= len(own) <= 8, name)
            for one in own:
                proved, found = (text_of(path).split("\n") for path in (os.path.join(TOP, "sessions", one.session[:-4] + ".out"), one.transcript))
                self.assertEqual(found[:one.line - 1], proved[:one.line - 1], one.transcript)
                self.assertNotEqual(found[one.line - 1], proved[one.line - 1], one.transcript)

    def test_examples(self):
        """The page has each, with the monitor's fault, and the clause that refuses it."""
        examples = wrong.examples()
        self.assertEqual(len(examples), len(wrong.recorded()))
        for one in examples:
            self.assertRegex(one["about"], r"^(In t|T)his monitor .*\. The prover refuses it: ")
            self.assertTrue(os.path.exists(os.path.join(TOP, "sessions", one["session"])))

    def test_faults(self):
        """A transcript at another line, one that is licensed, and an own transcript that is not, are each found."""
        one = wrong.recorded()[0]
        for theirs, own, expected in ((one.line, 0, 0), (one.line + 1, 0, 1), (0, 0, 1), (one.line, 3, 1)):
            with mock.patch.object(wrong, "recorded", lambda: [one]), mock.patch.object(wrong, "names", lambda: [one.monitor]), \
                 mock.patch.object(wrong, "ours", lambda *words: ""), \
                 mock.patch.object(wrong, "judged", lambda session, text, theirs=theirs, own=own: theirs if text else own):
                status, text = said(TOOL.check_recorded)
            self.assertEqual(status, expected, text)
        with mock.patch.object(wrong, "recorded", lambda: []):
            self.assertIn("lost-byte has no transcript", said(TOOL.check_recorded)[1])


if __name__ == "__main__":
    unittest.main()
