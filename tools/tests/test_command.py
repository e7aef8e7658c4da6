"""The ends of each tool in Python."""

import os
import tempfile
import unittest
from unittest import mock

from shared import called, loaded
from itslib import command
from itslib.session import Wrong


class Commands(unittest.TestCase):
    """The ends of each tool."""

    def test_files(self):
        with tempfile.TemporaryDirectory() as folder:
            path = os.path.join(folder, "a")
            with open(path, "wb") as file:
                file.write(b"\xe9\n")
            self.assertEqual((command.read(path), command.text_of(path)), (b"\xe9\n", "\xe9\n"))
            for wrong in (folder, path + "none"):
                self.assertRaises(Wrong, command.read, wrong)
        with mock.patch("sys.stdin", None), self.assertRaisesRegex(Wrong, "standard input is closed"):
            command.read("-")
        with mock.patch("sys.stdout", None), self.assertRaisesRegex(Wrong, "standard output is closed"):
            command.write("a")

    def test_call(self):
        def wrong():
            raise Wrong("two\nlines")

        def stopped():
            raise KeyboardInterrupt()

        module = mock.Mock(__name__="x", main=wrong)
        self.assertEqual(called(module), (1, "", "x: two lines\n"))
        self.assertEqual(command.call("x", stopped), 130)
        self.assertEqual(command.call("x", lambda: 7), 7)

    def test_words(self):
        with self.assertRaisesRegex(Wrong, r"unrecognized arguments: --no \(x --help says more\)"):
            command.Parser("x", "About.\n  As it is.").parse_args(["--no"])
        for name in ("quotes", "bench", "measure", "crates", "gatetime", "closure", "prose"):
            ended = called(loaded(name), "--help")
            self.assertEqual((ended.status, ended.said), (0, ""), name)
            self.assertIn("usage: " + name, ended.written)


if __name__ == "__main__":
    unittest.main()
