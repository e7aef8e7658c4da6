"""tools/assembled: a text is compared with a job that its session loads, by names, words and start."""

import os
import subprocess
import sys
import tempfile
import unittest
from unittest import mock

from shared import TOOLS, loaded

REAL = loaded("assembled")

SESSION = "LOAD V K 0\n100/ 1\nGO 100\nLOAD U J -\n; 100/ 7\n100/ 1 2\n200/ 3\nGO 101\nFILE D A B\n/ 4\nEOF\n"
IMAGE = "VERSION 2\nLOAD U J -\n100/ 1 2\n200/ 3\nSYM X 200\nGO 101\nEND\n"


class Jobs(unittest.TestCase):
    """The jobs of a session, and the comparison."""

    def said(self, image, source="sessions/a.asm", status=0):
        """What is said of a text that is assembled to this."""
        with tempfile.TemporaryDirectory() as folder:
            os.mkdir(os.path.join(folder, "sessions"))
            for name, text in (("sessions/a.its", SESSION), (source, "the text"),
                               ("its", "#!/bin/sh\n[ \"$1 $(cat)\" = \"asm the text\" ] || exit 9\ncat <<'IMAGE'\n%sIMAGE\nexit %d\n" % (image, status))):
                with open(os.path.join(folder, name), "w", encoding="ascii") as file:
                    file.write(text)
            os.chmod(os.path.join(folder, "its"), 0o755)
            here = os.getcwd()
            os.chdir(folder)
            try:
                return REAL.fault(os.path.join(folder, "its"), source)
            finally:
                os.chdir(here)

    def test_jobs(self):
        self.assertEqual(REAL.jobs(SESSION), [(["V", "K", "0"], {0o100: 1}, [0o100]), (["U", "J", "-"], {0o100: 1, 0o101: 2, 0o200: 3}, [0o101])])

    def test_same(self):
        self.assertIsNone(self.said(IMAGE))
        self.assertIsNone(self.said(IMAGE, "sessions/a-part.asm"))
        self.assertIsNone(self.said("LOAD V K 0\n100/ 1\nGO 100\n"))

    def test_differs(self):
        for old, new in (("U J -", "V J -"), ("U J -", "U K -"), ("U J -", "U J 0"), ("GO 101", "GO 100"), ("100/ 1 2", "100/ 1 3"),
                         ("200/ 3", "201/ 3"), ("200/ 3\n", ""), ("200/ 3", "200/ 3 4")):
            self.assertEqual(self.said(IMAGE.replace(old, new)), "sessions/a.asm: no job that sessions/a.its loads is this one", (old, new))

    def test_refused(self):
        self.assertEqual(self.said("? 3 SYNTAX\n", status=2), "sessions/a.asm: status 2: ? 3 SYNTAX")
        self.assertIn("status 5", self.said(IMAGE, status=5))
        self.assertIn("status 0", self.said("END\n"))
        self.assertIn("status 0", self.said(IMAGE + IMAGE))

    def test_status(self):
        for found, status in ((None, 0), ("a: b", 1)):
            with mock.patch.object(REAL, "fault", lambda program, source: found), mock.patch("builtins.print"), \
                    mock.patch("glob.glob", lambda pattern: ["sessions/a.asm"]):
                self.assertEqual(REAL.main("its"), status)
        with mock.patch("glob.glob", lambda pattern: []), mock.patch("builtins.print") as said:
            self.assertEqual(REAL.main("its"), 1)
        said.assert_called_once_with("tools/assembled: there is no sessions/*.asm")

    def test_each_text(self):
        with tempfile.TemporaryDirectory() as folder:
            program = os.path.join(folder, "program")
            with open(program, "w", encoding="ascii") as file:
                file.write("#!/bin/sh\necho '? 1 SYNTAX'\nexit 2\n")
            os.chmod(program, 0o755)
            done = subprocess.run([sys.executable, os.path.join(TOOLS, "assembled"), program], stdout=subprocess.PIPE, universal_newlines=True)
        self.assertEqual((done.returncode, done.stdout.split("\n")[0]), (1, "tools/assembled: sessions/alarm.asm: status 2: ? 1 SYNTAX"))
        self.assertEqual(REAL.jobs("; LOAD\nLOAD U J 0\n100/ 1 2\n; 100/ 3\nGO 100\nFILE D A B\n/ 1\nEOF\nGO 7\n"),
                         [(["U", "J", "0"], {0o100: 1, 0o101: 2}, [0o100])])


if __name__ == "__main__":
    unittest.main()
