"""The page docs/its.html: its parts, its module, and a session in it."""

import base64
import gzip
import json
import os
import unittest
from unittest import mock

from shared import examples, loaded, text_of
from itslib import page
from itslib.program import TOP
from itslib.session import Wrong

WEB = loaded("web")


class Pages(unittest.TestCase):
    """The page, and a session in it."""

    def test_stored(self):
        text = page.stored()
        self.assertTrue(page.module_in(text).startswith(b"\0asm"))
        self.assertEqual(page.unpacked(page.item(text, "texts")), page.as_json(page.texts()).encode())
        programs = [one for one in page.examples() if one["name"].startswith("system/")]
        self.assertEqual({one["name"] for one in programs}, {"system/%s.asm" % name for name in ("calc", "edit", "hactrn", "mail", "talk")})
        self.assertEqual(programs[0]["text"], text_of(programs[0]["name"]))
        self.assertEqual({one["name"][:-4] for one in page.examples() if one["name"].endswith(".its")}, {name[len("sessions/"):] for name in examples()})
        self.assertRaises(Wrong, page.item, "<html>", "module")

    def test_tasks(self):
        """The page has the tasks as students have them, without the folder of those who teach."""
        tasks = json.loads(page.unpacked(page.item(page.stored(), "texts")))["tasks"]
        self.assertEqual([one["name"][0] for one in tasks], list("12345678"))
        for one in tasks:
            folder = os.path.join(TOP, "labs", one["name"])
            self.assertEqual(sorted(["README.md", "teacher"] + [name for name, _ in one["checks"] + one["texts"]]), sorted(os.listdir(folder)))
            self.assertEqual(dict(one["texts"])["start.asm"], text_of(os.path.join("labs", one["name"], "start.asm")))

    def test_json(self):
        self.assertEqual(page.as_json({"a": ["<b>"]}), '{"a":["\\u003cb>"]}')

    def test_missing(self):
        with mock.patch.object(page, "PAGE", os.path.join(TOP, "none.html")), self.assertRaisesRegex(Wrong, r"none.html: No such file .*\(tools/web makes it\)"):
            page.stored()
        self.assertRaises(Wrong, page.part, "none.js")

    def test_modules(self):
        made = page.module_of(b"\0asm" * 100, {"commit": "c"})
        self.assertEqual((made["commit"], len(made["sum"])), ("c", 64))
        self.assertEqual(made, page.module_of(b"\0asm" * 100, {"commit": "c"}))
        stored = page.item(page.stored(), "module")
        self.assertEqual(page.module_of(page.module_in(page.stored()), {})["bytes"], stored["bytes"])
        text = page.page(made)
        self.assertEqual((page.item(text, "module"), page.module_in(text)), (made, b"\0asm" * 100))

    def test_a_pack(self):
        """The pack of a page stays as another zlib has made it, until its texts change."""
        kept = base64.b64encode(gzip.compress(b"texts", 1)).decode()
        stored = page.ITEM % ("texts", page.as_json(kept))
        with mock.patch.object(page, "stored", lambda: stored):
            self.assertEqual([page.pack_of(b"texts") == kept, page.pack_of(b"others") == page.packed(b"others")], [True, True])
        with mock.patch.object(page, "stored", lambda: "<html>"):
            self.assertEqual(page.pack_of(b"texts"), page.packed(b"texts"))
        self.assertEqual(page.unpacked(page.packed(b"texts")), b"texts")

    def test_the_size(self):
        """A page that is too large is refused, with what takes its room."""
        text = page.stored()
        page.fit(text)
        size, most = len(text.encode()), page.MOST_BYTES
        page.fit(text + " " * (most - size))
        large = text + " " * (most - size + 1)
        with self.assertRaisesRegex(Wrong, "^docs/its.html has 1200001 bytes, and may have 1200000: the module takes [0-9]+, the texts [0-9]+, the scripts"):
            page.fit(large)
        for word in ("--packed", "--check"):
            with mock.patch.object(WEB, "stored", lambda: large), mock.patch("sys.argv", ["web", word]):
                self.assertRaisesRegex(Wrong, "1200001 bytes", WEB.main)

    def test_a_fresh_build(self):
        text = page.stored()
        old = page.item(text, "module")
        with mock.patch.multiple(WEB, step=lambda words: None, build=lambda built: {**old, **built}):
            self.assertEqual(WEB.compare(text), 0)
        with mock.patch.multiple(WEB, step=lambda words: None, build=lambda built: {**old, "sum": "0"}):
            with self.assertRaisesRegex(Wrong, "the module of docs/its.html has the sum .*, and a fresh build 0"):
                WEB.compare(text)

    def test_web(self):
        text = page.stored()
        with mock.patch.object(WEB, "step", lambda words: None):
            self.assertEqual(WEB.compare_pack(text, page.item(text, "module")), 0)
            with self.assertRaisesRegex(Wrong, "docs/its.html is not the page of these files, from line 2 on"):
                WEB.compare_pack(text.replace("\n", "\n\n", 1), page.item(text, "module"))
        self.assertEqual(text_of("docs/its.html").count('id="packed"'), 1)


if __name__ == "__main__":
    unittest.main()
