"""The modules of the page as one script: what each imports and exports, and modules that cannot be joined."""

import unittest
from typing import Dict
from unittest import mock

from shared import TOP
from itslib import modules
from itslib.session import Wrong


def joined(texts: Dict[str, str], *entries: str) -> str:
    """The script of these modules."""
    with mock.patch.object(modules, "text_of", lambda name: texts[name]):
        return modules.joined(list(entries))


class Joined(unittest.TestCase):
    """Modules that are joined."""

    def test_a_module_comes_after_those_that_it_imports(self) -> None:
        texts = {"page/a.js": 'import {b as c, d} from "../lib/b.js";\nexport function e() { return c + d; }\n',
                 "lib/b.js": "export const b = 1, d = 2;\nexport class F {}\n"}
        self.assertEqual(joined(texts, "page/a.js"), modules.LOADER + (
            'MODULES["lib/b.js"] = () => {\n"use strict";\nconst b = 1, d = 2;\nclass F {}\nreturn {b, d, F};\n};\n'
            'MODULES["page/a.js"] = () => {\n"use strict";\nconst {b: c, d} = $("lib/b.js");\nfunction e() { return c + d; }\nreturn {e};\n};\n'))

    def test_what_cannot_be_joined(self) -> None:
        for texts in ({"a.js": 'import {b} from "./b.js";\n', "b.js": 'import {a} from "./a.js";\n'}, {"a.js": "export let a = 1;\n"},
                      {"a.js": 'import b from "./b.js";\n'}, {"a.js": 'const a = "</script>";\n'}):
            self.assertRaises(Wrong, joined, texts, "a.js")

    def test_comments(self) -> None:
        text = "// A head\n\n/** Of a. */\nconst a = 1;    // one\n  /** Of b,\n   * in two lines. */\n  const b = `\n * c\n`;\n"
        self.assertEqual(modules.bare("a.js", text), "\nconst a = 1;    // one\n  const b = `\n * c\n`;\n")
        self.assertEqual(modules.bare("a.js", "/** @type {A} */ (b).c = 1;\n"), "/** @type {A} */ (b).c = 1;\n")
        for wrong in ("const a = `\n// b\n`;\n", "/** a\n", "const a = `;\n", "/** a\n*/ b();\n"):
            self.assertRaises(Wrong, modules.bare, "a.js", wrong)

    def test_a_module_that_is_not_there(self) -> None:
        self.assertRaisesRegex(Wrong, "tools/page/none.js: No such file", modules.text_of, "page/none.js")
        self.assertIn("export", modules.text_of("page/state.js"))
        self.assertTrue(TOP)


if __name__ == "__main__":
    unittest.main()
