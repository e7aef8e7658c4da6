"""Joins the modules of the page into one script. Each becomes a function that gives what it exports, and is called when it is asked for first.
Lines that are comments are left out."""

import os
import re
from typing import Dict, List

from .program import TOP
from .session import Wrong

FOLDER = os.path.join(TOP, "tools")
IMPORT = re.compile(r'^import \{([^}]*)\} from "([^"]+)";\n', re.M)
EXPORT = re.compile(r"^export ((?:async )?function\*?|class|const) (\w+)(.*)$", re.M)
MORE = re.compile(r", (\w+) = ")         # a further name of `export const A = 1, B = 2;`
# The loader: $(name) gives what the module of this name exports
LOADER = """const MODULES = {}, MADE = {};
function $(name) {
  if (!MADE[name]) MADE[name] = MODULES[name]();
  return MADE[name];
}
"""


def text_of(name: str) -> str:
    """A module, by its path below tools/."""
    try:
        with open(os.path.join(FOLDER, name), encoding="utf-8") as file:
            return file.read()
    except OSError as problem:
        raise Wrong("tools/%s: %s" % (name, problem.strerror))


def bare(name: str, text: str) -> str:
    """A module without the lines that are comments. No such line may be in a text that goes over several lines."""
    lines: List[str] = []
    in_comment = in_text = False
    for line in text.split("\n"):
        word = line.strip()
        begins = word.startswith("/**") and word.find("*/") in (-1, len(word) - 2)
        is_comment = in_comment or begins or word.startswith("//")
        if is_comment and in_text:
            raise Wrong("tools/%s: a line of a text looks like a comment: %s" % (name, word))
        if not is_comment:
            lines.append(line)
            in_text ^= line.count("`") % 2 == 1
        elif in_comment or begins:
            in_comment = "*/" not in word
            if not in_comment and not word.endswith("*/"):
                raise Wrong("tools/%s: something follows a comment in its line: %s" % (name, word))
    if in_comment or in_text:
        raise Wrong("tools/%s: a comment or a text has no end" % name)
    return "\n".join(lines)


def imported(name: str, text: str) -> List[str]:
    """The modules that a module imports, by their paths below tools/."""
    return [os.path.normpath(os.path.join(os.path.dirname(name), found.group(2))) for found in IMPORT.finditer(text)]


def as_function(name: str, text: str) -> str:
    """A module as a function that gives what it exports."""
    exported: List[str] = []

    def taken(found: "re.Match[str]") -> str:
        """An import as names that another module has exported."""
        names = ", ".join(one.strip().replace(" as ", ": ") for one in found.group(1).split(",") if one.strip())
        return 'const {%s} = $("%s");\n' % (names, os.path.normpath(os.path.join(os.path.dirname(name), found.group(2))))

    def plain(found: "re.Match[str]") -> str:
        """What is exported, as a name of the function."""
        exported.append(found.group(2))
        if found.group(1) == "const":
            exported.extend(MORE.findall(found.group(3)))
        return "%s %s%s" % found.groups()

    body = EXPORT.sub(plain, IMPORT.sub(taken, text))
    rest = re.search(r"^(import|export)\b.*", body, re.M)
    if rest or "</script" in body:
        raise Wrong("tools/%s: what it imports or exports has a form that is not joined here: %s" % (name, rest.group() if rest else "</script"))
    return 'MODULES["%s"] = () => {\n"use strict";\n%sreturn {%s};\n};\n' % (name, body, ", ".join(exported))


def joined(entries: List[str]) -> str:
    """The script of some modules with those that they import. No two modules may import each other."""
    functions: Dict[str, str] = {}

    def add(name: str, path: List[str]) -> None:
        """Adds a module after those that it imports."""
        if name in path:
            raise Wrong("modules import each other: " + " ".join(path[path.index(name):] + [name]))
        if name in functions:
            return
        text = text_of(name)
        for other in imported(name, text):
            add(other, path + [name])
        functions[name] = as_function(name, bare(name, text))

    for entry in entries:
        add(entry, [])
    return LOADER + "".join(functions.values())
