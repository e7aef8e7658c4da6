"""The page docs/its.html: the proved program as a WebAssembly module, the examples, and the style and the scripts of tools/page, in one file.
And the same page with a session in it, which it then opens."""

import base64
import glob
import gzip
import hashlib
import json
import os
import re
import zlib
from typing import Any, Dict, List

from . import wrong
from .modules import joined
from .program import TOP
from .session import Wrong

FOLDER = os.path.join(TOP, "tools", "page")
PAGE = os.path.join(TOP, "docs", "its.html")
ENTRIES = ["page/page.js", "page/answers.js"]     # of the page itself, and of its worker
GZIP = 16 + zlib.MAX_WBITS       # packs as gzip does, without a time, and alike in each version of Python
ITEM = '<script type="application/json" id="%s">\n%s\n</script>'
MOST_BYTES = 1_200_000           # of the page


def examples() -> List[dict]:
    """The sessions and the assembly texts of sessions/, those of the tour first; and the programs of system/."""
    paths = [path for folder in ("", "exercises", "midas", "wrong") for kind in ("its", "asm", "mid")
             for path in sorted(glob.glob(os.path.join(TOP, "sessions", folder, "*." + kind)))]
    found = []
    for path in paths:
        with open(path, encoding="latin-1") as file:
            found.append({"name": os.path.relpath(path, os.path.join(TOP, "sessions")), "text": file.read()})
    programs = [{"name": "system/" + name, "text": text} for name, text in files_of(os.path.join(TOP, "system"), "asm")]
    return sorted(found, key=lambda one: not one["name"].startswith("tour")) + programs


def files_of(folder: str, ending: str) -> List[List[str]]:
    """The name and the text of each file of a folder with this ending, in the order of their names."""
    found = []
    for path in sorted(glob.glob(os.path.join(folder, "*." + ending))):
        with open(path, encoding="latin-1") as file:
            found.append([os.path.basename(path), file.read()])
    return found


def tasks() -> List[dict]:
    """The tasks of labs/ as students have them: the page, the public checks, and the texts beside them."""
    folders = [os.path.dirname(path) for path in sorted(glob.glob(os.path.join(TOP, "labs", "*", "README.md")))]
    return [{"name": os.path.basename(folder), "page": files_of(folder, "md")[0][1], "checks": files_of(folder, "its"),
             "texts": files_of(folder, "asm")} for folder in folders]


def part(name: str) -> str:
    """A file of tools/page."""
    try:
        with open(os.path.join(FOLDER, name), encoding="utf-8") as file:
            return file.read()
    except OSError as problem:
        raise Wrong("%s: %s" % (os.path.join(FOLDER, name), problem.strerror))


def as_json(value: object) -> str:
    """A value as JSON that may be in a page."""
    return json.dumps(value, separators=(",", ":")).replace("<", "\\u003c")


def packed(content: bytes) -> str:
    """Bytes as they are in the page."""
    packer = zlib.compressobj(9, zlib.DEFLATED, GZIP)
    return base64.b64encode(packer.compress(content) + packer.flush()).decode()


def unpacked(pack: str) -> bytes:
    """Such bytes again."""
    return gzip.decompress(base64.b64decode(pack))


def module_of(module: bytes, built: Dict[str, object]) -> dict:
    """A module in the page: its source, its sum, and its bytes, packed."""
    return {**built, "sum": hashlib.sha256(module).hexdigest(), "bytes": packed(module)}


def texts() -> dict:
    """The texts of the page: the examples, the tasks, and the transcripts of other monitors."""
    return {"examples": examples(), "tasks": tasks(), "others": wrong.examples()}


def pack_of(content: bytes) -> str:
    """The texts, packed: as the stored page has them if they are the same, since another zlib may pack them otherwise."""
    try:
        kept = item(stored(), "texts")
        return kept if unpacked(kept) == content else packed(content)
    except Wrong:
        return packed(content)


def page(module: dict) -> str:
    """The page with a module."""
    parts = {"/* style */": part("page.css"), "/* modules */": joined(ENTRIES), "<!-- module -->": as_json(module),
             "<!-- texts -->": as_json(pack_of(as_json(texts()).encode()))}
    marks = "|".join(map(re.escape, parts))
    return re.sub(marks, lambda mark: parts[mark.group()].rstrip("\n"), part("page.html"))


def fit(text: str) -> None:
    """Refuses a page that is too large, and says what takes its room."""
    size, some = len(text.encode()), {name: len(as_json(item(text, name))) for name in ("module", "texts")}
    if size > MOST_BYTES:
        raise Wrong("docs/its.html has %d bytes, and may have %d: the module takes %d, the texts %d, the scripts, the style and the rest %d"
                    % (size, MOST_BYTES, some["module"], some["texts"], size - sum(some.values())))


def item(text: str, name: str) -> Any:
    """A value that a page has, by its name."""
    found = re.search(re.escape(ITEM) % (name, "(.*?)"), text, re.S)
    if not found:
        raise Wrong("this is no page that tools/web made")
    return json.loads(found.group(1))


def stored() -> str:
    """The page that the repository has."""
    try:
        with open(PAGE, encoding="utf-8") as file:
            return file.read()
    except OSError as problem:
        raise Wrong("%s: %s (tools/web makes it)" % (os.path.relpath(PAGE, TOP), problem.strerror))


def module_in(text: str) -> bytes:
    """The WebAssembly module of a page."""
    return unpacked(item(text, "module")["bytes"])
