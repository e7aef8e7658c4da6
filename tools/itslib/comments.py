"""The comments of a source text: the prose that a reader finds in it."""

import ast
import inspect
import io
import re
import tokenize
from typing import Dict, List, Tuple

# What is passed over or taken in a text, in the order in which it is tried. A comment is the group `comment`.
STRING = r'"(?:\\.|[^"\\])*"'
REGEX = r"[(,=:\[!&|?{};]\s*/(?![/*])(?:\\.|\[(?:\\.|[^\]\\\n])*\]|[^/\\\n\[])+/"
LIKE_C = r"(?P<comment>//[^\n]*|/\*.*?\*/)|" + STRING + r"|'(?:\\.[^'\n]*|[^'\\\n])'"
TOKENS: Dict[str, str] = {
    "c": LIKE_C,
    "css": r"(?P<comment>/\*.*?\*/)|" + STRING + r"|'(?:\\.|[^'\\\n])*'",
    "js": r"(?P<comment>//[^\n]*|/\*.*?\*/)|" + STRING + r"|'(?:\\.|[^'\\\n])*'|`(?:\\.|[^`\\])*`|" + REGEX,
    "rt": LIKE_C,
    "antt": r"(?P<comment>--[^\n]*)|" + STRING,
    "sh": r"<<-?\s*'?(?P<end>\w+)'?[^\n]*\n.*?\n(?P=end)(?=\n)|'[^']*'|" + STRING + r"|\\.|(?<![^\s;(])(?P<comment>#[^\n]*)",
    "txt": r"(?P<comment>#[^\n]*)",
}
MARKS = re.compile(r"^\s*(?:#!|#+|//[/!]?|--+|/\*+|\*/|\*(?!\*))? ?(.*?)\s*(?:\*/)?\s*$")


def language_of(path: str, text: str) -> str:
    """The language of a file, by the ending of its name or by its first line; nothing if it is none that has comments here."""
    name = path.rsplit("/", 1)[-1]
    if "." in name:
        ending = name.rsplit(".", 1)[1]
        return {"h": "c", "mjs": "js"}.get(ending, ending) if ending in ("py", "h", "mjs") or ending in TOKENS else ""
    first = text.split("\n", 1)[0]
    return "py" if "python" in first else "sh" if first.startswith("#!") else ""


def of_python(text: str) -> List[Tuple[int, str]]:
    """The comments and the docstrings of a Python text, each with its first line."""
    found, starts = [], True
    for token in tokenize.generate_tokens(io.StringIO(text).readline):
        if token.type == tokenize.COMMENT:
            found.append((token.start[0], token.string))
        elif token.type == tokenize.STRING and starts and isinstance(ast.literal_eval(token.string), str):
            found.append((token.start[0], inspect.cleandoc(ast.literal_eval(token.string))))
        if token.type not in (tokenize.COMMENT, tokenize.NL):
            starts = token.type in (tokenize.NEWLINE, tokenize.INDENT, tokenize.DEDENT)
    return found


def of_others(text: str, tokens: str) -> List[Tuple[int, str]]:
    """The comments of a text of another language, each with its line."""
    return [(text.count("\n", 0, found.start("comment")) + 1, found.group("comment"))
            for found in re.finditer(tokens, text, re.S) if found.group("comment")]


def comments_of(path: str, text: str) -> str:
    """The comments of a file, each in its own line, without all else. Each begins with `# `, except a line that goes on with the comment of the
    line before."""
    language = language_of(path, text)
    if not language:
        return ""
    found = of_python(text) if language == "py" else of_others(text, TOKENS[language])
    marks = [line.strip()[:2] for line in text.split("\n")]
    lines = [""] * len(marks)
    for first, comment in found:
        is_docstring = language == "py" and not comment.startswith("#")
        for at, line in enumerate(comment.split("\n"), first - 1):
            shown = line if is_docstring else MARKS.sub(r"\1", line)
            goes_on = at >= first or at > 0 and marks[at - 1] == marks[at] == comment[:2]
            lines[at] = shown if goes_on else "# " + shown
    return "\n".join(lines)
