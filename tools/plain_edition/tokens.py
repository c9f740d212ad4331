"""The tokens of a source, with the line at which each begins."""
import re
from typing import NamedTuple

TOKEN = re.compile(r"""
    (?P<space>\s+)
  | (?P<doc>//[/!][^\n]*)
  | (?P<comment>//[^\n]*|/\*.*?\*/)
  | (?P<string>b?"(?:[^"\\]|\\.)*"|b?r(?P<hashes>\#*)".*?"(?P=hashes))
  | (?P<char>b?'(?:\\(?:x[0-9A-Fa-f]{2}|u\{[0-9A-Fa-f]+\}|.)|[^'\\])')
  | (?P<lifetime>'[A-Za-z_]\w*)
  | (?P<word>[A-Za-z_]\w*)
  | (?P<number>[0-9][A-Za-z_0-9]*(?:\.[0-9][A-Za-z_0-9]*)?)
  | (?P<mark>::|->|=>|.)
""", re.VERBOSE | re.DOTALL)

BLANK = ("space", "doc", "comment")
# Only these may hold what is not ASCII.
FREE = BLANK + ("string", "char")


class Unknown(Exception):
    """A form that the eraser does not know, with its line."""

    def __init__(self, line, text):
        super().__init__(f"{line}: {text}")


class Token(NamedTuple):
    """A piece of a source: its kind, its text and the line at which it begins."""

    kind: str
    text: str
    line: int


def tokens_of(text):
    """All tokens of a text, blanks and comments included: together they are the text."""
    found, at, line = [], 0, 1
    while at < len(text):
        match = TOKEN.match(text, at)
        kind = "string" if match.lastgroup == "hashes" else match.lastgroup
        found.append(Token(kind, match.group(), line))
        line += match.group().count("\n")
        at = match.end()
    return found


def code_of(tokens):
    """The tokens without blanks and comments."""
    return [it for it in tokens if it.kind not in BLANK]


def text_of(tokens):
    return "".join(it.text for it in tokens)
