"""The forms of code, beside contracts, that plain Rust writes otherwise.

Most are tokens that are left out. What is put in is listed in docs/PLAIN.md: the head lines of each file and the first line of
`main`.
"""
import re

from .tokens import BLANK, Token, Unknown

HANDLED = ("assert", "assert_eq", "assert_ne")
# Macros that the shim takes with the handle of the system.
WITH_HANDLE = HANDLED + ("print", "println", "eprintln")
FILE_HEAD = "use std::prelude::v1::*;\n"
ROOT_HEAD = "#![no_std]\n#[macro_use]\nextern crate std;\n"
FORMATTER = "< W : fmt :: Write >".split()
NOTHING = re.compile(r"\{ fn drop \( self \) \{ match self \{ [^{}]* => \{ \} (?:, )?\} \} \}")


class Code:
    """The tokens of a file, whose code is read without its blanks."""

    def __init__(self, tokens, counts):
        self.tokens, self.counts = list(tokens), counts
        self.places = [at for at, it in enumerate(tokens) if it.kind not in BLANK + ("out",)]
        self.words = [tokens[at].text for at in self.places]

    def starts(self, at, text):
        words = text.split()
        return self.words[at:at + len(words)] == words

    def line(self, at):
        return self.tokens[self.places[at]].line

    def leave_out(self, first, end, form):
        """Leaves out the code from the first of these to before the last, with the blanks between."""
        for at in range(self.places[first], self.places[end - 1] + 1):
            self.tokens[at] = Token("out", "", self.tokens[at].line)
        self.counts[form] += 1

    def put_behind(self, at, text):
        it = self.tokens[self.places[at]]
        self.tokens[self.places[at]] = it._replace(text=it.text + text)

    def past(self, start):
        """The place behind the bracket that closes the one here."""
        depth = 0
        for at in range(start, len(self.words)):
            depth += (self.words[at] in "([{") - (self.words[at] in ")]}")
            if not depth:
                return at + 1
        raise Unknown(self.line(start), "brackets that do not close")


def derives(code, at):
    """`Drop` is no derive of Rust."""
    if not code.starts(at, "# [ derive ("):
        return
    end = code.past(at + 3)
    names = [it for it in range(at + 4, end - 1) if code.words[it] == "Drop"]
    if not names:
        return
    if end - 1 == at + 5:
        code.leave_out(at, end + 1, "derives of Drop")
    elif names[0] == at + 4:
        code.leave_out(at + 4, at + 6, "derives of Drop")
    else:
        code.leave_out(names[0] - 1, names[0] + 1, "derives of Drop")


def handles(code, at):
    """Rust's assertions take no handle of the system."""
    if code.words[at] != "!" or at < 1 or not code.starts(at + 1, "("):
        return
    start = at + 2 + code.starts(at + 2, "&")
    if not code.starts(start + 1, ";") or not code.words[start].isidentifier():
        return
    if code.words[at - 1] not in WITH_HANDLE:
        raise Unknown(code.line(at), f"a macro with a handle: {code.words[at - 1]}!")
    if code.words[at - 1] in HANDLED:
        code.leave_out(at + 2, start + 2, "handles in assertions")


def formatters(code, at):
    """Rust's formatter has no type parameter."""
    if code.starts(at, "fn fmt < W : fmt :: Write >"):
        code.leave_out(at + 2, at + 2 + len(FORMATTER), "parameters of formatters")
    elif code.starts(at, "fmt :: Formatter < W >"):
        code.leave_out(at + 3, at + 6, "parameters of formatters")


def drops(code, at):
    """Rattle's `drop` takes its value. One that does nothing is left out."""
    if not code.starts(at, "Drop for"):
        return
    first = at - 1
    while code.words[first] != "impl":
        first -= 1
    body = code.words.index("{", at)
    end = code.past(body)
    if not NOTHING.fullmatch(" ".join(code.words[body:end])):
        raise Unknown(code.line(at), "an impl of Drop that does something")
    code.leave_out(first, end, "drops that do nothing")


def main(code, at):
    """`main` has the handle of the system in its first line."""
    if not code.starts(at, "fn main ("):
        return
    end = code.past(at + 2)
    name = code.words[at + 3]
    if code.words[at + 3:end - 1] != [name, ":", "HostRuntime"]:
        raise Unknown(code.line(at), "a main of other parameters")
    code.leave_out(at + 3, end - 1, "parameters of main")
    code.put_behind(code.words.index("{", end), f"\n    let {name} = HostRuntime;")


# By the word with which each begins.
FORMS = {"#": [derives], "!": [handles], "fn": [formatters, main], "fmt": [formatters], "Drop": [drops]}


def rewritten(tokens, counts):
    """The tokens with all these forms as Rust has them."""
    code = Code(tokens, counts)
    for at, word in enumerate(code.words):
        for form in FORMS.get(word, ()):
            form(code, at)
    return code.tokens


def with_head(text, is_root):
    """The text with its head lines, behind what it says of itself."""
    lines = text.split("\n")
    count = next((at for at, line in enumerate(lines) if line.strip() and not line.startswith("//!")), len(lines))
    while count and not lines[count - 1].strip():
        count -= 1
    said = "\n".join(lines[:count]) + "\n" if count else ""
    return said + (ROOT_HEAD if is_root else "") + FILE_HEAD + "\n" + "\n".join(lines[count:]).lstrip("\n")
