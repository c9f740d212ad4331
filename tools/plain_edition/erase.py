"""The eraser: leaves contracts, ghosts and the proofs' attributes out of a Rattle source, token by token.

What it leaves out becomes a token of the kind `out`, so that the blanks around it can be joined. It stops at each form that it
does not know.
"""
import re

from .tokens import FREE, TOKEN, Token, Unknown

CLAUSE = re.compile(r"(?:requires|ensures)\s+(?:\w+\s*)?(?=\{)")
GHOST_USE = re.compile(r"ghost\s+use\s[^;]*;")
GHOST_MEMBER = re.compile(r"ghost\s+\w+\s*(?=[:={])")
GHOST_PART = re.compile(r"\s*(?::|=|by)?\s*(?=\{)")
GHOST_END = re.compile(r"\s*[;,]")
PROOF_ATTRIBUTE = re.compile(r"#!?\[(?:tactic|cycle)(?=\()")
ATTRIBUTE = re.compile(r"#!?\[(\w+)")
ATTRIBUTES = ("cfg", "derive", "error", "from", "source", "inline", "macro_export", "repr", "serde", "test")
# Braces inside of these would not count.
NOT_IN_CLAUSES = re.compile(r'"|//|/\*|' + r"'[{}]'")


class Eraser:
    """Goes over one source and keeps what is code."""

    def __init__(self, text, counts):
        self.text, self.counts = text, counts
        self.at, self.line, self.kept = 0, 1, []

    def run(self):
        forms = {"#": self.attribute, "ghost": self.ghost, "requires": self.clause, "ensures": self.clause}
        while self.at < len(self.text):
            found = TOKEN.match(self.text, self.at)
            if not forms.get(found.group(), self.is_code)():
                self.keep(found)
        return self.kept

    def is_code(self):
        """What begins with anything else is kept."""
        return False

    def unknown(self, what):
        raise Unknown(self.line, f"{what}: {self.text[self.at:self.at + 60]!r}")

    def past(self, start, opening="{", closing="}"):
        """The place behind the bracket that closes the one at `start`."""
        depth = 0
        for at in range(start, len(self.text)):
            depth += (self.text[at] == opening) - (self.text[at] == closing)
            if depth == 0:
                if NOT_IN_CLAUSES.search(self.text, start, at):
                    self.unknown("a text, a comment or a bracket as a character in what is left out")
                return at + 1
        return self.unknown("brackets that do not close")

    def leave_out(self, end, form):
        self.counts[form] += 1
        self.kept.append(Token("out", "", self.line))
        self.line += self.text.count("\n", self.at, end)
        self.at = end
        return True

    def attribute(self):
        """An attribute of the proofs is left out, and one of Rust is kept."""
        found = PROOF_ATTRIBUTE.match(self.text, self.at)
        if found:
            end = self.past(found.end(), "(", ")")
            if self.text[end:end + 1] != "]":
                self.unknown("an attribute")
            return self.leave_out(end + 1, "attributes of proofs")
        found = ATTRIBUTE.match(self.text, self.at)
        if found and found[1] not in ATTRIBUTES:
            self.unknown("an attribute")
        return False

    def ghost(self):
        """An import of definitions or a ghost member, with its `pub` and with what a comment above says of it."""
        used = GHOST_USE.match(self.text, self.at)
        if used:
            return self.leave_out(used.end(), "imports of definitions")
        member = GHOST_MEMBER.match(self.text, self.at)
        if not member:
            self.unknown("a ghost")
        end = member.end()
        while part := GHOST_PART.match(self.text, end):
            end = self.past(part.end())
        last = GHOST_END.match(self.text, end)
        drop_heading(self.kept)
        return self.leave_out(last.end() if last else end, "ghost members")

    def clause(self):
        found = CLAUSE.match(self.text, self.at)
        if not found:
            self.unknown("a clause")
        return self.leave_out(self.past(found.end()), "clauses")

    def keep(self, found):
        kind = "string" if found.lastgroup == "hashes" else found.lastgroup
        if kind not in FREE and not found.group().isascii():
            self.unknown("a letter in code")
        self.kept.append(Token(kind, found.group(), self.line))
        self.line += found.group().count("\n")
        self.at = found.end()


def drop_heading(kept):
    """Drops the `pub` of a ghost member and the lines of comment that stand directly above it."""
    at = len(kept)
    if at > 1 and kept[at - 1].kind == "space" and kept[at - 2].text == "pub":
        at -= 2
    while at > 2 and kept[at - 1].kind == "space" and kept[at - 1].text.count("\n") == 1 and is_own_line(kept, at - 2):
        at -= 2
    del kept[at:]


def is_own_line(kept, at):
    """Whether this is a comment on the next item that has its line to itself."""
    comment = kept[at].kind in ("doc", "comment") and not kept[at].text.startswith("//!")
    return comment and kept[at - 1].kind in ("space", "out") and (kept[at - 1].kind == "out" or "\n" in kept[at - 1].text)


def tidied(tokens):
    """The tokens without marks of what was left out, and the blanks around these as one."""
    made = []
    for at, it in enumerate(tokens):
        if it.kind == "out":
            continue
        if it.kind == "space" and made and made[-1].kind == "space":
            made[-1] = made[-1]._replace(text=joined(made[-1].text, it.text))
        else:
            made.append(it)
        if at and tokens[at - 1].kind in ("out", "space") and len(made) > 2:
            fit(made, tokens, at)
    return made


def joined(first, second):
    """The blanks before and after what was left out, as one."""
    lines = max(first.count("\n"), second.count("\n"))
    if not lines:
        return first or second
    return "\n" * min(lines, 2) + (second.rsplit("\n", 1)[1] if "\n" in second else first.rsplit("\n", 1)[1])


def fit(made, tokens, at):
    """Sets the blank before a body, an end or after a bracket as rustfmt does, where something was left out there."""
    blank, it = made[-2], made[-1]
    near = [token.kind for token in tokens[max(0, at - 3):at]]
    if blank.kind != "space" or "out" not in near or "\n" not in blank.text:
        return
    if it.text == "{":
        made[-2] = blank._replace(text=" ")
    elif it.text in (";", ","):
        made[-2] = blank._replace(text="")
    elif made[-3].text == "{" or it.text == "}":
        made[-2] = blank._replace(text="\n" + blank.text.rsplit("\n", 1)[1])
