"""The check that the plain edition is its source with tokens left out, but for a written list of what is put in.

It shares no rule with the eraser: it walks the tokens of a source and of its plain file side by side. Where the source has a form
that may be left out, it goes past the whole form; everywhere else both must have the same token. What is put in has to stand
at its place, and nowhere else.
"""
import collections

from .tokens import code_of, tokens_of

HEAD = "use std :: prelude :: v1 :: * ;".split()
ROOT = "# ! [ no_std ] # [ macro_use ] extern crate std ;".split()
BRACKETS = {"(": ")", "[": "]", "{": "}"}
# Words of Rust's statements, which no clause has.
STATEMENTS = {"mut", "return", "while", "loop", "break", "continue", "unsafe", "impl", "use", "mod", "pub", "struct", "enum"}


class Differs(Exception):
    """A place at which a plain file is not its source with forms left out."""


class Walk:
    """One source beside its plain file."""

    def __init__(self, source, plain):
        self.source, self.plain = code_of(tokens_of(source)), code_of(tokens_of(plain))
        self.words = [it.text for it in self.source]
        self.at = self.there = 0
        self.left_out, self.put_in = collections.Counter(), collections.Counter()

    def has(self, text, at=None):
        words = text.split()
        start = self.at if at is None else at
        return self.words[start:start + len(words)] == words

    def before(self):
        return self.words[self.at - 1] if self.at else ""

    def differs(self, why):
        found = self.plain[self.there].text if self.there < len(self.plain) else "the end"
        line = self.source[min(self.at, len(self.source) - 1)].line
        raise Differs(f"line {line}: {why}, the plain file has {found!r}")

    def past(self, at):
        """Behind the bracket that closes the one here; brackets of one kind count."""
        opening, depth = self.words[at], 0
        if opening not in BRACKETS:
            self.differs(f"{opening!r} where a bracket opens")
        for end in range(at, len(self.words)):
            depth += (self.words[end] == opening) - (self.words[end] == BRACKETS[opening])
            if not depth:
                return end + 1
        return self.differs("a bracket that does not close")

    def clause(self):
        """`requires NAME {..}` between a signature and its body."""
        if self.words[self.at] not in ("requires", "ensures"):
            return 0
        at = self.at + 1
        at += self.words[at] != "{"
        end = self.past(at)
        if self.words[end] not in ("{", ";", "requires", "ensures"):
            self.differs(f"a clause before {self.words[end]!r}")
        if self.before() in ("{", ";", ",", "=", "("):
            self.differs(f"a clause behind {self.before()!r}")
        if wrong := STATEMENTS.intersection(self.words[at:end]):
            self.differs(f"a clause with {wrong}")
        return end

    def ghost(self):
        at = self.at + (self.words[self.at] == "pub")
        if self.words[at] != "ghost":
            return 0
        if self.words[at + 1] == "use":
            return self.words.index(";", at) + 1
        end = at + 2
        while self.words[end] in (":", "=", "by"):
            end = self.past(end + 1)
        return end + (self.words[end] in (",", ";"))

    def attribute(self):
        for text in ("# [ tactic", "# [ cycle", "# ! [ tactic", "# ! [ cycle"):
            if self.has(text):
                return self.past(self.at + len(text.split()) - 2)
        return self.at + 7 if self.has("# [ derive ( Drop ) ]") else 0

    def derive(self):
        if self.has(", Drop") and self.words[self.at + 2] in (",", ")") and self.is_in_derive():
            return self.at + 2
        return self.at + 2 if self.has("Drop ,") and self.is_in_derive() else 0

    def is_in_derive(self):
        at = self.at - 1
        while at > 1 and (self.words[at] == "," or self.words[at].isidentifier()) and self.words[at] != "derive":
            at -= 1
        return self.words[at - 3:at + 1] == ["#", "[", "derive", "("]

    def handle(self):
        """The handle at the front of an assertion, and the parameter of a formatter."""
        if self.before() == "(" and self.words[self.at - 2] == "!" and self.words[self.at - 3].startswith("assert"):
            end = self.at + 1 + (self.words[self.at] == "&")
            return end + 1 if self.words[end] == ";" else 0
        if self.before() == "fmt" and self.has("< W : fmt :: Write >"):
            return self.at + 7
        return self.at + 3 if self.before() == "Formatter" and self.has("< W >") else 0

    def drop(self):
        """A drop whose arms are empty."""
        if self.words[self.at] != "impl":
            return 0
        body = self.words.index("{", self.at)
        if ("Drop", "for") not in zip(self.words[self.at:body], self.words[self.at + 1:body]):
            return 0
        end = self.past(body)
        inner = " ".join(self.words[body:end])
        if inner.startswith("{ fn drop ( self ) { match self {") and inner.endswith("=> { } } } }") and ";" not in inner:
            return end
        return self.differs("a drop that does something")

    def main(self):
        """The parameter of `main`, which is put in again as its first line."""
        if self.before() == "(" and self.words[self.at - 3:self.at] == ["fn", "main", "("] and self.has(": HostRuntime )", self.at + 1):
            return self.at + 3
        return 0

    def inserted(self):
        """Goes past what is put in at this place."""
        plain = [it.text for it in self.plain[self.there:self.there + 6]]
        if self.before() == "{" and self.is_main_body() and plain[:1] == ["let"] and plain[2:5] == ["=", "HostRuntime", ";"]:
            self.there += 5
            self.put_in["first line of main"] += 1

    def is_main_body(self):
        at = self.at - 1
        while at and self.words[at] not in (";", "}") and self.words[at:at + 3] != ["fn", "main", "("]:
            at -= 1
        return self.words[at:at + 3] == ["fn", "main", "("] and "{" not in self.words[at:self.at - 1]

    def form(self):
        """Where the form ends that may be left out here, and what it is."""
        for name in ("clause", "ghost", "attribute", "derive", "handle", "drop", "main"):
            if end := getattr(self, name)():
                return name, end
        return "", 0

    def head(self, is_root):
        words = (ROOT if is_root else []) + HEAD
        if [it.text for it in self.plain[:len(words)]] != words:
            self.differs("another head")
        self.there = len(words)
        self.put_in["heads"] += 1

    def run(self, is_root):
        self.head(is_root)
        while self.at < len(self.words):
            name, end = self.form()
            if end:
                self.left_out[name] += end - self.at
                self.at = end
                continue
            self.inserted()
            if self.at >= len(self.words):
                break
            if self.there >= len(self.plain) or self.words[self.at] != self.plain[self.there].text:
                self.differs(f"{self.words[self.at]!r} is left out or another")
            self.at, self.there = self.at + 1, self.there + 1
        if self.there < len(self.plain):
            self.differs("more than the source")
