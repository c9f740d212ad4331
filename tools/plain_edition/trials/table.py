"""The table of rows, of which the sources and images are tried in other ways too. workbench/tests/src/rows/row.rs says what its parts mean."""
import os
import re

from .. import repository

TABLES = repository.TABLES
# Names the files of rows in their order.
ORDER = "rows.order"
ROW = b"@run "
# Begins a part of a row; another `@`, as of `@@ -1 +1 @@`, begins none.
PART = re.compile(rb"^@(?=[a-z])", re.MULTILINE)
# The pictures of control characters, which stand for them in files.
PICTURES = {0x2400 + code: code for code in range(0x20)} | {0x2421: 0x7f}


class Row:
    """The words and the files of a row."""

    def __init__(self, text):
        words, _, rest = text.partition(b"\n")
        self.words, self.files = words.decode().split(" ")[1:], []
        for part in PART.split(rest)[1:]:
            head, _, below = part.partition(b"\n")
            kind, _, argument = head.partition(b" ")
            self.add_part(kind.decode(), argument, below)

    def add_part(self, kind, argument, below):
        match kind:
            case "file":
                self.files.append((argument.decode(), bytearray(unpictured(below))))
            case "hex":
                self.files.append((argument.decode(), bytearray(from_hex(below))))
            case "more" | "times" | "numbered" | "fill":
                lengthen(self.files[-1][1], kind, argument)
            case "name" | "status" | "hint" | "image" | "saved":
                pass
            case _:
                raise ValueError(f"a part of a row that is not known: {kind}")


def from_hex(digits):
    return bytes(int(word, 16) for word in digits.split())


def lengthen(data, kind, argument):
    """Makes a file longer, as the table says it."""
    count, _, piece = argument.partition(b" ")
    if kind == "times":
        data += piece * int(count)
    elif kind == "numbered":
        before, _, behind = piece.partition(b"#")
        for number in range(int(count)):
            data += before + str(number).encode() + behind
    elif kind == "fill":
        data += b" " * max(0, int(argument) - len(data))
    else:
        data += unpictured(argument)


def unpictured(text):
    """A text in which pictures stand for control characters, with these."""
    return text.decode().translate(PICTURES).encode()


def rows():
    """The rows of the table, in its order."""
    with open(os.path.join(TABLES, ORDER), encoding="utf-8") as file:
        names = file.read().splitlines()
    found = []
    for name in names:
        with open(os.path.join(TABLES, name), "rb") as file:
            found += [Row(text) for text in file.read().split(ROW)[1:]]
    return found
