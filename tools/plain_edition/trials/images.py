"""Images whose counts make a sum of 32 bits wrap, and damaged ones: what a program says of each."""
import glob
import importlib.machinery
import importlib.util
import os
import random
import struct
import subprocess
import tempfile

from .. import repository

DAMAGED = 400


def tool(name):
    """A command of tools/ as a module."""
    loader = importlib.machinery.SourceFileLoader(f"edd_tool_{name}", os.path.join(repository.TOP, "tools", name))
    made = importlib.util.module_from_spec(importlib.util.spec_from_loader(loader.name, loader))
    loader.exec_module(made)
    return made


def header(total, rows, names, code, texts, strings=0, variables=0):
    """A header of version 1 with these counts."""
    head = b"EDI1\0\1\0\0" + struct.pack(">IIIII", total, 1, 2, 3, 4)
    return head + struct.pack(">HHHHHH", variables, 0, 0, 0, 0, strings) + struct.pack(">IIII", rows, names, code, texts)


def condition(variable, start, length):
    """The row of VALIDITY of a variable."""
    return b"\1\6" + struct.pack(">HHHII", variable, 0, 0, start, length)


def hostile():
    """Images by what they are. Their counts fit no file of their length, or their rows reach past their section."""
    two = b"\1\1\0\0" * 2 + struct.pack(">IHHIHH", 0, 1, 0, 1, 1, 0)
    rows = two + condition(0, 0, 0xffffffff) + condition(1, 0xffffffff, 1) + b"ab"
    texts = struct.pack(">IIII", 0, 0xffffffff, 0xffffffff, 1)
    return {
        "rows of 2^32 bytes": header(56, 1 << 28, 0, 0, 0),
        "rows of 2^32 + 16 bytes": header(72, (1 << 28) + 1, 0, 0, 0) + bytes(16),
        "texts of 2^29 bytes": header(56, 0, 0, 0, 1 << 29),
        "names of 2^32 - 1 bytes": header(56, 0, 0xffffffff, 0, 0),
        "a row and names of 2^32 - 16 bytes": header(56, 1, 0xfffffff0, 0, 0),
        "string rows whose sum wraps": header(72, 0, 0, 0, 0, strings=2) + texts,
        "code whose sum wraps": header(56 + len(rows), 2, 2, 0, 0, variables=2) + rows,
    }


def says(program, command, data):
    """The status and the lines of a command on an image."""
    with tempfile.NamedTemporaryFile() as file:
        file.write(data)
        file.flush()
        ran = subprocess.run([program, command, file.name], stdin=subprocess.DEVNULL, capture_output=True, timeout=60, check=False)
        return ran.returncode, ran.stdout


def damaged(program):
    """Images of the examples and damaged ones, the same at each call."""
    fuzz = tool("fuzz")
    fuzz.PROGRAM = program
    texts = [fuzz.ABORTING]
    for name in sorted(glob.glob(os.path.join(repository.TOP, "examples", "*.edd"))):
        with open(name, "rb") as file:
            texts.append(file.read())
    with tempfile.TemporaryDirectory() as room:
        images = [fuzz.image_of(room, text) for text in texts]
    made = list(images)
    for case in range(DAMAGED):
        dice = random.Random(f"plain {case}")
        made.append(fuzz.damaged(dice, dice.choice(images), images, fuzz.IMAGE_DAMAGES))
    return made


def refused_alike(score, programs):
    """Each hostile image is refused by all programs, which are named, for what the rules of images say."""
    for what, data in hostile().items():
        # The last two have the right length, and a row that reaches past its section.
        line = b"refused 105 ROW\n" if what.endswith("sum wraps") else b"refused 104 LENGTH\n"
        for name, program in programs.items():
            status, lines = says(program, "show", data)
            score.check((status, lines) == (1, line), f"{what}, {name}: status {status}, {lines[:80]!r}")


def damaged_alike(score, one, other):
    """Two programs say the same of damaged images."""
    for number, data in enumerate(damaged(one)):
        for command in ("show", "dump"):
            score.check(says(one, command, data) == says(other, command, data), f"{command} of the damaged image {number} differs")
