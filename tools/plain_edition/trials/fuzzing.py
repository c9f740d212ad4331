"""Damaged and grown texts and images in one process; workbench/fuzz says what is looked at."""
import glob
import os
import shutil
import subprocess

from .. import packages, repository, systems
from . import elsewhere, table

PACKAGE = "edd_plain_fuzz"
# Longer sources take most of the time, and are damaged no better.
LONGEST = 1 << 14
MAGIC = b"EDI1"


def inputs(room):
    """Puts the sources of the examples and the rows, and the images of the rows, into a new folder."""
    found = []
    for name in sorted(glob.glob(os.path.join(repository.TOP, "examples", "*.edd"))):
        with open(name, "rb") as file:
            found.append(file.read())
    found += [it for it in elsewhere.sources() if 0 < len(it) <= LONGEST]
    found += [bytes(data) for row in table.rows() for _, data in row.files if data.startswith(MAGIC) and len(data) <= LONGEST]
    shutil.rmtree(room, ignore_errors=True)
    os.makedirs(room)
    for number, data in enumerate(found):
        with open(os.path.join(room, f"{number:05}"), "wb") as file:
            file.write(data)


def built(profile):
    words = ["build", "--quiet", "--offline", "--profile", profile, "--package", PACKAGE]
    ran = packages.cargo().run(words, repository.WORKBENCH)
    if ran.returncode:
        raise packages.Missing(f"the fuzzing can't be built:\n{ran.stderr[-3000:]}")
    return os.path.join(repository.WORKBENCH, "target", profile, PACKAGE)


def built_for_32_bits(profile):
    return os.path.join(systems.build("fuzz", elsewhere.I686, systems.WHOLE, profile, ["--package", PACKAGE]), PACKAGE)


def fuzz(program, numbers, output=None):
    """Runs so many inputs, by a seed and from a case on where they are given; the finished process."""
    room = os.path.join(repository.MADE, "inputs")
    inputs(room)
    words = [program, room, *map(str, numbers)]
    return subprocess.run(words, stdin=subprocess.DEVNULL, stdout=output, stderr=subprocess.DEVNULL, text=True, check=False)


def some(score, profile, count):
    """A few inputs at each gate."""
    ran = fuzz(built(profile), [count], subprocess.PIPE)
    lines = ran.stdout.splitlines()
    for line in lines:
        if line.startswith("WRONG"):
            score.check(False, line)
    # The last case may have two inputs.
    is_right = ran.returncode == 0 and lines[-1:] in ([f"{count} inputs, 0 wrong"], [f"{count + 1} inputs, 0 wrong"])
    score.check(is_right, f"the fuzzing ended with {lines[-1:]}")
    return ", ".join(lines[-4:])
