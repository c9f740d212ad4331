"""What the checkout has: its crates, by the list in crates.txt, its packages of ordinary Rust, and the places of its folders."""
import os
from typing import NamedTuple

TOP = os.path.dirname(os.path.dirname(os.path.dirname(os.path.realpath(__file__))))
WORKBENCH = os.path.join(TOP, "workbench")
# The folder of the core as ordinary Rust, which is made.
CORE = os.path.join(WORKBENCH, "core")
# The tables of tests.
TABLES = os.path.join(WORKBENCH, "tests", "tables")
# What is made in the checkout: nothing of it is committed.
MADE = os.path.join(TOP, "out")
# The package of the program and its binary.
PROGRAM, BINARY = "edd-cli", "edd"


class Crate(NamedTuple):
    """A line of crates.txt: the name, the words after it and the libraries that it uses."""

    name: str
    kinds: tuple
    uses: tuple

    @property
    def folder(self):
        return os.path.join(TOP, "crates", self.name)

    @property
    def is_program(self):
        return os.path.exists(os.path.join(self.folder, "src", "main.rt"))

    def sources(self):
        """The paths of its sources, below the crate's folder."""
        found = []
        for folder, _, names in os.walk(os.path.join(self.folder, "src")):
            found += [os.path.relpath(os.path.join(folder, name), self.folder) for name in names]
        return sorted(found)

    def read(self, path):
        with open(os.path.join(self.folder, path), encoding="utf-8") as file:
            return file.read()


def crates():
    """The crates of the checkout, in the order of crates.txt."""
    found = []
    with open(os.path.join(TOP, "crates.txt"), encoding="utf-8") as file:
        for line in file:
            words, _, uses = line.split("#")[0].partition(":")
            if words.strip():
                name, *kinds = words.split()
                found.append(Crate(name, tuple(kinds), tuple(uses.split())))
    return found


def packages():
    """The packages of ordinary Rust, by their folders below the workbench."""
    found = []
    for folder, folders, names in os.walk(WORKBENCH):
        folders[:] = sorted(it for it in folders if it not in ("core", "src", "target"))
        if "Cargo.toml" in names and folder != WORKBENCH:
            found.append(os.path.relpath(folder, WORKBENCH))
    return found
