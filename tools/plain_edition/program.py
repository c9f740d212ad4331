"""Builds the ordinary program, of workbench/cli over the erased core, for `./edd`."""
import fcntl
import os
import shutil
import time

from . import core, packages, repository

PROGRAM = os.path.join(repository.MADE, "edd")
# What decides what the program is, beside the sources of crates and packages.
OWN = ("crates.txt", "tools/plain", "tools/plain_edition")
# The packages that no part of the program is made from.
OTHERS = ("c", "firmware", "fuzz", "page", "tests", "wasm")


def build(may_install):
    """Builds it anew where it has to be, and notes what it is made from. A second call waits for the first."""
    os.makedirs(repository.MADE, exist_ok=True)
    with open(os.path.join(repository.MADE, "lock"), "w", encoding="utf-8") as lock:
        fcntl.flock(lock, fcntl.LOCK_EX)
        started = time.time()
        packages.cargo(may_install)
        made = core.write()
        command = packages.settle(repository.WORKBENCH, may_install)
        packages.say("building the program by cargo; later calls start at once")
        words = ["build", "--quiet", "--release", "--offline", "--package", repository.PROGRAM]
        ran = command.run(words, repository.WORKBENCH)
        if ran.returncode:
            raise packages.Missing(f"cargo could not build the program:\n{ran.stderr[-3000:]}")
        place(made, started)


def place(made, started):
    """Puts the program at its place, dated by the build's start, with the list of what it is made from."""
    built = os.path.join(repository.WORKBENCH, "target", "release", repository.BINARY)
    shutil.copy(built, PROGRAM + ".new")
    os.utime(PROGRAM + ".new", (started, started))
    parts = [*OWN, *(f"crates/{crate.name}/src" for crate in made.crates)]
    parts += [f"workbench/{name}" for name in repository.packages() if name not in OTHERS]
    with open(PROGRAM + ".sources", "w", encoding="utf-8") as file:
        file.write("".join(f"{part}\n" for part in parts))
    os.rename(PROGRAM + ".new", PROGRAM)
