"""Rows and parts of tables that tools/quick plays without a proof, by the player in workbench/tests over the workbench."""
import os
import subprocess
import sys

from plain_edition import core, packages, repository
from plain_edition.trials import player


def built():
    """The player, built where it has to be."""
    try:
        core.write()
        cargo = packages.settle(repository.WORKBENCH, False)
    except (packages.Missing, core.Stopped) as stopped:
        sys.exit(f"the plain edition: {stopped}")
    ran = cargo.run(["build", "--quiet", "--offline", "--package", player.PACKAGE], repository.WORKBENCH)
    if ran.returncode:
        sys.exit(f"cargo could not build {player.PACKAGE}:\n{ran.stderr[-2000:]}")
    return os.path.join(repository.WORKBENCH, "target", "debug", player.NAME)


def play(suites, *words):
    """Plays suites, and gives the status. The player prints each row that fails."""
    return subprocess.run([built(), *player.words(suites, *words)], stdin=subprocess.DEVNULL, check=False).returncode


def only(words):
    """The words with which the player plays what has all of these, once."""
    return [it for word in words for it in ("--only", word)]


def rows(words):
    """Plays the rows that have all the words, or all rows; each once, since each has the empty word."""
    return play(["rows"], *only(words or [""]))


def test(name):
    """Plays the parts of the tables of calls whose names contain the name."""
    return play(["calls", "images"], *only([name] if name else []))
