"""Plays the tables of tests by the player in workbench/tests."""
import os
import re
import subprocess

from .. import repository
from . import table

NAME = "edd_play"
PACKAGE = "edd_tests"
COUNTED = re.compile(r"(\d+) passed, (\d+) failed")
# A program that never ends is ended after so many seconds.
PATIENCE = 1800


def words(suites, *more):
    """The words that play these suites over the tables of the checkout."""
    return ["--tables", table.TABLES, "--top", repository.TOP, *more, *suites]


def played(score, folder, suites, *more):
    """Plays suites by the player in a folder, counts their rows, and prints what failed; gives the notes of the suites."""
    ran = subprocess.run([os.path.join(folder, NAME), *words(suites, *more)], stdin=subprocess.DEVNULL, stdout=subprocess.PIPE,
                         stderr=subprocess.STDOUT, text=True, errors="replace", timeout=PATIENCE, check=False)
    *lines, last = ran.stdout.splitlines() or [""]
    counted = COUNTED.fullmatch(last)
    if not counted:
        score.check(False, f"the player ended with status {ran.returncode}: {ran.stdout[-2000:]}")
        return ""
    passed, failed = map(int, counted.groups())
    score.count(passed, failed)
    if failed or ran.returncode:
        score.say("\n".join(lines))
    return ", ".join(line.strip() for line in lines if line.startswith("    "))


def by_program(score, folder, program, *more):
    """Plays the rows by a program over real files."""
    return played(score, folder, ["program"], "--program", program, *more)
