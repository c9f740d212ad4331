"""What clippy says of the workbench."""
import re

from .. import packages, repository

# The day of a compiler, as its tools print it.
DATE = re.compile(r"\d{4}-\d\d-\d\d")


def has_own_clippy(command):
    """Whether clippy is there and of the compiler's date: that of another compiler can't read what this one built."""
    clippy, compiler = DATE.search(command.run(["clippy", "--version"]).stdout), DATE.search(command.compiler())
    return bool(clippy and compiler) and clippy[0] == compiler[0]


def linted(score):
    """Clippy has no warning, where clippy is there."""
    command = packages.cargo()
    if not has_own_clippy(command):
        return "without clippy, which is not there for this compiler"
    ran = command.run(["clippy", "--quiet", "--offline", "--all-targets", "--", "--deny", "warnings"], repository.WORKBENCH)
    score.check(ran.returncode == 0, f"cargo clippy: {ran.stderr[-3000:]}")
    return "clippy has no warning" if ran.returncode == 0 else None
