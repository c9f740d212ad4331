"""Runs programs of the erased core on what is stored beside their crates, and the ordinary one with outputs that nobody reads."""
import os
import subprocess
import tempfile

from . import images


def stored(score, made, folder):
    """Each program on its stored words and input: what it prints and its status are to be what is stored."""
    for crate in made.crates:
        if crate.is_program:
            expected = kept(crate, "stdout")
            ran = run_stored(crate, os.path.join(folder, crate.name))
            status = int(kept(crate, "status") or 0)
            score.check(ran == (status, expected), f"the stored run of {crate.name}: {difference(expected, ran[1])}, status {ran[0]}")


def kept(crate, name):
    place = os.path.join(crate.folder, name)
    if not os.path.exists(place):
        return b""
    with open(place, "rb") as file:
        return file.read()


def run_stored(crate, program):
    """The status and the output of a program on what is stored, in an empty folder."""
    with tempfile.TemporaryDirectory() as room:
        words = kept(crate, "args").decode().splitlines()
        ran = subprocess.run([program, *words], cwd=room, input=kept(crate, "stdin"), capture_output=True, timeout=300, check=False)
        return ran.returncode, ran.stdout


def difference(expected, found):
    """The first line that differs."""
    both = zip(expected.splitlines() + [b"(the end)"], found.splitlines() + [b"(the end)"])
    return next((f"{one!r} became {other!r}" for one, other in both if one != other), "the lines are alike")


def closed_output(score, program):
    """A command whose output is a pipe that nobody reads ends with status 3, as tools/closed_output has it."""
    tool = images.tool("closed_output")
    tool.COMMAND = [program]
    count, others = tool.tried()
    score.check(not others, f"commands whose output nobody reads and their statuses: {others}")
    return f"{count} commands"
