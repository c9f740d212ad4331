"""What may be installed: a user at a terminal is asked first, a container is not, and an editor's server installs nothing."""
import os
import pty
import shutil
import subprocess
import sys
import tempfile

from .. import repository

# Notes its words in place of installing.
APT = """#!/bin/sh
echo "$@" >> "$NOTED"
"""
# The installation of a package, as a program of tools/ asks for it.
BY_PYTHON = [sys.executable, "-B", "-c", "from plain_edition import packages; packages.install(['nothing-dev'])"]


ANSWERS = (("y\n", True), ("YES\n", True), ("n\n", False), ("\n", False), ("\x04", False), (None, True))
# What the shell's part calls. The machine looks like one of Debian, used by root, without Python.
CALLED = ("cat", "dirname", "find", "readlink", "sh")


def run(words, path, answer):
    """What apt-get was called with, where a user at a terminal answers so, or where there is none; and the exit status."""
    with tempfile.TemporaryDirectory() as room:
        noted = os.path.join(room, "noted")
        environment = {"PATH": path, "NOTED": noted, "PYTHONPATH": os.path.join(repository.TOP, "tools")}
        if answer is None:
            ran = subprocess.run(words, env=environment, stdin=subprocess.DEVNULL, capture_output=True, check=False)
        else:
            ours, theirs = pty.openpty()
            os.write(ours, answer.encode())
            ran = subprocess.run(words, env=environment, stdin=theirs, stdout=theirs, stderr=theirs, check=False)
            os.close(ours)
            os.close(theirs)
        lines = open(noted, encoding="utf-8").read().splitlines() if os.path.exists(noted) else []
    return [line for line in lines if line.startswith("install")], ran.returncode


def write_program(room, name, text):
    with open(os.path.join(room, name), "w", encoding="utf-8") as file:
        file.write(text)
    os.chmod(file.name, 0o755)


def checkout(room):
    """A checkout with what ./edd reads before it has Python, and the PATH of a machine without it."""
    path = os.path.join(room, "bin")
    for folder in (path, os.path.join(room, "tools")):
        os.mkdir(folder)
    for name in CALLED:
        os.symlink(shutil.which(name), os.path.join(path, name))
    write_program(path, "apt-get", APT)
    write_program(path, "id", "#!/bin/sh\necho 0\n")
    for name in ("edd", "crates.txt", "tools/keys.sh", "tools/python.sh"):
        shutil.copy(os.path.join(repository.TOP, name), os.path.join(room, name))
    return os.path.join(room, "edd"), path


def asked(score):
    """Each answer at a terminal, and no terminal: of a program of Python, and of the shell's part that is there before Python."""
    with tempfile.TemporaryDirectory() as room:
        program, path = checkout(room)
        for answer, is_installed in ANSWERS:
            called, status = run(BY_PYTHON, f"{path}:{os.environ['PATH']}", answer)
            score.check(bool(called) == is_installed, f"packages at the answer {answer!r}: apt-get was called with {called}")
            score.check((status == 0) == is_installed, f"packages at the answer {answer!r}: exit status {status}")
            called, _ = run([program, "--version"], path, answer)
            score.check(bool(called) == is_installed, f"./edd at the answer {answer!r}: apt-get was called with {called}")
            for words in (["lsp"], ["--no-install", "--version"]):
                called, status = run([program, *words], path, answer)
                score.check(not called and status != 0, f"./edd {' '.join(words)}: apt-get was called with {called}, status {status}")
    return "asked before packages are installed"
