"""The lists that tools make from the sources, and the promises that pages make of them."""
import subprocess
import sys

from .. import repository

# What each is, and the program of tools/ that checks it.
CHECKS = (("docs/PROOFS.md and docs/PROMISES.md", "promises"), ("the words of editors/", "editors"))


def checked(score):
    """Each list is what the sources say."""
    for what, program in CHECKS:
        words = [sys.executable, f"{repository.TOP}/tools/{program}", "--check"]
        ran = subprocess.run(words, capture_output=True, text=True, check=False)
        score.check(ran.returncode == 0, f"{what}: {ran.stdout[-2000:]}{ran.stderr[-2000:]}")
