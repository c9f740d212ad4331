"""What tools/test does: the tests that cargo can run, then the proofs, with the progress of both and one count at the end."""
import argparse
import os
import re
import shutil
import subprocess
import sys
import time

TOP = os.path.dirname(os.path.dirname(os.path.realpath(__file__)))
PAGE = os.path.join(TOP, "docs", "GATE.md")
COUNTS = re.compile(r"^(\d+) passed, (\d+) failed$")
PROVED = re.compile(r"^rt: (\w+)(: its tests are)? (NOT )?(?:PROVED|proved)\b")
EDIT = re.compile(r"^rt: must-fail \S+: (refused)?")
# What the table of docs/GATE.md has of each crate.
COLUMNS = "First check", "Edits", "Program"
# Minutes on four idle processors, reckoned from the processor time of the steps.
CARGO_MINUTES = 5


def say(text):
    print(text, flush=True)


def table(text):
    """The seconds of each crate in the table of docs/GATE.md: of its first check, of its wrong bodies and of its program."""
    cells = re.findall(r"`(\w+)` \| (\d*) ?\| (\d*) ?\| (\d*) ?\|", text)
    return {name: {what: int(it or 0) for what, it in zip(COLUMNS, seconds)} for name, *seconds in cells}


def measured():
    """The processor seconds of each crate, with its edits and its program, by docs/GATE.md."""
    with open(PAGE, encoding="utf-8") as page:
        return {name: sum(row.values()) for name, row in table(page.read()).items()}


def crates():
    """The names of crates.txt."""
    with open(os.path.join(TOP, "crates.txt"), encoding="utf-8") as file:
        return re.findall(r"^(\w+)[\w ]*:", file.read(), re.MULTILINE)


class Proofs:
    """Follows the lines of `rt ci`: says how far it is, and shows what failed with the lines before it."""

    def __init__(self, names, seconds):
        self.left = {name: seconds.get(name, 0) for name in names}
        self.all, self.done, self.started = len(names), 0, time.time()
        self.whole = sum(self.left.values())
        self.section, self.counts = [], None

    def minutes_left(self):
        """By what was measured of the crates that are left and the pace until now; at first by the number of processors."""
        rest = sum(self.left.values())
        pace = (self.whole - rest) / max(1.0, time.time() - self.started)
        processors = len(os.sched_getaffinity(0))
        return rest / 60 / (pace if self.done > 4 and pace else processors)

    def line(self, text):
        counts, proved, edit = COUNTS.match(text), PROVED.match(text), EDIT.match(text)
        if counts:
            self.counts = int(counts[1]), int(counts[2])
        elif proved:
            self.proved(proved[1], not proved[3], bool(proved[2]))
        elif edit:
            if not edit[1]:
                say(text)
        elif text.startswith("== "):
            self.section = [text]
        elif text.startswith("rt: "):
            say(text)
        else:
            self.section.append(text)

    def proved(self, name, is_proved, are_tests):
        if not is_proved:
            say("\n".join([*self.section[-60:], f"{name} NOT PROVED"]))
        if not are_tests:
            self.left.pop(name, None)
            self.done += 1
            say(f"crate {self.done} of {self.all}: {name}{'' if is_proved else ' NOT'} proved, about {self.minutes_left():.0f} minutes left")
        self.section = []


def run(words, follow):
    """Runs a command of the checkout, gives each line to `follow`, and returns its status."""
    with subprocess.Popen(words, cwd=TOP, stdin=subprocess.DEVNULL, stdout=subprocess.PIPE, stderr=subprocess.STDOUT, text=True,
                          errors="replace") as ran:
        for line in ran.stdout:
            follow(line.rstrip("\n"))
    return ran.returncode


def by_cargo():
    """Plays what cargo can, and returns how much passed and failed."""
    found = [(0, 0)]

    def follow(line):
        counts = COUNTS.match(line)
        if counts:
            found.append((int(counts[1]), int(counts[2])))
        else:
            say(line)

    plain = os.path.join(TOP, "tools", "plain")
    status = run([plain, "--set-up"], say) or run([plain, "--test"], follow)
    passed, failed = found[-1]
    return passed, failed + int(bool(status) and not failed)


def by_the_prover():
    """Proves all crates, and returns how many crates and wrong bodies are as they must be, and how many are not."""
    proofs = Proofs(crates(), measured())
    status = run(["rt", "ci"], proofs.line)
    passed, failed = proofs.counts or (0, 1)
    return passed, failed + int(bool(status) and not failed)


def announce(is_by_cargo, is_proving):
    """Says what is done and about how long it takes."""
    processors = len(os.sched_getaffinity(0))
    minutes = CARGO_MINUTES * 4 / min(4, processors)
    say(f"tools/test: installs what is missing, as root on Debian, then builds and tests what cargo can: about {minutes:.0f} minutes "
        f"on {processors} processors")
    if is_proving:
        names, seconds = crates(), measured()
        minutes = sum(seconds.get(name, 0) for name in names) / 60 / processors
        say(f"tools/test: then proves {len(names)} crates: about {minutes:.0f} minutes")
    elif is_by_cargo:
        say("tools/test: leaves out the proofs, as --cargo says")
    else:
        say("tools/test: leaves out the proofs, for there is no `rt` on the PATH, the command of the Rattle kit")
    say("tools/test: a line for each step when it ends; the last line counts")


def main():
    reader = argparse.ArgumentParser(prog="tools/test", description="Passes the tests: what cargo can try, then the proofs.")
    reader.add_argument("--cargo", action="store_true", help="what cargo can try alone, without the proofs")
    is_by_cargo = reader.parse_args().cargo
    is_proving = not is_by_cargo and shutil.which("rt") is not None
    announce(is_by_cargo, is_proving)
    parts = [("by cargo", by_cargo())]
    if is_proving:
        parts.append(("crates proved and wrong bodies refused", by_the_prover()))
        for name, (passed, failed) in parts:
            say(f"{name}: {passed} passed, {failed} failed")
    passed, failed = (sum(counts[at] for _, counts in parts) for at in (0, 1))
    say(f"{passed} passed, {failed} failed")
    return int(failed > 0 or passed == 0)


if __name__ == "__main__":
    sys.exit(main())
