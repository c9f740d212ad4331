"""Tests the core as ordinary Rust and the workbench: their sources, their programs, and what they say against the proved program and
on other systems. The program is the ordinary one, of workbench/cli."""
import os
import re
import shutil

from . import core, packages, repository
from .trials import alike, asking, bare, calls_for_c, disk, elsewhere, example, fuzzing, images, lists, player, refusals, runs, score, workbench

PROFILE = "checked"
MADE = os.path.join(repository.WORKBENCH, "target", PROFILE)
MADE_OF_CORE = os.path.join(repository.CORE, "target", PROFILE)
# So many inputs are fuzzed at each gate.
AT_EACH_GATE = 50_000
RESULT = re.compile(r"^test result: .* (\d+) passed; (\d+) failed", re.MULTILINE)


def settled(may_install):
    """Writes the core, and has the crates that others wrote at hand for it, for the workbench and for the example."""
    made = core.write()
    for folder in (repository.CORE, repository.WORKBENCH, example.FOLDER):
        packages.settle(folder, may_install)
    return made


def set_up():
    """Installs what the tests need, as root on Debian, and says what it is."""
    core.write()
    lacking = packages.lacking(packages.SYSTEMS)
    if not shutil.which("node"):
        lacking.append("nodejs")
    if lacking and not packages.can_install():
        raise packages.Missing("the tests on other systems need Debian's packages: " + packages.apt_get(lacking))
    if lacking:
        packages.install(lacking)
    settled(True)


def sources(counts, made):
    """Each file is its source with tokens left out, but for what is listed."""
    gone, put, wrong = made.check()
    for line in wrong:
        counts.check(False, line)
    counts.count(put["heads"] - len(wrong), 0)
    return f"{sum(gone.values())} tokens left out, {put['first line of main']} first lines of main put in"


def cargo(words, folder=repository.WORKBENCH):
    return packages.cargo().run([*words, "--quiet", "--offline", "--profile", PROFILE], folder)


def built(counts):
    """The packages of the workbench, and the programs of the core."""
    for folder in (repository.WORKBENCH, repository.CORE):
        ran = cargo(["build"], folder)
        counts.check(ran.returncode == 0, f"cargo build: {ran.stderr[-3000:]}")


def tested(counts):
    """The tests of all packages and of their pages, with overflow checks and debug assertions."""
    ran = cargo(["test", "--no-fail-fast"])
    for passed, failed in RESULT.findall(ran.stdout):
        counts.count(int(passed), int(failed))
    if ran.returncode:
        counts.check(False, f"cargo test: {ran.stdout[-2000:]}{ran.stderr[-2000:]}")


def first_steps(counts, made):
    """What is built, and what prepares its processes in a way that allows no threads; gives the program."""
    program = os.path.join(MADE, repository.BINARY)
    counts.step("the check of tokens", sources, made)
    counts.step("cargo build", built)
    counts.step("cargo test", tested)
    counts.step("outputs that nobody reads", runs.closed_output, program)
    counts.step("files as the system has them", disk.saved, program)
    return program


def steps_here(made, program):
    """Steps on this system that need no others."""
    return [
        ("stored runs", runs.stored, made, MADE_OF_CORE),
        ("lists and promises", lists.checked),
        ("installations", asking.asked),
        ("tables", player.played, MADE, ["rows", "pages", "calls", "images"]),
        ("rows by the program", player.by_program, MADE, program),
        ("refused memory", refusals.of_program, program),
        ("refused memory of the language server", refusals.of_editor, program),
        ("refused memory in calls", refusals.of_calls, MADE_OF_CORE),
    ]


def steps_beyond(program):
    """Further steps that need no others, on other systems and with what others build. Each builds in a folder of its own, but for
    those that take turns in the workbench's. What takes long comes first, so that nothing is left to do alone at the end."""
    return [
        ("32 bits of Linux", elsewhere.i686, program, MADE),
        ("clippy", workbench.linted),
        ("the library for C", calls_for_c.tests, program, PROFILE),
        ("WebAssembly", elsewhere.wasm, program),
        ("without a system", bare.thumb),
        ("the examples in Rust", example.runs, program),
        ("fuzzing", fuzzing.some, PROFILE, AT_EACH_GATE),
        ("hostile images", images.refused_alike, {"64 bits": program}),
        ("the proved program", alike.same_bytes, program, MADE),
    ]


def run_steps(is_beyond):
    """The steps on this system, or all; gives the status."""
    counts = score.Score()
    made = settled(False)
    program = first_steps(counts, made)
    counts.side_by_side(steps_here(made, program) + (steps_beyond(program) if is_beyond else []))
    return counts.end()


def quick():
    """The steps on this system alone."""
    return run_steps(False)


def test():
    """All steps; gives the status."""
    return run_steps(True)


def fuzz(words, is_on_32_bits):
    """Fuzzes with so many inputs, built for speed, and prints what is seen."""
    settled(False)
    build = fuzzing.built_for_32_bits if is_on_32_bits else fuzzing.built
    return fuzzing.fuzz(build("fast"), words).returncode
