"""What tools/build, tools/quick and tools/wrong share: the kit's `rt` as a module, libraries that hold what they state, and wrong bodies.

Such a library is proved from nothing and written without its proofs, as the gate writes it, so that the crates above load it in a
fraction of the time. They are in out/statements of each crate, beside what `rt check` keeps, with a stamp of all that they are made of.
"""
import copy
import importlib.machinery
import importlib.util
import os
import re
import shutil
import sys
import tempfile
import threading
import time

TOP = os.path.dirname(os.path.dirname(os.path.realpath(__file__)))


class Missing(Exception):
    """The kit is not installed."""


class Said:
    """Prints a line for each thing that was tried, and counts those that failed."""

    def __init__(self):
        self.failed_ones, self.lock = 0, threading.Lock()

    def line(self, is_well, text, more=""):
        lines = [f"{'ok    ' if is_well else 'FAILED'} {text}"]
        if not is_well:
            lines += [f"       {it}" for it in more.split("\n") if it]
        with self.lock:
            self.failed_ones += not is_well
            print("\n".join(lines), flush=True)

    # what `libraries` says
    def proved(self, name, seconds):
        self.line(True, f"{name}: library proved in {seconds:.0f} s")

    def failed(self, name, output):
        self.line(False, f"{name}: library not proved", output[-2000:])


def load():
    """The kit's `rt` as a module, with its crates as the gate has them."""
    found = shutil.which("rt")
    if not found:
        raise Missing("this needs the toolchain's command rt, which is not on the PATH")
    sys.dont_write_bytecode = True
    loader = importlib.machinery.SourceFileLoader("rt", os.path.realpath(found))
    made = importlib.util.module_from_spec(importlib.util.spec_from_loader("rt", loader))
    sys.argv[0] = found
    loader.exec_module(made)
    made.rtlib.guarded()
    made.rtlib.Crate = made.Crate
    remember_stamps(made.Crate)
    return made


def remember_stamps(crates):
    """Has each crate's stamp made once: it has those of all crates below in it, each by as many ways as lead there."""
    made, known = crates.stamp, {}

    def stamp(self):
        if self.folder not in known:
            known[self.folder] = made(self)
        return known[self.folder]

    crates.stamp = stamp


def place(crate):
    """Has the crates above take this library from its place in out/statements."""
    crate.rlib = f"{crate.folder}/out/statements/{crate.name}.rlib"


def is_built(crate, rtlib):
    return os.path.isdir(crate.rlib) and rtlib.text_of(f"{crate.rlib}.stamp") == crate.stamp()


def build(crate, given, jobs, rtlib, progress):
    """Proves one library from nothing, once those below it are built."""
    if not all(given[it.name, "proof"] for it in crate.below()):
        return False
    crate, start, stamp = copy.copy(crate), time.time(), crate.stamp()
    shutil.rmtree(crate.rlib, ignore_errors=True)
    os.makedirs(os.path.dirname(crate.rlib), exist_ok=True)
    words = crate.words(["--jobs", str(jobs)], keeps=False) + ["--statements", "-o", crate.rlib]
    with tempfile.TemporaryFile("w+", errors="replace") as crate.out:
        if crate.call(rtlib.RATTLE, "build", *words):
            crate.out.seek(0)
            progress.failed(crate.name, crate.out.read())
            return False
    with open(f"{crate.rlib}.stamp", "w", encoding="utf-8") as it:
        it.write(stamp)
    progress.proved(crate.name, time.time() - start)
    return True


def libraries(rt, left, built, progress):
    """Proves the libraries that are left, lowest first and side by side, and says whether all are proved."""
    known = {(it.name, "proof"): True for it in built}
    tasks = {}
    for it in left:
        waits = [(below.name, "proof") for below in it.below() if below in left]
        call = lambda given, jobs, it=it: build(it, {**known, **given}, jobs, rt.rtlib, progress)
        tasks[it.name, "proof"] = (waits, it.count(rb"\n"), rt.need(it), call)
    return all(rt.in_lanes(tasks).values())


def listed(rt):
    """The crates of crates.txt by their names. Each takes the libraries below it from out/statements."""
    crates = {it.name: it for it in rt.rtlib.crates_below(TOP)}
    for it in crates.values():
        place(it)
    return crates


def prepare(rt, crates, said, apart=()):
    """Proves the missing libraries below these crates, except those that stand apart, and says whether all are proved."""
    below = []
    for crate in crates:
        below += [it for it in crate.below() if it not in below and it not in apart]
    below.sort(key=lambda it: len(it.below()))
    left = [it for it in below if not is_built(it, rt.rtlib)]
    if left:
        print(f"proving {len(left)} libraries below: {' '.join(it.name for it in left)}", flush=True)
    return not left or libraries(rt, left, [it for it in below if it not in left], said)


def wrong_bodies(name):
    """The edits of wrong/NAME, and the files there that are no edit by their name or place."""
    edits, others = [], []
    for at, folders, files in os.walk(f"{TOP}/wrong/{name}"):
        folders.sort()
        for file in sorted(files):
            is_edit = at == f"{TOP}/wrong/{name}" and re.fullmatch(r"[A-Za-z0-9_-]+\.edit", file)
            (edits if is_edit else others).append(f"{at}/{file}")
    return edits, others


def refuse_names(files, said):
    for it in files:
        said.line(False, f"{os.path.relpath(it, TOP)}: is no edit by its name or place")


def try_edits(rt, crate, edits, said):
    """Has the prover try these edits as the gate does, each over what a check of the crate as it stands proved; a line for each. Returns
    how many it refused."""
    refused = 0
    room = rt.seeded(crate, ["--jobs", "1"])
    for number, edit in enumerate(edits):
        what, text = try_edit(rt, crate, edit, room, number)
        refused += what in (rt.REFUSED, rt.AT_LIMIT)
        said.line(what in (rt.REFUSED, rt.AT_LIMIT), text.replace("must-fail ", "", 1))
    if room:
        shutil.rmtree(room, ignore_errors=True)
    return refused


def try_edit(rt, crate, edit, room, number):
    """What one edit comes to, and what to say. Where nothing is known of it over what was proved, it is tried from nothing."""
    if room:
        over = f"{room}/{number}"
        rt.linked(f"{room}/seed", over)
        tried = rt.must_fail(crate, edit, ["--jobs", "1"], over)
        shutil.rmtree(over, ignore_errors=True)
        if tried[0] in rt.SETTLED:
            return tried
    return rt.must_fail(crate, edit, ["--jobs", "1"])
