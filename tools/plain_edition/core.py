"""Writes the core as ordinary Rust: the crates of `crates/` with their contracts left out, a cargo workspace below the workbench."""
import collections
import os
import re

from . import erase, left_out, repository, rewrites
from .tokens import text_of

# Crates of the kit for which one of `workbench/shims` stands, by its folder there; the macros of errors are in `derive`.
SHIMS = {"indexmap": "indexmap", "thiserror": "derive"}
# Crates of the kit that are Rust's own as they are.
REAL = {"arrayvec": '{ version = "0.7", default-features = false }'}
# The command line of the proved program stands on the kit's clap. The ordinary program reads its words by Rust's own.
LEFT_OUT = {"clap"}
# A crate that names one of these needs the system.
SYSTEM = re.compile(r"\bHostRuntime\b|\bstd::(?:fs|env|os|path|process|rt)\b|\buse std::\{[^}]*\b(?:env|fs)\b")
RUST = "1.88"
# Names what was written into a folder.
LIST = "WRITTEN_BY_TOOLS_PLAIN"

WORKSPACE = """[workspace.lints.rust]
dead_code = "allow"
mismatched_lifetime_syntaxes = "allow"
unused_imports = "allow"
unused_variables = "allow"

# Sums are proved not to wrap where places have 64 bits; elsewhere one that would is to end the program.
[profile.release]
overflow-checks = true
codegen-units = 1
lto = "thin"

[profile.checked]
inherits = "release"
codegen-units = 16
lto = false
opt-level = 1
debug-assertions = true
"""


class Stopped(Exception):
    """What can't be written, and why."""


class Core:
    """The files of the core by their paths, and counts of what was left out."""

    def __init__(self):
        self.crates = erasable(repository.crates())
        self.known = {it.name for it in self.crates}
        self.files, self.counts = {}, collections.Counter()
        for crate in self.crates:
            self.add(crate)
        members = "".join(f'    "{it.name}",\n' for it in self.crates)
        self.files["Cargo.toml"] = f'[workspace]\nresolver = "3"\nmembers = [\n{members}]\n\n{WORKSPACE}'

    def add(self, crate):
        is_system = False
        for path in crate.sources():
            if not path.endswith(".rt"):
                raise Stopped(f"crates/{crate.name}/{path}: a file that is no source")
            text = crate.read(path)
            is_system |= bool(SYSTEM.search(text))
            self.files[f"{crate.name}/{path[:-3]}.rs"] = self.plain(crate, path, text)
        self.files[f"{crate.name}/Cargo.toml"] = self.manifest(crate, is_system)

    def plain(self, crate, path, text):
        try:
            kept = erase.Eraser(text, self.counts).run()
            kept = rewrites.rewritten(kept, self.counts)
        except erase.Unknown as unknown:
            raise Stopped(f"crates/{crate.name}/{path}:{unknown}") from None
        return rewrites.with_head(text_of(erase.tidied(kept)), is_root(path))

    def manifest(self, crate, is_system):
        """The file of cargo for a crate."""
        features = "" if is_system else ", default-features = false"
        lines = ["[package]", f'name = "{crate.name}"', 'version = "1.0.0"', 'edition = "2024"', f'rust-version = "{RUST}"']
        lines += ["", "[dependencies]", f'std = {{ package = "edd_plain_std", path = "../../shims/std"{features} }}']
        lines += [f"{used} = {self.dependency(crate, used)}" for used in crate.uses]
        return "\n".join([*lines, "", "[lints]", "workspace = true", ""])

    def dependency(self, crate, used):
        if used in self.known:
            return f'{{ path = "../{used}" }}'
        if used in SHIMS:
            return f'{{ package = "edd_plain_{SHIMS[used]}", path = "../../shims/{SHIMS[used]}" }}'
        if used in REAL:
            return REAL[used]
        raise Stopped(f"crates.txt: {crate.name} uses {used}, for which workbench/shims has nothing")

    def check(self):
        """Checks each file against its source by tokens: counts of what was left out and put in, and what differs."""
        gone, put, wrong = collections.Counter(), collections.Counter(), []
        for crate in self.crates:
            for path in crate.sources():
                try:
                    walk = left_out.Walk(crate.read(path), self.files[f"{crate.name}/{path[:-3]}.rs"])
                    walk.run(is_root(path))
                except left_out.Differs as differs:
                    wrong.append(f"crates/{crate.name}/{path}: {differs}")
                    continue
                gone += walk.left_out
                put += walk.put_in
        return gone, put, wrong

    def write(self, out):
        """Writes what differs from what stands there, so that cargo builds no more than that, and removes what it wrote before
        and does not write now. A folder with anything else in it is left alone."""
        before = text_at(os.path.join(out, LIST))
        if before is None and os.path.isdir(out) and os.listdir(out):
            raise Stopped(f"{out} holds what tools/plain did not write")
        for path in set((before or "").splitlines()) - set(self.files):
            remove(out, path)
        listed = "".join(f"{path}\n" for path in sorted(self.files))
        for path, text in [(LIST, listed), *self.files.items()]:
            place = os.path.join(out, path)
            if text_at(place) != text:
                os.makedirs(os.path.dirname(place), exist_ok=True)
                with open(place, "w", encoding="utf-8") as file:
                    file.write(text)


def erasable(crates):
    """The crates whose erased sources cargo can build, in their order. A static library of the kit is for C alone, and takes slices
    as only the kit passes them: workbench/c stands for it."""
    gone = {it.name for it in crates if "staticlib" in it.kinds} | LEFT_OUT
    while more := {it.name for it in crates if it.name not in gone and gone & set(it.uses)}:
        gone |= more
    return [it for it in crates if it.name not in gone]


def write():
    """Writes the core into its folder, and returns it."""
    made = Core()
    made.write(repository.CORE)
    return made


def remove(out, path):
    """Removes a file, and the folders that are empty then."""
    place = os.path.join(out, path)
    if os.path.isfile(place):
        os.remove(place)
    folder = os.path.dirname(place)
    while folder != out and os.path.isdir(folder) and not os.listdir(folder):
        os.rmdir(folder)
        folder = os.path.dirname(folder)


def is_root(path):
    return path in ("src/lib.rt", "src/main.rt")


def text_at(place):
    if not os.path.isfile(place):
        return None
    with open(place, encoding="utf-8") as file:
        return file.read()
