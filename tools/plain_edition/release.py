"""Writes a release: a git repository of ordinary Rust from which cargo takes the library and the program. It has the workbench with
the erased core laid out below it, the lock, a page that says what it is, and the commit that it was made from."""
import os
import shutil
import subprocess

from . import core, packages, repository

PAGE = """# edd, a release

A compiler, image loader and method interpreter for EDDL device descriptions, as ordinary Rust: `workbench/core` is the core with the
contracts left out under which it is proved, and the other packages stand over it. From a repository with these files

    cargo add --git REPOSITORY edd
    cargo install --git REPOSITORY edd-cli

take the library, which `docs/RUST.md` describes, and the program `edd`. What is proved are the core's sources, not these files:
`docs/PLAIN.md` says what is promised and what is trusted beside the proofs. `GENERATED_FROM` names the commit of the sources, and
`docs/` is theirs.

| Package | What it is |
|---|---|
"""
# Who a release is by, as git asks.
AUTHOR = ["-c", "user.name=tools/plain", "-c", "user.email=tools@localhost"]


def git(*words):
    ran = subprocess.run(["git", "-C", repository.TOP, *words], capture_output=True, text=True, check=False)
    return ran.stdout.strip()


def summary(text):
    """The first sentence of what a crate says of itself."""
    lines = []
    for line in text.split("\n"):
        if not line.startswith("//!") or (lines and line == "//!"):
            break
        lines.append(line.removeprefix("//!").strip())
    said = " ".join(lines)
    return said.split(". ")[0].rstrip(".") + "." if said else ""


def committed(*places):
    """The files of the commit at these places of the checkout, by their paths."""
    return git("ls-files", *places).splitlines()


def root(out, place):
    """The text of the root of a package's sources."""
    for name in ("lib.rs", "main.rs"):
        path = os.path.join(out, place, "src", name)
        if os.path.isfile(path):
            with open(path, encoding="utf-8") as file:
                return file.read()
    return ""


def page(out, made):
    places = [f"workbench/{it}" for it in (*repository.packages(), *(f"core/{it.name}" for it in made.crates))]
    return PAGE + "".join(f"| `{place}` | {summary(root(out, place))} |\n" for place in places)


def copy(paths, out):
    """Copies files of the checkout."""
    for path in paths:
        place = os.path.join(out, path)
        os.makedirs(os.path.dirname(place), exist_ok=True)
        shutil.copy(os.path.join(repository.TOP, path), place)


def put(out, path, text):
    with open(os.path.join(out, path), "w", encoding="utf-8") as file:
        file.write(text)


def write(out):
    """Writes a new folder. Sources that are not committed can't be named, so they are refused."""
    changed = git("status", "--porcelain")
    if changed:
        raise core.Stopped(f"there are changes that no commit has:\n{changed}")
    write_files(out)
    commit(out)


def write_files(out):
    """Writes all files into a new folder."""
    if os.path.exists(out):
        raise core.Stopped(f"{out} is there already")
    made = core.Core()
    workspace = os.path.join(out, "workbench")
    made.write(os.path.join(workspace, "core"))
    lay_out(made, os.path.join(workspace, "core"))
    copy(committed("workbench", "docs", "examples"), out)
    put(out, "README.md", page(out, made))
    put(out, "GENERATED_FROM", git("rev-parse", "HEAD") + "\n")
    lock(workspace)


def commit(out):
    """Makes the folder a repository with one commit."""
    for words in (["init", "--quiet"], ["add", "--all"], [*AUTHOR, "commit", "--quiet", "--message", "A release of edd"]):
        ran = subprocess.run(["git", "-C", out, *words], capture_output=True, text=True, check=False)
        if ran.returncode:
            raise core.Stopped(f"git {words[-1]}: {ran.stderr[-2000:]}")


def lay_out(made, out):
    """Lays the sources of the core out as rustfmt does."""
    roots = [path for path in made.files if path.endswith(("src/lib.rs", "src/main.rs"))]
    ran = subprocess.run(["rustfmt", "--edition", "2024", *roots], cwd=out, capture_output=True, text=True, check=False)
    if ran.returncode:
        raise core.Stopped(f"rustfmt: {ran.stderr[-2000:]}")


def lock(out):
    """Leaves a lock that names versions; sums of what the registry did not give are none."""
    packages.settle(out, False)
    place = os.path.join(out, "Cargo.lock")
    with open(place, encoding="utf-8") as file:
        lines = [line for line in file if not (line.startswith("checksum = ") and " " in line.split('"')[1])]
    with open(place, "w", encoding="utf-8") as file:
        file.writelines(lines)
    configuration = os.path.join(out, ".cargo", "config.toml")
    if os.path.exists(configuration):
        os.remove(configuration)
        os.rmdir(os.path.dirname(configuration))
