"""Builds the workbench and the core for systems for which the machine has no standard library: Debian's packages have its source, of which
cargo makes one by `-Z build-std`, in a folder of its own that the compiler takes as its root.
"""
import glob
import os
import shutil
import subprocess
import threading

from . import packages, repository

ROOM = os.path.join(repository.MADE, "systems")
MANIFEST = """[package]
name = "standard"
version = "1.0.0"
edition = "2024"

[workspace]

[profile.release]
opt-level = 2
"""
# The linkers of Debian's package lld, by processors for which the compiler names none of its own.
LINKERS = {"wasm32": "wasm-ld", "thumbv7em": "ld.lld"}
# The systems, by what is made of the standard library for them.
WHOLE, BARE = "std,panic_unwind", "core,alloc"
# By folder: two steps that run side by side may want the same standard library.
MAKING = {}


def listed(package, end):
    """The path of a file of a Debian package."""
    ran = subprocess.run(["dpkg", "-L", package], capture_output=True, text=True, check=False)
    found = [line for line in ran.stdout.splitlines() if line.endswith(end)]
    if not found:
        raise packages.Missing(f"{package} is not installed: apt-get install " + " ".join(packages.SYSTEMS))
    return min(found, key=len)


def environment(target, **more):
    """The compiler whose source of the standard library is at hand."""
    name = target.upper().replace("-", "_")
    own = LINKERS.get(target.split("-", maxsplit=1)[0])
    linker = {f"CARGO_TARGET_{name}_LINKER": own} if own else {}
    return {**os.environ, "RUSTC": listed("rustc-web", "/bin/rustc"), **linker, **more}


def run(words, folder, env):
    ran = subprocess.run([listed("cargo-web", "/bin/cargo"), *words], cwd=folder, env=env, stdin=subprocess.DEVNULL, capture_output=True,
                         text=True, check=False)
    if ran.returncode:
        raise packages.Missing(f"cargo {' '.join(words)} failed:\n{ran.stderr[-3000:]}")


def root(target, parts):
    """The folder of the standard library for a system. It is made once for each version of the compiler."""
    name = f"{target}-{parts.replace(',', '-')}"
    made = os.path.join(ROOM, f"root-{name}")
    version = subprocess.run([listed("rustc-web", "/bin/rustc"), "-vV"], capture_output=True, text=True, check=True).stdout
    with MAKING.setdefault(made, threading.Lock()):
        if stamp_of(made) != version:
            make_root(target, parts, made, os.path.join(ROOM, f"standard-{name}"))
            with open(f"{made}.stamp", "w", encoding="utf-8") as file:
                file.write(version)
    return made


def stamp_of(made):
    """The version of the compiler that a standard library was made by, or nothing."""
    if not os.path.exists(f"{made}.stamp"):
        return None
    with open(f"{made}.stamp", encoding="utf-8") as file:
        return file.read()


def make_root(target, parts, made, room):
    """Puts a new standard library, which is built in a room, where the compiler looks for it below a root."""
    libraries = os.path.join(made, "lib", "rustlib", target, "lib")
    shutil.rmtree(made, ignore_errors=True)
    os.makedirs(libraries)
    for library in build_standard(target, parts, room):
        shutil.copy(library, libraries)


def build_standard(target, parts, room):
    """Builds the standard library as what an empty crate needs, and gives the paths of its parts."""
    shutil.rmtree(room, ignore_errors=True)
    os.makedirs(os.path.join(room, "src"))
    files = {"Cargo.toml": MANIFEST, "src/lib.rs": "#![no_std]\n",
             ".cargo/config.toml": packages.CONFIGURATION.format(folder=listed("rust-web-src", "/library/vendor"))}
    for path, text in files.items():
        os.makedirs(os.path.dirname(os.path.join(room, path)), exist_ok=True)
        with open(os.path.join(room, path), "w", encoding="utf-8") as file:
            file.write(text)
    words = ["build", "--quiet", "--offline", "--release", "--target", target, "-Z", f"build-std={parts}"]
    run(words, room, environment(target, RUSTC_BOOTSTRAP="1", RUSTFLAGS="-C embed-bitcode=yes"))
    made = glob.glob(os.path.join(room, "target", target, "release", "deps", "*.rlib"))
    return [it for it in made if not os.path.basename(it).startswith("libstandard")]


def build(step, target, parts, profile, words, flags="", folder=repository.WORKBENCH):
    """Builds packages of the workbench, or of the workspace in another folder, for a system, and gives the folder of what was made."""
    rooted = f"--sysroot {root(target, parts)} {flags}".strip()
    # Each step has a folder of its own: cargo lets builds in one folder wait for each other.
    place = os.path.join(ROOM, step)
    env = environment(target, RUSTFLAGS=rooted, CARGO_TARGET_DIR=place)
    run(["build", "--quiet", "--offline", "--profile", profile, "--target", target, *words], folder, env)
    return os.path.join(place, target, profile)
