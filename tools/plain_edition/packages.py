"""Cargo, and where the crates come from that others wrote: the registry, or Debian's packages of their sources.

`install` is the one function that changes the machine. The program's wrapper and `tools/test` call it, and say what it does.
"""
import functools
import os
import re
import shutil
import subprocess
import sys

# Debian's packages of the crates that the workbench uses.
SOURCES = ("librust-arrayvec-dev", "librust-clap-dev", "librust-codespan-reporting-dev", "librust-proptest+std-dev", "librust-serde-dev", "librust-serde-derive-dev",
           "librust-serde-json-dev", "librust-similar-dev", "librust-strsim-dev", "librust-thiserror-dev", "librust-unicode-width-dev")
COMPILER = ("rustc-web", "cargo-web")
# A compiler with the source of its standard library, of which one is made for other systems, and their linkers.
SYSTEMS = (*COMPILER, "rust-web-src", "lld", "gcc-multilib")
LEAST = (1, 88)
# Where the registry answers nothing within so many seconds, it is not there.
PATIENCE = {"CARGO_HTTP_TIMEOUT": "5", "CARGO_NET_RETRY": "0"}
CONFIGURATION = """[source.crates-io]
replace-with = "debian"

[source.debian]
directory = "{folder}"
"""


class Missing(Exception):
    """What the machine lacks, in words for a user."""


def say(text):
    print(f"edd: {text}", file=sys.stderr, flush=True)


class Cargo:
    """A cargo with the compiler beside it."""

    def __init__(self, command):
        self.command = command
        beside = os.path.join(os.path.dirname(command), "rustc")
        self.environment = {**os.environ, **({"RUSTC": beside} if os.access(beside, os.X_OK) else {})}

    def run(self, words, folder=None, **more):
        environment = {**self.environment, **more}
        return subprocess.run([self.command, *words], cwd=folder, env=environment, stdin=subprocess.DEVNULL, capture_output=True,
                              text=True, check=False)

    def compiler(self):
        """What the compiler says of its version."""
        words = [self.environment.get("RUSTC", "rustc"), "--version"]
        return subprocess.run(words, stdin=subprocess.DEVNULL, capture_output=True, text=True, check=False).stdout

    def is_new(self):
        number = re.search(r"(\d+)\.(\d+)", self.run(["--version"]).stdout)
        return number is not None and tuple(map(int, number.groups())) >= LEAST


def cargo(may_install=False):
    """The first cargo on the PATH that is new enough; where there is none and it may be, Debian's is installed."""
    for folder in os.get_exec_path():
        command = os.path.join(folder, "cargo")
        if os.access(command, os.X_OK) and Cargo(command).is_new():
            return Cargo(command)
    if may_install and can_install() and lacking(COMPILER):
        install(lacking(COMPILER))
        return cargo()
    raise Missing(f"there is no cargo {LEAST[0]}.{LEAST[1]} or later on the PATH; as root on Debian: " + apt_get(COMPILER))


def apt_get(packages):
    return "apt-get install " + " ".join(packages)


def is_there(package):
    ran = subprocess.run(["dpkg-query", "-W", "-f", "${Status}", package], capture_output=True, text=True, check=False)
    return ran.stdout.endswith("ok installed")


def lacking(packages):
    """The packages that Debian has and this machine has not; all where it is no Debian."""
    return [it for it in packages if not shutil.which("dpkg-query") or not is_there(it)]


def folder_of_sources():
    """The folder into which Debian's packages put the sources of crates."""
    ran = subprocess.run(["dpkg", "-L", SOURCES[0]], capture_output=True, text=True, check=False)
    found = [line for line in ran.stdout.splitlines() if line.endswith("/registry")]
    return found[0] if found else ""


def can_install():
    return os.geteuid() == 0 and shutil.which("apt-get") is not None


def is_let(packages):
    """Whether these may be installed: a user at a terminal is asked; where there is no terminal, as in a container, nobody is."""
    if not (sys.stdin and sys.stdin.isatty() and sys.stderr.isatty()):
        return True
    print(f"edd: install {' '.join(packages)} by apt-get? [y/N] ", end="", file=sys.stderr, flush=True)
    return sys.stdin.readline().strip().lower() in ("y", "yes")


def install(packages):
    """Installs these of Debian's packages, as root, where the user lets it."""
    if not is_let(packages):
        raise Missing("nothing was installed; as root on Debian: " + apt_get(packages))
    say("installing " + " ".join(packages))
    update_lists()
    # Another apt-get of the machine ends some time.
    apt(["install", "-y", "-qq", "--no-install-recommends", "-o", "DPkg::Lock::Timeout=300", *packages])


@functools.cache
def update_lists():
    """Reads once which packages there are."""
    apt(["update", "-qq"])


def apt(words):
    ran = subprocess.run(["apt-get", *words], env={**os.environ, "DEBIAN_FRONTEND": "noninteractive"}, stdin=subprocess.DEVNULL,
                         stdout=subprocess.PIPE, stderr=subprocess.STDOUT, text=True, check=False)
    if ran.returncode:
        raise Missing(f"apt-get {' '.join(words)} failed:\n{ran.stdout[-1500:]}")


def settle(out, may_install):
    """Has the crates for a workspace at hand, so that cargo builds it offline; Debian's packages with their sources are named."""
    command = cargo(may_install)
    configuration = os.path.join(out, ".cargo", "config.toml")
    has_all = lambda *words, **more: command.run(["fetch", "--quiet", *words], out, **more).returncode == 0
    if has_all("--offline"):
        return command
    if os.path.exists(configuration):
        os.remove(configuration)
    if has_all(**PATIENCE):
        return command
    left = lacking(SOURCES)
    if left:
        if not may_install or not can_install():
            raise Missing("cargo reaches no registry with the crates that are needed; as root on Debian: " + apt_get(left))
        install(left)
    os.makedirs(os.path.dirname(configuration), exist_ok=True)
    with open(configuration, "w", encoding="utf-8") as file:
        file.write(CONFIGURATION.format(folder=folder_of_sources()))
    if not has_all("--offline"):
        raise Missing("cargo finds not all crates among the sources of Debian's packages")
    return command
