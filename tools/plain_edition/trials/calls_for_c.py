"""The library for C over the plain edition: the C tests and random messages with it, here and on 32 bits; and that it is built for a
small processor."""
import os
import subprocess
import tempfile

from .. import packages, repository, systems
from . import bare

I686 = "i686-unknown-linux-gnu"
NAME = "edd_plain_c"
IMAGES = ("valve_positioner", "temperature_scanner", "flow_transmitter")
FLAGS = ["-std=c99", "-Wall", "-Wextra", "-Wpedantic", "-Werror", "-O1", "-g"]


def run_tests(score, archive, program, more):
    """Compiles the tests with the archive, and counts what they see over the images of three examples."""
    top = repository.TOP
    with tempfile.TemporaryDirectory() as room:
        made = [os.path.join(room, f"{name}.image") for name in IMAGES]
        for name, image in zip(IMAGES, made):
            source = os.path.join(top, "examples", f"{name}.edd")
            subprocess.run([program, "compile", source, image], stdin=subprocess.DEVNULL, capture_output=True, check=True)
        tests = os.path.join(room, "tests")
        includes = [f"-I{top}/include", f"-I{top}/examples/c"]
        sources = [f"{top}/tools/c/{name}.c" for name in ("tests", "messages", "sessions")] + [f"{top}/examples/c/exchange.c"]
        subprocess.run(["gcc", *FLAGS, *more, *includes, *sources, archive, "-o", tests], check=True)
        ran = subprocess.run([tests, *made], stdin=subprocess.DEVNULL, capture_output=True, text=True, timeout=300, check=False)
    score.check(ran.returncode == 0, f"the C tests: {ran.stdout[-1500:]}{ran.stderr[-500:]}")
    return ran.stdout.splitlines()[-1] if ran.stdout else "nothing"


def write_messages(file, profile):
    """Writes random messages, with what the library for Rust makes and takes of them: 5,000, or as many as PROPTEST_CASES says."""
    words = ["test", "--quiet", "--offline", "--profile", profile, "--package", "edd", "--test", "octets", "--",
             "--ignored", "--exact", "for_c::messages_for_c"]
    ran = packages.cargo().run(words, repository.WORKBENCH, EDD_CASES=file)
    if ran.returncode or not os.path.exists(file):
        raise packages.Missing(f"cargo test wrote no messages: {ran.stdout[-1500:]}{ran.stderr[-1500:]}")


def run_messages(score, archive, messages, more):
    """Tries the messages over the archive, under the sanitizers of gcc."""
    top = repository.TOP
    with tempfile.TemporaryDirectory() as room:
        made = os.path.join(room, "exchanges")
        sources = [f"{top}/tools/c/{name}.c" for name in ("exchanges", "heap")]
        words = ["gcc", *FLAGS, *more, f"-I{top}/include", f"-I{top}/examples/c", *sources, archive, "-o", made]
        subprocess.run(words, check=True)
        ran = subprocess.run([made, messages], stdin=subprocess.DEVNULL, capture_output=True, text=True, timeout=900, check=False)
    score.check(ran.returncode == 0, f"messages over the library for C: {ran.stdout[-1500:]}{ran.stderr[-1500:]}")
    return ran.stdout.splitlines()[-1] if ran.stdout else "nothing"


def tests(score, program, profile):
    """The C tests with the archive of this system and with that of i686, and random messages with both; the archive of a small
    processor is built."""
    room = os.path.join(systems.ROOM, "c_here")
    words = ["build", "--quiet", "--offline", "--profile", "small", "--package", NAME]
    packages.cargo().run(words, repository.WORKBENCH, CARGO_TARGET_DIR=room)
    here = run_tests(score, os.path.join(room, "small", f"lib{NAME}.a"), program, [])
    made = systems.build("c", I686, systems.BARE, "small", ["--package", NAME])
    there = run_tests(score, os.path.join(made, f"lib{NAME}.a"), program, ["-m32"])
    with tempfile.TemporaryDirectory() as folder:
        messages = os.path.join(folder, "messages")
        write_messages(messages, profile)
        tried = run_messages(score, os.path.join(room, "small", f"lib{NAME}.a"), messages, ["-fsanitize=address,undefined"])
        run_messages(score, os.path.join(made, f"lib{NAME}.a"), messages, ["-m32"])
    made = systems.build("c", bare.THUMB, systems.BARE, "small", ["--package", NAME])
    score.check(os.path.getsize(os.path.join(made, f"lib{NAME}.a")) > 0, "the archive for a small processor is empty")
    return f"{here} here; {there} on 32 bits; {tried}"
