"""The examples in Rust: each runs a method as the program does. That in examples/rust is built over the core."""
import os
import subprocess
import tempfile

from .. import packages, repository

SOURCE, METHOD = "valve_positioner.edd", "calibrate"
ANSWERS = "answer 0\n" * 100


FOLDER = os.path.join(repository.TOP, "examples", "rust")


def runs(score, program):
    """What the examples print is right: that over the core, and that of the library."""
    command = packages.settle(FOLDER, False)
    compare(score, program, "the example", lambda words: command.run(["run", "--quiet", "--offline", "--", *words], FOLDER))
    start = ["run", "--quiet", "--offline", "--profile", "checked", "--package", "edd", "--example", "run_method", "--"]
    compare(score, program, "run_method", lambda words: command.run([*start, *words], repository.WORKBENCH))


def compare(score, program, name, run):
    """The values and the number of the requests that an example prints are those that the program prints. It is run with words."""
    with tempfile.TemporaryDirectory() as files:
        image, script = os.path.join(files, "image"), os.path.join(files, "script")
        with open(script, "w", encoding="utf-8") as file:
            file.write(ANSWERS)
        source = os.path.join(repository.TOP, "examples", SOURCE)
        subprocess.run([program, "compile", source, image], stdin=subprocess.DEVNULL, capture_output=True, check=True)
        played = subprocess.run([program, "play", image, METHOD, script], stdin=subprocess.DEVNULL, capture_output=True, text=True,
                                check=True)
        ran = run([image, METHOD])
    said, wanted = ran.stdout.splitlines(), played.stdout.splitlines()
    values = [line.removeprefix("value ") for line in wanted if line.startswith("value ")]
    requests = [line for line in wanted if line.startswith("ask ")]
    score.check(ran.returncode == 0, f"{name}: {ran.stderr[-2000:]}")
    score.check(said[-len(values):] == values, f"{name}'s values: {said}, not {wanted}")
    score.check(len(said) == len(values) + len(requests) + 1, f"{name}'s requests: {said}, not {wanted}")
