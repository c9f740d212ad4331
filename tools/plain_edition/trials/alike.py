"""Compares the ordinary program with the proved one, byte for byte, by the five commands that both have."""
import glob
import os
import re
import subprocess
import tempfile

from .. import repository
from . import images, player

METHOD = re.compile(r"^METHOD (\w+)", re.MULTILINE)
SIZE = 64 * 1024


def proved_program():
    found = os.path.join(repository.TOP, "crates", "edd", "out", "edd")
    return found if os.access(found, os.X_OK) else ""


def commands(source, scripts):
    """The command lines that a source is tried with. The image is the file `image`."""
    yield from (["compile", source, "image"], ["view", source])
    yield from (["show", "image"], ["show", "image", "--lang", "de"])
    with open(source, encoding="utf-8") as file:
        methods = METHOD.findall(file.read())
    for script in scripts:
        yield ["view", source, script]
        for method in methods:
            yield ["try", source, method, script]
            yield ["play", "image", method, script]


def outcome(program, words, room):
    """The status and the lines of a command, and the image that is there after it."""
    ran = subprocess.run([program, *words], cwd=room, stdin=subprocess.DEVNULL, capture_output=True, timeout=120, check=False)
    image = os.path.join(room, "image")
    if not os.path.exists(image):
        return ran.returncode, ran.stdout, b""
    with open(image, "rb") as file:
        return ran.returncode, ran.stdout, file.read()


def sources(room):
    """The examples with their scripts, and a source of each shape that is measured."""
    for source in sorted(glob.glob(os.path.join(repository.TOP, "examples", "*.edd"))):
        stem = source[:-len("edd")]
        yield source, sorted(glob.glob(stem + "*script"))
    for number, (_, make) in enumerate(images.tool("bench").SHAPES):
        source = os.path.join(room, f"shape_{number}.edd")
        with open(source, "w", encoding="utf-8") as file:
            file.write(make(SIZE))
        yield source, []


def same_bytes(score, program, folder):
    """All commands on all of these sources, and by the player in the folder the rows of five commands and the images of their sources."""
    proved = proved_program()
    if not proved:
        return "no proved program is here to compare with"
    with tempfile.TemporaryDirectory() as room, tempfile.TemporaryDirectory() as other:
        for source, scripts in sources(room):
            for words in commands(source, scripts):
                one, two = outcome(program, words, room), outcome(proved, words, other)
                score.check(one == two, f"{' '.join(words)}: the ordinary program gives other bytes than the proved one")
    return player.by_program(score, folder, program, "--beside", proved)
