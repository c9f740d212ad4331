"""The workbench on 32 bits: the program of i686 Linux, and the module of WebAssembly in node."""
import base64
import json
import os
import shutil
import subprocess
import tempfile

from .. import packages, repository, systems
from . import images, player, table

I686, WASM = "i686-unknown-linux-gnu", "wasm32-unknown-unknown"
# The commands whose first word is a source.
ON_SOURCES = ("compile", "view", "try", "check")


def i686(score, program, own):
    """The rows, the hostile and the damaged images by the program of 32 bits; the player in the folder `own` plays the rows."""
    made = systems.build("i686", I686, systems.WHOLE, "checked", ["--package", repository.PROGRAM])
    other = os.path.join(made, repository.BINARY)
    said = player.by_program(score, own, other)
    images.refused_alike(score, {"64 bits": program, "32 bits": other})
    images.damaged_alike(score, program, other)
    return said


def module():
    """Builds the module of WebAssembly, and gives its path."""
    made = systems.build("module", WASM, systems.BARE, "small", ["--package", "edd_plain_wasm"])
    return os.path.join(made, "edd_plain_wasm.wasm")


def sources():
    """The sources of all rows, each once."""
    found = {}
    for row in table.rows():
        if len(row.words) > 1 and row.words[0] in ON_SOURCES:
            for name, data in row.files:
                if name == row.words[1]:
                    found[bytes(data)] = True
    return list(found)


def wasm(score, program):
    """The module in node says the same of all sources of the rows, and of hostile and damaged images, as the program."""
    if not shutil.which("node"):
        raise packages.Missing("there is no node on the PATH")
    made = module()
    jobs = [("source", it) for it in sources()]
    jobs += [("image", it) for it in [*images.hostile().values(), *images.damaged(program)]]
    with tempfile.TemporaryDirectory() as room:
        said = in_node(made, jobs, room)
        score.check(said["imports"] == 0, "the module imports something")
        for number, (kind, data) in enumerate(jobs):
            expected = expected_of(program, kind, data, room)
            found = said["said"][number]
            score.check(found == expected, f"{kind} {number} in WebAssembly: {str(found)[:150]}, not {str(expected)[:150]}")
    return f"{len(sources())} sources, {os.path.getsize(made)} bytes of module"


def in_node(made, jobs, room):
    listed = []
    for number, (kind, data) in enumerate(jobs):
        path = os.path.join(room, f"job_{number}")
        with open(path, "wb") as file:
            file.write(data)
        listed.append((kind, path))
    with open(os.path.join(room, "list"), "w", encoding="utf-8") as file:
        json.dump(listed, file)
    script = os.path.join(os.path.dirname(__file__), "module.mjs")
    ran = subprocess.run(["node", script, made, os.path.join(room, "list")], capture_output=True, timeout=300, check=False)
    if ran.returncode:
        raise RuntimeError(ran.stderr.decode()[-1500:])
    return json.loads(ran.stdout)


def expected_of(program, kind, data, room):
    """What the program says, in the form in which the module's words come."""
    source, image = os.path.join(room, "source"), os.path.join(room, "made")
    said = {}
    if kind == "source":
        with open(source, "wb") as file:
            file.write(data)
        ran = subprocess.run([program, "compile", source, image], stdin=subprocess.DEVNULL, capture_output=True, timeout=60, check=False)
        if ran.returncode:
            return {"refused": refusal(ran.stdout)}
        with open(image, "rb") as file:
            data = file.read()
        said["image"] = base64.b64encode(data).decode()
    status, lines = images.says(program, "show", data)
    return {**said, **({"refused": refusal(lines)} if status else {"lines": base64.b64encode(lines).decode()})}


def refusal(lines):
    return lines.decode().removesuffix("\n").removeprefix("refused ")
