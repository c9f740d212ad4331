"""Memory that is refused: what the core asks for ends the program with status 4, and what Rust takes without asking by a signal."""
import json
import os
import subprocess
import tempfile

from .. import packages, repository

MEMORY = 4
# Of the requests of a program one in so many is refused, from another one on for each program.
APART = 3
# So many requests at most come before `main`.
FIRST = 16


def library(room):
    """The library that refuses the requests from one on."""
    made = os.path.join(room, "refuse.so")
    source = os.path.join(repository.TOP, "tools", "refuse.c")
    ran = subprocess.run(["cc", "-O1", "-shared", "-fPIC", "-nostdlib", "-o", made, source], capture_output=True, text=True, check=False)
    if ran.returncode:
        raise packages.Missing(f"cc could not build tools/refuse.c: {ran.stderr[-1000:]}")
    return made


class Refused:
    """Runs of programs whose requests for memory are refused from one on."""

    def __init__(self, room):
        self.room, self.library = room, library(room)

    def run(self, words, number, typed=b""):
        """The status, the lines, and whether a request was refused."""
        environment = {**os.environ, "REFUSE": str(number), "LD_PRELOAD": self.library}
        ran = subprocess.run(words, cwd=self.room, env=environment, input=typed, capture_output=True, check=False)
        return ran.returncode, ran.stdout, b"refused\n" in ran.stderr

    def requests(self, words, typed=b""):
        """How many requests a run makes: the most that is refused."""
        least, most = 0, 1
        while self.run(words, most, typed)[2]:
            least, most = most, 2 * most
        while most - least > 1:
            middle = (least + most) // 2
            least, most = (middle, most) if self.run(words, middle, typed)[2] else (least, middle)
        return least


# What is typed at `open`: a help, a variable, and a method that asks once.
TYPED = b"h 1\n1\n\n3\n\nq\n"


def commands(examples):
    """Command lines. Where they save something, it is under the name `made`."""
    source, script = os.path.join(examples, "valve_positioner.edd"), os.path.join(examples, "valve_positioner.ends.script")
    device = os.path.join(examples, "valve_positioner.device.edd")
    yield from (["open", source, "--device", device], ["open", "image", "--record", "made"], ["try", source, "calibrate", "--device", device])
    yield from (["compile", source, "made"], ["view", source, script], ["check", source], ["check", "wrong"], ["show", "image"])
    yield from (["play", "image", "calibrate", script], ["try", source, "calibrate", script], ["test", "one.test"], ["view", "wrong"])


def content(path):
    """The bytes of a file, which is removed; none where there is none."""
    if not os.path.exists(path):
        return None
    with open(path, "rb") as file:
        found = file.read()
    os.remove(path)
    return found


def of_program(score, program):
    """The program on some command lines: a refused request ends it, with status 4 or, where the core did not ask, by a signal, or leaves a
    hint out. A file is saved whole or not at all."""
    answered = ended = 0
    with tempfile.TemporaryDirectory() as room:
        refused, made = Refused(room), os.path.join(room, "made")
        source = os.path.join(repository.TOP, "examples", "valve_positioner.edd")
        subprocess.run([program, "compile", source, "image"], cwd=room, stdout=subprocess.DEVNULL, check=True)
        with open(source, encoding="utf-8") as file, open(os.path.join(room, "wrong"), "w", encoding="utf-8") as wrong:
            wrong.write(file.read().replace("LABEL", "LABLE", 2))
        with open(os.path.join(room, "one.test"), "w", encoding="utf-8") as file:
            file.write(f"source {source}\ntest one\nmethod show_opening\n= another line\n")
        for words in commands(os.path.join(repository.TOP, "examples")):
            unrefused = refused.run([program, *words], 0, TYPED)[:2]
            whole = content(made)
            every = refused.requests([program, *words], TYPED)
            content(made)
            for number in range(1 + len(words[0]) % APART, every + 1, APART):
                status, lines, _ = refused.run([program, *words], number, TYPED)
                is_answered = status == MEMORY and lines.endswith(b"no memory\n")
                answered, ended = answered + is_answered, ended + (status < 0)
                # A hint for which there is no memory is left out.
                is_over = is_answered or status < 0 or (status, lines) == unrefused
                is_right = content(made) in (None, whole) and is_over
                score.check(is_right, f"{' '.join(words)}: request {number} of {every}: status {status}")
    return f"{answered} of the requests ended with status 4, {ended} by a signal"


# A text without quotes and line ends.
EDITED = (
    "MANUFACTURER 1, DEVICE_TYPE 2, DEVICE_REVISION 3, DD_REVISION 4 "
    "VARIABLE flow { LABEL [flow]; TYPE INTEGER (2) { MAX_VALUE 5 * 20; } } "
    "COLLECTION OF VARIABLE all { MEMBERS { first, flow; } } "
    "MENU main { LABEL [main]; ITEMS { flow, all.first } } "
    "METHOD reset { LABEL [reset]; DEFINITION { int n; n = flow; DELAY(n, [wait]); flwo = 1; } }"
)
URI = "file:///one.edd"


def place(text):
    """The parameters that name the place where these characters are."""
    return {"textDocument": {"uri": URI}, "position": {"line": 0, "character": EDITED.index(text)}}


def conversation():
    """A conversation that asks everything once, as bytes."""
    document = {"textDocument": {"uri": URI}}
    whole = {"start": {"line": 0, "character": 0}, "end": {"line": 0, "character": len(EDITED)}}
    asked = [("initialize", {"capabilities": {"textDocument": {"codeAction": {"codeActionLiteralSupport": {}}}}})]
    told = [("initialized", {}), ("textDocument/didOpen", {"textDocument": {"uri": URI, "version": 1, "text": EDITED.replace("flwo", "flow")}})]
    told += [("textDocument/didChange", {"textDocument": {"uri": URI, "version": 2}, "contentChanges": [{"text": EDITED}]})]
    for method in ("hover", "definition", "documentHighlight", "prepareRename", "completion"):
        asked.append((f"textDocument/{method}", place("flow, all")))
    asked += [("textDocument/references", {**place("flow, all"), "context": {"includeDeclaration": True}})]
    asked += [("textDocument/rename", {**place("flow, all"), "newName": "rate"}), ("textDocument/signatureHelp", place("n, [wait"))]
    asked += [("textDocument/hover", place("5 * 20")), ("textDocument/completion", place("first }")), ("textDocument/completion", place("LABEL [main"))]
    asked += [(f"textDocument/{method}", document) for method in ("documentSymbol", "foldingRange")]
    asked += [("textDocument/formatting", {**document, "options": {}}), ("textDocument/codeAction", {**document, "range": whole, "context": {"diagnostics": []}})]
    messages = [{"id": number, "method": method, "params": params} for number, (method, params) in enumerate(asked)]
    messages[1:1] = [{"method": method, "params": params} for method, params in told]
    messages += [{"id": len(asked), "method": "shutdown"}, {"method": "exit"}]
    bodies = [json.dumps({"jsonrpc": "2.0", **message}).encode() for message in messages]
    return b"".join(b"Content-Length: %d\r\n\r\n%s" % (len(body), body) for body in bodies)


def answers_in(sent):
    """The answers of a server in their order; none where a message is not whole. What is wrong with a text comes when no message waits, so
    its place among the answers depends on what has come by then."""
    answers = []
    while sent:
        header, _, rest = sent.partition(b"\r\n\r\n")
        length = int(header.removeprefix(b"Content-Length: ") or -1)
        if not 0 <= length <= len(rest):
            return None
        body, sent = rest[:length], rest[length:]
        answers += [body] if "id" in json.loads(body) else []
    return answers


def of_editor(score, program):
    """The language server: a refused request ends it after whole answers, with status 4 or, where the core did not ask, by a signal."""
    with tempfile.TemporaryDirectory() as room:
        refused, typed = Refused(room), conversation()
        status, whole, _ = refused.run([program, "lsp"], 0, typed)
        score.check(not status and b'"error"' not in whole, f"lsp: status {status}: {whole[-1000:]}")
        every, ended, wanted = refused.requests([program, "lsp"], typed), 0, answers_in(whole)
        for number in range(1, every + 1, APART):
            status, lines, _ = refused.run([program, "lsp"], number, typed)
            is_answered = status == MEMORY and lines.endswith(b"no memory\n")
            ended += status < 0
            answers = answers_in(lines.removesuffix(b"no memory\n"))
            is_whole = answers is not None and answers == wanted[: len(answers)]
            # How many requests there are depends on what has come when a text is checked too.
            is_spared = not status and answers == wanted
            score.check((is_answered or status < 0 or is_spared) and is_whole, f"lsp: request {number} of {every}: status {status}")
    return f"one in {APART} of {every} requests, {ended} by a signal"


def of_calls(score, folder):
    """The calls that take memory, one after the other: the lines of before the refusal, and `no memory`."""
    program = os.path.join(folder, "test_growths")
    with tempfile.TemporaryDirectory() as room:
        refused = Refused(room)
        whole = refused.run([program], 0)[1].splitlines(keepends=True)
        starts = {b"".join(whole[:count]) + b"no memory\n" for count in range(len(whole))}
        every, ended = refused.requests([program]), 0
        for number in range(1, every + 1, APART):
            status, lines, _ = refused.run([program], number)
            # Rust takes some memory before the program begins.
            if status < 0 and not lines and number <= FIRST:
                ended += 1
                continue
            score.check(status == MEMORY and lines in starts, f"calls: request {number} of {every}: status {status}")
    return f"one in {APART} of {every} requests, {ended} before the first call"
