"""Files as the system has them: a disk that takes no more, an input that is the image's own file, and the calls that save."""
import os
import resource
import shutil
import signal
import stat
import subprocess
import tempfile

from .. import packages, repository

FAILED = 3
# Fewer bytes than an image has.
LIMIT = 64


def library(room):
    """The library that notes the calls."""
    made = os.path.join(room, "watch.so")
    source = os.path.join(repository.TOP, "tools", "watch.c")
    ran = subprocess.run(["cc", "-O1", "-shared", "-fPIC", "-o", made, source], capture_output=True, text=True, check=False)
    if ran.returncode:
        raise packages.Missing(f"cc could not build tools/watch.c: {ran.stderr[-1000:]}")
    return made


def limited():
    """No file may grow longer; a write beyond is refused and no signal."""
    signal.signal(signal.SIGXFSZ, signal.SIG_IGN)
    resource.setrlimit(resource.RLIMIT_FSIZE, (LIMIT, LIMIT))


class Folder:
    """A folder with a source and an older image."""

    def __init__(self, room, program):
        self.room, self.program, self.watch = os.path.join(room, "in"), program, library(room)
        self.calls = os.path.join(room, "calls")

    def begin(self):
        """The source, an older image, and no call."""
        shutil.rmtree(self.room, ignore_errors=True)
        os.mkdir(self.room)
        shutil.copy(os.path.join(repository.TOP, "examples", "first.edd"), os.path.join(self.room, "s"))
        with open(os.path.join(self.room, "i"), "w", encoding="utf-8") as file:
            file.write("older")
        with open(self.calls, "w", encoding="utf-8"):
            pass

    def run(self, words, typed=None, before=None):
        """The status, the lines, what the image holds after it, the names in the folder, and the calls."""
        self.begin()
        source = open(os.path.join(self.room, typed), "rb") if typed else subprocess.DEVNULL
        environment = {**os.environ, "LD_PRELOAD": self.watch, "WATCH": self.calls}
        ran = subprocess.run([self.program, *words], cwd=self.room, stdin=source, env=environment, preexec_fn=before, capture_output=True, check=False)
        if typed:
            source.close()
        return ran.returncode, ran.stdout, self.held("i"), sorted(os.listdir(self.room)), self.called()

    def run_into(self, words, name):
        """The status, what is in the file of this name, which the output goes to, and the calls."""
        self.begin()
        with open(os.path.join(self.room, name), "wb") as file:
            environment = {**os.environ, "LD_PRELOAD": self.watch, "WATCH": self.calls}
            ran = subprocess.run([self.program, *words], cwd=self.room, env=environment, stdout=file, check=False)
        return ran.returncode, self.held(name), self.called()

    def run_on_device(self, words, name):
        """The status and whether the file of this name is a block device still, or nothing where none can be made."""
        self.begin()
        try:
            os.mknod(os.path.join(self.room, name), stat.S_IFBLK | 0o600, os.makedev(7, 255))
        except PermissionError:
            return None
        ran = subprocess.run([self.program, *words], cwd=self.room, capture_output=True, check=False)
        return ran.returncode, stat.S_ISBLK(os.stat(os.path.join(self.room, name)).st_mode)

    def held(self, name):
        with open(os.path.join(self.room, name), "rb") as file:
            return file.read()

    def called(self):
        with open(self.calls, encoding="utf-8") as file:
            return file.read().splitlines()


def saved(score, program):
    """Bytes last before they take their place, a part of them never does, and no file that is read is replaced."""
    with tempfile.TemporaryDirectory() as room:
        folder = Folder(room, program)
        with open(os.path.join(repository.TOP, "examples", "first.edd"), "rb") as file:
            first = file.read()
        status, lines, image, names, calls = folder.run(["compile", "s", "i"])
        score.check((status, lines, len(image), names) == (0, b"image 113\n", 113, ["i", "s"]), f"saved: {status} {lines} {names}")
        score.check(calls == ["fsync", "rename to i"], f"the calls that save: {calls}")
        status, lines, image, names, calls = folder.run(["compile", "s", "i"], before=limited)
        score.check((status, lines, image, names) == (FAILED, b"file i\n", b"older", ["i", "s"]), f"a full disk: {status} {lines} {image} {names}")
        score.check([it.split()[0] for it in calls] == ["unlink"], f"the calls on a full disk: {calls}")
        for name in ("-", "/dev/stdin"):
            status, lines, _, names, calls = folder.run(["compile", name, "s"], typed="s")
            source = folder.held("s")
            score.check((status, lines, names) == (FAILED, b"file s\n", ["i", "s"]) and not calls, f"compile {name} s <s: {status} {lines} {names} {calls}")
            score.check(source == first, f"compile {name} s <s: the source is another one")
        for name in ("-", "/dev/stdout"):
            status, held, calls = folder.run_into(["compile", "s", name], "o")
            score.check(not status and len(held) == 113 + len(b"image 113\n") and held.endswith(b"image 113\n") and not calls, f"compile s {name} >o: {status} {held} {calls}")
        score.check(folder.run_on_device(["compile", "s", "d"], "d") in (None, (FAILED, True)), "a block device was replaced")
    return "with a limit on files, an input from the image's file, and each call noted"
