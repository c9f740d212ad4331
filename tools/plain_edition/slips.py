"""Slips that are planted in the eraser, in the shims and in the program, one at a time in a copy of the checkout, and what notices each."""
import os
import shutil
import signal
import subprocess
import sys
import tempfile

from . import repository

ERASER, CORE, REWRITES = (f"tools/plain_edition/{name}.py" for name in ("erase", "core", "rewrites"))
# What is planted: where, which text of the file becomes which.
SLIPS = (
    ("a clause is kept", ERASER, ', "ensures": self.clause}', "}"),
    ("what follows a clause is left out with it", ERASER, "self.past(found.end()), \"clauses\"",
     "self.past(found.end()) + 8, \"clauses\""),
    ("a ghost takes the next member with it", ERASER, "last.end() if last else end, \"ghost members\"",
     "self.text.index(\"}\", end) + 1, \"ghost members\""),
    ("a statement is dropped", CORE, "        return rewrites.with_head(text_of(erase.tidied(kept)), is_root(path))",
     "        return rewrites.with_head(text_of(erase.tidied(kept)), is_root(path)).replace(\"left -= 1;\", \"\")"),
    ("an `if` is lost", CORE, "        return rewrites.with_head(text_of(erase.tidied(kept)), is_root(path))",
     "        return rewrites.with_head(text_of(erase.tidied(kept)), is_root(path)).replace(\"if !values.are_of(image) \", \"\")"),
    ("a word of an assertion is left out with its handle", REWRITES, "code.leave_out(at + 2, start + 2, \"handles in assertions\")",
     "code.leave_out(at + 2, start + 3, \"handles in assertions\")"),
    ("another derive is left out with Drop", REWRITES, "if code.words[it] == \"Drop\"]", "if code.words[it] in (\"Drop\", \"Debug\")]"),
    ("a list grows without asking", "workbench/shims/std/src/vec.rs", "self.0.len() == self.0.capacity() && self.0.try_reserve(1).is_err()",
     "self.0.len() == usize::MAX"),
    ("a text grows without asking", "workbench/shims/std/src/string.rs", "self.0.try_reserve(text.len()).map_err(|_| AllocError)?;", ""),
    ("a slice loses its last element", "workbench/shims/std/src/vec.rs", "list.0.extend_from_slice(items);",
     "list.0.extend_from_slice(&items[..items.len().saturating_sub(1)]);"),
    ("elements that are alike change places", "workbench/shims/std/src/sort.rs", ".then(a.cmp(b))", ".then(b.cmp(a))"),
    ("half of a list of entries is lost", "workbench/shims/std/src/collections/ordered.rs", "self.lists.insert(at + 1, more);",
     "self.lists.insert(at + 1, more); self.lists.truncate(at + 1); self.lists.push(Vec::new());"),
    ("a key is taken for another of its slot", "workbench/shims/indexmap/src/slots.rs", "slot.hash == hash && is(slot.place as usize)",
     "slot.hash as usize & mask == hash as usize & mask || is(slot.place as usize)"),
    ("a set that is cut keeps one more", "workbench/shims/indexmap/src/lib.rs", "self.elements.truncate(count);", "self.elements.truncate(count + 1);"),
    ("what is held back is lost", "workbench/shims/std/src/io.rs", "let done = self.out.write_all(&self.held);", "let done = Ok(());"),
    ("a mistake of the output is overlooked", "workbench/shims/std/src/host/rt.rs", "        with_output(|out| real::io::Write::write(out, bytes))",
     "        with_output(|out| real::io::Write::write(out, bytes)).or(Ok(bytes.len()))"),
    ("the status of a mistake in the words is 0", "workbench/cli/src/lib.rs",
     "Ok(()) if error.use_stderr() => COMMAND_LINE", "Ok(()) if error.use_stderr() => DONE"),
    ("the fields of an error are exchanged", "workbench/shims/derive/src/error.rs", "names.join(\", \")",
     "names.iter().rev().cloned().collect::<Vec<_>>().join(\", \")"),
)
# The steps of the tests that a slip goes through, in order, without those on other systems.
STEPS = """
import sys
sys.dont_write_bytecode = True
sys.path.insert(0, "tools")
from plain_edition import testing
testing.quick()
"""


def copied(room):
    """A copy of what the edition is made from, with what was built of it so far."""
    listed = subprocess.run(["git", "-C", repository.TOP, "ls-files", "-z"], capture_output=True, text=True, check=True).stdout
    for path in listed.split("\0"):
        if path and not path.endswith((".antt", ".edit")):
            os.makedirs(os.path.dirname(os.path.join(room, path)), exist_ok=True)
            shutil.copy(os.path.join(repository.TOP, path), os.path.join(room, path))


def planted(room, path, old, new):
    """Plants a slip; gives the text of before."""
    place = os.path.join(room, path)
    with open(place, encoding="utf-8") as file:
        text = file.read()
    if text.count(old) != 1:
        raise LookupError(f"{path} has {old!r} {text.count(old)} times")
    with open(place, "w", encoding="utf-8") as file:
        file.write(text.replace(old, new))
    return text


def noticed(room):
    """The first step that fails, or nothing. The steps behind it are not run."""
    ran = subprocess.Popen([sys.executable, "-c", STEPS], cwd=room, stdin=subprocess.DEVNULL, stdout=subprocess.PIPE,
                           stderr=subprocess.PIPE, text=True, start_new_session=True)
    for line in ran.stdout:
        step, _, counted = line.partition(": ")
        if " passed, " in counted and ", 0 failed" not in counted:
            os.killpg(ran.pid, signal.SIGTERM)
            ran.communicate()
            return step
    return "the eraser stops" if "Stopped" in ran.communicate()[1] else ""


def plant(word=""):
    """Plants each slip alone of whose words this is one, and prints what noticed it; the status says whether one went unnoticed."""
    slips = [it for it in SLIPS if word in it[0]]
    unseen = 0
    with tempfile.TemporaryDirectory() as room:
        copied(room)
        if step := noticed(room):
            raise LookupError(f"without a slip: {step} fails")
        for what, path, old, new in slips:
            text = planted(room, path, old, new)
            step = noticed(room)
            unseen += not step
            print(f"| {what} | {step or 'NOTHING'} |", flush=True)
            with open(os.path.join(room, path), "w", encoding="utf-8") as file:
                file.write(text)
    print(f"{len(slips) - unseen} passed, {unseen} failed")
    return int(unseen > 0)
