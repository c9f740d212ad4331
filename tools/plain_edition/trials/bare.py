"""The libraries without a system: built for a small processor, with the sizes of what is linked."""
import os
import struct

from .. import repository, systems

THUMB = "thumbv7em-none-eabihf"
# The half that compiles, and the half of a communicator.
COMPILING, COMMUNICATING = ["edd_compiler", "edd_display"], ["edd_loader", "edd_machine", "edd_port"]
# Flags of a section of a linked file: it has a place in memory, and it can be written.
IN_MEMORY, WRITABLE = 2, 1
NOTHING = 8


def size(program):
    """How many bytes of a linked file for 32 bits lie in memory that is not written: its code and its constants."""
    with open(program, "rb") as file:
        data = file.read()
    start, = struct.unpack_from("<I", data, 32)
    length, count = struct.unpack_from("<HH", data, 46)
    total = 0
    for at in range(start, start + length * count, length):
        _, kind, flags, _, _, bytes_of = struct.unpack_from("<IIIIII", data, at)
        if flags & IN_MEMORY and not flags & WRITABLE and kind != NOTHING:
            total += bytes_of
    return total


def thumb(score):
    """Builds both halves without std, and links that of a communicator."""
    words = [word for name in COMPILING + COMMUNICATING for word in ("--package", name)]
    systems.build("bare_core", THUMB, systems.BARE, "release", words, folder=repository.CORE)
    score.count(1, 0)
    made = systems.build("bare", THUMB, systems.BARE, "small", ["--package", "edd_plain_firmware"], "-C link-arg=--entry=run")
    bytes_of = size(os.path.join(made, "edd_plain_firmware"))
    score.check(bytes_of > 0, "the firmware is empty")
    return f"{bytes_of} bytes of code and constants for a communicator"
