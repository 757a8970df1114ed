"""Changes files of the vectors at random. What a program has to do with a changed file is what reference.py does."""

import random
import shlex
import struct
import zlib

import reference
from vectors import LEGACY_MAGIC, Run

# Each command that reads an image and needs no option, and some with options.
COMMANDS = (
    *sorted(set(reference.COMMANDS) - {"compare", "update", "get", "extract", "build-legacy", "build-fit"}),
    "normalise --external", "normalise --limit 200", "normalise --external --limit 300",
    "extract --part 0", "extract --image a", "extract --config conf-1", "extract --default", "describe --limit 400",
    "check --limit 200", "check --allow unhashed,trailing", "check --signed", "check --signed --json --limit 500",
    "update --time 5", "update --time 5 --limit 200",
    "update --hashes", "update --hashes --external --limit 400", "update --hashes --time 0x10 --external",
    "scan --limit 200", "list --offset 1", "check --offset 64 --limit 500", "normalise --offset 0x40", "list --json --offset 73",
    "list --json", "verify --json", "describe --json", "describe --json --limit 400", "check --json", "check --json --allow unhashed",
    "describe --deep", "describe --deep --limit 600", "describe --deep --json",
    "show --layout", "show --layout --limit 200",
    "get - time", "get - / description", "get --as number - /images/a load", "get --as text - /images/a type /configurations default",
    "normalise --external --align 8", "normalise --external --align 64 --limit 500", "update --hashes --external --align 16",
    "update --time 5 --external --align 0x100 --limit 800",
)
# Commands that compare a changed file with the file that it was.
COMPARING = (
    "compare - NAME", "compare NAME -", "compare --quiet - NAME", "compare - NAME --limit 500", "compare --json - NAME",
    "compare --json NAME - --limit 500", "compare --ignore time,signatures - NAME", "compare --ignore /images/a --ignore part-0 NAME - --json",
    "compare --deep NAME -", "compare --deep --ignore /images/a//b --ignore /images/c// --ignore part-0//a - NAME --limit 500",
)
# The longest file that is changed.
LONGEST = 2500


def with_sums(file):
    """A legacy image with right checksums, so that later checks are reached."""
    size = struct.unpack_from(">I", file, 12)[0]
    file[24:28] = struct.pack(">I", zlib.crc32(file[64:64 + size]))
    file[4:8] = bytes(4)
    file[4:8] = struct.pack(">I", zlib.crc32(file[:64]))


def change(file, source):
    """Changes a bit, a byte or a cell, cuts the file, or inserts zeros or a copy of other bytes."""
    at = source.randrange(len(file))
    cell = at - at % 4
    kind = source.randrange(6)
    if kind == 0:
        file[at] ^= 1 << source.randrange(8)
    elif kind == 1:
        file[at] = source.choice([0, 1, 2, 3, 4, 9, 0x2F, 0xFF, source.randrange(256)])
    elif kind == 2:
        numbers = [0, 1, 2, 3, 4, 9, len(file) - 1, len(file), len(file) + 1, 0x7FFFFFFF, 0xFFFFFFFF, source.randrange(200)]
        file[cell:cell + 4] = struct.pack(">I", source.choice(numbers))
    elif kind == 3:
        del file[max(at, 1):]
    elif kind == 4:
        file[at:at] = bytes(source.choice([1, 2, 4, 8]))
    else:
        start = source.randrange(len(file)) // 4 * 4
        file[cell:cell] = file[start:start + source.choice([4, 8, 12, 16])]


def changed_runs(vectors, count):
    """Runs over changed files, each with its file. They are the same ones for the same vectors. Every second file is one that is accepted
    before it is changed."""
    source = random.Random(1)
    names = [name for name in sorted(vectors.bodies) if 0 < len(vectors.bytes(name)) <= LONGEST]
    accepted = [name for name in names if reference.main(["list"], vectors.bytes(name))[0] == 0]
    for number in range(count):
        name = source.choice(source.choice([names, accepted]))
        file = bytearray(vectors.bytes(name))
        for _ in range(source.choice([1, 1, 1, 2, 3])):
            change(file, source)
        if file[:4] == LEGACY_MAGIC and len(file) >= 64 and source.random() < 0.8:
            with_sums(file)
        command = source.choice(COMMANDS + COMPARING)
        arguments = [name if word == "NAME" else word for word in shlex.split(command)]
        status, output, errors = reference.main(arguments, bytes(file), vectors.named)
        lines = "\n".join(line.removeprefix("bootimg: ") for line in errors.decode().splitlines())
        yield Run(f"change {number}", name, arguments, status, output, lines), bytes(file)
