"""Reads the vectors, which are in the files vectors/*.txt. docs/CONFORMANCE.md describes their format.

It has an encoder of its own, and shares none with the other tests of bootimg: other projects copy this directory.
"""

import base64
import re
import shlex
import struct
import zlib
from pathlib import Path
from typing import NamedTuple

WORD = re.compile(r'"[^"]*"(?:\*\d+)?|\S+')
# The commands that a line `refused` is short for. convert comes after them, for a file that begins with the legacy magic number.
READING = (
    "list", "describe", "verify", "check", "update --time 0", "update --hashes", "normalise", "normalise --external", "extract --part 0",
    "extract --image a",
)
LEGACY_MAGIC = b"\x27\x05\x19\x56"


class Run(NamedTuple):
    group: str
    file: str
    arguments: list
    status: int
    output: bytes  # or None, for any output
    errors: str  # the lines, each without its first word, or `*` for any text

    def name(self):
        return f"{self.group}: {self.file}: {shlex.join(self.arguments)}"


def number(text):
    return int(text, 0)


def item(word):
    """The bytes of an item: hexadecimal digits, a text, a cell, a number of eight bytes, each perhaps repeated."""
    what, _, count = word.rpartition("*") if re.search(r"\*\d+$", word) else (word, "", "1")
    if what.startswith('"'):
        made = what[1:-1].encode()
    elif what.startswith("=="):
        made = struct.pack(">Q", number(what[2:]))
    elif what.startswith("="):
        made = struct.pack(">I", number(what[1:]))
    else:
        made = bytes.fromhex(what)
    return made * int(count)


def items(words):
    return b"".join(map(item, words))


def padded(data):
    return data + bytes(-len(data) % 4)


class Maker:
    """Makes the bytes of a file from its statements."""

    def __init__(self, vectors):
        self.vectors = vectors
        self.file = bytearray()

    def do(self, words):
        statement = getattr(self, "do_" + words[0], None)
        if words[0].startswith("@"):
            at, new = number(words[0][1:]), items(words[1:])
            if at + len(new) > len(self.file):
                raise ValueError(f"nothing is at {at}")
            self.file[at:at + len(new)] = new
        elif statement:
            statement(words[1:])
        else:
            self.file += items(words)

    def do_copy(self, words):
        """The bytes of another file, from an offset and to an offset where these are given."""
        places = [number(word) for word in words[1:]]
        start = places[0] if places else 0
        end = places[1] if len(places) > 1 else None
        self.file += self.vectors.bytes(words[0])[start:end]

    def do_cut(self, words):
        del self.file[number(words[0]):]

    def do_pad(self, words):
        self.file += bytes(-len(self.file) % number(words[0]))

    def do_base64(self, words):
        self.file += base64.b64decode("".join(words))

    def do_inflate(self, _):
        """Takes the whole file for zlib's format, and inflates it."""
        self.file[:] = zlib.decompress(bytes(self.file))

    def do_sums(self, _):
        """The two checksums of a legacy image."""
        self.file[24:28] = struct.pack(">I", zlib.crc32(self.file[64:]))
        self.file[4:8] = bytes(4)
        self.file[4:8] = struct.pack(">I", zlib.crc32(self.file[:64]))

    # Blobs.

    def do_header(self, words):
        """Begins a blob, which has these names in its strings block."""
        self.names, at = {}, 0
        for word in words:
            self.names[word] = at
            at += len(item(word)) + 1
        self.size_of_strings = at
        self.file += bytes(40)

    def do_reservations(self, words):
        self.reservations = len(self.file)
        self.file += items(words)

    def do_structure(self, _):
        self.structure = len(self.file)

    def do_begin(self, words):
        self.file += struct.pack(">I", 1) + padded(items(words) + b"\0")

    def do_prop(self, words):
        value = items(words[1:])
        at = self.names[words[0]] if words[0] in self.names else number(words[0])
        self.file += struct.pack(">III", 3, len(value), at) + padded(value)

    def do_end(self, _):
        self.file += struct.pack(">I", 2)

    def do_nop(self, _):
        self.file += struct.pack(">I", 4)

    def do_finish(self, _):
        """The last token of the structure block."""
        self.file += struct.pack(">I", 9)
        self.size_of_structure = len(self.file) - self.structure

    def do_strings(self, _):
        self.strings = len(self.file)
        self.file += b"".join(item(name) + b"\0" for name in self.names)

    def do_total(self, _):
        """Ends the blob, and fills its header."""
        places = len(self.file), self.structure, self.strings, self.reservations
        self.file[:40] = struct.pack(">10I", 0xD00DFEED, *places, 17, 16, 0, self.size_of_strings, self.size_of_structure)

    # A blob with its blocks in the usual order, without reservations.

    def do_tree(self, words):
        self.do_header(words)
        self.do_reservations(["==0", "==0"])
        self.do_structure([])
        self.do_begin([])

    def do_fit(self, words):
        self.do_tree(words)
        self.do_begin(['"images"'])

    def do_done(self, _):
        self.do_end([])
        self.do_finish([])
        self.do_strings([])
        self.do_pad(["4"])
        self.do_total([])


class Vectors:
    """The files and the runs of all groups."""

    def __init__(self, directory):
        self.bodies, self.made, self.runs, self.refused = {}, {}, [], []
        for path in sorted(Path(directory).glob("*.txt")):
            self.read(path)

    def read(self, path):
        body = None
        for at, line in enumerate(path.read_text(encoding="utf-8").split("\n"), 1):
            where = f"{path.name}:{at}"
            if not line.strip() or line.strip().startswith("#"):
                continue
            if line[0] == " ":
                body.append((where, line.strip()))
            else:
                kind, _, rest = line.partition(" ")
                body = self.begin(path.stem, where, kind, rest)

    def begin(self, group, where, kind, rest):
        """Begins an entry, and returns the list for its lines."""
        body = []
        if kind == "file":
            if rest in self.bodies:
                raise ValueError(f"{where}: the file {rest} is there already")
            self.bodies[rest] = body
            return body
        file, _, text = rest.partition(": ")
        if kind == "refused":
            self.refused.append((group, file, text))
            self.runs.append((group, where, file, None, [(where, "! " + text)]))
        elif kind == "run":
            self.runs += [(group, where, name, text, body) for name in file.split()]
        else:
            raise ValueError(f"{where}: no kind of entry: {kind}")
        return body

    def bytes(self, name):
        """The bytes of a file."""
        if name not in self.made:
            maker = Maker(self)
            for where, line in self.bodies[name]:
                for statement in re.split(r" ; ", line):
                    try:
                        maker.do(WORD.findall(statement))
                    except Exception as error:
                        raise ValueError(f"{where}: {statement}: {error}") from error
            self.made[name] = bytes(maker.file)
        return self.made[name]

    def named(self, name):
        """The bytes of a file that an argument names, or None if there is none."""
        return self.bytes(name) if name in self.bodies else None

    def expected(self, body):
        """The status, the output and the lines on standard error that a run wants."""
        status, output, errors = None, b"", []
        for where, line in body:
            key, _, text = line.partition(" ")
            if key == "|":
                output += text.encode() + b"\n"
            elif key == "bytes":
                output += items(WORD.findall(text))
            elif key == "=":
                output += self.bytes(text)
            elif key == "any":
                output = None
            elif key == "!":
                errors.append(text)
            elif key == "status":
                status = int(text)
            else:
                raise ValueError(f"{where}: {line}")
        return (2 if errors else 0) if status is None else status, output, "\n".join(errors)

    def all_runs(self):
        """All runs, each as a Run; a line `refused` is one for each reading command."""
        for group, where, file, command, body in self.runs:
            if file not in self.bodies:
                raise ValueError(f"{where}: no file {file}")
            commands = [command]
            if command is None:
                commands = [*READING, *["convert"] * (self.bytes(file)[:4] == LEGACY_MAGIC)]
            for line in commands:
                yield Run(group, file, shlex.split(line), *self.expected(body))
