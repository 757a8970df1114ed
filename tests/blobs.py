"""Lays out devicetree blobs and legacy images, for the tests and for the measurements of bench/.

It checks nothing, so it also makes files that have to be refused. A script imports it by `python_with_blobs` of tests/setup. The suite
in tests/conformance has an encoder of its own, since other projects copy it.
"""

import struct
import zlib

BLOB_MAGIC = 0xD00DFEED
LEGACY_MAGIC = 0x27051956


def cells(*numbers):
    """Numbers of four bytes each, the highest byte first."""
    return struct.pack(f">{len(numbers)}I", *numbers)


def padded(data):
    """The bytes with zeros after them, up to a multiple of four."""
    return data + bytes(-len(data) % 4)


END_NODE, NOP, END = cells(2), cells(4), cells(9)


def begin_node(name):
    """The token that begins a node."""
    return cells(1) + padded(name + b"\0")


def property_at(offset, value=b""):
    """The token of a property whose name is at this offset of the strings block."""
    return cells(3, len(value), offset) + padded(value)


def node_around(name, inside):
    """The tokens of a node around those inside it."""
    return begin_node(name) + inside + END_NODE


class Strings:
    """A strings block, and the offset of each name in it. A name that it does not have yet is added."""

    def __init__(self, names=(), offsets=()):
        self.text = bytearray()
        self.offsets = {}
        for name in names:
            self.offset(name)
        self.offsets.update(offsets)

    def offset(self, name):
        if name not in self.offsets:
            self.offsets[name] = len(self.text)
            self.text += name + b"\0"
        return self.offsets[name]

    def property(self, name, value):
        """The token of a property."""
        return property_at(self.offset(name), value)


def node(name, properties=(), children=()):
    """A node: its name, its properties as pairs of a name and a value, and its children."""
    return name, tuple(properties), tuple(children)


def tokens(root, strings):
    """The tokens of a node and of all below it, the names of their properties in this strings block."""
    name, properties, children = root
    yield begin_node(name)
    for key, value in properties:
        yield strings.property(key, value)
    for child in children:
        yield from tokens(child, strings)
    yield END_NODE


def blob(structure, strings=b"", reservations=b""):
    """A blob of version 17: its reservations, these tokens with the one that ends them, and this strings block."""
    structure += END
    at = 40 + len(reservations) + 16
    end = at + len(structure)
    header = cells(BLOB_MAGIC, end + len(strings), at, end, 40, 17, 16, 0, len(strings), len(structure))
    return header + reservations + bytes(16) + structure + strings


def blob_of(root):
    """The blob of a tree."""
    strings = Strings()
    structure = b"".join(tokens(root, strings))
    return blob(structure, bytes(strings.text))


def with_free_space(file, size):
    """A blob with zeros after it, up to this size, which its header states."""
    return file[:4] + cells(size) + file[8:].ljust(size - 8, b"\0")


def aligned(file):
    """A blob with zeros after it, up to a multiple of four."""
    return with_free_space(file, len(padded(file)))


def with_sums(image):
    """A legacy image with the right checksums: that of all after the header, and that of the header."""
    data = image[64:]
    header = image[:4] + bytes(4) + image[8:24] + cells(zlib.crc32(data)) + image[28:64]
    return header[:4] + cells(zlib.crc32(header)) + header[8:] + data


def legacy_image(data, name, kind, load=0, entry=0):
    """A legacy image of Linux for 32-bit ARM, without compression, made at time 0. The number of its type is `kind`."""
    fields = cells(LEGACY_MAGIC, 0, 0, len(data), load, entry, 0) + bytes([5, 2, kind, 0]) + name.ljust(32, b"\0")
    return with_sums(fields + data)


def parts(*payloads):
    """The data of a multi-file image of these parts: their sizes, a zero, and each, padded but for the last."""
    return cells(*map(len, payloads), 0) + b"".join(map(padded, payloads[:-1])) + b"".join(payloads[-1:])
