"""Prints what each devicetree blob has, as tests/calls/layout/main.rt reads it. What it has is what dtc's tools print of it: fdtget
its nodes and properties, and fdtdump its reservations and its boot processor."""

import re
import subprocess
import sys


def said(*words):
    """What a tool prints."""
    return subprocess.run(words, check=True, capture_output=True).stdout.decode("latin-1")


def counted(text):
    """A name or a value after its length."""
    return len(text).to_bytes(4, "big") + text


def value(blob, path, name):
    """The bytes of a property."""
    digits = said("fdtget", "-t", "bx", blob, path, name).split()
    return bytes(int(digit, 16) for digit in digits)


def node(blob, path, name):
    """The events of a node and of all below it, its properties in the order of their names."""
    events = b"B" + counted(name.encode("latin-1"))
    for property_name in sorted(said("fdtget", "-p", blob, path).splitlines()):
        events += b"P" + counted(property_name.encode("latin-1")) + counted(value(blob, path, property_name))
    for child in said("fdtget", "-l", blob, path).splitlines():
        events += node(blob, path.rstrip("/") + "/" + child, child)
    return events + b"E"


def document(blob):
    """All that a blob has."""
    dump = said("fdtdump", blob)
    cpu = re.search(r"^// boot_cpuid_phys:\s+(\w+)$", dump, re.M)
    events = b"D" + int(cpu.group(1), 16).to_bytes(4, "big")
    for address, size in re.findall(r"^/memreserve/ (\w+) (\w+);$", dump, re.M):
        events += b"R" + int(address, 16).to_bytes(8, "big") + int(size, 16).to_bytes(8, "big")
    return events + node(blob, "/", "") + b"F"


for argument in sys.argv[1:]:
    sys.stdout.buffer.write(document(argument))
