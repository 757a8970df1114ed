"""Compares what the calls for C that take images apart return with the module for Python.

structure.py LIBRARY STRUCTURE FILE..: STRUCTURE, the program of structure.c, has to print of each FILE what `bootimg.open` returns of it
over the shared LIBRARY. The last line is `N passed, M failed`.
"""

import json
import os
import subprocess
import sys
import urllib.parse
from pathlib import Path

sys.dont_write_bytecode = True
root = Path(__file__).resolve().parents[3]
os.environ["BOOTIMG_LIBRARY"] = str(Path(sys.argv[1]).resolve())
sys.path.insert(0, str(root / "python"))
sys.path.insert(0, str(root / "tests/conformance"))
import bootimg
import reference

LEGACY_MAGIC, FIT_MAGIC = bytes.fromhex("27051956"), bytes.fromhex("d00dfeed")
FIT_CALLS = ("fit", "reservations", "images", "configurations", "verdicts", "properties", "children", "nodes")
PLACES = (None, "data", "data-offset", "data-position")


def digits(name):
    return name.encode("utf-8", "surrogateescape").hex() or "-"


def lines_of(path):
    """The lines that are printed of a file."""
    yield f"file {path}"
    image = refusal = None
    magic = path.read_bytes()[:4]
    try:
        image = bootimg.open(path)
    except bootimg.Refused as refused:
        refusal = str(refused)
    yield from legacy_lines(image) if image and image.kind == "legacy" else refusals(
        ("legacy", "parts"), "BadMagic at 0" if image or magic == FIT_MAGIC else refusal)
    yield from fit_lines(image, path) if image and image.kind == "fit" else refusals(
        FIT_CALLS, "BadMagic at 0" if image or magic == LEGACY_MAGIC else refusal)
    yield from concern_lines(path) if image else refusals(("concerns",), refusal)


def refusals(calls, refusal):
    return [f"{call}: {refusal}" for call in calls]


def legacy_lines(image):
    header = image.header
    yield f"name {digits(header.name)}"
    yield from (f"time {header.time}", f"load {header.load}", f"entry {header.entry}")
    yield "codes " + " ".join(str(code_of(header, field)) for field in reference.FIELDS)
    yield from (f"part {part.offset} {part.size}" for part in image.parts)
    yield f"unused {image.unused}"


def fit_lines(image, path):
    yield f"boot-cpu {image.header.boot_cpu}"
    yield f"total-size {image.header.total_size}"
    yield from (f"reservation {one.address} {one.size}" for one in image.header.reservations)
    yield from (f"image {digits(one.name)} {PLACES.index(one.source)} {one.offset or 0} {one.size or 0}" for one in image.images)
    for configuration in image.configurations:
        yield f"configuration {digits(configuration.name)}"
        yield from (key_line(image, configuration, number, key) for number, key in enumerate(bootimg.KEYS))
    names = [configuration.name for configuration in image.configurations]
    yield f"default {names.index(image.default) if image.default in names else len(names)}"
    report = bootimg.verify_json(path.read_bytes()).text
    yield from map(hash_line, json.loads(report)["hashes"])
    root = reference.Blob(path.read_bytes()).root
    yield from node_lines(b"/", root)
    yield from element_lines(0, root)


def hash_line(one):
    """The line of a hash node, of the report in JSON."""
    value = None if one["value"] is None else bytes.fromhex(one["value"])
    fields = [*map(unshown, (one["image"], one["node"], one["algorithm"])), "none" if value is None else value.hex() or "-"]
    return f"hash {' '.join(fields)} {bootimg.VERDICTS.index(one['verdict'])}"


def unshown(name):
    """The digits of a name in JSON."""
    return "none" if name is None else "-" if name == "-" else urllib.parse.unquote_to_bytes(name).hex()


def concern_lines(path):
    """The lines of the concerns, of those in JSON."""
    for one in json.loads(bootimg.check_json(path.read_bytes()))["concerns"]:
        has_names = one["concern"] not in bootimg.CONCERNS[8:]
        name = unshown(one.get("image", one.get("configuration", one.get("default"))) if has_names else None)
        words = [str(1 << bootimg.CONCERNS.index(one["concern"])), name, unshown(one.get("node")), unshown(one.get("algorithm"))]
        words += [str(one.get("index", 0)), str(one.get("size", 0))]
        words += [str(bootimg.VERDICTS.index(one["verdict"])) if "verdict" in one else "0"]
        words += [str(bootimg.KEYS.index(one["key"])) if "key" in one else "0"]
        yield " ".join(["concern", *words, *map(unshown, one.get("algorithms", ()))])


def node_lines(path, node):
    """The lines of a node of the vectors' reference, and of the nodes below it."""
    yield f"node {path.hex()}"
    yield from (f"property {name.hex()} {value.hex() or '-'}" for name, value in node.properties.items())
    for child in node.children:
        yield from node_lines(path.rstrip(b"/") + b"/" + child.name, child)


def element_lines(depth, node):
    """The lines of the elements of a node of the vectors' reference, and of the nodes below it."""
    yield f"element 1 {depth} {node.name.hex() or '-'} none"
    yield from (f"element 2 {depth + 1} {name.hex()} {value.hex() or '-'}" for name, value in node.properties.items())
    for child in node.children:
        yield from element_lines(depth + 1, child)


def key_line(image, configuration, number, key):
    """The line of a key: the indices of the images, or the number of the reason why there are none."""
    try:
        return f"key {number}" + "".join(f" {image.images.index(one)}" for one in configuration.images(key))
    except bootimg.NotFound as reason:
        return f"listed: reason {bootimg.REASONS.index(reason.reason) + 1} {reason.index or 0}"


def code_of(header, field):
    """The code in a header, whose name is that of the vectors' reference."""
    code = getattr(header, field)
    return code if isinstance(code, int) else next(number for number, name in reference.CODES[field].items() if name == code)


paths = [Path(path) for path in sys.argv[3:]]
done = subprocess.run([Path(sys.argv[2]).resolve(), *paths], capture_output=True, text=True, check=False)
if done.returncode:
    print(done.stderr)
printed = done.stdout.split("file ")[1:]
wanted = ["\n".join(lines_of(path)).removeprefix("file ") + "\n" for path in paths]
failed = sum(one != other for one, other in zip(printed, wanted)) + abs(len(printed) - len(wanted))
for one, other in zip(printed, wanted):
    if one != other:
        print(f"FAILED: it prints:\n{one}and not:\n{other}")
print(f"{len(wanted) - failed} passed, {failed} failed")
sys.exit(failed != 0)
