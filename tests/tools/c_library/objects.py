"""Tries `bootimg.open` of the module for Python on the files that `tests/conformance/run --export` wrote.

objects.py RUNS LIBRARY: over the shared LIBRARY, the lines that are put together from the members of an Image are those that the run of
`list`, `describe`, `verify` or `check` on its file has to write, and a file that is refused there is refused here. Payloads are views of
the file, and are released with the image. A header and parts build the normal form again. A value is the number or the texts that `get`
prints. An image is as long as `scan` prints. Names can be given back to calls. The examples in the comments of the module are run. The
last line is `N passed, M failed`.
"""

import doctest
import hashlib
import json
import mmap
import os
import struct
import sys
import tempfile
from pathlib import Path

sys.dont_write_bytecode = True
root = Path(__file__).resolve().parents[3]
runs = Path(sys.argv[1]).resolve()
os.environ["BOOTIMG_LIBRARY"] = str(Path(sys.argv[2]).resolve())
sys.path[:0] = [str(root / "python"), str(root / "tests/conformance")]
import reference
import bootimg
import bootimg.codes
import bootimg.image

passed = failed = 0
PLAIN = set(range(0x21, 0x7F)) - {ord("%")}


def check(name, holds):
    global passed, failed
    passed += bool(holds)
    failed += not holds
    if not holds:
        print(f"FAILED: {name}")


def shown(name):
    """A name as it is printed."""
    name = name.encode("utf-8", "surrogateescape")
    if name in (b"", b"-"):
        return "%2D" if name else "-"
    return "".join(chr(byte) if byte in PLAIN else f"%{byte:02X}" for byte in name)


def header_lines(image):
    header = image.header
    if image.kind == "fit":
        return [f"reservation 0x{one.address:016x} 0x{one.size:016x}" for one in header.reservations]
    codes = [f"{name} {getattr(header, name)}" for name in ("os", "arch", "type", "compression")]
    numbers = [f"time {header.time}", f"load 0x{header.load:08x}", f"entry 0x{header.entry:08x}"]
    return [f"name {shown(header.name)}", *numbers, *codes]


def key_lines(configuration):
    for key in bootimg.KEYS:
        line = f"key {shown(configuration.name)} {key}"
        try:
            yield " ".join([line, "ok", *(shown(image.name) for image in configuration.images(key))])
        except bootimg.NotFound as reason:
            check(f"{line}: the keys that there are", (key in configuration.keys) == (reason.reason != "no such key"))
            if reason.reason == "bad list":
                yield f"{line} bad-list"
            elif reason.reason == "missing image":
                yield f"{line} missing {reason.index}"


def listing(image):
    yield f"kind {image.kind}"
    if image.kind == "fit":
        yield f"boot-cpu {image.header.boot_cpu}"
        yield f"total-size {image.header.total_size}"
    yield from header_lines(image)
    if image.kind == "legacy":
        yield f"parts {len(image.parts)}"
        yield from (f"part {index} size {part.size} at {part.offset}" for index, part in enumerate(image.parts))
        yield f"unused {image.unused}"
    for one in image.images:
        place = "none" if one.payload is None else f"size {one.size} {one.source} at {one.offset}"
        yield f"image {shown(one.name)} {place}"
    for configuration in image.configurations:
        yield f"config {shown(configuration.name)}"
        yield from key_lines(configuration)
    if image.default is not None:
        yield f"default {shown(image.default)}"


def digest(payload):
    return f"size {len(payload)} sha256 {hashlib.sha256(payload).hexdigest()}"


def value_text(value):
    """The value of a property as it is described: strings, or digits."""
    texts = value.split(b"\0")
    if value and not texts.pop() and all(text and all(0x20 <= byte <= 0x7E for byte in text) for text in texts):
        return " ".join('"' + text.decode().replace("\\", "\\\\").replace('"', '\\"') + '"' for text in texts)
    return f"0x{value.hex()}" if value else ""


def node_lines(image, node, path):
    yield f"node {path or '/'}"
    properties = node.properties
    if path.count("/") == 2 and path.startswith("/images/"):
        payload = image.image(node.name).payload
        yield f"payload {path} {'none' if payload is None else digest(payload)}"
        placing = "data", "data-size", "data-offset", "data-position"
        properties = {name: value for name, value in properties.items() if name not in placing}
        check(f"{path}: the properties of the image", image.image(node.name).properties == properties)
    for name, value in sorted(properties.items(), key=lambda pair: pair[0].encode("utf-8", "surrogateescape")):
        yield f"property {path or '/'} {shown(name)} {value_text(value)}".rstrip(" ")
    for child in node.children:
        yield from node_lines(image, child, f"{path}/{shown(child.name)}")


def description(image):
    yield f"kind {image.kind}"
    if image.kind == "fit":
        yield f"boot-cpu {image.header.boot_cpu}"
    yield from header_lines(image)
    if image.kind == "fit":
        yield from node_lines(image, image.root, "")
    yield from (f"part {index} {digest(part.payload)}" for index, part in enumerate(image.parts))


def or_none(name):
    return "-" if name is None else shown(name)


def report(image):
    if image.kind == "legacy":
        yield from ("header crc32 good", "data crc32 good")
        return
    hashes = image.verify().hashes
    check("the hash nodes of the images", [one for each in image.images for one in each.hashes] == [*hashes])
    for one in hashes:
        yield f"{shown(one.image)} {shown(one.node)} {or_none(one.algorithm)} {one.verdict} {one.value.hex() if one.value else '-'}"
    yield "summary " + " ".join(f"{word} {[one.verdict for one in hashes].count(word)}" for word in bootimg.VERDICTS)


def concern_line(concern):
    words = {
        "bad-hash": lambda: [shown(concern.image), shown(concern.node), or_none(concern.algorithm), concern.verdict],
        "unhashed": lambda: [shown(concern.image)],
        "weak-hash": lambda: [shown(concern.image), *map(shown, concern.algorithms)],
        "bad-list": lambda: [shown(concern.configuration), concern.key],
        "missing": lambda: [shown(concern.configuration), concern.key, str(concern.index)],
        "bad-default": lambda: [or_none(concern.default)],
        "trailing": lambda: [str(concern.size)],
        "skipped-hash": lambda: [shown(concern.image), shown(concern.node)],
        "unsigned": lambda: [or_none(concern.configuration)],
        "unit-address": lambda: ["".join(f"/{shown(name)}" for name in concern.path.split("/")[1:])],
        **dict.fromkeys(("no-nodes", "no-images", "strings"), lambda: [shown(concern.configuration), shown(concern.signature)]),
        **dict.fromkeys(("uncovered", "foreign"), lambda: [*map(shown, (concern.configuration, concern.signature, concern.path))]),
    }[concern.kind]()
    return " ".join([concern.kind, *words])


COMMANDS = {
    "list": listing,
    "describe": description,
    "verify": report,
    "check": lambda image: map(concern_line, image.check()),
}


def outcome(lines_of, path):
    """The lines of a file, or why it is refused."""
    try:
        return "".join(f"{line}\n" for line in lines_of(bootimg.open(path)))
    except bootimg.Refused as refused:
        return str(refused)


def try_payloads(path):
    """The payloads of a file are views of it, and are found by their names."""
    file = bytearray(path.read_bytes())
    image = bootimg.open(file)
    for index, part in enumerate(image.parts):
        check(f"{path}: a part is a view", part.payload.obj is file and part.payload == bootimg.extract_part(file, index))
    for one in image.images:
        if one.payload is not None:
            check(f"{path}: a payload is a view", one.payload.obj is file and one.payload == bootimg.extract_image(file, one.name))
    for configuration in image.configurations:
        for key in configuration.keys:
            try:
                wanted = bootimg.extract_config(file, configuration.name, key)
            except bootimg.NotFound:
                continue
            check(f"{path}: a list of a configuration", configuration.images(key)[0].payload == wanted)


def raises(kind, call, *arguments, **options):
    """What a call that has to fail raises, as text."""
    try:
        call(*arguments, **options)
    except kind as error:
        return str(error)
    return None


def index_of(call, *arguments, **options):
    """The index of the wrong element that a call names, or None."""
    try:
        call(*arguments, **options)
    except bootimg.WrongArgument as wrong:
        return wrong.index
    return "no failure"


def gotten(image, path, name, form):
    """What `get` returns of a property, or why it returns nothing."""
    try:
        return image.get(path, name, form).decode().splitlines()
    except bootimg.NotFound as reason:
        return reason.reason


def meant(value, member):
    """A member of a value as `get` prints it, or why there is none."""
    try:
        found = getattr(value, member)
    except bootimg.NotFound as reason:
        return reason.reason
    return list(found) if member == "texts" else [f"0x{found:0{2 * len(value)}x}"]


def try_values(path, image, node, shown_path):
    """The values of the properties of a node, and of the nodes below it, are numbers and texts as for `get`."""
    for name, value in node.properties.items():
        if shown_path.count("/") == 2 and shown_path.startswith("/images/") and name in bootimg.image._PLACING:
            continue
        where = f"{path}: {shown_path or '/'} {name}"
        number, texts = (gotten(image, shown_path or "/", shown(name), form) for form in ("number", "text"))
        check(f"{where}: its number", meant(value, "number") == number)
        check(f"{where}: its texts", meant(value, "texts") == texts)
        check(f"{where}: its size", [meant(value, member) == number for member in ("u32", "u64")] == [len(value) != 8, len(value) != 4])
        check(f"{where}: it is bytes", value == bytes(image.property_value(node.path, name)) and isinstance(value, bytes))
    for child in node.children:
        try_values(path, image, child, f"{shown_path}/{shown(child.name)}")


def nodes_below(node):
    """A node and all nodes below it."""
    yield node
    for child in node.children:
        yield from nodes_below(child)


def try_nodes(path, image):
    """The nodes of a FIT are those below its root, and none has another path."""
    found = [(node.name, node.path, node.properties, [child.path for child in node.children]) for node in image.nodes()]
    check(f"{path}: all nodes", found == [
        (node.name, node.path, node.properties, [child.path for child in node.children]) for node in nodes_below(image.root)
    ])
    for wrong in "", "images", "/images/", "//images", "/images/none":
        check(f"{path}: no node has the path {wrong!r}", raises(bootimg.NotFound, image.properties, wrong) == "no such node")
        check(f"{path}: nor {wrong!r} as bytes", raises(bootimg.NotFound, image.property_value, wrong.encode(), "x") == "no such node")
    check(f"{path}: no such property", raises(bootimg.NotFound, image.property_value, "/", "no-such") == "no such property")
    check(f"{path}: the children of the root", image.children(b"/") == tuple(child.name for child in image.root.children))


def try_building(path, image):
    """The header and the parts of a legacy image build its normal form, also with other fields."""
    built = bootimg.build_legacy(image.parts, header=image.header)
    check(f"{path}: its header builds it", built == image.normalise())
    codes = {field: bootimg.code_number(field, getattr(image.header, field)) for field in bootimg.CODES}
    numbers = {field: getattr(image.header, field) for field in ("time", "load", "entry")}
    payloads = [part.payload for part in image.parts]
    check(f"{path}: so do its fields", bootimg.build_legacy(payloads, image.header.name, **codes, **numbers) == built)
    changed = bootimg.build_legacy(payloads, "other", header=image.header, time=7, compression="lz4")
    wanted = bootimg.build_legacy(payloads, "other", **{**codes, **numbers, "time": 7, "compression": 5})
    check(f"{path}: so it does with other fields", changed == wanted and bootimg.open(changed).header.name == "other")


entries = json.loads((runs / "runs.json").read_text(encoding="utf-8"))
accepted = set()
extents = 0
for entry in entries:
    arguments, name = entry["arguments"], entry["file"]
    if arguments in (["scan"], ["scan", "-"]) and name and entry["status"] == 0 and (runs / name).exists():
        first = bytes.fromhex(entry["output"]).decode().split("\n")[0].split(" ")
        if first[0] == "0":
            check(f"the extent of {name}", bootimg.open(runs / name).extent == int(first[2]))
            extents += 1
    if not name or arguments is None or len(arguments) != 1 or arguments[0] not in COMMANDS or not (runs / name).exists():
        continue
    wanted = bytes.fromhex(entry["output"]).decode() if entry["status"] != 2 else entry["errors"]
    check(f"{arguments[0]} {name}", outcome(COMMANDS[arguments[0]], runs / name) == wanted)
    if entry["status"] != 2:
        accepted.add(runs / name)
check("there are extents", extents > 5)
for path in sorted(accepted):
    try_payloads(path)
    accepted_image = bootimg.open(path)
    if accepted_image.kind == "fit":
        try_values(path, accepted_image, accepted_image.root, "")
        try_nodes(path, accepted_image)
    else:
        try_building(path, accepted_image)
check("there are files of both kinds", {bootimg.open(path).kind for path in accepted} == {"legacy", "fit"})

# What a file is given as.
board = root / "examples/board.itb"
with open(board, "rb") as source:
    listed = [*listing(bootimg.open(source.read()))]
check("a path as text", [*listing(bootimg.open(str(board)))] == listed)
check("a view that is not contiguous", [*listing(bootimg.open(memoryview(bytes(byte for one in board.read_bytes() for byte in (one, 0)))[::2]))] == listed)
check("an image", "2628 bytes" in repr(bootimg.open(board)))
image = bootimg.open(board)
check("the image itself is compared", image.compare(bootimg.open(board)) == bootimg.compare(image.file, image.file))
check("so are bytes", image.compare(board.read_bytes()).same)
later = bootimg.update(image.file, time=7)
check("what is ignored is left out", image.compare(later, ignore=["time"]).same and not image.compare(later).same)
check("words are text or bytes", bootimg.compare_json(image.file, later, ignore=[b"/ timestamp", "/images"]).same)
check("a word that names nothing", raises(bootimg.WrongArgument, image.compare, later, ignore=["time", "no"]) == "wrong argument: 'no'")
model = b"\0\0\0\x01" + b"\0" * 7 + b"\x03\0\0\0\x02" + b"\0" * 4 + b"%s\0\0\0\0\0\0\x02\0\0\0\x09"
blobs = [struct.pack(">10I16x", 0xD00DFEED, 94, 56, 88, 40, 17, 16, 0, 6, 32) + model % name + b"model\0" for name in (b"m", b"n")]
boards = [bootimg.open(bootimg.build_fit([bootimg.BuildImage("fdt", blob, "linux", "arm", "flat_dt")])) for blob in blobs]
inside = ["/images/fdt// model", "/images/fdt/hash-1"]
check("what is inside is described", 'property /images/fdt// model "m"' in boards[0].describe(deep=True).splitlines())
check("and not without the flag", "model" not in boards[0].describe() + bootimg.describe_json(boards[0].file))
check("in JSON, too", '"strings":["m"]' in bootimg.describe_json(boards[0].file, deep=True))
check("what is inside is compared", '+property /images/fdt// model "n"' in boards[0].compare(boards[1], deep=True).differences.splitlines())
check("what is ignored inside is left out", boards[0].compare(boards[1], ignore=inside, deep=True) == (True, ""))
check("and not without the flag", not boards[0].compare(boards[1], ignore=inside).same)
check("so in JSON", bootimg.compare_json(*(one.file for one in boards), ignore=inside, deep=True).same)
check("files that are the same are described", raises(bootimg.Refused, bootimg.compare, boards[0].file, boards[0].file, 700, deep=True) is not None)
check("a word in a list has its index", index_of(image.compare, later, ignore=["time", "no"]) == 1)
check("so has an algorithm", index_of(bootimg.build_fit, [], hashes=["sha256", "sha1", "none"]) == 2)
check("so has an edit", index_of(bootimg.edit, image.file, remove=["/images/kernel-1", "images"]) == 1)
check("a limit has none", index_of(bootimg.describe, image.file, 63) is None)
check("a page in JSON", json.loads(image.show_json())["images"][0]["name"] == "kernel-1")
check("a scan in JSON", json.loads(bootimg.scan_json(b"x" + bytes(image.file)))["images"][0]["offset"] == 1)
check("nothing is found", (bootimg.scan(b""), bootimg.scan_json(b"")) == ("", '{"images":[]}\n'))
check("the default configuration", image.configuration().name == image.default == "conf-1")
check("a name of bytes", image.configuration(b"conf-2").images("fdt") == (image.image(b"fdt-1"),))
for name, call in {
    "image": lambda: image.image("none"),
    "configuration": lambda: image.configuration("none"),
    "key": lambda: image.configuration().images("firmware"),
}.items():
    try:
        call()
        check(f"there is no such {name}", False)
    except bootimg.NotFound as reason:
        check(f"there is no such {name}", reason.reason == f"no such {name}")
small = bootimg.open(root / "examples/kernel.uimage", limit=3974)
for name, call in {"root": lambda: small.root, "node": small.nodes, "configuration": small.configuration}.items():
    try:
        call()
        check(f"a legacy image has no {name}", False)
    except bootimg.NotFound:
        check(f"a legacy image has no {name}", True)
try:
    bootimg.open(root / "examples/kernel.uimage", limit=3973)
    check("the limit is on the file", False)
except bootimg.Refused as refused:
    check("the limit is on the file", str(refused) == "TooLarge at 3973")
check("its normal form", small.normalise() == bootimg.normalise(small.file) and small.update(time=5) == bootimg.update(small.file, 5))
check("its notes are about nothing", small.notes(time=5, hashes=True, external=True) == (0, None, 0))

# Alignments, and what is noted about a form that loses one.
plain = {"os": "linux", "arch": "arm64", "type": "kernel"}
pair = [bootimg.BuildImage(name, b"payload", **plain) for name in ("a", "b")]
aligned = bootimg.build_fit(pair, external=True, align=4096)
with bootimg.open(aligned) as one:
    check("each payload is at a multiple", all(image.offset % 4096 == 0 for image in one.images))
    check("the alignment is lost", one.notes(external=True) == (0, 4096, 0))
    check("it is kept in other forms", one.notes() == one.notes(external=True, align=8) == (0, None, 0))
    check("the form of the same alignment", one.normalise(external=True, align=4096) == aligned)
    check("four is the alignment of the external form", one.normalise(True, align=4) == one.normalise(True))
    check("an update has it too", one.update(0, False, True, align=4096) == aligned)
    edited = one.edit(set=["/ x 0x01"], keep_form=True)
    check("the form of the file is kept", edited == one.edit(set=["/ x 0x01"], external=True, align=4096) != one.edit(set=["/ x 0x01"]))
    check("what was set is there", bootimg.get(edited, "/", "x") == b"0x01\n")
    noted = [bootimg.edit_notes(aligned, time=5, **form) for form in ({}, {"external": True}, {"keep_form": True})]
    check("the notes on edits", noted == [(0, None, 0, 2), (0, 4096, 0, 0), (0, None, 0, 0)])
for place, wrong in ("set", ["/"]), ("remove", ["/images"]), ("fields", {"size": 1}), ("fields", {"os": "none"}), ("fields", {"load": "1"}):
    try:
        bootimg.edit(aligned, **{place: wrong})
        check(f"no such edit: {place} {wrong}", False)
    except bootimg.WrongArgument:
        check(f"no such edit: {place} {wrong}", True)
for place, wrong, reason, index in (
    ("remove", ["/configurations", "/none"], "nothing to remove", 1),
    ("payloads", {"a": b"", "none": b""}, "no such image", 1),
    ("fields", {"os": "linux"}, "the selection does not fit this kind of image", None),
):
    try:
        bootimg.edit(aligned, **{place: wrong})
        check(f"an edit finds nothing: {place}", False)
    except bootimg.NotFound as missing:
        check(f"an edit finds nothing: {place}", (missing.reason, missing.index) == (reason, index))
for form in {"keep_form": True, "external": True}, {"keep_form": True, "align": 8}, {"align": 2}, {"external": True, "align": 2}:
    try:
        bootimg.edit(aligned, **form)
        check(f"no such form: {form}", False)
    except bootimg.WrongArgument:
        check(f"no such form: {form}", True)
for external, align in (True, 0), (True, 1), (True, 2), (True, 12), (True, 1 << 21), (True, -4), (True, 1 << 32), (False, 4):
    for call in bootimg.normalise, bootimg.notes:
        found = raises(bootimg.WrongArgument, call, aligned, external=external, align=align)
        check(f"{call.__name__}: {align} is no alignment, {external}", found is not None)
check("its FIT", bootimg.open(bootimg.convert(small.file)).image("kernel-1").payload == small.parts[0].payload)

# The codes are those that the arguments of the program name.
for field, names in bootimg.CODES.items():
    check(f"the names of {field}", names == reference.given_names(field))
    firsts = [next((name for name, code in names.items() if code == number), None) for number in range(256)]
    check(f"each code has its first name, if it has one: {field}", [bootimg.code_name(field, number) for number in range(256)] == firsts)
    check(f"the library finds each code by its names: {field}", all(bootimg.code_number(field, name) == names[name] for name in names))

# A wrong argument is named, by the library or by the module.
for named, call, arguments, options in (
    ("limit", bootimg.describe, [small.file], {"limit": 63}),
    ("limit", bootimg.describe, [small.file], {"limit": -1, "depth": 65}),
    ("depth", bootimg.describe, [small.file], {"depth": 65}),
    ("depth", bootimg.normalise, [small.file], {"external": True, "align": 12, "depth": 0}),
    ("form", bootimg.normalise, [small.file], {"external": True, "align": 12}),
    ("form", bootimg.normalise, [small.file], {"align": 4}),
    ("kinds", bootimg.check, [small.file, ["none"]], {}),
    ("place", bootimg.get, [small.file, "size"], {}),
    ("number", bootimg.explain, [27], {}),
    ("code", bootimg.code_name, ["os", 256], {}),
    ("field", bootimg.code_name, ["load", 0], {}),
):
    try:
        call(*arguments, **options)
        check(f"a wrong argument: {named}", False)
    except bootimg.WrongArgument as wrong:
        check(f"a wrong argument is named: {named}", wrong.argument == named and named in bootimg.ARGUMENTS)

# What is no header and no code.
linux = {"os": "linux", "arch": "arm64", "type": "kernel"}
check("the header of a FIT is none", raises(bootimg.WrongArgument, bootimg.build_legacy, [b""], header=image.header) is not None)
check("a field is missing", raises(TypeError, bootimg.build_legacy, [b"x"], os="linux", arch="arm") is not None)
for field, code in {"os": "linus", "arch": 256, "type": -1, "compression": ""}.items():
    found = raises(bootimg.WrongArgument, bootimg.build_legacy, [b"x"], **{**linux, field: code})
    check(f"{code!r} is no code of {field}", found == f"wrong argument: {field} {code!r}")
    made = bootimg.BuildImage("x", b"", **linux)._replace(**{field: code})
    check(f"nor is it of an image of a FIT: {code!r}", raises(bootimg.WrongArgument, bootimg.build_fit, [made]) == found)
check("there is no such field", raises(bootimg.WrongArgument, bootimg.code_number, "load", 0) == "wrong argument: load")
check("there is no such code", raises(bootimg.WrongArgument, bootimg.code_name, "os", 256) is not None)
check("a name of a code", [bootimg.code_name("arch", code) for code in (7, 22, 200)] == ["ppc", "arm64", None])
named, numbered = bootimg.BuildImage("x", b"x", **linux), bootimg.BuildImage("x", b"x", 5, 22, 2, 0)
check("names and numbers of codes", bootimg.build_fit([named]) == bootimg.build_fit([numbered]))


# An image is closed with its views, and then what it is over can be closed.
def mapped(file):
    """A file of the system with these bytes, mapped to memory."""
    with tempfile.TemporaryFile() as target:
        target.write(file)
        target.flush()
        return mmap.mmap(target.fileno(), 0, access=mmap.ACCESS_READ)


for name in "board.itb", "board-external.itb", "kernel.uimage", "two-parts.uimage":
    file = (root / "examples" / name).read_bytes()
    with mapped(file) as buffer:
        with bootimg.open(buffer) as one:
            payloads = [part.payload for part in (*one.parts, *one.images)]
            values = [one.property_value("/images/fdt-1", "type") for _ in range(3)] if one.images else []
            held = payloads[0][:1]
            kept = struct.iter_unpack("B", payloads[-1])
            check(f"{name}: what is read is there", bytes(payloads[0])[:1] == bytes(held) and len(one.normalise()) > 64)
        check(f"{name}: its views are released", all(raises(ValueError, bytes, view) for view in [one.file, *payloads[:-1], *values]))
        check(f"{name}: it has no bytes now", raises(ValueError, one.normalise) is not None and name[:1] and "image of" in repr(one))
        check(f"{name}: other views are held", held[0] == file[one.parts[0].offset if one.parts else one.images[0].offset] and next(kept))
        check(f"{name}: they hold the buffer", raises(BufferError, buffer.close) is not None)
        held.release()
        del kept, payloads
        one.close()
    check(f"{name}: the buffer is closed", buffer.closed)
with mapped((root / "examples/board.itb").read_bytes()[:100]) as buffer:
    try:
        bootimg.open(buffer)
    except bootimg.Refused:
        buffer.close()
    check("a buffer is closed while the exception is at hand", buffer.closed)
with bootimg.open(board) as one:
    check("a path is opened in the same way", one.image("kernel-1").size == 468)

# The examples in the comments.
os.chdir(root)
for module in bootimg, bootimg.codes, bootimg.image:
    tried = doctest.testmod(module)
    check(f"the examples in the comments of {module.__name__}", tried.failed == 0 and tried.attempted > 1)
print(f"{passed} passed, {failed} failed")
sys.exit(failed != 0)
