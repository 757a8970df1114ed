#!/bin/sh
# Tries the program on small flattened image trees that python3 lays out byte by byte: known normal forms, listings and payloads,
# and files that are refused, each with the line that is printed. It needs python3.
set -u

root=$(cd "$(dirname "$0")/../.." && pwd)
. "$root/tests/setup"

need python3 python3
need_program
work_in_new_directory

passes python_with_blobs - "$root/crates/bootimg/out/bootimg" << 'END'
import hashlib
import subprocess
import sys
import zlib

from blobs import BLOB_MAGIC, END, NOP, Strings, aligned, blob, blob_of, cells, node, tokens

PROGRAM = sys.argv[1]
passed = failed = 0


def tree(root):
    """The blob of a tree, up to a multiple of four bytes."""
    return aligned(blob_of(root))


def images(*nodes):
    return node(b"", (), [node(b"images", (), nodes)])


def changed(file, at, new):
    return file[:at] + new + file[at + len(new):]


def run(file, *arguments):
    return subprocess.run([PROGRAM, *arguments], input=file, capture_output=True)


def judge(name, good):
    global passed, failed
    passed += bool(good)
    failed += not good
    if not good:
        print("FAILED:", name)


def gives(name, file, wanted, *arguments, status=0, notes=()):
    result = run(file, *arguments)
    errors = "".join(f"bootimg: note: {note}\n" for note in notes).encode()
    judge(name, result.stdout == wanted and result.returncode == status and result.stderr == errors)


def not_aligned(alignment):
    """The note that payloads are no longer aligned."""
    return f"payloads are no longer aligned to {alignment} bytes, see --align"


def refused(name, file, line, *arguments):
    result = run(file, *arguments)
    judge(name, result.stderr == f"bootimg: {line}\n".encode() and result.returncode == 2 and not result.stdout)


def refused_by_all(name, file, line):
    for arguments in ["normalise"], ["normalise", "--external"], ["list"], ["verify"], ["extract", "--image", "a"]:
        refused(f"{name}, {arguments[0]}", file, line, *arguments)


smallest = tree(images())
judge("the smallest tree has 88 bytes", len(smallest) == 88)
for form in ["normalise"], ["normalise", "--external"]:
    gives("the smallest tree is its own normal form", smallest, smallest, *form)

# Properties in another order, FDT_NOP before each token, and free space.
unordered = node(b"", [(b"name", b"\2"), (b"filename", b"\1")], [node(b"images")])
spread = b"".join(NOP + token for token in tokens(unordered, Strings([b"filename"], {b"name": 4}))) + NOP
loose = blob(spread, b"filename\0")
loose = changed(loose, 4, cells(176)) + b"\xff" * (176 - len(loose))
tight = tree(node(b"", [(b"filename", b"\1"), (b"name", b"\2")], [node(b"images")]))
judge("a tree with two properties has 136 bytes", len(tight) == 136)
for form in ["normalise"], ["normalise", "--external"]:
    gives("order, FDT_NOP, shared names and free space are left out", loose, tight, *form)

# The same with the strings before the structure.
structure = spread + END
judge("the structure has 92 bytes", len(structure) == 92)
header = cells(BLOB_MAGIC, 176, 68, 56, 40, 17, 16, 0, 9, 92)
strings_first = header + bytes(16) + b"filename\0\0\0\0" + structure + b"\xff" * 16
judge("the file has 176 bytes", len(strings_first) == 176)
for form in ["normalise"], ["normalise", "--external"]:
    gives("strings before the structure", strings_first, tight, *form)

# Children stay in their order.
order = tree(images(node(b"b"), node(b"a")))
gives("children are not sorted", order, order, "normalise")

# `data-offset` is counted from the first multiple of four after the blob.
offset = blob_of(images(node(b"a", [(b"data-offset", cells(0)), (b"data-size", cells(3))])))
judge("the blob has 154 bytes", len(offset) == 154)
offset = changed(offset, 4, cells(157)) + b"\xee" * 3 + b"\x11\x22\x33" + b"abc"
judge("the file has 163 bytes", len(offset) == 163)
embedded = tree(images(node(b"a", [(b"data", b"abc")])))
external = tree(images(node(b"a", [(b"data-offset", cells(0)), (b"data-size", cells(3))]))) + b"abc"
judge("the normal forms have 124 and 159 bytes", (len(embedded), len(external)) == (124, 159))
gives("a region after free space, embedded", offset, embedded, "normalise")
gives("a region after free space, external", offset, external, "normalise", "--external", notes=[not_aligned(32)])
gives("the same with the alignment of the form", offset, external, "normalise", "--external", "--align", "4")
gives("its listing", offset, b"kind fit\nboot-cpu 0\ntotal-size 157\nimage a size 3 data-offset at 160\n", "list")
gives("its payload", offset, b"abc", "extract", "--image", "a")

# The note has the greatest power of two up to 2^20 that divides the offset, if it does not divide the offset in the external form, 156.
def placed_at(offset):
    """The file of one image whose payload is at this offset."""
    blob = external[:-3]
    return changed(blob, 96, cells(offset - len(blob))) + bytes(offset - len(blob)) + b"abc"


for power in range(2, 23):
    alignment = min(2**power, 2**20)
    # The first two odd multiples after the external form.
    odd = len(external) // 2**power + 1 | 1
    for at in odd * 2**power, (odd + 2) * 2**power:
        judge(f"{at} is after the tree", at >= len(external))
        notes = [not_aligned(alignment)] if power > 2 else []
        for command in ["normalise"], ["update", "--hashes"]:
            gives(f"a payload at {at}, {command[0]}", placed_at(at), external, *command, "--external", notes=notes)

# `data-position` comes before `data`.
both = [(b"data", b"old"), (b"data-position", cells(180)), (b"data-size", cells(3))]
position = tree(images(node(b"a", both)))
judge("the blob has 180 bytes", len(position) == 180)
new = tree(images(node(b"a", [(b"data", b"new")])))
gives("data-position is read before data", position + b"new", new, "normalise")
gives("and in the external form", position + b"new", external[:-3] + b"new", "normalise", "--external",
      notes=["1 fixed positions of payloads were not kept"])
gives("with the alignment of the form", position + b"new", external[:-3] + b"new", "normalise", "--external", "--align", "4")
gives("its listing", position + b"new", b"kind fit\nboot-cpu 0\ntotal-size 180\nimage a size 3 data-position at 180\n", "list")

# So does `data-offset`, which comes after `data-position`.
both = [(b"data", b"old"), (b"data-offset", cells(0)), (b"data-size", cells(3))]
offset_first = tree(images(node(b"a", both)))
judge("the blob has 176 bytes", len(offset_first) == 176)
new_external = tree(images(node(b"a", [(b"data-offset", cells(0)), (b"data-size", cells(3))]))) + b"new"
gives("data-offset is read before data", offset_first + b"new", new, "normalise")
gives("and in the external form", offset_first + b"new", new_external, "normalise", "--external", notes=[not_aligned(16)])
gives("its listing", offset_first + b"new", b"kind fit\nboot-cpu 0\ntotal-size 176\nimage a size 3 data-offset at 176\n", "list")
gives("its payload", offset_first + b"new", b"new", "extract", "--image", "a")
refused_by_all("and data does not help where it ends after the file", offset_first + b"ne", "OutsideFile at 100")
all_four = [(b"data", b"old"), (b"data-offset", cells(0)), (b"data-position", cells(215)), (b"data-size", cells(3))]
all_four = tree(images(node(b"a", all_four)))
judge("the blob has 208 bytes", len(all_four) == 208)
gives("data-position is read before both", all_four + b"was, ..new", new, "normalise")
refused_by_all("and data-offset does not help either", all_four + b"was, ..ne", "OutsideFile at 116")

# No payload, and an empty one.
none, empty = tree(images(node(b"a"))), tree(images(node(b"a", [(b"data", b"")])))
judge("no payload: 100 bytes; an empty one: 120", (len(none), len(empty)) == (100, 120))
for file in none, empty:
    gives("no payload and an empty payload differ", file, file, "normalise")
refused("an image without a payload", none, "no payload", "extract", "--image", "a")
gives("an empty payload", empty, b"", "extract", "--image", "a")

# Two images, the second one empty.
two = tree(images(node(b"a", [(b"data", b"hello")]), node(b"b", [(b"data", b"")])))
result = run(two, "normalise", "--external").stdout
judge("zeros before an empty payload", len(result) == 208 and result[4:8] == cells(200) and result[200:] == b"hello\0\0\0")

# Three images that share a region.
shared = [node(name, [(b"data-offset", cells(0)), (b"data-size", cells(1000))]) for name in (b"a", b"b", b"c")]
shared = tree(images(*shared)) + bytes(range(250)) * 4
judge("the file has 1244 bytes", len(shared) == 1244)
for form, size in (["normalise"], 3168), (["normalise", "--external"], 3244):
    judge(f"{form}: {size} bytes", len(run(shared, *form, "--limit", str(size)).stdout) == size)
    refused(f"{form}: one byte less", shared, f"TooLarge at {size - 1}", *form, "--limit", str(size - 1))
refused("the limit holds the file alone", shared, "TooLarge at 1244", "normalise", "--limit", "1244")
long = changed(shared, 84 + 12 + 4 + 12, cells(1001))
refused_by_all("a region that ends after the file", long, "OutsideFile at 84")


def positioned(start):
    """The blob of three images whose payloads are 1,000 bytes from this offset on."""
    properties = [(b"data-position", cells(start)), (b"data-size", cells(1000))]
    return tree(images(*[node(name, properties) for name in (b"a", b"b", b"c")]))


same = positioned(len(positioned(0))) + bytes(range(250)) * 4
for form in ["normalise"], ["normalise", "--external"]:
    judge("the same regions by position", run(same, *form).stdout == run(shared, *form).stdout != b"")

# Three payloads, external, cut.
three = [node(n, [(b"data", d)]) for n, d in ((b"a", b"hello"), (b"b", b""), (b"c", b"x"))]
three = tree(images(*three))
judge("three payloads: 180 bytes", len(three) == 180)
outside = run(three, "normalise", "--external").stdout
judge("three payloads, external: 253 bytes", len(outside) == 253)
gives("the external form is its own", outside, outside, "normalise", "--external")
gives("and has the embedded one", outside, three, "normalise")
aligned_to_8 = changed(outside[:244], 4, cells(248)) + bytes(4) + outside[244:]
gives("with an alignment of 8", three, aligned_to_8, "normalise", "--external", "--align", "8")
refused("it has 257 bytes", three, "TooLarge at 256", "normalise", "--external", "--align", "8", "--limit", "256")
gives("its external form", aligned_to_8, outside, "normalise", "--external", notes=[not_aligned(8)])
gives("the listing of the external form", outside, b"kind fit\nboot-cpu 0\ntotal-size 244\n"
      b"image a size 5 data-offset at 244\nimage b size 0 data-offset at 252\nimage c size 1 data-offset at 252\n", "list")
for size in range(244, 253):
    at = 84 if size < 249 else 128 if size < 252 else 172
    refused_by_all(f"cut to {size} bytes", outside[:size], f"OutsideFile at {at}")

# Payloads that share bytes: each hash node is judged by the bytes of its own image.
ALGORITHMS = ["crc32", "md5", "sha1", "sha256", "sha384", "sha512"]


def digest(algorithm, payload):
    return cells(zlib.crc32(payload)) if algorithm == "crc32" else hashlib.new(algorithm, payload).digest()


def hashed(name, properties, stated):
    """An image with these properties, and with a hash node for each algorithm that states the digest of these bytes."""
    hashes = [node(b"hash-" + algorithm.encode(), [(b"algo", algorithm.encode() + b"\0"), (b"value", digest(algorithm, stated))])
              for algorithm in ALGORITHMS]
    return node(name, properties, hashes)


def by(key, begin, size):
    return [(key, cells(begin)), (b"data-size", cells(size))]


tail = bytes(range(200)) + bytes(range(150)) + b"inside"


def sharing(blob_length, inside_at):
    """The names and properties of images, and where the payload of each is in the file, if it has one."""
    at = blob_length
    return [
        (b"first", by(b"data-position", at, 100), (at, 100)),
        (b"empty", by(b"data-position", at, 0), (at, 0)),
        (b"shorter", by(b"data-position", at, 99), (at, 99)),
        (b"later", by(b"data-position", at + 1, 100), (at + 1, 100)),
        (b"same", by(b"data-position", at, 100), (at, 100)),
        (b"none", [], None),
        (b"longer", by(b"data-position", at, 101), (at, 101)),
        (b"end", by(b"data-position", at + 1, 99), (at + 1, 99)),
        (b"copy", by(b"data-position", at + 200, 100), (at + 200, 100)),
        (b"offset", by(b"data-offset", 0, 100), (at, 100)),
        (b"inside", [(b"data", b"inside")], (inside_at, 6)),
        (b"inside again", by(b"data-position", inside_at, 6), (inside_at, 6)),
        (b"inside copy", by(b"data-position", at + 350, 6), (at + 350, 6)),
        (b"empty later", by(b"data-position", at + 5, 0), (at + 5, 0)),
        (b"all", by(b"data-position", at, 356), (at, 356)),
        (b"first again", by(b"data-position", at, 100), (at, 100)),
    ]


def sharing_file(stated):
    """The file of these images, each of which states the digests of some bytes, and the payloads of the images."""
    length = inside_at = 0
    # The offsets are known after the lengths are, which do not depend on them.
    for _ in range(2):
        images_of_file = sharing(length, inside_at)
        file = tree(images(*[hashed(name, properties, stated[index]) for index, (name, properties, _) in enumerate(images_of_file)]))
        length, inside_at = len(file), file.index(b"inside\0\0", file.index(b"inside\0\0") + 8)
    file += tail
    return file, [(name, region and file[region[0]:][:region[1]]) for name, _, region in sharing(length, inside_at)]


def sharing_report(payloads, stated):
    """The report of `verify`, by hashlib and zlib."""
    lines, counts = [], {"good": 0, "bad": 0, "no-payload": 0}
    for (name, payload), bytes_ in zip(payloads, stated):
        for algorithm in ALGORITHMS:
            value = digest(algorithm, bytes_)
            verdict = "no-payload" if payload is None else "good" if digest(algorithm, payload) == value else "bad"
            counts[verdict] += 1
            shown = name.decode().replace(" ", "%20")
            lines.append(f"{shown} hash-{algorithm} {algorithm} {verdict} {value.hex()}\n")
    summary = f"summary good {counts['good']} bad {counts['bad']} unknown-algorithm 0 no-payload {counts['no-payload']} malformed 0\n"
    return "".join([*lines, summary]).encode()


def payload_lines(payloads):
    """The lines of `describe` about payloads, by hashlib."""
    for name, payload in payloads:
        path = b"/images/" + name.replace(b" ", b"%20")
        yield b"payload %s none" % path if payload is None else \
            b"payload %s size %d sha256 %s" % (path, len(payload), hashlib.sha256(payload).hexdigest().encode())


_, payloads = sharing_file([b""] * 16)
contents = [payload or b"" for _, payload in payloads]
judge("sixteen images have eight payloads", len(contents) == 16 and len(set(contents)) == 8)
for shift in range(16):
    # Each image states the digests of the payload of another one. One image has no payload, so the status is 1.
    stated = contents[shift:] + contents[:shift]
    file, payloads = sharing_file(stated)
    judge(f"the payloads stay where they are, {shift}", [payload or b"" for _, payload in payloads] == contents)
    gives(f"verdicts on payloads that share bytes, {shift}", file, sharing_report(payloads, stated), "verify", status=1)
lines = run(file, "describe").stdout.split(b"\n")
judge("their descriptions", [line for line in lines if line.startswith(b"payload ")] == list(payload_lines(payloads)))
updated = run(file, "update", "--hashes").stdout
right = [bytes_ if payload is None else payload for (_, payload), bytes_ in zip(payloads, stated)]
gives("their new digests", updated, sharing_report(payloads, right), "verify", status=1)

# 64 nodes may be open: the root, `images`, an image and 61 nodes in it.
def nested(count):
    """The tokens of this many nodes `n`, one in the other."""
    return node(b"n", (), [nested(count - 1)] if count > 1 else [])


deepest = tree(images(nested(62)))
for form in ["normalise"], ["normalise", "--external"]:
    gives("64 open nodes are accepted", deepest, deepest, *form)
gives("their listing", deepest, b"kind fit\nboot-cpu 0\ntotal-size %d\nimage n none\n" % len(deepest), "list")
refused_by_all("65 open nodes", tree(images(nested(63))), "TooDeep at 572")
refused_by_all("64 open nodes without images", tree(node(b"", (), [nested(63)])), "NoImages at 56")
refused_by_all("65 open nodes without images", tree(node(b"", (), [nested(64)])), "TooDeep at 568")

# Damaged files.
for size in range(0, 88):
    refused(f"the smallest tree cut to {size}", smallest[:size], f"Truncated at {0 if size < 40 else 4}", "list")
refused_by_all("no child images", tree(node(b"")), "NoImages at 56")
for name, at, bytes_, line in [
    ("a name offset after the strings", 92, cells(22), "BadNameOffset at 84"),
    ("an empty name", 92, cells(21), "BadName at 84"),
    ("the same name again", 108, cells(0), "DuplicateProperty at 100"),
    ("no data-size", 108, cells(17), "NoSize at 84"),
    ("a value of three bytes", 88, cells(3), "BadCell at 84"),
    ("a size of two bytes", 104, cells(2), "BadCell at 100"),
    ("a long value", 88, cells(0xFFFFFFF0), "Truncated at 84"),
    ("an offset after the file", 96, cells(0xFFFFFFFF), "OutsideFile at 84"),
    ("FDT_END inside", 84, cells(9), "BadToken at 84"),
    ("FDT_END_NODE inside", 84, cells(2), "BadToken at 92"),
]:
    refused_by_all(name, changed(offset, at, bytes_), line)
refused_by_all("a slash in a name", changed(smallest, 70, b"/"), "BadName at 64")
refused_by_all("a short structure block", changed(smallest, 36, cells(18)), "Truncated at 64")
refused_by_all("reservations that end after the blob", changed(smallest, 16, cells(80)), "Truncated at 80")
refused_by_all("unaligned reservations", changed(smallest, 16, cells(84)), "BadOffset at 16")
refused_by_all("a structure block after the blob", changed(smallest, 8, cells(0xFFFFFFFC)), "BadOffset at 8")
refused_by_all("a version of 15", changed(smallest, 20, cells(15)), "BadVersion at 20")
refused_by_all("more than the file", changed(smallest, 4, cells(89)), "Truncated at 4")
overlap = changed(changed(smallest, 12, cells(56)), 32, cells(32))
gives("blocks may overlap", overlap, smallest, "normalise")
old = changed(changed(smallest, 20, cells(16)), 36, b"\xff" * 4)
gives("version 16", old, smallest, "normalise")
print(f"{passed} passed, {failed} failed")
END
finish
