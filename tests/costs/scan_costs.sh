#!/bin/sh
# Scans large files. Every image of examples/ is put at odd offsets into noise: scan has to print what a search finds that tries each
# offset with a magic by the independent reader of tests/conformance. Then it measures how long scan takes beside list of an image of
# the same length: 64 MiB of noise with 10,000 magics that begin no image, a million small images, and headers inside one another, which
# are refused since they claim more than the limit. It fails if they take more than 2.6, 18 or 3 times as long as list. That is twice what
# was measured, or more: 1.3, 8 and 1.1 times. There are five rounds. How many times as long the noise takes is the median of the rounds,
# and the others are compared by the least of their times. The script needs python3.
set -u

root=$(cd "$(dirname "$0")/../.." && pwd)
. "$root/tests/setup"

need python3 python3
need_program
work_in_new_directory

cat > scans.py << 'END'
"""Makes files with images inside, scans them, and prints and judges what scan prints and how long it takes."""
import glob
import random
import statistics
import struct
import subprocess
import sys
import time
import zlib
from pathlib import Path

import reference
from blobs import blob_of, node

PROGRAM, EXAMPLES = sys.argv[1:]
MIB = 1 << 20
MOST = 0x7FFFFFFF
failures = 0


def judge(name, good, text=""):
    global failures
    print(f"{'ok' if good else 'FAILED'}: {name}{text and ': ' + text}")
    failures += not good


def run(path, *words):
    """Returns the seconds, the status and the output of a command that reads this file."""
    begin = time.perf_counter()
    with open(path, "rb") as source:
        done = subprocess.run([PROGRAM, *words], stdin=source, capture_output=True, check=False)
    return time.perf_counter() - begin, done.returncode, done.stdout, done.stderr


def without_magics(data):
    """The bytes with others in place of the first one of each magic."""
    for magic in (b"\x27\x05\x19\x56", b"\xd0\x0d\xfe\xed"):
        data = data.replace(magic, b"\0" + magic[1:])
    return data


def header(size, valid=True):
    """A legacy header that claims this many bytes of data, whose checksum is that of no data."""
    fields = struct.pack(">4sIIIIII4B32s", b"\x27\x05\x19\x56", 0, 0, size, 0, 0, 0, 5, 2, 2, 0, b"image")
    return fields[:4] + struct.pack(">I", zlib.crc32(fields) ^ (not valid)) + fields[8:]


source = random.Random(1)
paths = sorted(glob.glob(f"{EXAMPLES}/*.itb") + glob.glob(f"{EXAMPLES}/*.uimage") + glob.glob(f"{EXAMPLES}/*.scr"))
images = [Path(path).read_bytes() for path in paths]
file = b""
for image in images:
    gap = source.randrange(1000, 5000)
    file += without_magics(source.randbytes(gap + (len(file) + gap + 1) % 2)) + image
file += without_magics(source.randbytes(3001))
Path("images").write_bytes(file)
_, status, output, _ = run("images", "scan")
_, expected, _ = reference.scan(file, {"limit": MOST, "json": False})
found = [line.split() for line in output.decode().splitlines()]
whole = {(int(at), int(extent)) for at, _, extent, *_ in found}
judge(f"{len(images)} images in noise", status == 0 and output == expected and len(found) >= len(images), f"{len(found)} lines")
at = 0
for number, image in enumerate(images):
    at = file.index(image, at)
    judge(f"image {number} at the odd offset {at}", at % 2 == 1 and any(begin == at and end <= len(image) for begin, end in whole))

noise = bytearray(without_magics(source.randbytes(64 * MIB)))
for number in range(10_000):
    begin = source.randrange(len(noise) - 64)
    bad = header(source.randrange(MIB), valid=False) if number % 2 else b"\xd0\x0d\xfe\xed" + source.randbytes(36)
    noise[begin:begin + len(bad)] = bad
Path("noise").write_bytes(noise)
Path("tree").write_bytes(blob_of(node(b"", (), [node(b"images", (), [node(b"kernel", [(b"data", source.randbytes(64 * MIB - 300))])])])))
Path("many").write_bytes(header(0) * 1_000_000)
Path("nested").write_bytes(b"".join(header(64 * (1_000_000 - 1 - number)) for number in range(1_000_000)))
rounds = [(run("noise", "scan"), run("tree", "list"), run("many", "scan"), run("nested", "scan")) for _ in range(5)]
noises, lists, manies, nests = zip(*rounds)
least = [min(seconds for seconds, *_ in runs) for runs in (noises, lists, manies, nests)]
times = statistics.median(runs[0][0] / runs[1][0] for runs in rounds)
judge("64 MiB of noise has no image", noises[0][1:3] == (1, b""))
judge("the tree has its listing", lists[0][1] == 0)
judge("64 MiB of noise with 10,000 magics", times <= 2.6, f"{least[0]:.3f} s, {times:.2f} times list of as many bytes")
judge("a million images have a line each", manies[0][1] == 0 and manies[0][2].count(b"\n") == 1_000_000)
judge("a million images", least[2] <= 18 * least[1], f"{least[2]:.3f} s, {least[2] / least[1]:.1f} times list")
judge("headers inside one another are refused", nests[0][1:] == (2, b"", b"bootimg: TooLarge at 2147483647\n"))
judge("a million headers inside one another", least[3] <= 3 * least[1], f"{least[3]:.3f} s, {least[3] / least[1]:.1f} times list")
sys.exit(failures != 0)
END
PYTHONPATH=$root/tests:$root/tests/conformance python3 -B scans.py "$root/crates/bootimg/out/bootimg" "$root/examples" | tee costs
add_counts "$(grep -c '^ok: ' costs)" "$(grep -c '^FAILED: ' costs)"
grep -q '^ok: a million headers' costs || add_counts 0 1
finish
