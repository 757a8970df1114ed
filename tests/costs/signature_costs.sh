#!/bin/sh
# Measures what `check` takes for signatures: 10,000 images of 4 KiB with a signed configuration each, which records what it needs in order
# or in another order, beside the same images without the signatures; and a million recorded paths beside sha256sum of the file. It fails
# at about twice what was measured, since other work on the machine disturbs it. How many times as long is the median of the rounds.
# The script needs python3 and coreutils.
set -u

root=$(cd "$(dirname "$0")/../.." && pwd)
. "$root/tests/setup"

need python3 python3
need coreutils sha256sum
need_program
work_in_new_directory

cat > costs.py << 'END'
"""Makes images with signed configurations, runs `check` on them, and prints and judges what it takes."""
import hashlib
import statistics
import subprocess
import sys
import time

from blobs import blob_of, cells, node

PROGRAM = sys.argv[1]
ROUNDS = 7
COUNT = 10_000


def image(name, payload):
    digest = [(b"value", hashlib.sha256(payload).digest()), (b"algo", b"sha256\0")]
    return node(name, [(b"description", b"an image\0"), (b"data", payload)], [node(b"hash-1", digest)])


def signature(paths):
    """A signed node that records these paths, and all names of properties. Nothing verifies its value."""
    recorded = b"".join(path + b"\0" for path in paths)
    properties = [(b"value", bytes(256)), (b"hashed-nodes", recorded), (b"hashed-strings", cells(0, 1000)), (b"algo", b"sha256,rsa2048\0")]
    return node(b"signature-1", properties)


def configuration(index, order):
    """A configuration of one image. `order` puts the paths that its signature records in order; without it, there is none."""
    name, kernel = b"conf-%d" % index, b"image-%d" % (COUNT - 1 - index)
    paths = [b"/", b"/configurations/" + name, b"/images/" + kernel, b"/images/" + kernel + b"/hash-1"]
    return node(name, [(b"kernel", kernel + b"\0")], [signature(order(paths))] if order else [])


def make(path, order):
    images = [image(b"image-%d" % index, b"%08d" % index * 512) for index in range(COUNT)]
    configurations = [configuration(index, order) for index in range(COUNT)]
    write(path, images, configurations)


def make_listed(path, count):
    """Writes an image whose configuration has a signature that records this many paths, all different."""
    paths = [b"/images/i%x" % index for index in range(count)]
    signed = node(b"conf-1", [(b"kernel", b"image-1\0")], [signature(paths)])
    write(path, [image(b"image-1", b"payload")], [signed])


def write(path, images, configurations):
    with open(path, "wb") as file:
        file.write(blob_of(node(b"", (), [node(b"images", (), images), node(b"configurations", (), configurations)])))


def run(path, command, statuses):
    """Returns the seconds of a command that reads this file and ends with one of these statuses."""
    with open(path, "rb") as source, open("output", "wb") as target:
        begin = time.perf_counter()
        status = subprocess.run(command, stdin=source, stdout=target, check=False).returncode
        seconds = time.perf_counter() - begin
    if status not in statuses:
        sys.exit(f"{command}: status {status}")
    return seconds


failures = 0


def judge(name, one, other, most):
    """Judges how many times as long as the other run one run takes."""
    global failures
    times = statistics.median(run(*one) / run(*other) for _ in range(ROUNDS))
    print(f"{'ok' if times <= most else 'FAILED'}: {name}: {times:.2f} times, at most {most}")
    failures += times > most


CHECK = [PROGRAM, "check", "--allow", "bad-default"]
make("without", None)
make("signed", list)
make("reversed", lambda paths: paths[::-1])
make_listed("listed", 1_000_000)
judge("signatures that record what they need in order", ("signed", CHECK, (0,)), ("without", CHECK, (0,)), 2.6)
judge("signatures that record it in another order", ("reversed", CHECK, (0,)), ("without", CHECK, (0,)), 2.6)
judge("a million recorded paths, beside sha256sum", ("listed", CHECK, (1,)), ("listed", ["sha256sum"], (0,)), 24)
sys.exit(failures != 0)
END
python_with_blobs costs.py "$root/crates/bootimg/out/bootimg" | tee costs
add_counts "$(grep -c '^ok: ' costs)" "$(grep -c '^FAILED: ' costs)"
[ "$(grep -c '^ok: \|^FAILED: ' costs)" = 3 ] || add_counts 0 1
finish
