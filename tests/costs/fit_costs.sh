#!/bin/sh
# Measures what the program takes on large flattened image trees: time beside sha256sum of the same file, and memory beside the
# length of the file. It fails if memory is more than the file and 8 MiB for a large payload, if 10,000 images take more than twenty
# times what sha256sum takes, if ten times as many take more than forty times as long, if verify, check or describe of 1,100 images
# that have one region as their payload takes more than ten times what sha256sum takes, if a command refuses payloads that are together
# over the limit no sooner than in twenty times that time, as it would after it had hashed them, if describe or check of a large payload
# takes more than twice as long as verify, which computes the same digest, if a command with --json takes more than five times as
# long as without it, if a hundred edits of 10,000 images take more than twice as long as one, or if compare --deep of two images with 576
# devicetrees each takes more than twelve times as long as compare, or more memory than 16 times both files. Each bound of time is about
# twice what was measured, or more, since other work on the machine disturbs it. Each time is the least of five rounds.
# How many times as long a file or a command takes as another is the median of the rounds. The script needs python3 and coreutils.
# With ten times as many images, n log n comparisons are 12.5 times as many, and the larger maps are more often outside the caches of
# the processor. A cost that grows with the square would be a hundred times as much.
set -u

root=$(cd "$(dirname "$0")/../.." && pwd)
. "$root/tests/setup"

need python3 python3
need coreutils sha256sum
need_program
work_in_new_directory

cat > costs.py << 'END'
"""Makes large flattened image trees, runs commands on them, and prints and judges what they take."""
import hashlib
import os
import statistics
import subprocess
import sys
import time
import zlib

from blobs import blob_of, cells, node

PROGRAM = sys.argv[1]
MIB = 1 << 20
ROUNDS = 5


def image(name, payload):
    digest = [(b"value", hashlib.sha256(payload).digest()), (b"algo", b"sha256\0")]
    return node(name, [(b"description", b"an image\0"), (b"data", payload)], [node(b"hash-1", digest)])


def make(path, payloads, configurations=0):
    """Writes an image with these payloads, and with configurations that list one image each."""
    images = [image(b"image-%d" % index, payload) for index, payload in enumerate(payloads)]
    kernels = [b"image-%d\0" % (configurations - 1 - index) for index in range(configurations)]
    listed = [node(b"conf-%d" % index, [(b"kernel", kernel)]) for index, kernel in enumerate(kernels)]
    with open(path, "wb") as file:
        file.write(blob_of(node(b"", (), [node(b"images", (), images), node(b"configurations", (), listed)])))


def make_shared(path, size, count):
    """Writes an image of this size. This many image nodes have the same region as their payload, each with six hash nodes."""
    def blob(begin, payload):
        digests = [(b"crc32", cells(zlib.crc32(payload)))]
        digests += [(name, hashlib.new(name.decode(), payload).digest()) for name in (b"md5", b"sha1", b"sha256", b"sha384", b"sha512")]
        hashes = [node(b"hash-" + name, [(b"value", value), (b"algo", name + b"\0")]) for name, value in digests]
        region = [(b"data-position", cells(begin)), (b"data-size", cells(len(payload)))]
        return blob_of(node(b"", (), [node(b"images", (), [node(b"image-%d" % index, region, hashes) for index in range(count)])]))

    begin = len(blob(0, b""))
    payload = os.urandom(size - begin)
    with open(path, "wb") as file:
        file.write(blob(begin, payload) + payload)


def make_overlapping(path, size, count):
    """Writes an image of this size. This many image nodes have payloads that end with the file, each one byte shorter than the one
    before, with a hash node each."""
    def blob(begin):
        regions = [[(b"data-position", cells(begin + index)), (b"data-size", cells(size - begin - index))] for index in range(count)]
        hashes = [node(b"hash-1", [(b"value", bytes(32)), (b"algo", b"sha256\0")])]
        return blob_of(node(b"", (), [node(b"images", (), [node(b"image-%d" % at, region, hashes) for at, region in enumerate(regions)])]))

    begin = len(blob(0))
    with open(path, "wb") as file:
        file.write(blob(begin) + os.urandom(size - begin))


def devicetrees(count, other):
    """Returns this many devicetrees of 25 KB, as boards of one processor have them. Each has a model of its own, which ends with this."""
    value = os.urandom
    texts = (b"compatible", b"status", b"clock-names", b"pinctrl-names")
    devices = [
        node(b"device@%x" % (index << 16), [(name, b"acme,device-%d\0" % index) for name in texts] + [
            (name, value(4 * (1 + (index + at) % 6))) for at, name in enumerate((b"reg", b"interrupts", b"clocks", b"phandle"))])
        for index in range(100)]
    tree = blob_of(node(b"", [(b"model", b"board ...")], [node(b"chosen", [(b"bootargs", b"quiet\0")]), node(b"soc", (), devices)]))
    return [[tree.replace(b"board ...", b"board%03d%d" % (index, number)) for index in range(count)] for number in other]


def run(path, command, wanted=0):
    """Returns the seconds and the bytes of memory of a command that reads this file and ends with this status. In the command, FILE
    is the path of the file."""
    command = [word.replace("FILE", path) for word in command]
    with open(path, "rb") as source, open("output", "wb") as target:
        begin = time.perf_counter()
        process = subprocess.Popen(command, stdin=source, stdout=target, stderr=subprocess.DEVNULL if wanted == 2 else None)
        _, status, usage = os.wait4(process.pid, 0)
        seconds = time.perf_counter() - begin
    process.returncode = os.waitstatus_to_exitcode(status)
    if process.returncode != wanted:
        sys.exit(f"{command}: status {process.returncode}")
    return seconds, usage.ru_maxrss * 1024


def measure(command, files, wanted=0):
    """Returns for each file the seconds and the bytes of memory of each run of a command that reads it. The files are read in turn,
    since a machine may be slow for some seconds."""
    rounds = [[run(path, command, wanted) for path in files] for _ in range(ROUNDS)]
    return dict(zip(files, zip(*rounds)))


def least(runs):
    """Returns the least seconds and the least memory of these runs."""
    return [min(measures) for measures in zip(*runs)]


def ratio(runs, others):
    """Returns how many times as long these runs take as the others, the median of the rounds."""
    return statistics.median(seconds / other for (seconds, _), (other, _) in zip(runs, others))


def edits(images):
    """Returns the options for an edit of each of these images: its hash node is removed, its address is set, or it has a new payload."""
    words = []
    for image, number in enumerate(images):
        option, word = [
            ("--remove", f"/images/image-{number}/hash-1"),
            ("--set", f"/images/image-{number} load 0x00000001"),
            ("--payload", f"image-{number}=@new"),
        ][image % 3]
        words += [option, word]
    return words


FILES = ["large", "many", "more", "configured"]
COMMANDS = {
    "list": ["list"],
    "describe": ["describe"],
    "verify": ["verify"],
    # The images have no default configuration, and each hash is good.
    "check": ["check", "--allow", "bad-default"],
    "normalise": ["normalise"],
    "normalise --external": ["normalise", "--external"],
}
# With the status of each: an image is compared with itself, and with one in which each payload has other bytes.
COMPARISONS = {
    "compare of the same image": (["compare", "-", "FILE"], 0),
    "compare of images that differ": (["compare", "-", "FILE.other"], 1),
}

# How many times as long as sha256sum 1,100 images may take that have one region as their payload, with six hash nodes each.
SHARED = 10
# How many times as long as sha256sum a command may take to refuse 1,100 payloads that are each nearly as long as the
# file. To hash them takes a thousand times as long.
REFUSED = 20
REFUSING = {
    "check": ["check"],
    "describe": ["describe"],
    "show": ["show"],
    "update --hashes": ["update", "--hashes"],
    "extract --all": ["extract", "--all", "-o", "extracted"],
}
# How many times as long as without --json a command may take with it.
JSON = 5
# How many times as long as one edit a hundred edits may take.
EDITS = 2
# How many times as long as without --deep compare may take with it, and how many bytes of memory for each byte of both files.
DEEP = 12
DEEP_MEMORY = 16

failures = 0


def judge(name, good, text):
    global failures
    print(f"{'ok' if good else 'FAILED'}: {name}: {text}")
    failures += not good


if sys.argv[1] == "make":
    make("large", [os.urandom(64 * MIB)])
    make("many", [b"%d" % index for index in range(10_000)])
    make("more", [b"%d" % index for index in range(100_000)])
    make("many.other", [b"%d" % (index + 1) for index in range(10_000)])
    make("more.other", [b"%d" % (index + 1) for index in range(100_000)])
    make("configured", [b"%d" % index for index in range(10_000)], 10_000)
    with open("new", "wb") as file:
        file.write(b"new")
    for path, trees in zip(("trees", "trees.other"), devicetrees(576, (1, 2))):
        make(path, trees)
    make_shared("shared", MIB, 1_100)
    make_overlapping("overlapping", 2 * MIB, 1_100)
    sys.exit()
cat = measure(["cat"], FILES)
sha256sum = measure(["sha256sum"], FILES)
measured = {name: measure([PROGRAM, *arguments], FILES) for name, arguments in COMMANDS.items()}
for path in FILES:
    size = os.path.getsize(path)
    base, _ = least(sha256sum[path])
    print(f"{path}: {size} bytes, cat {least(cat[path])[0]:.3f} s, sha256sum {base:.3f} s")
    for name in COMMANDS:
        seconds, memory = least(measured[name][path])
        text = f"{seconds:.3f} s, {seconds / base:.1f} times sha256sum, {(memory - size) / MIB:.1f} MiB more than the file"
        if path == "large":
            judge(f"{path}, {name}", memory <= size + 8 * MIB, text)
        else:
            judge(f"{path}, {name}", path == "more" or seconds <= 20 * base, text)
for name, (arguments, status) in COMPARISONS.items():
    measured[name] = measure([PROGRAM, *arguments], ["many", "more"], status)
for name in measured:
    seconds, _ = least(measured[name]["more"])
    times = ratio(measured[name]["more"], measured[name]["many"])
    judge(f"{name}, ten times as many images", times <= 40, f"{seconds:.3f} s, {times:.1f} times as long")
for name in ("verify", "check", "describe"):
    runs, summed = zip(*([run("shared", command) for command in ([PROGRAM, *COMMANDS[name]], ["sha256sum"])] for _ in range(ROUNDS)))
    times = ratio(runs, summed)
    judge(f"shared, {name}", times <= SHARED, f"{least(runs)[0]:.3f} s, {times:.1f} times sha256sum")
for name, arguments in REFUSING.items():
    command = [PROGRAM, *arguments, "--limit", str(4 * MIB)]
    runs, summed = zip(*([run("overlapping", command, 2), run("overlapping", ["sha256sum"])] for _ in range(ROUNDS)))
    times = ratio(runs, summed)
    judge(f"overlapping, {name}", times <= REFUSED, f"{least(runs)[0]:.3f} s, {times:.1f} times sha256sum")
for command in ("describe", "check"):
    runs, verified = zip(*([run("large", [PROGRAM, each]) for each in (command, "verify")] for _ in range(ROUNDS)))
    times = ratio(runs, verified)
    judge(f"large, {command} beside verify", times <= 2, f"{times:.2f} times as long")
with_json = [("configured", *COMMANDS["list"]), *(("more", *COMMANDS[command]) for command in ("list", "describe", "verify", "check"))]
for path, *words in [*with_json, ("more", "compare", "-", "FILE.other")]:
    wanted = int(words[0] == "compare")
    runs, without = zip(*([run(path, [PROGRAM, *words, *json], wanted) for json in (["--json"], [])] for _ in range(ROUNDS)))
    times = ratio(runs, without)
    judge(f"{path}, {words[0]} --json", times <= JSON, f"{least(runs)[0]:.3f} s, {times:.2f} times as long as without --json")
one, hundred = [[PROGRAM, "update", *edits(images)] for images in ([5_000], range(0, 10_000, 100))]
runs, single = zip(*([run("many", hundred), run("many", one)] for _ in range(ROUNDS)))
times = ratio(runs, single)
judge("many, a hundred edits", times <= EDITS, f"{least(runs)[0]:.3f} s, {times:.2f} times as long as one")
runs, plain = zip(*([run("trees", [PROGRAM, "compare", *deep, "-", "FILE.other"], 1) for deep in (["--deep"], [])] for _ in range(ROUNDS)))
times, (seconds, memory) = ratio(runs, plain), least(runs)
judge("trees, compare --deep", times <= DEEP, f"{seconds:.3f} s, {times:.1f} times as long as without --deep")
size = sum(map(os.path.getsize, ("trees", "trees.other")))
judge("trees, memory of compare --deep", memory <= DEEP_MEMORY * size, f"{memory / MIB:.0f} MiB, {memory / size:.1f} times both files")
sys.exit(failures != 0)
END
# The trees are made by another process: what a process has used counts for the memory of those that it starts.
program=$root/crates/bootimg/out/bootimg
python_with_blobs costs.py make
python_with_blobs costs.py "$program" | tee costs
add_counts "$(grep -c '^ok: ' costs)" "$(grep -c '^FAILED: ' costs)"
[ "$(grep -c '^ok: \|^FAILED: ' costs)" = 51 ] || add_counts 0 1
finish
