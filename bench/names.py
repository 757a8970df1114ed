"""Measures the program on hostile files: for each shape and size, the time and the peak memory of each command.

    python3 bench/names.py [--program PATH] [--size MIB ..] [--shape NAME ..] [--command WORDS ..] [--stop SECONDS]
        [--rounds NUMBER] [--unlimited] [--write DIRECTORY] [--most RATIO]

Without sizes the files have 1, 4 and 16 MiB, and without shapes or commands all are tried. The option --limit of each command is the
length of the file, or is left out with --unlimited. A time is that of the processor, the
least of three runs, or of --rounds. Beside it are three ratios: to the time of the same command with the file before, divided by
the ratio of the sizes, so 1 is linear; to the time of `sha256sum` of the file; and of the memory above the size of the file to
the size. A command that takes longer than 60 seconds, or than --stop, is ended, and larger files of its shape are left out for
it. At the end there is a table with the most of each command at each size. With --write, the files are written into a directory
and nothing is measured. With --most, the status is 1 if a command was ended, or took longer than this many times `sha256sum` of
each of its files; otherwise nothing is judged.
"""
import argparse
import hashlib
import itertools
import os
import random
import subprocess
import sys
import tempfile
import time

ROOT = os.path.dirname(os.path.dirname(os.path.abspath(__file__)))
sys.path.append(os.path.join(ROOT, "tests"))
sys.dont_write_bytecode = True
from blobs import END_NODE, NOP, begin_node, blob, blob_of, cells, legacy_image, node, node_around, property_at

MIB = 1 << 20
# In a command, FILE is the path of the file. The others read it from standard input.
COMMANDS = ["list", "verify", "check", "describe", "normalise", "normalise --external", "compare FILE FILE"]


def file_of(tokens, strings=b"", reservations=b""):
    """A blob with these tokens inside the root, and this strings block."""
    return blob(node_around(b"", tokens), strings, reservations)


def nodes_of_names(nodes, strings):
    """A blob with these image nodes, each a list of offsets of the names of its properties."""
    images = [node_around(b"n%07d" % index, b"".join(map(property_at, offsets))) for index, offsets in enumerate(nodes)]
    return file_of(node_around(b"images", b"".join(images)), strings)


def one_run(size, each):
    """Names that are ends of one run, so many in each node."""
    length = size // 2
    count = (size - length) // (12 + 20 // each + 1)
    offsets = [index * (length // count) for index in range(count)]
    return nodes_of_names([offsets[at : at + each] for at in range(0, count, each)], b"a" * length + b"\0")


def two_runs(size, differ):
    """Two runs of a quarter of the size each that differ in one byte, so far from their beginning."""
    length = size // 4
    before = int(differ * (length - 1))
    run = b"a" * before + b"b" + b"a" * (length - 1 - before) + b"\0"
    return length, run + run.replace(b"b", b"c")


def two_in_one_node(size, differ):
    """In one node, names of the same lengths from two runs, each as long as differs or longer."""
    length, strings = two_runs(size, differ)
    count = (size - 2 * length) // 26
    step = max(1, int(differ * length) // count)
    starts = range(0, max(1, int(differ * length)), step)
    return nodes_of_names([[at + start for start in starts for at in (0, length + 1)]], strings)


def two_in_each_node(size, differ):
    """In each of many nodes, two names of the same length from two runs."""
    length, strings = two_runs(size, differ)
    return nodes_of_names([[0, length + 1]] * ((size - 2 * length) // 44), strings)


def many_runs(size):
    """In many nodes, the names of 1,000 runs that differ in their first four bytes."""
    length = size // 2 // 1000
    runs = b"".join(b"%04d" % run + b"a" * (length - 5) + b"\0" for run in range(1, 1001))
    return nodes_of_names([[run * length for run in range(1000)]] * (size // 2 // 12 // 1000), runs)


def ladder(size):
    """Runs that each go on from the one before, and then the longest again and again."""
    length = int((size // 4) ** 0.5)
    whole = bytes(b"abcdefgh"[(index * index) % 7] for index in range(length))
    runs = [bytes([b"xyz"[end % 3]]) + whole[length - end :] for end in range(64, length)]
    offsets, at = [], 0
    for run in runs:
        offsets.append(at)
        at += len(run) + 1
    strings = b"\0".join(runs + [whole] * (size // 4 // length)) + b"\0"
    return nodes_of_names([offsets] * max(1, (size - len(strings)) // 12 // len(offsets)), strings)


def one_name(size):
    """In each of many nodes, one name, which is the same and half of the file."""
    return nodes_of_names([[0]] * (size // 2 // 33), b"a" * (size // 2) + b"\0")


def shared_region(size):
    """Images whose payload is the same region, half of the file."""
    region = [(b"data-position", cells(0)), (b"data-size", cells(size // 2))]
    images = [node(b"n%07d" % index, region) for index in range(size // 2 // 64)]
    file = blob_of(node(b"", (), [node(b"images", (), images)]))
    return file + bytes(max(0, size - len(file)))


def deep_chains(size):
    """Chains of nodes, as deep as a tree may be."""
    chain = begin_node(b"n") * 61 + END_NODE * 61
    chains = [node_around(b"n%07d" % index, chain) for index in range(size // (len(chain) + 20))]
    return file_of(node_around(b"images", b"".join(chains)))


def long_lists(size):
    """Configurations that list every image, in one key."""
    names = [b"n%07d" % index for index in range(1000)]
    value = b"\0".join(names) + b"\0"
    images = [node(name, [(b"data", b"")]) for name in names]
    configurations = [node(b"c%07d" % index, [(b"loadables", value)]) for index in range(max(1, size // len(value)))]
    return blob_of(node(b"", (), [node(b"images", (), images), node(b"configurations", (), configurations)]))


def hash_nodes(size):
    """One image with many hash nodes, each of another algorithm than the last."""
    algorithms = [b"md5\0", b"sha1\0", b"sha256\0", b"sha512\0"]
    hashes = [
        node(b"hash%07d" % index, [(b"algo", algorithms[index % 4]), (b"value", b"")]) for index in range(size // 2 // 56)
    ]
    image = node(b"image", [(b"data", bytes(size // 2))], hashes)
    return blob_of(node(b"", (), [node(b"images", (), [image])]))


def nops(size):
    """Nothing but NOPs in one node."""
    return file_of(node_around(b"images", NOP * (size // 4)))


def reservations(size):
    """Memory reservations."""
    return file_of(node_around(b"images", b""), reservations=cells(0, 1, 0, 1) * (size // 16))


def properties_in_order(order):
    """In one node, a property of a short name for each number in this order. The strings block has the names in the order of their
    numbers."""
    names = [b"p%06d" % index for index in range(len(order))]
    properties = b"".join(property_at(8 * index) for index in order)
    return file_of(node_around(b"images", node_around(b"image", properties)), b"\0".join(names) + b"\0")


def named_properties(names):
    """In one node, a property for each of these names of one length, in no order. The strings block has them in their order."""
    names = list(names)
    step = len(names[0]) + 1
    offsets = [step * index for index in range(len(names))]
    random.Random(1).shuffle(offsets)
    image = node_around(b"image", b"".join(map(property_at, offsets)))
    return file_of(node_around(b"images", image), b"\0".join(names) + b"\0")


def short_names(size):
    """In one node, properties of names of four bytes, which are in no order."""
    digits = b"0123456789abcdefghijklmnopqrstuvwxyz"
    return named_properties(bytes(digit) for digit in itertools.islice(itertools.product(digits, repeat=4), size // 17))


def equal_beginnings(size):
    """In one node, properties of names of 16 bytes whose first eight are the same, in no order."""
    return named_properties(b"property%08x" % index for index in range(size // 29))


def colliding_names(size):
    """In one node, properties of names to which `FoldHasher` of the kit, the hasher of `indexmap`, gives the same hash if a name
    is one write after a zero: their first eight bytes cancel the state of the hasher."""
    names = range(size // 41)
    digits = ([0x80 | index >> shift & 0x7F for shift in (0, 7, 14, 21)] for index in names)
    return named_properties(bytes.fromhex("32bb70adfd2d8da5") + bytes(four) + b"A" * 16 for four in digits)


def chosen_offsets(size):
    """In one node, properties of names that are ends of runs of 63 bytes. Of all ends, they have the lowest groups in a hash
    table whose hasher is SipHash-1-3 with the SHA-256 of the strings block as its key: the offsets are chosen after the key."""
    generator = random.Random(1)
    run = lambda: generator.randbytes(63).replace(b"\0", b"\1") + b"\0"
    strings = b"".join(run() for _ in range(size // 2 // 64))
    source = os.path.join(ROOT, "bench/chosen_offsets.c")
    with tempfile.TemporaryDirectory() as directory:
        program = os.path.join(directory, "chosen_offsets")
        subprocess.run(["cc", "-O2", "-o", program, source], check=True)
        words = [program, str(size // 56), hashlib.sha256(strings).hexdigest()]
        chosen = subprocess.run(words, input=strings, stdout=subprocess.PIPE, check=True).stdout
    offsets = map(int, chosen.split())
    return file_of(node_around(b"images", node_around(b"image", b"".join(map(property_at, offsets)))), strings)


def many_properties(size):
    """In one node, properties of short names, which are in byte order."""
    return properties_in_order(range(size // 20))


def mixed_properties(size):
    """In one node, properties of short names, which are in no order."""
    order = list(range(size // 20))
    random.Random(1).shuffle(order)
    return properties_in_order(order)


def many_nodes(size):
    """Image nodes without properties."""
    return nodes_of_names([[]] * (size // 20), b"")


def many_parts(size):
    """A legacy image of parts of one byte."""
    count = size // 8
    return legacy_image(cells(*[1] * count, 0) + b"a\0\0\0" * count, b"k", 4)


SHAPES = {
    "one-run-one-node": lambda size: one_run(size, 1 << 30),
    "one-run-many-nodes": lambda size: one_run(size, 4),
    "late": lambda size: two_in_one_node(size, 1),
    "middle": lambda size: two_in_one_node(size, 0.5),
    "late-pairs": lambda size: two_in_each_node(size, 1),
    "middle-pairs": lambda size: two_in_each_node(size, 0.5),
    "early-pairs": lambda size: two_in_each_node(size, 0),
    "many-runs": many_runs,
    "ladder": ladder,
    "one-name": one_name,
    "zeros": lambda size: file_of(node_around(b"images", b""), bytes(size)),
    "shared-region": shared_region,
    "deep-chains": deep_chains,
    "long-lists": long_lists,
    "hash-nodes": hash_nodes,
    "nops": nops,
    "reservations": reservations,
    "many-properties": many_properties,
    "mixed-properties": mixed_properties,
    "short-names": short_names,
    "equal-beginnings": equal_beginnings,
    "colliding-names": colliding_names,
    "chosen-offsets": chosen_offsets,
    "many-nodes": many_nodes,
    "many-parts": many_parts,
}


def write(shape, mib, path):
    """Writes a file of a shape. A process of its own does it: a process that starts others lends them its peak of memory."""
    child = os.fork()
    if child == 0:
        with open(path, "wb") as file:
            file.write(SHAPES[shape](int(mib * MIB)))
        os._exit(0)
    if os.waitpid(child, 0)[1] != 0:
        sys.exit(f"{shape}: not written")


class Measured:
    """What a command took: the status, or None if it was ended, the seconds of the processor, and the MiB of memory. And how many
    times the seconds of `sha256sum` of its files these are."""

    def __init__(self, status, seconds, memory):
        self.status, self.seconds, self.memory = status, seconds, memory
        self.ratio = None


def run(words, path, stop):
    """Runs a command once on a file."""
    with open(path, "rb") as source:
        start = time.perf_counter()
        process = subprocess.Popen(words, stdin=source, stdout=subprocess.DEVNULL, stderr=subprocess.DEVNULL)
        ended = False
        while True:
            pid, status, usage = os.wait4(process.pid, 0 if ended else os.WNOHANG)
            taken = time.perf_counter() - start
            if pid != 0:
                break
            if taken > stop:
                process.kill()
                ended = True
            else:
                time.sleep(min(0.05, taken / 20))
    process.returncode = os.waitstatus_to_exitcode(status)
    status = None if ended else process.returncode
    return Measured(status, usage.ru_utime + usage.ru_stime, usage.ru_maxrss / 1024)


def memory_of(words, path, memory):
    """Runs a command once, and returns its peak memory in MiB. A process begins with the peak of the one that starts it, so a
    small one does."""
    with open(path, "rb") as source, tempfile.NamedTemporaryFile() as result:
        timed = ["/usr/bin/time", "-f", "%M", "-o", result.name, *words]
        subprocess.run(timed, stdin=source, stdout=subprocess.DEVNULL, stderr=subprocess.DEVNULL)
        return min(memory, int(result.read().split()[-1]) / 1024)


def least(words, path, stop, rounds):
    """Runs a command several times, and returns the least time, with the memory. One that takes seconds runs once."""
    best = run(words, path, stop)
    for _ in range(rounds - 1):
        if best.status is None or best.seconds > 5:
            return best
        other = run(words, path, stop)
        best.seconds = min(best.seconds, other.seconds)
    best.memory = memory_of(words, path, best.memory)
    return best


def over(part, whole):
    return f"{part / whole:.1f}" if whole > 0 else "-"


def row(shape, mib, command, measured, before, checksum):
    """Prints what a command took, and its ratios."""
    shown = "ended" if measured.status is None else measured.status
    grown = "-"
    if before is not None and measured.status is not None:
        grown = over(measured.seconds * before[0], before[1].seconds * mib)
    ratios = f"{grown:>5} | {over(measured.seconds, checksum):>9}"
    memory = f"{measured.memory:6.0f} | {over(measured.memory - mib, mib):>5}"
    print(f"| {shape:18} | {mib:4g} | {command:20} | {shown:>6} | {measured.seconds:7.3f} | {ratios} | {memory} |", flush=True)


def measure(options, path):
    """Measures each command on each file, and returns what was measured, by command and size, each with the shape."""
    all_measured = {}
    for shape in options.shape:
        before = {}
        ended = set()
        for mib in options.size:
            write(shape, mib, path)
            checksum = least(["sha256sum"], path, options.stop, options.rounds).seconds
            for command in options.command:
                if command in ended:
                    continue
                words = [options.program] + [path if word == "FILE" else word for word in command.split()]
                if not options.unlimited:
                    words += ["--limit", str(max(64, os.path.getsize(path)))]
                measured = least(words, path, options.stop, options.rounds)
                measured.ratio = measured.seconds / (checksum * max(1, command.split().count("FILE")))
                row(shape, mib, command, measured, before.get(command), checksum)
                before[command] = (mib, measured)
                if measured.status is None:
                    ended.add(command)
                all_measured.setdefault((command, mib), []).append((shape, measured))
    return all_measured


def most(all_measured):
    """Prints the most that each command took at each size."""
    print(f"\n| {'command':20} | MiB  | most seconds | shape              | most MiB taken | shape              |")
    print(f"|{'-' * 22}|-----:|-------------:|{'-' * 20}|---------------:|{'-' * 20}|")
    for (command, mib), found in all_measured.items():
        slowest = max(found, key=lambda one: one[1].seconds)
        largest = max(found, key=lambda one: one[1].memory)
        seconds = f"{'over ' if slowest[1].status is None else ''}{slowest[1].seconds:.2f}"
        time_taken = f"{seconds:>12} | {slowest[0]:18}"
        print(f"| {command:20} | {mib:4g} | {time_taken} | {largest[1].memory:14.0f} | {largest[0]:18} |")


def are_above(all_measured, ratio):
    """Prints which commands were ended or took longer than this many times `sha256sum`. Returns whether there are any."""
    above = [
        f"{command} of {shape}, {mib:g} MiB: {'ended' if measured.status is None else f'{measured.ratio:.1f} times sha256sum'}"
        for (command, mib), found in all_measured.items()
        for shape, measured in found
        if measured.status is None or measured.ratio > ratio
    ]
    print("\n".join(above))
    return above != []


def main():
    parser = argparse.ArgumentParser(usage=__doc__)
    parser.add_argument("--program", default=os.path.join(ROOT, "crates/bootimg/out/bootimg"))
    parser.add_argument("--size", nargs="+", type=float, default=[1, 4, 16])
    parser.add_argument("--shape", nargs="+", choices=SHAPES, default=list(SHAPES))
    parser.add_argument("--command", nargs="+", default=COMMANDS)
    parser.add_argument("--stop", type=float, default=60)
    parser.add_argument("--rounds", type=int, default=3)
    parser.add_argument("--unlimited", action="store_true")
    parser.add_argument("--write")
    parser.add_argument("--most", type=float)
    options = parser.parse_args()
    if options.write:
        for shape in options.shape:
            for mib in options.size:
                write(shape, mib, os.path.join(options.write, f"{shape}-{mib:g}"))
        return
    print(f"| {'shape':18} | MiB  | {'command':20} | status | seconds | grown | sha256sum | MiB    | above |")
    print(f"|{'-' * 20}|-----:|{'-' * 22}|-------:|--------:|------:|----------:|-------:|------:|")
    with tempfile.TemporaryDirectory() as directory:
        all_measured = measure(options, os.path.join(directory, "file"))
    most(all_measured)
    if options.most is not None and are_above(all_measured, options.most):
        sys.exit(1)


main()
