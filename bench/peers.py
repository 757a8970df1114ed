"""Measures commands of the program beside tools that do the same work, and prints a table in Markdown."""
import os
import subprocess
import sys

from measuring import MIB, Failed, describe, measure, short

PROGRAM, ROUNDS = sys.argv[1], int(sys.argv[2])


def ours(line, source):
    """A command of the program, which reads this file."""
    return [PROGRAM, *line.split()], source


def tool(line, source=os.devnull):
    """A command of a tool."""
    return line.split(), source


def images(count):
    """The arguments for this many small images."""
    with open("many.sizes") as file:
        sizes = file.read().split()[:count]
    return " ".join(f"image-{index}:ramdisk:arm:linux:none:-:-:{size}" for index, size in enumerate(sizes))


HEADER = "-A arm -O linux -T kernel -C none -a 0x8000 -e 0x8000 -n k"
KERNEL, RAMDISK = os.path.getsize("kernel"), os.path.getsize("ramdisk")
LEGACY = "build-legacy --os linux --arch arm --type kernel --name k --load 0x8000 --entry 0x8000"
TWO = (
    f"build-fit --description k kernel-1:kernel:arm:linux:none:0x8000:0x8000:{KERNEL} "
    f"ramdisk-1:ramdisk:arm:linux:none:-:-:{RAMDISK}"
)
MANY = f"build-fit --description k {images(4_998)}"
CAT, SUM = "cat", "sha256sum"

# What is done, the command of the program, and the peers. A peer that is read from standard input has the same file.
LARGE_LEGACY = "legacy, 64 MiB", "large.uimage", [
    ("list", ["mkimage -l large.uimage", CAT]),
    ("verify", ["mkimage -l large.uimage", SUM]),
    ("extract --part 0", ["dumpimage -T kernel -p 0 -o extracted large.uimage", CAT]),
    ("normalise", [CAT, f"mkimage {HEADER} -d payload made.uimage"]),
    ("convert", ["mkimage -f one.its made.itb"]),
]
LARGE_TREE = "tree, 64 MiB", "two.itb", [
    ("list", ["mkimage -l two.itb", CAT]),
    ("verify", [SUM]),
    ("extract --image kernel-1", ["dumpimage -T flat_dt -p 0 -o extracted two.itb", CAT]),
    ("normalise", [CAT, "dtc -q -I dtb -O dtb -s -o made.dtb two.itb"]),
    ("normalise --external", [CAT, "dtc -q -I dtb -O dtb -s -o made.dtb two.itb"]),
]
EXTERNAL_TREE = "tree, 64 MiB after it", "two-external.itb", [
    ("list", ["mkimage -l two-external.itb", CAT]),
    ("verify", [SUM]),
    ("extract --image kernel-1", ["dumpimage -T flat_dt -p 0 -o extracted two-external.itb", CAT]),
    ("normalise", [CAT]),
    ("normalise --external", [CAT]),
]
MANY_NODES = "tree, 10,000 nodes", "many.itb", [
    ("list", ["mkimage -l many.itb", SUM]),
    ("verify", [SUM]),
    ("extract --image image-4997", ["dumpimage -T flat_dt -p 4997 -o extracted many.itb", SUM]),
    ("normalise", ["dtc -q -I dtb -O dtb -s -o made.dtb many.itb", SUM]),
    ("normalise --external", ["dtc -q -I dtb -O dtb -s -o made.dtb many.itb", SUM]),
]
BUILDING = [
    ("payload, 64 MiB", "payload", [(LEGACY, [f"mkimage {HEADER} -d payload made.uimage", SUM])]),
    ("payloads, 48 and 16 MiB", "payload", [(TWO, ["mkimage -f two.its made.itb", SUM])]),
    ("payloads, 4,998", "many", [(MANY, ["mkimage -f many.its made.itb"])]),
]


def is_known(command):
    """Whether the program has this command."""
    how = {"stdin": subprocess.DEVNULL, "stdout": subprocess.DEVNULL, "stderr": subprocess.DEVNULL}
    return subprocess.run([PROGRAM, command, "--help"], **how).returncode == 0


def version(*command):
    """The version that a tool prints."""
    return subprocess.run(command, capture_output=True, text=True).stdout.strip()


describe(ROUNDS)
print(f"The peers are of {version('mkimage', '-V')} and {version('dtc', '--version')}.\n")
print("| file | command | peer | ms | peer, ms | time, ratio | MiB | peer, MiB | memory, ratio |")
print("| --- | --- | --- | ---: | ---: | ---: | ---: | ---: | ---: |")
missing, failures = set(), []
for name, source, rows in [LARGE_LEGACY, LARGE_TREE, EXTERNAL_TREE, MANY_NODES, *BUILDING]:
    for line, peers in rows:
        command = line.split()[0]
        if not is_known(command):
            missing.add(command)
            continue
        try:
            results = measure([ours(line, source), *(tool(peer, source) for peer in peers)], ROUNDS)
        except Failed as failure:
            failures.append(f"{name}: {failure}.")
            continue
        seconds, memory = results[0]
        for peer, (its_seconds, its_memory) in zip(peers, results[1:]):
            print(
                f"| {name} | `{short(line)}` | `{short(peer)}` "
                f"| {1000 * seconds:.1f} | {1000 * its_seconds:.1f} | {seconds / its_seconds:.2f} "
                f"| {memory / MIB:.1f} | {its_memory / MIB:.1f} | {memory / its_memory:.2f} |",
                flush=True,
            )
for command in sorted(missing):
    print(f"\nThe program has no command `{command}`: its rows are left out.")
for failure in failures:
    print(f"\nNot measured: {failure}")
sys.exit(bool(failures))
