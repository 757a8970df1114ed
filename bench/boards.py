"""Measures three ways to make a FIT of many boards, and prints a table in Markdown."""
import os
import subprocess
import sys

from measuring import MIB, describe, measure

PROGRAM, ROUNDS = sys.argv[1], int(sys.argv[2])
BOARDS, KERNEL, DEVICETREE, TIME = 60, 16 * MIB, 60 << 10, os.environ["SOURCE_DATE_EPOCH"]
NAMES = [str(board) for board in range(1, BOARDS + 1)]


def write(path, data):
    with open(path, "wb") as file:
        file.write(data)


def image(name, kind, file, places=""):
    """The source of an image."""
    return (
        f'{name} {{ description = "boards"; data = /incbin/("{file}"); type = "{kind}"; arch = "arm64"; os = "linux"; '
        f'compression = "none"; {places}hash-1 {{ algo = "sha256"; }}; }};\n'
    )


def source():
    """The source of the tree."""
    images = [image("kernel", "kernel", "kernel", "load = <0x80080000>; entry = <0x80080000>; ")]
    images += [image(f"fdt-{name}", "flat_dt", f"{name}.dtb") for name in NAMES]
    boards = [f'board-{name} {{ description = "boards"; kernel = "kernel"; fdt = "fdt-{name}"; }};\n' for name in NAMES]
    return (
        '/dts-v1/;\n/ { description = "boards"; #address-cells = <1>;\nimages {\n' + "".join(images)
        + '};\nconfigurations { default = "board-7";\n' + "".join(boards) + "};\n};\n"
    )


def build(form):
    """The call of build-fit."""
    words = ["kernel:kernel:arm64:linux:none:0x80080000:0x80080000:@kernel"]
    words += [f"fdt-{name}:flat_dt:arm64:linux:none:-:-:@{name}.dtb" for name in NAMES]
    configurations = [word for name in NAMES for word in ("--config", f"board-{name}:kernel=kernel:fdt=fdt-{name}")]
    options = ["--default", "board-7", "--description", "boards", "--time", TIME]
    return [PROGRAM, "build-fit", *form, *options, *configurations, *words]


def update(form):
    """dtc of the source, and update of what it compiles."""
    line = 'dtc -q -I dts -O dtb -o boards.blob boards.its && exec "$@" boards.blob'
    return ["sh", "-c", line, "sh", PROGRAM, "update", "--hashes", "--time", TIME, *form]


def same(commands):
    """Whether all of these write the same meaning. mkimage writes it to a file of its own."""
    for number, command in enumerate(commands):
        with open(f"written-{number}", "wb") as target:
            subprocess.run(command, stdout=target, check=True)
    os.replace("made.itb", f"written-{len(commands) - 1}")
    return all(subprocess.run([PROGRAM, "compare", "written-0", f"written-{number}"]).returncode == 0 for number in range(1, len(commands)))


write("kernel", os.urandom(KERNEL))
for name in NAMES:
    write("noise", os.urandom(DEVICETREE - 128))
    text = f'/dts-v1/; / {{ model = "board {name}"; noise = /incbin/("noise"); }};'
    subprocess.run(["dtc", "-q", "-O", "dtb", "-o", f"{name}.dtb"], input=text.encode(), check=True)
write("boards.its", source().encode())
describe(ROUNDS)
print(f"The kernel has {KERNEL // MIB} MiB, and each of {BOARDS} devicetrees {os.path.getsize('1.dtb') / 1024:.1f} KiB.\n")
print("| payloads | way | ms | ratio | MiB |")
print("| --- | --- | ---: | ---: | ---: |")
for place, form, option in ("in the blob", [], []), ("after the blob", ["--external"], ["-E"]):
    ways = {"build-fit": build(form), "dtc, update": update(form), "mkimage -f": ["mkimage", "-f", "boards.its", *option, "made.itb"]}
    if not same(list(ways.values())):
        raise SystemExit(f"{place}: the three do not mean the same thing")
    results = measure([(command, os.devnull) for command in ways.values()], ROUNDS)
    for way, (seconds, memory) in zip(ways, results):
        print(f"| {place} | `{way}` | {1000 * seconds:.1f} | {seconds / results[0][0]:.2f} | {memory / MIB:.1f} |", flush=True)
