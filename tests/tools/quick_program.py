"""Runs two programs with the same commands: quick_program.py EXAMPLES ONE OTHER.

Each command runs in a new directory with the files of EXAMPLES and some that are no images, with a file as its standard input. The exit
status, standard output, standard error and the files that are there then, with their modes, must be the same. At most half of the
commands may fail. The last line is `N passed, M failed`, and the status is 1 if a command differs.
"""

import os
import shutil
import sys
import tempfile
from concurrent.futures import ThreadPoolExecutor
from pathlib import Path

sys.dont_write_bytecode = True
from runs import answer_of

# Commands that read an image, which stands where IMAGE is.
READING = """
show IMAGE
show --layout IMAGE
show --layout --limit 900 IMAGE
list IMAGE
list --json IMAGE
list -o new IMAGE
list --offset 64 IMAGE
describe IMAGE
describe --json IMAGE
describe --limit 0x100 IMAGE
describe --deep IMAGE
describe --deep --json IMAGE
verify IMAGE
verify --json IMAGE
check IMAGE
check --json IMAGE
check --allow weak-hash,no-hash IMAGE
scan IMAGE
scan -o new IMAGE
normalise IMAGE
normalise --external IMAGE
normalise --external --align 64 IMAGE
normalise --align 64 IMAGE
normalise -o board.itb IMAGE
normalise --offset 1 IMAGE
update --time 0 IMAGE
update --hashes IMAGE
update --time 0xffffffff --hashes --external -o new IMAGE
update IMAGE
extract --part 0 IMAGE
extract --part 1 -o new IMAGE
extract --part 4294967296 IMAGE
extract --image kernel-1 IMAGE
extract --image %6Bernel-1 --escaped IMAGE
extract --config conf-1 --key fdt IMAGE
extract --config conf-2 --key ramdisk --index 1 IMAGE
extract --default IMAGE
extract --all -o new IMAGE
extract --all -o board.its IMAGE
extract IMAGE
convert IMAGE
convert --limit 100 IMAGE
compare IMAGE board.itb
compare --quiet kernel.uimage IMAGE
compare --json IMAGE two-parts.uimage
compare board-external.itb IMAGE
compare --deep IMAGE board.itb
compare --deep --ignore /images/fdt-1//x --json board.itb IMAGE
"""
IMAGES = "board.itb board-external.itb kernel.uimage kernel-padded.uimage two-parts.uimage boot.scr cut.itb empty -".split()
# Commands that read no image, or others.
OTHERS = """
--help
help
help show
-h
bad
--bad
list --bad
list --limit
list missing
list board.itb board.itb
compare
compare board.itb
compare - -
explain
explain Bad
explain -o new
build-legacy --os linux --arch arm --type kernel @kernel.uimage
build-legacy --os linux --arch arm64 --type multi --name a --time 1 --load 0x8000 --entry 4 @boot.scr @empty 10
build-legacy --os 5 --arch 2 --type 4 1 2 3
build-legacy --os linux --arch arm --type kernel
build-legacy --os linux --arch arm --type kernel --name 123456789012345678901234567890123
build-legacy --os bad --arch arm --type kernel
build-legacy --arch arm --type kernel
build-legacy --os linux --arch arm --type script -o new @boot.scr
build-fit k:kernel:arm64:linux:none:0x8000:0x8000:@kernel.uimage
build-fit --external --align 64 --description d --time 9 k:kernel:arm64:linux:none:0:0:@cut.itb f:flat_dt:arm64:-:none:-:-:@empty
build-fit --hash crc32,md5,sha1,sha256,sha384,sha512 --config a:kernel=k --config b:kernel=k --default b k:kernel:arm:linux:none:1:1:100
build-fit --config a:kernel=missing k:kernel:arm:linux:none:1:1:100
build-fit --hash none -o new k:kernel:arm:linux:gzip:1:1:100
build-fit k:kernel:arm:linux:none:1:1
build-fit
"""
CAUSES = """
Truncated BadMagic BadHeaderChecksum BadDataChecksum BadSize BadPartTable BadPart BadName BadVersion BadBlock Overlap BadToken TooDeep
OutsideFile NoPayload TooLarge OutOfMemory ReadFailed WriteFailed BadField EmptyPart NoCodeName DuplicateName truncated
"""


def commands():
    """The words of each command, and the file that it reads as its standard input."""
    for image in IMAGES:
        for line in READING.split("\n")[1:-1]:
            yield line.replace("IMAGE", image).split(), "board.itb" if image == "-" else "kernel.uimage"
    for image in IMAGES[:-1]:
        for command in ("show", "list", "describe", "verify", "check", "scan", "normalise", "convert"):
            yield [command], image
    for line in OTHERS.split("\n")[1:-1]:
        yield line.split(), "board.itb"
    for cause in CAUSES.split():
        yield ["explain", cause], "empty"


def outcome(program, examples, words, name):
    """What the program does: its status, what it prints, and the files with their modes and contents."""
    with tempfile.TemporaryDirectory() as directory:
        for path in examples.iterdir():
            shutil.copy(path, directory)
        board = (examples / "board.itb").read_bytes()
        Path(directory, "cut.itb").write_bytes(board[:1000])
        Path(directory, "empty").write_bytes(b"")
        answer = answer_of(program, words, Path(directory, name).read_bytes(), directory)
        files = sorted(path for path in Path(directory).rglob("*"))
        kept = [(str(path.relative_to(directory)), path.stat().st_mode, path.is_file() and path.read_bytes()) for path in files]
        return answer, kept


def main(examples, *programs):
    runs = list(commands())
    examples = Path(examples)
    with ThreadPoolExecutor(os.cpu_count()) as pool:
        one, other = (list(pool.map(lambda run: outcome(os.path.abspath(program), examples, *run), runs)) for program in programs)
    wrong = [f"FAILED: bootimg {' '.join(words)} < {name}" for (words, name), a, b in zip(runs, one, other) if a != b]
    refused = sum(answer[0] == 2 for answer, _ in one)
    if refused > len(runs) / 2:
        wrong.append(f"FAILED: {refused} of the commands end with status 2")
    print("\n".join([*wrong, f"{len(runs) - len(wrong)} passed, {len(wrong)} failed"]))
    return int(bool(wrong))


if __name__ == "__main__":
    sys.exit(main(*sys.argv[1:]))
