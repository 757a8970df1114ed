#!/bin/sh
# Runs every command in a ```console block of README.md, of examples/README.md and of the pages in docs/ but CONFORMANCE.md, whose
# commands conformance.sh runs, from the top of the checkout, and compares what it prints with what the block shows. The commands
# of a file share one shell. A command that ends with a backslash continues in the next line. The commands for a service in SECURITY.md
# and those for pieces of a flash memory in the tutorial are run over small files, too. At the end nothing is untracked in the checkout
# that was not so before. It needs python3 and, for the examples and the tutorial, Debian's u-boot-tools, device-tree-compiler,
# openssl, git, jq and parallel, and installs them if one is missing and it runs as root. In the locale C, cmp has another text than
# elsewhere.
set -u

root=$(cd "$(dirname "$0")/../.." && pwd)
. "$root/tests/setup"

need u-boot-tools mkimage
need device-tree-compiler fdtget fdtput
need openssl openssl
need git git
need jq jq
need parallel parallel
need python3 python3
need_program
work_in_new_directory
export TMPDIR="$work" LC_ALL=C.UTF-8

pages=$(cd "$root" && ls docs/*.md | grep -v /CONFORMANCE)
# shellcheck disable=SC2086
passes python3 - "$root" README.md examples/README.md $pages << 'END'
import re
import subprocess
import sys

MARK = "-- end of command --"


def commands(text):
    """Returns each command of the console blocks with the output that is shown."""
    found = []
    for block in re.findall(r"^```console\n(.*?)^```$", text, re.M | re.S):
        for line in block.splitlines():
            if line.startswith("$ "):
                found.append([line[2:], ""])
            elif found[-1][0].endswith("\\"):
                found[-1][0] += "\n" + line
            else:
                found[-1][1] += line + "\n"
    return found


def untracked(root):
    """Returns the files that git does not know, or nothing if there is no git."""
    git = ["git", "-C", root, "status", "--porcelain", "--untracked-files=all"]
    return subprocess.run(git, capture_output=True, text=True).stdout


root, files = sys.argv[1], sys.argv[2:]
before = untracked(root)
passed = failed = 0
for file in files:
    with open(f"{root}/{file}") as opened:
        shown = commands(opened.read())
    script = "".join(f"{command}\necho '{MARK}'\n" for command, _ in shown)
    how = {"stdin": subprocess.DEVNULL, "stdout": subprocess.PIPE, "stderr": subprocess.STDOUT, "text": True}
    outputs = subprocess.run(["sh", "-c", script], cwd=root, **how).stdout.split(MARK + "\n")
    outputs += ["(not run)\n"] * (len(shown) + 1 - len(outputs))
    for (command, wanted), output in zip(shown, outputs):
        if output == wanted:
            passed += 1
        else:
            failed += 1
            print(f"FAILED: {file}: {command}\nshown:\n{wanted}printed:\n{output}", end="")
if untracked(root) == before:
    passed += 1
else:
    failed += 1
    print(f"FAILED: the recipes leave something in the checkout:\n{untracked(root)}")
print(f"{passed} passed, {failed} failed")
END

# block_of PAGE WORD: the block of commands in this page that has this word, and shows no output.
block_of() {
    python3 - "$root/$1" "$2" << 'END'
import re
import sys

with open(sys.argv[1]) as page:
    blocks = re.findall(r"^```sh\n(.*?)^```$", page.read(), re.M | re.S)
print(next(block for block in blocks if sys.argv[2] in block), end="")
END
}

# judged FILE: what the commands of SECURITY.md for a service print of a file, and their status.
judged() {
    file=$1 sh ./service
    echo "status $?"
}
mkdir programs
ln -s "$root/crates/bootimg/out/bootimg" programs/bootimg
PATH=$work/programs:$PATH
block_of SECURITY.md ulimit > service
check "a service is told of concerns" test "$(judged "$root/examples/board.itb")" = "the image has concerns:
weak-hash ramdisk-1 crc32
status 1"
check "a service is told that a file is refused" test "$(judged "$root/README.md")" = "not accepted:
bootimg: BadMagic at 0
status 1"
check "a service is told that there is no file" test "$(judged missing)" = "status 3"
{ head -c 512 /dev/zero && cat "$root/examples/board.itb"; } > emmc
block_of docs/TUTORIAL.md emmc > pieces
check "the images in a flash memory, piece by piece" test "$(sh ./pieces 2> /dev/null)" = "0 GiB and 512 fit 2628 3"
finish
