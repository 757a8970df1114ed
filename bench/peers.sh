#!/bin/sh
# Measures each command of the program beside tools that do the same work on the same file, and prints a table in Markdown: the
# wall time, the least of several rounds, the peak memory, and the ratios to the peer. The files are made here: images of 64 MiB,
# and a flattened image tree of 10,000 nodes. The number of rounds may be given; it is 7 if not. A command that the program does
# not have is left out, and named. It takes some minutes, and nothing is judged. The script needs Debian's u-boot-tools,
# device-tree-compiler, time, coreutils and python3, and installs them if one is missing and it runs as root.
set -u

root=$(cd "$(dirname "$0")/.." && pwd)
. "$root/tests/setup"
export SOURCE_DATE_EPOCH=1000000000 PYTHONDONTWRITEBYTECODE=1

need u-boot-tools mkimage dumpimage
need device-tree-compiler dtc
need time /usr/bin/time
need coreutils cat sha256sum
need python3 python3
need_program
work_in_new_directory

python3 "$root/bench/inputs.py" || exit 2
python3 "$root/bench/peers.py" "$root/crates/bootimg/out/bootimg" "${1:-7}"
