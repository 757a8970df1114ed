#!/bin/sh
# Measures three ways to make a FIT of 60 boards: build-fit in one call; dtc of a source, and update of what it compiles; and mkimage
# of this source. The kernel has 16 MiB and each devicetree 60 KiB. It prints a table in Markdown: the wall time, the least of several
# rounds, and the peak memory, with the payloads in the blob and after it. The number of rounds may be given; it is 5 if not. It takes
# less than a minute, and nothing is judged. The script needs Debian's u-boot-tools, device-tree-compiler, time and python3, and
# installs them if one is missing and it runs as root.
set -u

root=$(cd "$(dirname "$0")/.." && pwd)
. "$root/tests/setup"
export SOURCE_DATE_EPOCH=1700000000 PYTHONDONTWRITEBYTECODE=1

need u-boot-tools mkimage
need device-tree-compiler dtc
need time /usr/bin/time
need python3 python3
need_program
work_in_new_directory

python3 "$root/bench/boards.py" "$root/crates/bootimg/out/bootimg" "${1:-5}"
