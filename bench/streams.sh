#!/bin/sh
# Measures list and normalise of a flattened image tree of 64 MiB, with the payloads inside the blob and after it, beside a program
# that does no more than read the file and write it, with the same calls: bench/baseline. list is compared with reading alone. It
# prints a table in Markdown, in which cat, dd and python3 stand for comparison. The number of rounds may be given; it is 15 if
# not. Nothing is judged. The baseline is proved and built first, which takes a minute. The script needs Debian's u-boot-tools,
# time, coreutils and python3, and installs them if one is missing and it runs as root.
set -u

root=$(cd "$(dirname "$0")/.." && pwd)
. "$root/tests/kit"
export SOURCE_DATE_EPOCH=1000000000 PYTHONDONTWRITEBYTECODE=1

need u-boot-tools mkimage
need time /usr/bin/time
need coreutils cat dd
need python3 python3
need_program
need_libraries
work_in_new_directory

check "the baseline is built" build_test_program baseline "$root/bench/baseline/main.rt.source" bi_base
[ "$failed" = 0 ] || finish
baseline=$work/baseline

python3 "$root/bench/inputs.py" || exit 2
python3 "$root/bench/streams.py" "$root/crates/bootimg/out/bootimg" "$baseline" "${1:-15}"
