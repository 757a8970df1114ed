#!/bin/sh
# Measures what files of 4 MiB cost whose names of properties share bytes, by bench/names.py: each command on each shape of such a file.
# It fails if a command takes longer than forty times what sha256sum takes for each of its files. The script needs python3 and coreutils.
set -u

root=$(cd "$(dirname "$0")/../.." && pwd)
. "$root/tests/setup"

need python3 python3
need coreutils sha256sum
need time /usr/bin/time
need_program

check "no command takes long for names that share bytes" python3 -B "$root/bench/names.py" --size 4 --stop 20 --most 40 \
    --shape one-run-one-node one-run-many-nodes late middle late-pairs middle-pairs early-pairs many-runs ladder one-name
finish
