#!/bin/sh
# Measures how long `check` of FILES small images, by default 2,000, takes in one call beside a call for each. It fails if the one call is
# not at least 5 times as fast, or if it does not write the same lines. Each is the least of three rounds. The script needs python3, and
# installs Debian's if it is missing and the script runs as root.
#
# many_files_costs.sh [FILES]
set -u

root=$(cd "$(dirname "$0")/../.." && pwd)
. "$root/tests/setup"

files=${1-2000}
need python3 python3
need_program
work_in_new_directory

# A byte after the data of the image is a concern: check prints a line, and ends with status 1.
python3 - "$root/examples/kernel.uimage" "$files" << 'END_OF_PROGRAM'
import sys
from pathlib import Path

image = Path(sys.argv[1]).read_bytes() + b"x"
for number in range(int(sys.argv[2])):
    Path(f"image-{number}").write_bytes(image)
END_OF_PROGRAM
seq -f 'image-%.0f' 0 $((files - 1)) > names

# microseconds OUTPUT WORD..: runs a command on the names, and prints how many microseconds it took.
microseconds() {
    written=$1
    shift
    begin=$(date +%s%N)
    "$@" < names > "$written" 2> errors
    end=$(date +%s%N)
    echo $(((end - begin) / 1000))
}

program=$root/crates/bootimg/out/bootimg
one=
each=
for round in 1 2 3; do
    now=$(microseconds together xargs -n "$files" -s 2000000 "$program" check)
    { [ -n "$one" ] && [ "$one" -le "$now" ]; } || one=$now
    now=$(microseconds apart xargs -n 1 "$program" check)
    { [ -n "$each" ] && [ "$each" -le "$now" ]; } || each=$now
done
echo "check of $files files: $one microseconds in one call, $each in $files calls"
check "each file has its line" sh -c 'sed "s/: .*//" together | cmp - names'
check "the lines are the same" sh -c 'sed "s/^[^:]*: //" together | cmp - apart'
check "one call is at least 5 times as fast as $files calls" test $((5 * one)) -le "$each"
finish
