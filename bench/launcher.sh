#!/bin/sh
# Prints what a call of the program costs, by the launcher ./bootimg and without it: the least of five rounds of 200 calls each.
set -u
cd "$(dirname "$(readlink -f "$0")")/.." || exit 2
export BOOTIMG_PROVED=1
./bootimg --version > /dev/null || exit

# measure PROGRAM: prints the microseconds of a call.
measure() {
    count=200
    start=$(date +%s%N)
    while [ "$count" -gt 0 ]; do
        "$1" --version > /dev/null
        count=$((count - 1))
    done
    echo $((($(date +%s%N) - start) / 200000))
}

by_launcher= alone=
for round in 1 2 3 4 5; do
    by_launcher="$by_launcher $(measure ./bootimg)"
    alone="$alone $(measure crates/bootimg/out/bootimg)"
done
least() {
    printf '%s\n' "$@" | sort -n | head -n 1
}
echo "by the launcher: $(least $by_launcher) microseconds a call; the program alone: $(least $alone)"
