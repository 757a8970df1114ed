#!/bin/sh
# Compares pairs of images, each examples/board.itb and a copy with another load address and another model in its devicetree, as a loop
# over the images of a release does: with `bootimg compare`, with `bootimg compare --deep`, with dtc and diff, which do not see what is
# inside the devicetree, and with diffoscope, which does, if it is installed (Debian: diffoscope-minimal). Prints the seconds of each loop.
#
# pairs.sh [PAIRS]: PAIRS is the number of pairs, 200 by default. Needs Debian's device-tree-compiler.
set -u

root=$(cd "$(dirname "$0")/.." && pwd)
pairs=${1-200}
work=$(mktemp -d) || exit 2
trap 'rm -rf "$work"' EXIT
trap 'exit 1' HUP INT TERM
BOOTIMG_PROVED=1 "$root/bootimg" --version
bootimg=$root/crates/bootimg/out/bootimg
for tool in fdtput dtc; do
    command -v "$tool" > /dev/null || { echo "$tool is not found" >&2; exit 2; }
done
"$bootimg" extract --image fdt-1 "$root/examples/board.itb" > "$work/board.dtb" || exit 2
for i in $(seq "$pairs"); do
    cp "$root/examples/board.itb" "$work/$i.one"
    fdtput -t s "$work/board.dtb" / model "board $i"
    "$bootimg" update --payload "fdt-1=@$work/board.dtb" --set "/images/kernel-1 load 0x$(printf %08x "$i")" "$root/examples/board.itb" \
        > "$work/$i.other" || exit 2
done

# seconds WHAT COMMAND..: runs the command, with ONE and OTHER of each pair after its arguments, and prints the seconds.
seconds() {
    what=$1
    shift
    start=$(date +%s%N)
    for i in $(seq "$pairs"); do
        "$@" "$work/$i.one" "$work/$i.other" > "$work/output" 2> "$work/errors"
        [ $? = 1 ] || { echo "$what: pair $i does not differ" >&2; exit 1; }
    done
    echo "$what: $pairs pairs in $(awk "BEGIN { printf \"%.2f\", ($(date +%s%N) - $start) / 1e9 }") s"
}

# by_dtc ONE OTHER: the lines of their sources that differ.
by_dtc() {
    dtc -q -I dtb -O dts -o "$work/one.dts" "$1" && dtc -q -I dtb -O dts -o "$work/other.dts" "$2" && diff "$work/one.dts" "$work/other.dts"
}

seconds "bootimg compare" "$bootimg" compare
seconds "bootimg compare --deep" "$bootimg" compare --deep
seconds "dtc and diff" by_dtc
if command -v diffoscope > /dev/null; then
    seconds diffoscope diffoscope
fi
