#!/bin/sh
# Makes the files that the programs of docs/LIBRARY.md read, in the current directory: releases.sh PROGRAM. releases/1.itb and
# releases/2.itb are FITs of 8 MiB for two boards, with another devicetree in the second. PROGRAM, which is bootimg, and dtc make the
# first, and mkimage -E the second. flash.bin has the first and a legacy image in erased flash memory.
set -eu

program=$1
examples=$(cd "$(dirname "$0")/../../../examples" && pwd)
SOURCE_DATE_EPOCH=1700000000
export SOURCE_DATE_EPOCH

# erased COUNT: writes this many bytes, as erased flash memory has them.
erased() {
    head -c "$1" /dev/zero | tr '\0' '\377'
}

# devicetree NAME PROPERTY: makes the blob of a devicetree.
devicetree() {
    echo "/dts-v1/; / { compatible = \"example,board-$1\"; $2 };" | dtc -q -O dtb -o "$1.dtb"
}

mkdir releases
python3 -c 'import random, sys; sys.stdout.buffer.write(random.Random(1).randbytes(1 << 23))' > kernel
cp "$examples/two-boards.its" .
devicetree a ''
devicetree b ''
dtc -q -O dtb two-boards.its | "$program" update --hashes --time 1700000000 -o releases/1.itb
devicetree b 'model = "board b";'
mkimage -E -f two-boards.its releases/2.itb > log
{
    erased 65536
    cat "$examples/kernel.uimage"
    erased 979066
    cat releases/1.itb
    erased 100000
} > flash.bin
