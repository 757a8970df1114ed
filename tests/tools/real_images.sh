#!/bin/sh
# Tries the program on images that U-Boot's mkimage makes: they are their own normal forms, even after bytes without a meaning
# are changed; their listings are right; and their parts are the files that went in. The script needs Debian's u-boot-tools and
# python3, and installs them if one is missing and it runs as root.
set -u

root=$(cd "$(dirname "$0")/../.." && pwd)
. "$root/tests/setup"
export SOURCE_DATE_EPOCH=1000000000

need u-boot-tools mkimage dumpimage
need python3 python3
need_program
work_in_new_directory

# soil IMAGE OFFSET..: writes the image with other bytes after the name, after the data, and at these offsets, with the right
# checksums.
soil() {
    python_with_blobs -c 'import sys
from blobs import with_sums
image = bytearray(open(sys.argv[1], "rb").read())
for place in map(int, sys.argv[2:]):
    assert image[place] == 0
    image[place] = 0xff
end = image.index(0, 32, 64)
image[end + 1:64] = b"\xff" * (63 - end)
sys.stdout.buffer.write(with_sums(image) + b"\xaa" * 1001)' "$@"
}

# make TYPE NAME FILES IMAGE: makes an image of these files, whose names are joined by colons.
make() {
    mkimage -A arm -O linux -T "$1" -C none -a 0x8000 -e 0x8040 -n "$2" -d "$3" "$4" > /dev/null
}

# listing NAME TYPE PARTS: writes the listing; its lines from the first part on are read from standard input.
listing() {
    echo "kind legacy"
    echo "name $1"
    echo "time 1000000000"
    echo "load 0x00008000"
    echo "entry 0x00008040"
    echo "os linux"
    echo "arch arm"
    echo "type $2"
    echo "compression none"
    echo "parts $3"
    cat
}

# A kernel image.
noise 1 3500001 > kernel
make kernel "Linux 6.1" kernel kernel.image
soil kernel.image > kernel.soiled
listing Linux%206.1 kernel 1 > kernel.listing << END
part 0 size 3500001 at 64
unused 1001
END
check "a kernel image is its own normal form" gives kernel.image kernel.image normalise
check "the soiled kernel image is longer" test "$(wc -c < kernel.soiled)" = 3501066
check "mkimage takes the soiled kernel image" mkimage -l kernel.soiled
check "a soiled kernel image has the same normal form" gives kernel.image kernel.soiled normalise
check "mkimage takes the normal form" mkimage -l output
check "the kernel is extracted" gives kernel kernel.soiled extract --part 0
check "the kernel image is listed" gives kernel.listing kernel.soiled list

# multi COUNT OFFSETS FILE..: tries a multi-file image of these files, with padding between its parts at these offsets. The lines
# of its parts in the listing are read from standard input.
multi() {
    count=$1
    places=$2
    shift 2
    { cat && echo "unused 1001"; } | listing "of%20$count" multi "$count" > multi.listing
    make multi "of $count" "$(echo "$*" | tr ' ' ':')" multi.image
    # shellcheck disable=SC2086
    soil multi.image $places > multi.soiled
    check "a multi image of $count parts is its own normal form" gives multi.image multi.image normalise
    check "mkimage takes a soiled multi image of $count parts" mkimage -l multi.soiled
    check "a soiled multi image of $count parts has the same normal form" gives multi.image multi.soiled normalise
    mv output multi.normal
    check "mkimage takes the normal form of $count parts" mkimage -l multi.normal
    check "a multi image of $count parts is listed" gives multi.listing multi.soiled list
    index=0
    for file in "$@"; do
        check "part $index of $count is extracted" gives "$file" multi.soiled extract --part "$index"
        check "dumpimage extracts part $index of $count" dumpimage -T multi -p "$index" -o multi.dumped multi.normal
        check "dumpimage extracts the same part $index of $count" cmp multi.dumped output
        index=$((index + 1))
    done
    check "there is no part $index of $count" refuses "no such part" multi.soiled extract --part "$index"
}

# Multi-file images of parts whose lengths are not multiples of four.
noise 2 1001 > part0
noise 3 70003 > part1
noise 4 5 > part2
noise 5 131 > part3
multi 2 "1077 1079" part0 part1 << END
part 0 size 1001 at 76
part 1 size 70003 at 1080
END
multi 3 "1081 71087" part0 part1 part2 << END
part 0 size 1001 at 80
part 1 size 70003 at 1084
part 2 size 5 at 71088
END
multi 4 "1087 71091 71097 71098 71099" part0 part1 part2 part3 << END
part 0 size 1001 at 84
part 1 size 70003 at 1088
part 2 size 5 at 71092
part 3 size 131 at 71100
END

# A script image.
echo "echo hello, world" > script
make script boot.scr script script.image
listing boot.scr script 1 > script.listing << END
part 0 size 18 at 72
unused 0
END
check "a script image is its own normal form" gives script.image script.image normalise
check "the script is extracted" gives script script.image extract --part 0
check "the script image is listed" gives script.listing script.image list

# names LABEL NAME OPTION: mkimage takes this name for this option, and the listing of the image has it on the line of this label.
names() {
    mkimage -A arm -O linux -T kernel -C none "$3" "$2" -d script names.image > /dev/null &&
        "$root/bootimg" list < names.image > output && grep -Fqx "$1 $2" output
}

# Each name of a code, except flat_dt: mkimage makes no legacy image of this type.
for name in netbsd linux vxworks u-boot; do
    check "the system $name is listed" names os "$name" -O
done
for name in arm x86 mips ppc arm64 x86_64 riscv; do
    check "the architecture $name is listed" names arch "$name" -A
done
for name in standalone kernel ramdisk multi firmware script; do
    check "the type $name is listed" names type "$name" -T
done
for name in none gzip bzip2 lzma lzo lz4 zstd; do
    check "the compression $name is listed" names compression "$name" -C
done

# The examples. dumpimage extracts their parts, and mkimage makes the images again from these.
kernel=$root/examples/kernel.uimage
padded=$root/examples/kernel-padded.uimage
two=$root/examples/two-parts.uimage
export SOURCE_DATE_EPOCH=1700000000
check "dumpimage extracts the example's kernel" dumpimage -T kernel -p 0 -o payload "$kernel"
for index in 0 1; do
    check "dumpimage extracts the example's part $index" dumpimage -T multi -p "$index" -o "example$index" "$two"
    check "the example's part $index is extracted" gives "example$index" "$two" extract --part "$index"
done
check "mkimage makes the kernel image again" mkimage -A arm64 -O linux -T kernel -C none -a 0x80080000 -e 0x80080000 \
    -n "Linux example" -d payload kernel.again
check "the kernel image made again is the example" cmp kernel.again "$kernel"
check "mkimage makes the image of two parts again" mkimage -A arm -O linux -T multi -C none -a 0x8000 -e 0x8000 \
    -n "two parts" -d example0:example1 two.again
check "the image of two parts made again is the example" cmp two.again "$two"
check "mkimage takes the padded kernel image" mkimage -l "$padded"
check "the example of two parts is its own normal form" gives "$two" "$two" normalise
for example in "$kernel" "$padded"; do
    check "$(basename "$example") has the normal form kernel.uimage" gives "$kernel" "$example" normalise
    check "the kernel of $(basename "$example") is extracted" gives payload "$example" extract --part 0
done

finish
