#!/bin/sh
# Tries what README.md, docs/CLI.md and docs/FORMATS.md state about arguments, files, refused images and help, apart from what other
# scripts try. It needs Debian's u-boot-tools and python3, and installs them if they are missing and it runs as root.
set -u

root=$(cd "$(dirname "$0")/../.." && pwd)
. "$root/tests/setup"
export SOURCE_DATE_EPOCH=1700000000

need u-boot-tools mkimage
need python3 python3
need_program
work_in_new_directory

# says LINE ARGUMENT..: the same of the program with an empty input.
says() {
    line=$1
    shift
    refuses "$line" /dev/null "$@"
}

# prints TEXT STATUS ARGUMENT..: the program with these arguments prints this text, among others, and ends with this status.
prints() {
    text=$1
    status=$2
    shift 2
    "$root/bootimg" "$@" < /dev/null > output 2>&1
    [ $? = "$status" ] && grep -Fq -e "$text" output || { cat output; false; }
}

# writes TEXT STATUS ARGUMENT..: the program with these arguments and an empty input writes these lines and nothing else, and ends with
# this status.
writes() {
    text=$1
    status=$2
    shift 2
    "$root/bootimg" "$@" < /dev/null > output 2> errors
    [ $? = "$status" ] && [ ! -s errors ] && printf "$text" | cmp - output || { cat output errors; false; }
}

kernel=$root/examples/kernel.uimage

# Arguments.
check "an argument that is not UTF-8" refuses "out of memory" "$kernel" list "$(printf '\377')"
check "no selection" refuses "usage: give one of --part, --image, --config" "$kernel" extract
check "no selection comes before a bad value" refuses "usage: give one of --part, --image, --config" "$kernel" extract --limit x
check "a selection of another kind" refuses "the selection does not fit this kind of image" "$kernel" extract --image kernel-1
check "a name that begins with a hyphen" refuses "the selection does not fit this kind of image" "$kernel" extract --image=-a
check "a part that is not there" refuses "no such part" "$kernel" extract --part 1
check "a bad value" refuses "usage: bad value" "$kernel" list --limit 0X400
check "the least limit less one" refuses "usage: bad value" "$kernel" list --limit 63
check "the greatest limit and one more" refuses "usage: bad value" "$kernel" list --limit 2147483648
check "the limit" refuses "TooLarge at 3973" "$kernel" list --limit 3973
check "the limit is enough" sh -c '"$1" list --limit 0xf86 < "$2"' sh "$root/bootimg" "$kernel"
check "a failed write" sh -c '"$1" list < "$2" > /dev/full; [ $? = 2 ]' sh "$root/bootimg" "$kernel"

# Files.
cp "$kernel" good
cp "$kernel" 'a %b'
head -c 3973 good > cut
printf '\001\002\003\004' > bad
mkdir directory
same_listing() {
    "$root/bootimg" list < good > wanted && "$root/bootimg" list - < good | cmp wanted - &&
        "$root/bootimg" list good < bad | cmp wanted -
}
check "an image in a file, in standard input, and as -" same_listing
check "a file that is not there" says "none: cannot be opened" list none
check "a file that is not there, with a space in its name" says "no%20file: cannot be opened" describe 'no file'
check "the empty name" says "-: cannot be opened" list ''
check "./- is a file" says "./-: cannot be opened" list ./-
check "a directory" says "directory: read failed" list directory
check "a bad value comes before a file" says "usage: bad value" list --limit 63 none
check "a file over the limit" says "good: TooLarge at 3973" list --limit 3973 good
check "a space and % in the name of a file" says "a%20%25b: TooLarge at 64" list --limit 64 'a %b'
check "a selection of another kind" says "good: the selection does not fit this kind of image" extract --image kernel-1 good
check "a part that is not in the file" says "good: no such part" extract --part 1 good
check "no selection, with a file" says "usage: give one of --part, --image, --config" extract good
check "two files" prints "unexpected argument 'cut' found" 2 describe good cut
check "build-legacy takes no file" says "usage: bad value" build-legacy --os 5 --arch 2 --type 5 good
check "a failed write, with a file" sh -c '"$1" list good 2>&1 > /dev/full | grep -Fqx "bootimg: write failed"' sh "$root/bootimg"

# Two files.
check "a file and standard input" sh -c 'test -z "$("$1" compare good - < good)"' sh "$root/bootimg"
check "one file is missing" prints "<OTHER>" 2 compare good
check "standard input with itself" says "usage: bad value" compare - -
check "the first file is refused" says "cut: Truncated at 12" compare cut bad
check "the second file is refused" says "bad: BadMagic at 0" compare good bad
check "the first file cannot be opened" says "none: cannot be opened" compare none good
check "a second file that cannot be opened comes before a refusal" says "none: cannot be opened" compare bad none
check "a second file over the limit comes before a refusal" says "good: TooLarge at 64" compare --limit 64 bad good
check "standard input is refused" refuses "BadMagic at 0" bad compare - good
check "a failed write of differences" sh -c '"$1" compare good "$2" 2>&1 > /dev/full | grep -Fqx "bootimg: write failed"' \
    sh "$root/bootimg" "$root/examples/boot.scr"

# What is not protected.
examples=$root/examples
check "a weak hash" writes 'weak-hash ramdisk-1 crc32\n' 1 check "$examples/board.itb"
check "a weak hash that is allowed" writes '' 0 check --allow weak-hash "$examples/board.itb"
check "zeros after the last payload are nothing" writes 'weak-hash ramdisk-1 crc32\n' 1 check "$examples/board-external.itb"
check "its last payload" prints "image fdt-1 size 106 data-offset at 1716" 0 list "$examples/board-external.itb"
check "two zeros follow it" sh -c '[ "$(wc -c < "$1")" = 1824 ] && tail -c 2 "$1" | od -A n -t x1 | grep -qx " 00 00"' \
    sh "$examples/board-external.itb"
check "bytes after a legacy image" writes 'trailing 50\n' 1 check "$examples/kernel-padded.uimage"
check "bytes that are allowed" writes '' 0 check --allow trailing,trailing "$examples/kernel-padded.uimage"
check "a legacy image with nothing after it" writes '' 0 check "$kernel"
"$root/bootimg" convert "$examples/two-parts.uimage" > converted.itb
check "what is converted is protected" writes '' 0 check converted.itb
check "what is converted is not signed" writes 'unsigned conf-1\n' 1 check --signed converted.itb
check "a legacy image is not signed" writes 'unsigned -\n' 1 check --signed "$kernel"
check "no signature that is allowed" writes '' 0 check --signed --allow unsigned "$kernel"
check "a kind of concerns is explained" sh -c '"$1" explain uncovered | grep -q "^A signature of a configuration does not cover"' \
    sh "$root/bootimg"
check "an unknown kind" says "usage: bad value" check --allow weak-hash,good converted.itb
check "no kind" says "usage: bad value" check --allow= converted.itb

# Updates.
check "no change" says "usage: give --time or --hashes" update --limit 63 missing
check "a bad time" says "usage: bad value" update --time x good
"$root/bootimg" update --time 1 "$kernel" > timed
check "a time that is set again" sh -c '"$1" update --time 1700000000 timed | cmp - "$2"' sh "$root/bootimg" "$kernel"
"$root/bootimg" update --hashes "$examples/board.itb" > updated
check "digests that are good stay" sh -c '"$1" normalise "$2" | cmp - updated' sh "$root/bootimg" "$examples/board.itb"
check "a text over the limit" says "$examples/board.itb: TooLarge at 1000" update --time 1 --limit 1000 "$examples/board.itb"

# The default configuration.
same_payload() {
    "$root/bootimg" extract --default "$@" "$examples/board.itb" > got &&
        "$root/bootimg" extract --config conf-1 "$@" "$examples/board.itb" | cmp got -
}
check "the kernel of the default configuration" same_payload
check "and its length" sh -c '"$1" extract --default "$2" | wc -c | grep -qx 468' sh "$root/bootimg" "$examples/board.itb"
check "the devicetree of the default configuration" same_payload --key fdt
check "and its length" sh -c '"$1" extract --default --key fdt "$2" | wc -c | grep -qx 106' sh "$root/bootimg" "$examples/board.itb"
check "an entry that the default configuration does not have" says "$examples/board.itb: no such entry" \
    extract --default --key ramdisk --index 1 "$examples/board.itb"
check "a default configuration of a legacy image" says "good: the selection does not fit this kind of image" extract --default good
check "the default and another configuration" says "usage: give one of --part, --image, --config" \
    extract --default --config conf-2 "$examples/board.itb"

# The stack: that of the deepest tree, with 61 nodes in one another below an image, and of the examples.
python_with_blobs - > deep.itb << 'END'
import sys

from blobs import blob_of, node

inside = []
for _ in range(61):
    inside = [node(b"n", (), inside)]
image = node(b"a", [(b"data", b"abc")], inside)
sys.stdout.buffer.write(blob_of(node(b"", (), [node(b"images", (), [image])])))
END
# has_stack ARGUMENT..: with 128 KiB of stack the program with these arguments writes the same and ends with the same status as with more.
has_stack() {
    "$root/bootimg" "$@" > wanted 2>&1
    status=$?
    (ulimit -s 128 && "$root/bootimg" "$@" > output 2>&1)
    [ $? = "$status" ] && cmp wanted output
}
# The commands that read an image or parts of one.
commands=$("$root/bootimg" --help | sed -n '/^Commands:/,/^$/s/^  \([a-z-]*\).*/\1/p' | grep -vx -e explain -e help)
for image in deep.itb "$examples/board.itb" "$kernel"; do
    for command in $commands "normalise --external" "update --hashes --time 1" "extract --image a" "compare $examples/two-parts.uimage"; do
        check "128 KiB of stack for $command of $(basename "$image")" has_stack $command "$image"
    done
done
check "128 KiB of stack for build-legacy" has_stack build-legacy --os 5 --arch 2 --type 5 @"$kernel"
check "128 KiB of stack for build-fit" has_stack build-fit a:2:2:5:0:-:-:@"$kernel"
check "128 KiB of stack for help" has_stack build-legacy --help

# The functions of C on whose contracts the proof rests: PROMISES.md names as many as the prover counted at the last build here.
counts() {
    sed -n "s/^axioms $1: .*(\([0-9]*\) of the .*/\1/p" "$root/crates/bootimg/out/build.log" | tail -n 1
}
named() {
    awk -v name="- \`$1\` (" 'index($0, name) == 1 { on = 1; print; next } !/^  / { on = 0 } on' "$root/docs/PROMISES.md" | tr '\n' ' ' |
        sed 's/^- `[^`]*` (\([0-9]*\) of [^:]*: /\1 /' | awk '{ print $1, gsub("`", "") / 2 }'
}
for library in libc os; do
    name=$library
    [ "$library" != os ] || name=os::c
    if [ -n "$(counts "$library" 2> /dev/null)" ]; then
        count=$(counts "$library")
        check "the axioms of $library" test "$(named "$name")" = "$count $count"
    fi
done

# Help.
for command in $commands; do
    check "help of $command names the default" prints "[default: 2147483647]" 0 "$command" --help
    check "help of $command names the number format" prints "in hexadecimal with 0x" 0 "$command" --help
    check "help of $command has an example" prints "Example: bootimg $command" 0 "$command" --help
    case $command in
    build-*) input="from standard input, one after another" ;;
    compare | get) input="standard input if it is -" ;;
    list | verify | check | scan) input="Without IMAGE, standard input is read" ;;
    *) input="Without IMAGE, or if it is -, standard input is read" ;;
    esac
    check "help of $command says what it reads" prints "$input" 0 "$command" --help
done

check "help of explain has an example" prints "Example: bootimg explain" 0 explain --help
check "a cause" writes 'A node has two properties of the same name: remove one from the source.\n' 0 explain DuplicateProperty
check "a cause in small letters" writes 'A node has two properties of the same name: remove one from the source.\n' 0 explain duplicateproperty
check "an unknown cause" says "usage: bad value" explain DuplicateProperties

# Any file.
printf '\047\005\031' > short
check "a file of three bytes" refuses "Truncated at 0" short list
printf 'ELF, or so' > other
check "a file of no kind" refuses "BadMagic at 0" other list
printf '\320\015\376\355' > tree
check "the magic number of a tree alone" refuses "Truncated at 0" tree list

# Images of mkimage that are refused.
make() {
    mkimage -A arm -O linux -C none -a 0x8000 -e 0x8040 "$@" > /dev/null
}
head -c 500 /dev/zero | tr '\0' '\377' > data
make -T multi -s -n none multi.image
make -T script -s -n none -d data script.image
make -T multi -x -n moved -d data:data moved.image
mkimage -A arm -O u-boot -T firmware_ivt -C none -a 0x8000 -e 0x8000 -n ivt -d data ivt.image > /dev/null
check "a multi-file image without data" refuses "BadPartTable at 64" multi.image list
check "a script without data" refuses "BadPartTable at 64" script.image list
check "a multi-file image made with -x" refuses "BadPart at 68" moved.image list
check "a firmware_ivt image" refuses "Truncated at 12" ivt.image list

# A name that is not UTF-8.
make -T kernel -n "$(printf 'a\377b')" -d data name.image
check "a name that is not UTF-8 is listed" sh -c '"$1" list < name.image | grep -Fqx "name a%FFb"' sh "$root/bootimg"
check "and normalised" sh -c '"$1" normalise < name.image | cmp - name.image' sh "$root/bootimg"

finish
