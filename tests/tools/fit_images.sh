#!/bin/sh
# Tries the program on flattened image trees that U-Boot's mkimage makes, with payloads inside and after the blob, signed ones,
# and ones that dtc writes again: normal forms in both forms hold the same nodes, properties and payloads as fdtget, dumpimage
# and mkimage -l print them, and are equal where the images mean the same; listings, verdicts and extracted payloads are those
# of the tools. The script needs Debian's u-boot-tools, device-tree-compiler, openssl and python3, and installs them if one is
# missing and it runs as root.
set -u

root=$(cd "$(dirname "$0")/../.." && pwd)
. "$root/tests/setup"
export SOURCE_DATE_EPOCH=1000000000

need u-boot-tools mkimage dumpimage
need device-tree-compiler dtc fdtget
need openssl openssl
need python3 python3
need_program
work_in_new_directory

# normalise FORM IMAGE NORMAL: writes the normal form. Writes nothing to standard error, or in the external form only the notes on the
# alignment and on the fixed positions of payloads.
normalise() {
    case $1 in
    external)
        "$root/bootimg" normalise --external < "$2" > "$3" 2> errors &&
            ! grep -Evx -e 'bootimg: note: payloads are no longer aligned to [1-9][0-9]* bytes, see --align' \
                -e 'bootimg: note: [1-9][0-9]* fixed positions of payloads were not kept' errors
        ;;
    embedded) "$root/bootimg" normalise < "$2" > "$3" 2> errors && [ ! -s errors ] ;;
    esac || { cat errors; false; }
}

# nodes IMAGE PATH: the nodes and properties from this path on, as fdtget prints them, by name in each node. The properties that
# hold a payload or name its region are left out in image nodes.
nodes() {
    echo "node $2"
    for property in $(fdtget -p "$1" "$2" | sort); do
        case $2:$property in
        /images/*/*:*) ;;
        /images/*:data | /images/*:data-offset | /images/*:data-position | /images/*:data-size) continue ;;
        esac
        echo "property $property $(fdtget -t bx "$1" "$2" "$property")"
    done
    for child in $(fdtget -l "$1" "$2"); do
        nodes "$1" "${2%/}/$child"
    done
    echo end
}

# is_in_order IMAGE: the properties of the root and of the image nodes are in byte order.
is_in_order() {
    for path in / $(fdtget -l "$1" /images | sed 's|^|/images/|'); do
        fdtget -p "$1" "$path" | sort -c || return 1
    done
}

# same_nodes IMAGE OTHER
same_nodes() {
    nodes "$1" / > nodes.one && nodes "$2" / > nodes.other && cmp nodes.one nodes.other
}

# has_payloads IMAGE FILE..: dumpimage extracts these files, in their order.
has_payloads() {
    image=$1
    shift
    number=0
    for file in "$@"; do
        dumpimage -T flat_dt -p "$number" -o dumped "$image" > /dev/null && cmp "$file" dumped || return 1
        number=$((number + 1))
    done
}

# extracts IMAGE NAME FILE: extract writes the file.
extracts() {
    "$root/bootimg" extract --image "$2" < "$1" > output && cmp "$3" output
}

# configured IMAGE CONFIG KEY INDEX FILE: extract writes the file.
configured() {
    "$root/bootimg" extract --config "$2" --key "$3" --index "$4" < "$1" > output && cmp "$5" output
}

# at_place IMAGE: each image line of the listing has the size and the offset of the bytes that extract writes.
at_place() {
    "$root/bootimg" list < "$1" > listing || return 1
    grep -c '^image ' listing > /dev/null || return 1
    grep '^image ' listing | while read -r _ name _ size _ _ place; do
        "$root/bootimg" extract --image "$name" < "$1" > output || exit 1
        tail -c +$((place + 1)) "$1" | head -c "$size" | cmp - output || exit 1
    done
}

# reads IMAGE: mkimage -l lists the image as it lists the one that mkimage made.
reads() {
    mkimage -l "$1" > listed 2> /dev/null && mkimage -l made.itb 2> /dev/null | cmp - listed
}

# verdicts IMAGE: verify prints for each hash node what the tools print of the payload, and ends with status 0.
verdicts() {
    for name in $(fdtget -l "$1" /images); do
        "$root/bootimg" extract --image "$name" < "$1" > output || return 1
        for hash in $(fdtget -l "$1" "/images/$name" | grep '^hash'); do
            algo=$(fdtget "$1" "/images/$name/$hash" algo)
            case $algo in
            crc32) value=$(python3 -c 'import sys, zlib
print("%08x" % zlib.crc32(open("output", "rb").read()))') ;;
            *) value=$("${algo}sum" < output | cut -d ' ' -f 1) ;;
            esac
            echo "$name $hash $algo good $value"
        done
    done > wanted
    echo "summary good $(wc -l < wanted) bad 0 unknown-algorithm 0 no-payload 0 malformed 0" >> wanted
    "$root/bootimg" verify < "$1" > output && cmp wanted output
}

# flip IMAGE OFFSET: writes the image with one bit of the byte at this offset flipped.
flip() {
    python3 -c 'import sys
image = bytearray(open(sys.argv[1], "rb").read())
image[int(sys.argv[2])] ^= 1
sys.stdout.buffer.write(image)' "$@"
}

# flipped IMAGE NAME: with a bit of this payload flipped, verify prints bad for its hash nodes and good for the others, and ends
# with status 1.
flipped() {
    place=$("$root/bootimg" list < "$1" | sed -n "s/^image $2 .* at //p")
    flip "$1" "$((place + 1))" > flipped.itb
    "$root/bootimg" verify < "$1" | grep -v '^summary' | sed "/^$2 /s/ good / bad /" > wanted
    "$root/bootimg" verify < flipped.itb > output
    [ $? = 1 ] && grep -v '^summary' output | cmp wanted -
}

noise 1 300001 > kernel
noise 2 200003 > ramdisk
: > empty
echo '/dts-v1/; / { model = "board"; };' | dtc -O dtb -o board.dtb 2> /dev/null

cat > made.its << 'END'
/dts-v1/;
/ {
    description = "two configurations";
    #address-cells = <1>;
    images {
        kernel-1 {
            description = "kernel";
            data = /incbin/("kernel");
            type = "kernel"; arch = "arm64"; os = "linux"; compression = "none";
            load = <0x80080000>; entry = <0x80080000>;
            hash-1 { algo = "crc32"; };
            hash-2 { algo = "sha256"; };
        };
        ramdisk-1 {
            description = "ramdisk";
            data = /incbin/("ramdisk");
            type = "ramdisk"; arch = "arm64"; os = "linux"; compression = "none";
            hash-1 { algo = "md5"; };
            hash-2 { algo = "sha1"; };
            hash-3 { algo = "sha384"; };
            hash-4 { algo = "sha512"; };
        };
        fdt-1 {
            description = "board";
            data = /incbin/("board.dtb");
            type = "flat_dt"; arch = "arm64"; compression = "none";
            hash-1 { algo = "sha256"; };
        };
    };
    configurations {
        default = "with";
        with { description = "with a ramdisk"; kernel = "kernel-1"; ramdisk = "ramdisk-1"; fdt = "fdt-1"; };
        without { description = "without one"; kernel = "kernel-1"; fdt = "fdt-1"; };
    };
};
END
check "mkimage makes an image" mkimage -f made.its made.itb
mkimage -E -f made.its external.itb > /dev/null
mkimage -E -p 0x1000 -f made.its position.itb > /dev/null
mkimage -E -B 0x200 -f made.its aligned.itb > /dev/null
dtc -q -I dtb -O dtb -p 1000 -o padded.itb made.itb
dtc -q -I dtb -O dtb -V 16 -o version16.itb made.itb
dtc -q -I dtb -O dts made.itb | dtc -q -I dts -O dtb -o again.itb

check "the normal form" normalise embedded made.itb normal.itb
check "the external normal form" normalise external made.itb normal-external.itb
for image in normal.itb normal-external.itb; do
    check "mkimage -l reads $image" reads "$image"
    check "fdtget prints the same nodes of $image" same_nodes made.itb "$image"
    check "the properties of $image are in byte order" is_in_order "$image"
    check "dumpimage extracts the payloads of $image" has_payloads "$image" kernel ramdisk board.dtb
done
for image in made external position aligned padded version16 again normal normal-external; do
    check "$image.itb has the same normal form" normalise embedded "$image.itb" output.itb
    check "$image.itb has the same normal form, compared" cmp normal.itb output.itb
    check "$image.itb has the same external normal form" normalise external "$image.itb" output.itb
    check "$image.itb has the same external normal form, compared" cmp normal-external.itb output.itb
    check "each payload of $image.itb is where list prints" at_place "$image.itb"
    check "verify of $image.itb prints what the tools do" verdicts "$image.itb"
    for part in kernel-1:kernel ramdisk-1:ramdisk fdt-1:board.dtb; do
        check "$image.itb: extract --image ${part%:*}" extracts "$image.itb" "${part%:*}" "${part#*:}"
    done
done
for image in made external position; do
    for name in kernel-1 ramdisk-1 fdt-1; do
        check "$image.itb: a flipped bit in $name is found" flipped "$image.itb" "$name"
    done
    check "$image.itb: the kernel of a configuration" configured "$image.itb" with kernel 0 kernel
    check "$image.itb: the ramdisk of a configuration" configured "$image.itb" with ramdisk 0 ramdisk
    check "$image.itb: the devicetree of a configuration" configured "$image.itb" without fdt 0 board.dtb
done

# prints INPUT STATUS LINE ARGUMENT..: the program ends with this status, and writes this line alone to standard error.
prints() {
    input=$1
    status=$2
    line=$3
    shift 3
    "$root/bootimg" "$@" < "$input" > output 2> errors
    [ $? = "$status" ] && echo "$line" | cmp - errors
}

check "no such image" prints made.itb 2 "bootimg: no such image" extract --image kernel-2
check "no such configuration" prints made.itb 2 "bootimg: no such configuration" extract --config conf-1
check "no such key" prints made.itb 2 "bootimg: no such key" extract --config without --key ramdisk
check "no such entry" prints made.itb 2 "bootimg: no such entry" extract --config with --index 1
check "a part of a tree" prints made.itb 2 "bootimg: the selection does not fit this kind of image" extract --part 0
check "an unknown key" prints made.itb 2 "bootimg: usage: bad value" extract --config with --key dtb
check "no selection" prints made.itb 2 "bootimg: usage: give one of --part, --image, --config" extract
size=$(wc -c < normal.itb)
check "a limit that holds the normal form alone" prints normal.itb 2 "bootimg: TooLarge at $size" \
    normalise --external --limit "$size"
check "a limit that does not hold the image" prints external.itb 2 "bootimg: TooLarge at $((size - 1))" \
    normalise --limit "$((size - 1))"

# The lines of the listing that follow those of the images.
cat > wanted << 'END'
config with
key with kernel ok kernel-1
key with fdt ok fdt-1
key with ramdisk ok ramdisk-1
config without
key without kernel ok kernel-1
key without fdt ok fdt-1
default with
END
"$root/bootimg" list < made.itb > listing
check "the configurations in the listing" sh -c "grep -v '^image ' listing | tail -n +4 | cmp wanted -"
check "the first lines of the listing" sh -c \
    "head -n 3 listing | cmp - << END
kind fit
boot-cpu 0
total-size $(wc -c < made.itb)
END"

# Signed images.
mkdir keys
openssl genpkey -quiet -algorithm RSA -pkeyopt rsa_keygen_bits:2048 -out keys/dev.key 2> /dev/null
openssl req -batch -new -x509 -key keys/dev.key -out keys/dev.crt -subj /CN=dev 2> /dev/null
signature='signature-1 { algo = "sha256,rsa2048"; key-name-hint = "dev";'
sed -e "s|hash-2 { algo = \"sha256\"; };|&\n            $signature };|" \
    -e "s|kernel = \"kernel-1\"; ramdisk = \"ramdisk-1\"; fdt = \"fdt-1\";|& $signature sign-images = \"kernel\", \"fdt\"; };|" \
    made.its > signed.its
check "mkimage signs an image" mkimage -f signed.its -k keys signed.itb
check "the image is signed" fdtget signed.itb /configurations/with/signature-1 value
check "the note on signatures" prints signed.itb 0 "bootimg: note: 2 signature nodes carried, not checked" normalise
cp output signed-normal.itb
check "fdtget prints the same nodes of the signed image" same_nodes signed.itb signed-normal.itb
check "verify of the signed image prints what the tools do" verdicts signed.itb
check "verify of its normal form prints the same" verdicts signed-normal.itb
check "no note after list" sh -c "'$root/bootimg' list < signed.itb 2>&1 > listing | cmp - empty"

# Payloads that mkimage aligned or placed, and that the external normal form places again. There the first payload begins at an odd multiple
# of 4 bytes, so that each alignment of 8 bytes and more is noted.

# notes_nothing INPUT ARGUMENT..: the program succeeds, and writes nothing to standard error.
notes_nothing() {
    input=$1
    shift
    "$root/bootimg" "$@" < "$input" > output 2> errors && cmp errors empty
}

# places IMAGE: the length of the blob, and the offset of each payload from there on, as od and fdtget print them.
places() {
    od -An -j 4 -N 4 -t u4 --endian=big "$1" && names=$(fdtget -l "$1" /images) && [ -n "$names" ] || return 1
    for name in $names; do
        fdtget "$1" "/images/$name" data-offset || return 1
    done
}

# same_places IMAGE OTHER: the same places in both, which mean the same.
same_places() {
    places "$1" > places.one && places "$2" > places.other && diff places.one places.other &&
        "$root/bootimg" compare "$1" "$2" > differences && [ ! -s differences ]
}

# is_odd_multiple IMAGE: the length of the blob is an odd multiple of four.
is_odd_multiple() {
    places "$1" > places.one && read -r length < places.one && [ "$((length % 8))" = 4 ]
}

check "the blob of the external normal form" is_odd_multiple normal-external.itb
kept="payloads are no longer aligned to"
for pair in 0x8:8 0x200:512 0x1000:4096 0x100000:1048576 0x200000:1048576; do
    bytes=${pair%:*}
    mkimage -E -B "$bytes" -f made.its aligned.itb > /dev/null
    for command in normalise "update --hashes"; do
        check "the note after $command with payloads at multiples of $bytes" \
            prints aligned.itb 0 "bootimg: note: $kept ${pair#*:} bytes, see --align" $command --external
        check "no note after $command --align 4" notes_nothing aligned.itb $command --external --align 4
        check "$command --align 4 writes the same payloads" cmp normal-external.itb output
        # The greatest alignment is 0x100000.
        [ "$bytes" != 0x200000 ] || continue
        check "no note after $command --align $bytes" notes_nothing aligned.itb $command --external --align "$bytes"
        check "payloads are where mkimage -B $bytes places them" same_places aligned.itb output
    done
done
mkimage -E -B 0x4 -f made.its aligned.itb > /dev/null
check "no note on multiples of 4" notes_nothing aligned.itb normalise --external
check "the note on fixed positions" prints position.itb 0 "bootimg: note: 3 fixed positions of payloads were not kept" normalise --external
check "no note with --align 4" notes_nothing position.itb normalise --external --align 4
check "no note on them in the embedded form" notes_nothing position.itb normalise
mkimage -E -p 0x1000 -B 0x1000 -f signed.its -k keys signed-position.itb > log 2>&1 || cat log
for command in normalise "update --hashes"; do
    check "three notes after $command" prints signed-position.itb 0 "bootimg: note: 2 signature nodes carried, not checked
bootimg: note: $kept 4096 bytes, see --align
bootimg: note: 3 fixed positions of payloads were not kept" $command --external
done
for align in 0 1 2 3 5 6 4095 2097152 4k ""; do
    check "no alignment: '$align'" prints made.itb 2 "bootimg: usage: bad value" normalise --external --align "$align"
done
check "an alignment of embedded payloads" prints made.itb 2 "bootimg: usage: bad value" normalise --align 4096
check "an alignment of an update that is embedded" prints made.itb 2 "bootimg: usage: bad value" update --hashes --align 8

# An image with external payloads that mkimage -F writes again: with -E they stay after the tree, and without it they are values of
# data, and data-offset is left.
cp external.itb rewritten.itb
check "mkimage -F writes the external image again" mkimage -F rewritten.itb
check "it has data" fdtget rewritten.itb /images/kernel-1 data
check "and data-offset" fdtget rewritten.itb /images/kernel-1 data-offset
for command in list verify normalise; do
    check "$command refuses it" sh -c "'$root/bootimg' $command < rewritten.itb 2>&1 | grep -qx 'bootimg: OutsideFile at [0-9]*'"
done
cp external.itb rewritten-external.itb
check "mkimage -E -F writes the external image again" mkimage -E -F rewritten-external.itb
check "its normal form is the same" normalise embedded rewritten-external.itb output.itb
check "its normal form is the same, compared" cmp normal.itb output.itb

# An image whose name is not UTF-8, as many bytes as before.
LC_ALL=C sed 's/ramdisk-1/ram\xffisk-1/g' normal.itb > name.itb
check "an image whose name is not UTF-8 is listed" \
    sh -c "'$root/bootimg' list < name.itb | grep -q '^image ram%FFisk-1 size 200003 data at '"
check "its name is no argument" prints name.itb 2 "bootimg: out of memory" extract --image "$(printf 'ram\377isk-1')"

finish
