#!/bin/sh
# Tries build-legacy, convert and build-fit. A legacy image that is built is byte for byte the one that U-Boot's mkimage makes of
# the same fields and files. A FIT that is converted or built holds what fdtget, dumpimage, mkimage -l and sha256sum print of it,
# and is the normal form of the one that mkimage makes of a source with the same nodes. Two small images have the bytes that
# python3 lays out, and what cannot be built is refused with a known line. The script needs Debian's u-boot-tools,
# device-tree-compiler and python3, and installs them if one is missing and it runs as root.
set -u

root=$(cd "$(dirname "$0")/../.." && pwd)
. "$root/tests/setup"
export TZ=UTC

need u-boot-tools mkimage dumpimage
need device-tree-compiler dtc fdtget
need python3 python3
need_program
work_in_new_directory

# sizes FILE..: the length of each file.
sizes() {
    for file in "$@"; do
        wc -c < "$file"
    done
}

noise 1 70001 > kernel
noise 2 5003 > ramdisk
noise 3 1002 > firmware
noise 4 333 > program
echo "echo hello, world" > script
echo '/dts-v1/; / { model = "board"; };' | dtc -O dtb -o board.dtb 2> /dev/null
: > empty
long=12345678901234567890123456789012

# Legacy images, beside those of mkimage.

# named FILE..: each file as a part of build-legacy.
named() {
    for file in "$@"; do
        echo "@$file"
    done
}

# legacy IMAGE TYPE ARCH OS COMPRESSION LOAD ENTRY TIME NAME FILE..: mkimage makes the image of these files. The program builds the
# same bytes from the files together, from each file by its name, and from the first file and the names of the others. The image is
# its own normal form.
legacy() {
    image=$1 type=$2 arch=$3 os=$4 compression=$5 load=$6 entry=$7 time=$8 title=$9
    shift 9
    SOURCE_DATE_EPOCH=$time mkimage -T "$type" -A "$arch" -O "$os" -C "$compression" -a "$load" -e "$entry" -n "$title" \
        -d "$(echo "$*" | tr ' ' ':')" "$image" > /dev/null || return 1
    cat "$@" > parts
    first=$1 all=$(sizes "$@") names=$(named "$@")
    shift
    mixed="$(sizes "$first") $(named "$@")"
    set -- build-legacy --type "$type" --arch "$arch" --os "$os" --compression "$compression" \
        --load "$load" --entry "$entry" --time "$time" --name "$title"
    # shellcheck disable=SC2086
    gives "$image" parts "$@" $all && gives "$image" script "$@" $names && gives "$image" "$first" "$@" $mixed &&
        gives "$image" "$image" normalise
}

check "a kernel image" legacy kernel.image kernel arm linux none 0x8000 0x8040 1000000000 "Linux 6.1" kernel
check "a ramdisk image" legacy ramdisk.image ramdisk arm64 linux gzip 0x82000000 1 0 "a ramdisk" ramdisk
check "a firmware image" legacy firmware.image firmware ppc u-boot lzma 0xfff80000 0xfffffffc 4294967295 u-boot firmware
check "a standalone image" legacy standalone.image standalone mips u-boot lzo 0x80200000 0x80200004 1 "" program
check "a script image" legacy script.image script riscv linux none 0 0 1000000000 boot.scr script
check "a script image of two parts" legacy script2.image script arm linux none 0 0 1000000000 "two scripts" script program
check "a multi image of one part" legacy multi1.image multi x86 netbsd bzip2 0x100000 0x100020 1000000000 "of one" kernel
check "a multi image of two parts" legacy multi2.image multi x86_64 vxworks lz4 0x8000 0x8000 1700000000 "of two" kernel ramdisk
check "a multi image of three parts" legacy multi3.image multi arm64 linux zstd 0x80080000 0x80080000 1000000000 "$long" \
    kernel ramdisk board.dtb
check "a multi image of four parts" legacy multi4.image multi arm linux none 0 0 1000000000 "of four" script program script program

# Each name of a code, except flat_dt: mkimage makes no legacy image of this type.
for word in netbsd linux vxworks u-boot; do
    check "the system $word" legacy names.image kernel arm "$word" none 0x8000 0x8000 1000000000 "" program
done
for word in arm x86 mips ppc arm64 x86_64 riscv; do
    check "the architecture $word" legacy names.image kernel "$word" linux none 0x8000 0x8000 1000000000 "" program
done
for word in standalone kernel ramdisk multi firmware script; do
    check "the type $word" legacy names.image "$word" arm linux none 0x8000 0x8000 1000000000 "" program
done
for word in none gzip bzip2 lzma lzo lz4 zstd; do
    check "the compression $word" legacy names.image kernel arm linux "$word" 0x8000 0x8000 1000000000 "" program
done

# builds_kernel ARGUMENT..: the program builds the kernel image.
builds_kernel() {
    gives kernel.image kernel build-legacy --name "Linux 6.1" "$@"
}

check "names, and the whole input as the one part" builds_kernel \
    --os linux --arch arm --type kernel --load 0x8000 --entry 0x8040 --time 1000000000
check "decimal numbers instead of names" builds_kernel \
    --os 5 --arch 2 --type 2 --compression 0 --load 32768 --entry 32832 --time 1000000000 70001
check "hexadecimal numbers instead of names" builds_kernel \
    --os 0x05 --arch 0x2 --type 0x2 --compression 0x0 --load 0x8000 --entry 0x8040 --time 0x3B9aca00 0x11171

# Flattened image trees.
#
# An image of a tree is a word NAME:TYPE:ARCH:OS:COMPRESSION:LOAD:ENTRY:FILE. It is an argument of build-fit, but for the file in
# place of its length.

# fields WORD: sets a variable for each field of the word.
fields() {
    IFS=: read -r image type arch os compression load entry file << END
$1
END
}

# arguments WORD..: the images as arguments of build-fit.
arguments() {
    for word in "$@"; do
        echo "${word%:*}:$(sizes "${word##*:}")"
    done
}

# files WORD..: the file of each image.
files() {
    for word in "$@"; do
        echo "${word##*:}"
    done
}

# listed KEY WORD..: the names of the images that a configuration lists under this key.
listed() {
    key=$1
    shift
    for word in "$@"; do
        case $key:$word in
        fdt:*:flat_dt:* | loadables:*:standalone:* | "$key:"*":$key:"*) echo "${word%%:*}" ;;
        esac
    done
}

keys="fdt firmware kernel loadables ramdisk script"

# wanted_nodes FORM DESCRIPTION TIME WORD..: the nodes of a tree of these images, as `nodes` prints them.
wanted_nodes() {
    form=$1 description=$2 time=$3
    shift 3
    printf '%s\n' "node /" "#address-cells 1" "description $description" "timestamp $time" "node /images"
    offset=0
    for word in "$@"; do
        fields "$word"
        size=$(sizes "$file")
        printf '%s\n' "node /images/$image" "arch $arch" "compression $compression"
        case $form in
        embedded) echo "data" ;;
        external) printf '%s\n' "data-offset $offset" "data-size $size" ;;
        esac
        echo "description $description"
        [ "$entry" = - ] || echo "entry $((entry))"
        [ "$load" = - ] || echo "load $((load))"
        printf '%s\n' "os $os" "type $type" "node /images/$image/hash-1" "algo sha256"
        echo "value $(sha256sum < "$file" | cut -d ' ' -f 1)"
        offset=$(((offset + size + 3) / 4 * 4))
    done
    printf '%s\n' "node /configurations" "default conf-1" "node /configurations/conf-1" "description $description"
    for key in $keys; do
        names=$(listed "$key" "$@")
        # shellcheck disable=SC2086
        [ -z "$names" ] || echo "$key" $names
    done
}

# nodes FIT PATH: the nodes and properties from this path on, in their order, as fdtget prints them. The bytes of a payload are left
# out.
nodes() {
    echo "node $2"
    for property in $(fdtget -p "$1" "$2"); do
        case $property in
        data) echo data ;;
        value) echo "value $(fdtget -t bx "$1" "$2" value | xargs printf '0x%s ' | xargs printf %02x)" ;;
        load | entry | timestamp | \#* | data-*) echo "$property $(fdtget -t u "$1" "$2" "$property")" ;;
        *) echo "$property $(fdtget -t s "$1" "$2" "$property")" ;;
        esac
    done
    for child in $(fdtget -l "$1" "$2"); do
        nodes "$1" "${2%/}/$child"
    done
}

# source_of DESCRIPTION WORD..: a source of mkimage with these images.
source_of() {
    description=$1
    shift
    echo "/dts-v1/; / { description = \"$description\"; #address-cells = <1>; images {"
    for word in "$@"; do
        fields "$word"
        echo "$image { description = \"$description\"; data = /incbin/(\"$file\");"
        echo "type = \"$type\"; arch = \"$arch\"; os = \"$os\"; compression = \"$compression\";"
        [ "$load" = - ] || echo "load = <$load>;"
        [ "$entry" = - ] || echo "entry = <$entry>;"
        echo "hash-1 { algo = \"sha256\"; }; };"
    done
    echo "}; configurations { default = \"conf-1\"; conf-1 { description = \"$description\";"
    for key in $keys; do
        names=$(listed "$key" "$@" | sed 's/.*/"&"/' | paste -s -d ,)
        [ -z "$names" ] || echo "$key = $names;"
    done
    echo "}; }; };"
}

# has_nodes FORM FIT DESCRIPTION TIME WORD..: fdtget prints the nodes of a tree of these images.
has_nodes() {
    form=$1 fit=$2
    shift 2
    wanted_nodes "$form" "$@" > wanted && nodes "$fit" / > printed && cmp wanted printed
}

# has_payloads FIT WORD..: dumpimage extracts the file of each image.
has_payloads() {
    fit=$1
    shift
    number=0
    for file in $(files "$@"); do
        rm -f dumped
        dumpimage -T flat_dt -p "$number" -o dumped "$fit" > /dev/null && cmp "$file" dumped || return 1
        number=$((number + 1))
    done
}

# has_verdicts FIT WORD..: verify ends with status 0, and its verdict on each image is good.
has_verdicts() {
    fit=$1
    shift
    for word in "$@"; do
        echo "${word%%:*} hash-1 sha256 good $(sha256sum < "${word##*:}" | cut -d ' ' -f 1)"
    done > wanted
    echo "summary good $# bad 0 unknown-algorithm 0 no-payload 0 malformed 0" >> wanted
    gives wanted "$fit" verify
}

# makes DESCRIPTION TIME WORD..: mkimage makes made.itb, a FIT of these images.
makes() {
    description=$1 time=$2
    shift 2
    source_of "$description" "$@" > made.its && SOURCE_DATE_EPOCH=$time mkimage -f made.its made.itb
}

# normalises FORM INPUT FIT: the FIT is the normal form of the input.
normalises() {
    case $1 in
    embedded) gives "$3" "$2" normalise ;;
    external) gives "$3" "$2" normalise --external ;;
    esac
}

# prints_same FIT WORD..: mkimage -l prints of this FIT what it prints of made.itb, with these images in their order.
prints_same() {
    mkimage -l "$1" > printed && mkimage -l made.itb | cmp - printed || return 1
    shift
    number=0
    for word in "$@"; do
        grep -Fqx " Image $number (${word%%:*})" printed || return 1
        number=$((number + 1))
    done
}

# reads_source FIT: dtc writes a source of the tree, without a warning, and from it a tree with the same nodes.
reads_source() {
    dtc -I dtb -O dts -o written.dts "$1" 2> errors && [ ! -s errors ] && dtc -q -I dts -O dtb -o again.itb written.dts &&
        nodes "$1" / > wanted && nodes again.itb / | cmp wanted -
}

# tree LABEL FORM FIT DESCRIPTION TIME WORD..: tries a FIT of these images.
tree() {
    label=$1 form=$2 fit=$3 description=$4 time=$5
    shift 5
    check "$label, $form: fdtget prints its nodes" has_nodes "$form" "$fit" "$description" "$time" "$@"
    check "$label, $form: dumpimage extracts its payloads" has_payloads "$fit" "$@"
    check "$label, $form: its verdicts are good" has_verdicts "$fit" "$@"
    check "$label, $form: dtc reads it" reads_source "$fit"
    check "$label, $form: it is its own normal form" normalises "$form" "$fit" "$fit"
    check "$label, $form: mkimage makes such a tree" makes "$description" "$time" "$@"
    check "$label, $form: it is the normal form of that tree" normalises "$form" made.itb "$fit"
    check "$label, $form: mkimage -l prints the same of both" prints_same "$fit" "$@"
}

# converts IMAGE FIT: convert writes the FIT, and nothing to standard error.
converts() {
    "$root/bootimg" convert < "$1" > "$2" 2> errors && [ ! -s errors ]
}

# conversion IMAGE DESCRIPTION TIME WORD..: tries the FIT of a legacy image, which has these images.
conversion() {
    image=$1 description=$2 time=$3
    shift 3
    fit=${image%.image}.itb
    check "convert $image" converts "$image" "$fit"
    tree "convert $image" embedded "$fit" "$description" "$time" "$@"
    # shellcheck disable=SC2046
    cat $(files "$@") > parts
    # shellcheck disable=SC2046
    check "convert $image: build-fit gives the same" gives "$fit" parts \
        build-fit --description "$description" --time "$time" $(arguments "$@")
    size=$(sizes "$fit")
    check "convert $image: a limit that holds the tree" gives "$fit" "$image" convert --limit "$size"
    check "convert $image: a limit that does not" refuses "TooLarge at $((size - 1))" "$image" convert --limit "$((size - 1))"
}

"$root/bootimg" build-legacy --type flat_dt --arch arm --os linux --name board --load 1 < board.dtb > flat_dt.image
"$root/bootimg" build-legacy --type kernel --arch arm --os linux < empty > empty.image

conversion kernel.image "Linux 6.1" 1000000000 kernel-1:kernel:arm:linux:none:0x8000:0x8040:kernel
conversion ramdisk.image "a ramdisk" 0 ramdisk-1:ramdisk:arm64:linux:gzip:-:-:ramdisk
conversion firmware.image u-boot 4294967295 firmware-1:firmware:ppc:u-boot:lzma:0xfff80000:0xfffffffc:firmware
conversion standalone.image "" 1 standalone-1:standalone:mips:u-boot:lzo:0x80200000:0x80200004:program
conversion script.image boot.scr 1000000000 script-1:script:riscv:linux:none:-:-:script
conversion flat_dt.image board 0 fdt-1:flat_dt:arm:linux:none:-:-:board.dtb
conversion empty.image "" 0 kernel-1:kernel:arm:linux:none:0:0:empty
conversion multi1.image "of one" 1000000000 kernel-1:kernel:x86:netbsd:bzip2:0x100000:0x100020:kernel
conversion multi2.image "of two" 1700000000 kernel-1:kernel:x86_64:vxworks:lz4:0x8000:0x8000:kernel \
    ramdisk-1:ramdisk:x86_64:vxworks:none:-:-:ramdisk
conversion multi3.image "$long" 1000000000 kernel-1:kernel:arm64:linux:zstd:0x80080000:0x80080000:kernel \
    ramdisk-1:ramdisk:arm64:linux:none:-:-:ramdisk fdt-1:flat_dt:arm64:linux:none:-:-:board.dtb

# What mkimage -l prints of the FIT of a multi image.
sum() {
    sha256sum < "$1" | cut -d ' ' -f 1
}
cat > wanted.list << END
FIT description: $long
Created:         Sun Sep  9 01:46:40 2001
 Image 0 (kernel-1)
  Description:  $long
  Created:      Sun Sep  9 01:46:40 2001
  Type:         Kernel Image
  Compression:  zstd compressed
  Data Size:    70001 Bytes = 68.36 KiB = 0.07 MiB
  Architecture: AArch64
  OS:           Linux
  Load Address: 0x80080000
  Entry Point:  0x80080000
  Hash algo:    sha256
  Hash value:   $(sum kernel)
 Image 1 (ramdisk-1)
  Description:  $long
  Created:      Sun Sep  9 01:46:40 2001
  Type:         RAMDisk Image
  Compression:  uncompressed
  Data Size:    5003 Bytes = 4.89 KiB = 0.00 MiB
  Architecture: AArch64
  OS:           Linux
  Load Address: unavailable
  Entry Point:  unavailable
  Hash algo:    sha256
  Hash value:   $(sum ramdisk)
 Image 2 (fdt-1)
  Description:  $long
  Created:      Sun Sep  9 01:46:40 2001
  Type:         Flat Device Tree
  Compression:  uncompressed
  Data Size:    $(sizes board.dtb) Bytes = 0.10 KiB = 0.00 MiB
  Architecture: AArch64
  Hash algo:    sha256
  Hash value:   $(sum board.dtb)
 Default Configuration: 'conf-1'
 Configuration 0 (conf-1)
  Description:  $long
  Kernel:       kernel-1
  Init Ramdisk: ramdisk-1
  FDT:          fdt-1
END
check "mkimage -l of a converted multi image" sh -c 'mkimage -l multi3.itb | diff wanted.list -'

# builds FORM FIT INPUT DESCRIPTION TIME WORD..: build-fit writes the FIT of these images, and nothing to standard error.
builds() {
    form=$1 fit=$2 input=$3 description=$4 time=$5
    shift 5
    # shellcheck disable=SC2046
    set -- --description "$description" --time "$time" $(arguments "$@")
    [ "$form" = embedded ] || set -- --external "$@"
    "$root/bootimg" build-fit "$@" < "$input" > "$fit" 2> errors && [ ! -s errors ]
}

# builds_of_files FORM FIT DESCRIPTION TIME WORD..: build-fit writes this FIT of these images, each payload by the name of its file,
# and after an image no standard input.
builds_of_files() {
    form=$1 fit=$2 description=$3 time=$4
    shift 4
    input=script
    [ $# != 0 ] || input=empty
    # shellcheck disable=SC2046
    set -- build-fit --description "$description" --time "$time" $(for word in "$@"; do echo "${word%:*}:@${word##*:}"; done)
    [ "$form" = embedded ] || set -- "$@" --external
    gives "$fit" "$input" "$@"
}

# building LABEL DESCRIPTION TIME WORD..: tries the FIT of these images in both forms.
building() {
    label=$1 description=$2 time=$3
    shift 3
    # shellcheck disable=SC2046
    cat $(files "$@") /dev/null > payloads
    for form in embedded external; do
        check "$label, $form: build-fit" builds "$form" "$form.itb" payloads "$description" "$time" "$@"
        check "$label, $form: build-fit of files" builds_of_files "$form" "$form.itb" "$description" "$time" "$@"
        tree "$label" "$form" "$form.itb" "$description" "$time" "$@"
    done
    check "$label: external from embedded" normalises external embedded.itb external.itb
    check "$label: embedded from external" normalises embedded external.itb embedded.itb
}

building "one kernel" "" 0 kernel-1:kernel:arm:linux:none:0x8000:0x8040:kernel
building "each type" "each type" 1700000000 k:kernel:arm64:linux:gzip:0x80080000:0x80080000:kernel \
    r:ramdisk:arm64:linux:none:0x82000000:-:ramdisk d:flat_dt:arm64:linux:none:-:-:board.dtb \
    f:firmware:arm64:u-boot:none:0x1000:-:firmware p:standalone:arm64:u-boot:lz4:0xffffffff:0:program \
    s:script:arm64:linux:none:-:-:script
building "several of one type" "several" 4294967295 kernel-a:kernel:arm:linux:none:0x8000:0x8000:kernel \
    fdt-b:flat_dt:arm:linux:none:-:-:board.dtb fdt-a:flat_dt:arm:linux:none:0x100:-:board.dtb \
    kernel-b:kernel:arm:netbsd:lzma:-:0x8000:program loadable-1:standalone:arm:linux:none:-:-:script \
    loadable-2:standalone:riscv:linux:none:0x1:-:kernel firmware-2:firmware:mips:vxworks:lzo:-:0x2:firmware \
    firmware-1:firmware:ppc:linux:bzip2:-:-:program script-2:script:x86:linux:zstd:-:-:script \
    script-1:script:x86_64:linux:none:-:-:script ramdisk-2:ramdisk:arm:linux:none:-:0x3:ramdisk \
    ramdisk-1:ramdisk:arm:linux:none:-:-:ramdisk
building "empty payloads" "empty" 1 a:kernel:arm:linux:none:-:-:empty b:ramdisk:arm:linux:none:-:-:program \
    c:firmware:arm:linux:none:-:-:empty d:script:arm:linux:none:-:-:script e:standalone:arm:linux:none:-:-:empty
building "no images" "nothing" 1

# Two texts that python3 lays out, byte by byte.
python_with_blobs - << 'END'
import hashlib

from blobs import aligned, blob_of, cells, legacy_image, node, padded, parts


def image(name, kind, payload, **more):
    """An image node, with the properties of each and more."""
    properties = {b"arch": b"arm\0", b"compression": b"none\0", b"description": b"k\0", b"os": b"linux\0", b"type": kind + b"\0"}
    properties.update({key.replace("_", "-").encode(): value for key, value in more.items()})
    digest = [(b"algo", b"sha256\0"), (b"value", hashlib.sha256(payload).digest())]
    return node(name, sorted(properties.items()), [node(b"hash-1", digest)])


def tree(kernel, ramdisk):
    """The blob of a tree with two images, which hold their payloads by these properties."""
    place = {"load": cells(0x8000), "entry": cells(0x8000)}
    images = [image(b"kernel-1", b"kernel", b"hello", **place, **kernel), image(b"ramdisk-1", b"ramdisk", b"abc", **ramdisk)]
    configuration = node(b"conf-1", [(b"description", b"k\0"), (b"kernel", b"kernel-1\0"), (b"ramdisk", b"ramdisk-1\0")])
    configurations = node(b"configurations", [(b"default", b"conf-1\0")], [configuration])
    root = [(b"#address-cells", cells(1)), (b"description", b"k\0"), (b"timestamp", cells(0))]
    return aligned(blob_of(node(b"", root, [node(b"images", (), images), configurations])))


def write(path, data):
    with open(path, "wb") as file:
        file.write(data)


write("known.image", legacy_image(parts(b"hello", b"abc"), b"k", 4, 0x8000, 0x8000))
write("multi-of-none.image", legacy_image(parts(), b"k", 4, 0x8000, 0x8000))
write("known.itb", tree({"data": b"hello"}, {"data": b"abc"}))
external = tree({"data_offset": cells(0), "data_size": cells(5)}, {"data_offset": cells(8), "data_size": cells(3)})
write("known-external.itb", external + padded(b"hello") + b"abc")
END
printf helloabc > input
kernel="kernel-1:kernel:arm:linux:none:0x8000:0x8000:5"
ramdisk="ramdisk-1:ramdisk:arm:linux:none:-:-:3"
check "the known legacy image has 87 bytes" test "$(sizes known.image)" = 87
check "the known FIT has 824 bytes" test "$(sizes known.itb)" = 824
check "the known external FIT has 883 bytes" test "$(sizes known-external.itb)" = 883
check "the known legacy image is built" gives known.image input \
    build-legacy --os linux --arch arm --type multi --name k --load 0x8000 --entry 0x8000 5 3
check "the known FIT is built" gives known.itb input build-fit --description k "$kernel" "$ramdisk"
check "the known external FIT is built" gives known-external.itb input \
    build-fit --external --description k "$kernel" "$ramdisk"
check "the known legacy image is converted" gives known.itb known.image convert
printf 'kind fit\nboot-cpu 0\ntotal-size 872\nimage kernel-1 size 5 data-offset at 872\n' > wanted.list
printf 'image ramdisk-1 size 3 data-offset at 880\nconfig conf-1\nkey conf-1 kernel ok kernel-1\n' >> wanted.list
printf 'key conf-1 ramdisk ok ramdisk-1\ndefault conf-1\n' >> wanted.list
check "the known external FIT is listed" gives wanted.list known-external.itb list

# Parts and payloads in files.
printf hello > hello
printf abc > abc
printf abc+ > more
legacy_words="build-legacy --os linux --arch arm --type multi --name k --load 0x8000 --entry 0x8000"
kernel_file="${kernel%5}@hello"
ramdisk_file="${ramdisk%3}@abc"
# shellcheck disable=SC2086
{
    check "the known legacy image, of two files" gives known.image input $legacy_words @hello @abc
    check "of a file and standard input" gives known.image abc $legacy_words @hello 3
    check "of standard input and a file" gives known.image hello $legacy_words 5 @abc
    check "a file in a directory that is not there" refuses "none/hello: cannot be opened" abc $legacy_words @none/hello 3
    check "a file that cannot be opened, and no length" refuses "none: cannot be opened" abc $legacy_words @none @abc
    check "the rest of standard input" refuses "BadPart at 3" more $legacy_words @hello 3
    check "a file over the limit" refuses "known.image: TooLarge at 86" abc $legacy_words --limit 86 @known.image 3
}
mkdir -p tree
check "a directory" refuses "tree: read failed" abc build-legacy --os 5 --arch 2 --type 4 @hello @tree
check "the known FIT, of two files" gives known.itb input build-fit --description k "$kernel_file" "$ramdisk_file"
check "of a file and standard input" gives known.itb abc build-fit --description k "$kernel_file" "$ramdisk"
check "of standard input and a file" gives known.itb hello build-fit --description k "$kernel" "$ramdisk_file"
check "a file with a colon" refuses "usage: bad image 0" abc build-fit "$kernel_file:" "$ramdisk"
check "standard input without images" refuses "BadPart at 0" abc build-fit
check "standard input that is closed" sh -c '"$@" <&- | cmp - known.itb' sh "$root/bootimg" build-fit --description k "$kernel_file" \
    "$ramdisk_file"

# into FILE ARGUMENT..: the program writes nothing to standard output, and the known legacy image to this file.
into() {
    output=$1
    shift
    # shellcheck disable=SC2086
    "$root/bootimg" $legacy_words -o "$output" "$@" < /dev/null > written 2>&1 && [ ! -s written ] && cmp known.image "$output"
}
check "an output file" into built @hello @abc
cp hello part
check "an output file that is a part" into part @part @abc
printf old > kept
check "an output file stays after a failure" sh -c '! "$@" -o kept 2> /dev/null && [ "$(cat kept)" = old ]' sh "$root/bootimg" \
    build-legacy --os 5 --arch 2 --type 4 @hello @none

# many: the program builds an image of 10,000 parts, each of the same file, and its parts are the file.
many() {
    # shellcheck disable=SC2046
    "$root/bootimg" build-legacy --os 5 --arch 2 --type 4 $(yes @hello | head -n 10000) > many.image &&
        [ "$(sizes many.image)" = 120065 ] &&
        "$root/bootimg" extract --part 9999 many.image | cmp - hello
}
check "10,000 parts" many

# Refusals.

# no_legacy LINE TYPE LEN..: build-legacy of the eight bytes is refused.
no_legacy() {
    line=$1 type=$2
    shift 2
    check "build-legacy --type $type $*: $line" refuses "$line" input build-legacy --os linux --arch arm --type "$type" "$@"
}

# no_conversion LINE IMAGE: convert of this image is refused.
no_conversion() {
    check "convert $2: $1" refuses "$1" "$2" convert
}

# no_fit LINE WORD..: build-fit of the eight bytes is refused, in both forms.
no_fit() {
    line=$1
    shift
    check "build-fit $*: $line" refuses "$line" input build-fit "$@"
    check "build-fit --external $*: $line" refuses "$line" input build-fit --external "$@"
}

# small IMAGE ARGUMENT..: builds a legacy image of the eight bytes.
small() {
    image=$1
    shift
    "$root/bootimg" build-legacy "$@" < input > "$image"
}

no_legacy "BadPart at 5" multi 5 4
no_legacy "BadPart at 7" multi 5 2
no_legacy "BadPart at 0" kernel 9
no_legacy "EmptyPart at 68" multi 8 0
no_legacy "EmptyPart at 68" script 8 0
no_legacy "BadField at 30" kernel 5 3
no_legacy "BadField at 32" kernel --name "${long}3"
no_legacy "TooLarge at 71" kernel --limit 71
no_legacy "usage: bad value" kernels
no_legacy "usage: bad value" 256
no_legacy "usage: bad value" kernel 0x
no_legacy "usage: bad value" kernel 0X8
for os in arm powerpc 256 -1 ""; do
    check "build-legacy --os='$os': usage: bad value" refuses "usage: bad value" input \
        build-legacy --os="$os" --arch arm --type kernel
done

small os200.image --os 200 --arch 200 --type 7 --compression 7
small arch200.image --os 5 --arch 200 --type 7 --compression 7
small type7.image --os 5 --arch 2 --type 7 --compression 7
small compression7.image --os 5 --arch 2 --type 2 --compression 7
small script-of-two.image --os 5 --arch 2 --type 6 5 3
small multi-of-four.image --os 5 --arch 2 --type 4 1 2 2 3
no_conversion "NoCodeName at 28" os200.image
no_conversion "NoCodeName at 29" arch200.image
no_conversion "NoCodeName at 30" type7.image
no_conversion "NoCodeName at 31" compression7.image
no_conversion "EmptyPart at 64" multi-of-none.image
no_conversion "TooManyParts at 64" multi-of-four.image
no_conversion "TooManyParts at 64" script-of-two.image
no_conversion "TooManyParts at 64" multi4.image
no_conversion "TooManyParts at 64" script2.image
no_conversion "BadMagic at 0" known.itb

no_fit "DuplicateNode at 1" "$kernel" kernel-1:ramdisk:arm:linux:none:-:-:3
no_fit "BadField at 1" "$kernel" ramdisk-1:multi:arm:linux:none:-:-:3
no_fit "BadField at 1" "$kernel" a/b:ramdisk:arm:linux:none:-:-:3
no_fit "BadField at 0" :kernel:arm:linux:none:-:-:5 "$ramdisk"
no_fit "NoCodeName at 1" "$kernel" ramdisk-1:ramdisk:arm:200:none:-:-:3
no_fit "NoCodeName at 0" kernel-1:7:arm:linux:none:-:-:5 "$ramdisk"
no_fit "BadPart at 5" "$kernel" ramdisk-1:ramdisk:arm:linux:none:-:-:4
no_fit "BadPart at 5" "$kernel"
no_fit "BadPart at 0"
no_fit "usage: bad image 0" kernel-1:kernel:arm:linux:none:0x8000:5
no_fit "usage: bad image 1" "$kernel" ramdisk-1:ramdisk:arm:linux:none:-:-:3:0
no_fit "usage: bad image 0" kernel-1:kernel:arm:linux:none:-:-:-
no_fit "usage: bad image 0" kernel-1:kernel:invalid:linux:none:-:-:5
check "build-fit --limit 823: TooLarge at 823" refuses "TooLarge at 823" input \
    build-fit --description k --limit 823 "$kernel" "$ramdisk"
check "build-fit --external --limit 882: TooLarge at 882" refuses "TooLarge at 882" input \
    build-fit --external --description k --limit 882 "$kernel" "$ramdisk"

finish
