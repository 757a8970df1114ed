#!/bin/sh
# Makes a FIT of a kernel and 60 devicetrees, with a configuration for each board, in three ways: build-fit in one call; update of what
# dtc compiles of a source with the same nodes; and mkimage of this source. The three mean the same thing and have the same normal
# forms, with the payloads in the blob, after it, and at multiples of 4096. It needs Debian's u-boot-tools, device-tree-compiler and
# python3, and installs them if one is missing and it runs as root.
set -u

root=$(cd "$(dirname "$0")/../.." && pwd)
. "$root/tests/setup"

need u-boot-tools mkimage
need device-tree-compiler dtc
need python3 python3
need_program
work_in_new_directory
time=1700000000
export SOURCE_DATE_EPOCH=$time
boards=$(seq 60)

# The length of the kernel is 4 more than a multiple of 8. So of the payloads that mkimage -E places at multiples of 4, one is not at a
# multiple of 8, and normalise --external has no lost alignment to note.
noise 1 70004 > kernel
for board in $boards; do
    echo "/dts-v1/; / { model = \"board $board\"; compatible = \"maker,board-$board\"; };" | dtc -q -O dtb -o "$board.dtb"
done

# words: the images as arguments of build-fit.
words() {
    echo kernel:kernel:arm64:linux:none:0x80080000:0x80080040:@kernel
    for board in $boards; do
        echo "fdt-$board:flat_dt:arm64:linux:none:-:-:@$board.dtb"
    done
}

# configurations: the configurations as options of build-fit.
configurations() {
    for board in $boards; do
        echo "--config board-$board:kernel=kernel:fdt=fdt-$board"
    done
}

# image NAME TYPE FILE PROPERTY..: an image in a source. The properties are its own, besides those that all images have.
image() {
    echo "$1 { description = \"boards\"; data = /incbin/(\"$3\"); type = \"$2\"; arch = \"arm64\"; os = \"linux\"; compression = \"none\";"
    shift 3
    echo "$* hash-1 { algo = \"sha256\"; }; };"
}

# source_of_boards: a source of the same tree.
source_of_boards() {
    echo '/dts-v1/; / { description = "boards"; #address-cells = <1>; images {'
    image kernel kernel kernel "load = <0x80080000>; entry = <0x80080040>;"
    for board in $boards; do
        image "fdt-$board" flat_dt "$board.dtb"
    done
    echo '}; configurations { default = "board-7";'
    for board in $boards; do
        echo "board-$board { description = \"boards\"; kernel = \"kernel\"; fdt = \"fdt-$board\"; };"
    done
    echo '}; };'
}

# writes FILE COMMAND ARGUMENT..: the program writes the file, and nothing to standard error.
writes() {
    file=$1
    shift
    "$root/bootimg" "$@" > "$file" 2> errors && [ ! -s errors ]
}

# builds FIT OPTION..: build-fit writes the FIT in one call.
builds() {
    fit=$1
    shift
    # shellcheck disable=SC2046
    writes "$fit" build-fit "$@" $(configurations) --default board-7 --description boards --time "$time" $(words)
}

# same_meaning ONE OTHER: compare writes nothing and ends with status 0.
same_meaning() {
    writes differences compare "$1" "$2" && [ ! -s differences ]
}

# same_normal_forms ONE OTHER: both have the same normal form, with the payloads in the blob, and the same with them after it.
same_normal_forms() {
    for form in "" --external; do
        # shellcheck disable=SC2086
        "$root/bootimg" normalise $form "$1" > one 2> errors && "$root/bootimg" normalise $form "$2" > other 2>> errors &&
            cmp one other || { cat errors; return 1; }
    done
}

source_of_boards > boards.its
check "dtc compiles the source" dtc -q -I dts -O dtb -o boards.blob boards.its

# three_ways LABEL OPTIONS MKIMAGE_OPTIONS: the FIT is made in the three ways, with these options of the program and these of mkimage.
three_ways() {
    label=$1 options=$2 theirs=$3
    # shellcheck disable=SC2086
    {
        check "$label: build-fit" builds built $options
        check "$label: update of the source" writes updated update --hashes --time "$time" $options boards.blob
        check "$label: mkimage" mkimage -f boards.its $theirs made
        check "$label: build-fit and update write the same bytes" cmp built updated
        check "$label: the FIT of mkimage has these bytes, normalised" writes normal normalise $options made
    }
    check "$label: the bytes" cmp built normal
    for pair in "built updated" "built made" "updated made"; do
        # shellcheck disable=SC2086
        check "$label: compare of $pair writes nothing" same_meaning $pair
        # shellcheck disable=SC2086
        check "$label: the normal forms of $pair" same_normal_forms $pair
    done
}

three_ways "in the blob" "" ""
cp built embedded
three_ways "after the blob" --external -E
check "in the blob and after it" same_meaning built embedded
three_ways "at multiples of 4096" "--external --align 0x1000" "-E -B 0x1000"
check "in the blob and at multiples of 4096" same_meaning built embedded
check "each payload is at a multiple of 4096" sh -c '"$1" list built | sed -n "s/^image .* at //p" |
    awk "\$1 % 4096 { other = 1 } END { exit other || NR != 61 }"' sh "$root/bootimg"

# What the FIT has.
for fit in embedded built; do
    check "$fit: its concerns" writes concerns check $fit
    check "$fit: it has none" test ! -s concerns
    "$root/bootimg" list $fit > listing
    check "$fit: each board has a configuration" test "$(grep -c '^config board-' listing)" = 60
    check "$fit: each has its devicetree" test "$(grep -c '^key board-\([0-9]*\) fdt ok fdt-\1$' listing)" = 60
    check "$fit: each has the kernel" test "$(grep -c '^key board-[0-9]* kernel ok kernel$' listing)" = 60
    check "$fit: the default" test "$(tail -n 1 listing)" = "default board-7"
    for board in 1 7 60; do
        check "$fit: the devicetree of board $board" gives "$board.dtb" $fit extract --config "board-$board" --key fdt
    done
    check "$fit: the devicetree of the default" gives 7.dtb $fit extract --default --key fdt
    check "$fit: mkimage -l prints the default" sh -c "mkimage -l $fit | grep -Fqx \" Default Configuration: 'board-7'\""
done

# differs_by_default: the FIT of mkimage with another default differs from this one in that alone.
differs_by_default() {
    sed 's/default = "board-7"/default = "board-60"/' boards.its > other.its && mkimage -f other.its other > log || return 1
    "$root/bootimg" compare embedded other > differences
    [ $? = 1 ] && printf '%sproperty /configurations default "board-%s"\n' - 7 + 60 | cmp - differences
}
check "another default is another meaning" differs_by_default

finish
