#!/bin/sh
# Compares the stand-in for mkimage, contrib/mkimage, with Debian's mkimage, each on the same arguments: legacy images byte for
# byte, flattened image trees by their normal forms, and a Makefile with one and with the other. It needs Debian's u-boot-tools,
# device-tree-compiler and make, and installs them if they are missing and it runs as root.
set -u

root=$(cd "$(dirname "$0")/../.." && pwd)
. "$root/tests/setup"
need u-boot-tools mkimage
need device-tree-compiler dtc fdtput fdtget
need make make
need_program
work_in_new_directory
export SOURCE_DATE_EPOCH=1700000000
real=$(command -v mkimage)
stand_in=$root/contrib/mkimage

head -c 5001 "$root/README.md" > data
cat "$root/README.md" "$root"/docs/*.md > large
for length in 1 2 3 4; do
    head -c "$length" data > "bytes$length"
done

# same ARGUMENT..: both make the same image with these arguments.
same() {
    rm -f wanted got
    "$real" -q "$@" wanted > log 2>&1 || { cat log; return 1; }
    "$stand_in" -q "$@" got > log 2>&1 && [ ! -s log ] || { cat log; return 1; }
    cmp wanted got
}

# same_each OPTION NAME..: both make the same image with each of these names as the value of the option.
same_each() {
    option=$1
    shift
    for value in "$@"; do
        same -A arm -O linux -T kernel -C none -a 8000 "$option" "$value" -d data || { echo "$option $value"; return 1; }
    done
}

# with_time VALUE COMMAND..: runs the command with this value of SOURCE_DATE_EPOCH.
with_time() (
    export SOURCE_DATE_EPOCH="$1"
    shift
    "$@"
)

# names OPTION: prints the names that mkimage lists for an option.
names() {
    "$real" "$1" list 2>&1 | awk '/supported are:$/ { on = 1; next } /^$/ { on = 0 } on { print $1 }'
}

# Legacy images.
check "each type" same_each -T standalone kernel ramdisk multi firmware script filesystem kernel_noload
check "mkimage lists architectures" test "$(names -A | wc -l)" -gt 20
check "each architecture" same_each -A $(names -A) ARM ppc
check "each operating system" same_each -O $(names -O | grep -v '^tee$') Linux
check "each compression" same_each -C $(names -C) GZip
check "the defaults" same -d data
check "options that are joined to their values" same -Aarm -Olinux -Tramdisk -Cgzip -a8000 -e8040 -nname -ddata
for address in 0 8000 0x8000 0X8000 0008000 ffffffff 0xDeadBeef; do
    check "load address $address" same -A arm -T kernel -C none -a "$address" -d data
    check "entry point $address" same -A arm -T kernel -C none -a 0x100 -e "$address" -d data
done
for name in "" a "two words" "it's \"quoted\" \$HOME *" -n --name "exactly thirty-two bytes are here" \
    "a name that is longer than the thirty-two bytes of its field" "Grüße" 'back\slash \n' '100%s'; do
    check "name '$name'" same -A arm -T kernel -C none -n "$name" -d data
done
for time in 0 1 4294967295 ""; do
    check "time '$time'" env SOURCE_DATE_EPOCH="$time" sh -c '"$1" -d data wanted > log && "$2" -d data got > log && cmp wanted got' \
        sh "$real" "$stand_in"
done
for files in bytes1 bytes1:bytes2 bytes3:bytes4:bytes1 bytes2:data:bytes3:bytes1:bytes4; do
    check "multi-file image of $files" same -A arm -O linux -T multi -C none -a 8000 -e 8040 -n many -d "$files"
    check "script of $files" same -A arm -O linux -T script -C none -n script -d "$files"
done
echo spaced > "a file"
check "a file whose name has a space" same -A arm -T multi -C none -d "a file:data"
echo colon > c:d
check "a file whose name has a colon" same -A arm -T kernel -C none -d c:d
"$stand_in" -d data got > printed
check "the listing is printed" sh -c '"$1" list < got | cmp - printed' sh "$root/bootimg"
check "quietly" test -z "$("$stand_in" -q -d data got)"
check "the image may come first" sh -c '"$1" -A arm -d data wanted > log && "$2" first -A arm -d data > log && cmp wanted first' \
    sh "$real" "$stand_in"

# The time is now if SOURCE_DATE_EPOCH is not set.
now() {
    before=$(date +%s)
    env -u SOURCE_DATE_EPOCH "$stand_in" -q -d data got || return
    time=$("$root/bootimg" list < got | sed -n 's/^time //p')
    [ "$before" -le "$time" ] && [ "$time" -le "$(date +%s)" ]
}
check "without SOURCE_DATE_EPOCH the time is now" now
check "-l lists an image" sh -c '"$1" -l got | grep -Fqx "kind legacy"' sh "$stand_in"

# Flattened image trees.
cat > tree.its << 'END'
/dts-v1/;
/ {
    description = "a tree";
    #address-cells = <1>;
    images {
        kernel-1 {
            description = "kernel";
            data = /incbin/("data");
            type = "kernel"; arch = "arm"; os = "linux"; compression = "none";
            load = <0x8000>; entry = <0x8000>;
            hash-1 { algo = "crc32"; };
            hash-2 { algo = "md5"; };
            hash-3 { algo = "sha1"; };
            hash-4 { algo = "sha256"; };
            hash-5 { algo = "sha384"; };
            hash-6 { algo = "sha512"; };
        };
        large-1 {
            data = /incbin/("large");
            hash-1 { algo = "crc32"; };
        };
        fdt-1 {
            data = /incbin/("bytes3");
            type = "flat_dt";
            hash@1 { value = <1 2>; algo = "sha256"; };
            signature-1 { algo = "sha256,rsa2048"; key-name-hint = "dev"; };
            other { algo = "sha1"; };
        };
        empty-1 {
            data = [];
            hash { algo = "sha256"; };
        };
    };
    configurations {
        default = "conf-1";
        conf-1 { kernel = "kernel-1"; fdt = "fdt-1"; hash-1 { algo = "sha256"; }; };
    };
};
END
# same_tree_of SOURCE [-E] [ARGUMENT..]: the stand-in makes the normal form of mkimage's tree of the source.
same_tree_of() {
    source=$1 form=
    shift
    [ "${1-}" != -E ] || form=--external
    rm -f wanted got
    "$real" -f "$source" "$@" wanted > log 2>&1 && "$stand_in" -f "$source" "$@" got > log 2> errors || { cat log; return 1; }
    [ ! -s errors ] || { cat errors; return 1; }
    "$root/bootimg" normalise $form < wanted 2> log | cmp - got
}
# same_tree [-E] [ARGUMENT..]: the same of tree.its.
same_tree() {
    same_tree_of tree.its "$@"
}
check "with -t" same_tree -t
mkdir parts
cp data parts/inner
sed 's/("data")/("inner")/' tree.its > inner.its

# dtc_fails FILE SOURCE: dtc names this file, which it cannot open, and the stand-in says that dtc refuses the source. It writes nothing
# else, and its status is 1.
dtc_fails() {
    rm -f got
    "$stand_in" -f "$2" got > output 2> errors
    [ $? = 1 ] && [ ! -e got ] && [ ! -s output ] && sed '$d' errors | grep -Fq "\"$1\"" &&
        [ "$(tail -n 1 errors)" = "mkimage: dtc refuses $2" ] || { cat output errors; false; }
}
check "a payload that dtc does not find" dtc_fails inner inner.its
check "with options of dtc" same_tree_of inner.its -D "-I dts -O dtb -p 2000 -i parts"
check "a flattened image tree" same_tree
check "its digests are good" sh -c '"$1" verify < got | tail -n 1 | grep -Fq "summary good 9 bad 0"' sh "$root/bootimg"
check "with the payloads after the tree" same_tree -E
check "mkimage lists it" "$real" -l got
check "it has the time" test "$(fdtget -t u got / timestamp)" = 1700000000

# Trees of -f auto.
for board in first second third; do
    echo "/dts-v1/; / { model = \"$board\"; };" | dtc -q -O dtb -o "$board.dtb"
done
# same_auto ARGUMENT..: the trees of -f auto with these arguments differ only in the creator, which is mkimage.
same_auto() {
    rm -f wanted got
    "$real" -f auto "$@" wanted > log 2>&1 || { cat log; return 1; }
    "$stand_in" -q -f auto "$@" got > log 2>&1 && [ ! -s log ] || { cat log; return 1; }
    "$root/bootimg" compare wanted got > differences
    [ $? = 1 ] && [ "$(wc -l < differences)" = 1 ] && grep -Fq -e '-property / creator "U-Boot mkimage ' differences ||
        { cat differences; false; }
}
kernel="-A arm -O linux -T kernel -C none -a 8000 -e 8040 -n name -d data"
check "-f auto of a kernel" same_auto $kernel
check "with a ramdisk" same_auto $kernel -i bytes4
check "with a devicetree" same_auto $kernel -b first.dtb
check "with three devicetrees and a ramdisk" same_auto $kernel -b first.dtb -i bytes4 -b second.dtb -b third.dtb
check "each devicetree has a configuration" test "$("$root/bootimg" list < got | grep -c '^key conf-[123] fdt ok fdt-[123]$')" = 3
check "the third devicetree" gives third.dtb got extract --config conf-3 --key fdt
check "the ramdisk" gives bytes4 got extract --config conf-2 --key ramdisk
check "the first one is the default" gives first.dtb got extract --default --key fdt
check "mkimage lists it" "$real" -l got
check "with the payloads after the tree" same_auto -E $kernel -b first.dtb -b second.dtb
check "they are after it" sh -c '"$1" list < got | grep -Fq "image fdt-2 size $(wc -c < second.dtb) data-offset at "' sh "$root/bootimg"
check "with aligned payloads" same_auto -E -B 1000 $kernel -b first.dtb
check "the first is aligned" sh -c '"$1" list < got | grep -Eq "^image kernel-1 size 5001 data-offset at (4096|8192)$"' sh "$root/bootimg"
check "without a time" with_time "" same_auto $kernel
for type in standalone kernel ramdisk multi firmware script filesystem kernel_noload; do
    check "-f auto of type $type" same_auto -A ppc -O u-boot -T "$type" -C gzip -a 0x100 -d data -b first.dtb
done
check "-f auto of the defaults" same_auto -d data
check "-f auto without an architecture" same_auto -A invalid -d data
check "with options of dtc, which are not used" same_auto -D "-I dts" -d data -b first.dtb
check "with a name that has quotes" same_auto -n 'it is "quoted" \n $HOME' -d data
mkdir -p "some where"
cp first.dtb "some where/a \"board\".v1.dtb"
check "a devicetree whose name has spaces and quotes" same_auto $kernel -b "some where/a \"board\".v1.dtb"
cp first.dtb without-end
check "a devicetree whose name has no end" same_auto $kernel -b without-end
check "data whose name has a colon" same_auto -d c:d

# A Makefile does not need to be changed.
cat > Makefile << 'END'
all: uImage boot.scr kernel.itb
uImage: data
	mkimage -A arm64 -O linux -T kernel -C none -a 0x80080000 -e 0x80080000 -n 'Linux' -d $< $@
boot.scr: bytes4
	mkimage -A arm -T script -C none -n 'Boot script' -d $< $@
kernel.itb: tree.its data bytes3
	mkimage -E -f $< $@
END
made_by() {
    mkdir "$1" && cp Makefile tree.its data large bytes3 bytes4 "$1" && PATH="$2:$PATH" make -C "$1"
}
mkdir standing
ln -s "$stand_in" standing/mkimage
check "a Makefile with mkimage" made_by one "$(dirname "$real")"
check "a Makefile with the stand-in" made_by two "$work/standing"
check "they make the same kernel" cmp one/uImage two/uImage
check "they make the same script" cmp one/boot.scr two/boot.scr
check "they make trees of the same meaning" sh -c '"$1" normalise --external < one/kernel.itb 2> log | cmp - two/kernel.itb' \
    sh "$root/bootimg"

# refuses TEXT ARGUMENT..: the stand-in prints one line with this text, makes no image, and its status is not 0.
refuses() {
    text=$1
    shift
    rm -f refused
    if "$stand_in" "$@" refused > output 2> errors; then
        return 1
    fi
    [ ! -e refused ] && [ ! -s output ] && [ "$(wc -l < errors)" = 1 ] && grep -Fq -e "$text" errors ||
        { cat output errors; false; }
}
for option in -x -s -F -r; do
    check "$option is refused" refuses "the option $option is not one of this stand-in" "$option" -d data
done
for option in -k -K -g -G -c -N -o -R; do
    check "$option is refused" refuses "the option $option is not one of this stand-in" "$option" value -f tree.its
done
check "a long option is refused" refuses "is not one of this stand-in" --architecture arm -d data
for type in imximage kwbimage flat_dt firmware_ivt nothing; do
    check "type $type is refused" refuses "the type '$type' is not one of those" -T "$type" -d data
done
# mkimage takes the addresses of such an image from its data.
check "the operating system tee is refused" refuses "the operating system 'tee' is not one of those" -O tee -d data
check "-p is refused" refuses "-p sets fixed positions of payloads, which bootimg does not write" -p 1000 -f tree.its
check "-b is refused with a source" refuses "-b and -i need -f auto" -b first.dtb -f tree.its
check "-i is refused without a source" refuses "-b and -i need -f auto" -i bytes4 -d data
check "-f auto without data" refuses "no data: -f auto needs -d FILE" -f auto -b first.dtb
check "-f auto of two ramdisks" refuses "-f auto with -T ramdisk takes no -i" -f auto -T ramdisk -d data -i bytes4
check "-f auto of a missing devicetree" refuses "missing cannot be read" -f auto -d data -b missing
check "-f auto of a missing ramdisk" refuses "missing cannot be read" -f auto -d data -i missing
check "-f auto with an address of more than 32 bits" refuses "-a takes a number of at most 32 bits" -f auto -a 0x100000000 -d data
check "no data" refuses "no data" -A arm
check "data that is missing" refuses "missing is empty, or cannot be read" -d missing
check "an empty part" sh -c ': > empty'
check "an empty part is refused" refuses "empty is empty, or cannot be read" -T multi -d data:empty:data
check "a bad address" refuses "-a takes a hexadecimal number, not '8000h'" -a 8000h -d data
check "an address of more than 32 bits" refuses "-e takes a number of at most 32 bits" -e 0x100000000 -d data
check "a name that is not UTF-8" refuses "is not UTF-8" -n "$(printf '\377')" -d data
check "a time that is not a number" with_time now refuses "SOURCE_DATE_EPOCH is not a number: now" -d data
check "a value that is missing" sh -c '"$1" got -d 2>&1 | grep -Fqx "mkimage: -d needs a value"' sh "$stand_in"
sed 's/sha384/blake/' tree.its > unknown.its
check "an unknown hash" refuses "hash nodes of 'blake'" -f unknown.its
sed 's/hash@1/cipher/' tree.its > cipher.its
check "encryption" refuses "which this stand-in for mkimage cannot do" -f cipher.its
check "a source that is missing" dtc_fails missing.its missing.its

finish
