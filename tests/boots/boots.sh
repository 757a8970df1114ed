#!/bin/sh
# Starts U-Boot of Debian's packages under qemu, with images that the program builds, converts, edits and normalises. U-Boot must find
# their checksums and hashes right, run their scripts, and start their kernels, each with its ramdisk and its devicetree. It must print
# the fields, places and hashes that the program prints. Both must refuse the same images with a flipped byte.
#
# It needs Debian's u-boot-qemu, qemu-system-arm, u-boot-tools, device-tree-compiler, clang, lld and python3, and installs them if
# one is missing and it runs as root. If one is missing then, it ends with a line and without a failure, unless CI is true.
set -u

root=$(cd "$(dirname "$0")/../.." && pwd)
. "$root/tests/setup"
here=$root/tests/boots
u_boot=/usr/lib/u-boot/qemu_arm64/u-boot.bin

# need_or_skip PACKAGE NAME..: need, but if something is missing and CI is not true, the script ends without a failure.
need_or_skip() {
    if [ "${CI-}" != true ] && ! (need "$@") > /dev/null; then
        echo "skipped: Debian's $1 is not installed"
        finish
    fi
    need "$@"
}

# Debian recommends more than a hundred packages to users of qemu.
apt_options=--no-install-recommends
need_or_skip u-boot-qemu "$u_boot"
need_or_skip qemu-system-arm qemu-system-aarch64
need_or_skip u-boot-tools mkimage
need_or_skip device-tree-compiler dtc
need_or_skip clang clang
need_or_skip lld ld.lld
need_or_skip python3 python3
need_program
work_in_new_directory
export SOURCE_DATE_EPOCH=1700000000 PATH="$root:$PATH"
mkdir images answers

check "the payload is compiled" clang --target=aarch64-none-elf -mcmodel=tiny -mgeneral-regs-only -mstrict-align -O1 \
    -ffreestanding -fno-builtin -nostdlib -fuse-ld=lld -Wl,--oformat=binary -Wl,--section-start=.start=0x41000000 \
    -Wall -Wextra -Werror -o payload "$here/payload.c"
[ "$failed" = 0 ] || finish

# make_payloads NAME: makes NAME.kernel, NAME.ramdisk, NAME.dtb and NAME.script. Each has a text that names it.
make_payloads() {
    cp payload "$1.kernel" && truncate -s 65536 "$1.kernel" && printf 'kernel of %s\n\0' "$1" >> "$1.kernel"
    printf 'ramdisk of %s\n\0' "$1" > "$1.ramdisk"
    echo "/dts-v1/; / { model = \"devicetree of $1\"; };" | dtc -q -O dtb -o "$1.dtb"
    echo "echo script of $1" > "$1.script"
}

# tree_of NAME: prints the source of a tree of these payloads.
tree_of() {
    cat << END
/dts-v1/;
/ {
    description = "tree of $1";
    #address-cells = <1>;
    images {
        kernel-1 {
            description = "$1-kernel";
            data = /incbin/("$1.kernel");
            type = "kernel"; arch = "arm64"; os = "linux"; compression = "none";
            load = <0x41000000>; entry = <0x41000004>;
            hash-1 { algo = "sha256"; };
            hash-2 { algo = "sha384"; };
            hash-3 { algo = "sha512"; };
        };
        ramdisk-1 {
            data = /incbin/("$1.ramdisk");
            type = "ramdisk"; arch = "arm64"; os = "linux"; compression = "none";
            hash-1 { algo = "crc32"; };
        };
        fdt-1 {
            data = /incbin/("$1.dtb");
            type = "flat_dt"; arch = "arm64"; compression = "none";
            hash-1 { algo = "sha1"; };
        };
        script-1 {
            data = /incbin/("$1.script");
            type = "script"; compression = "none";
            hash-1 { algo = "md5"; };
        };
    };
    configurations {
        default = "conf-1";
        conf-1 { description = "a board"; kernel = "kernel-1"; ramdisk = "ramdisk-1"; fdt = "fdt-1"; };
    };
};
END
}

# build IMAGE OS TYPE FILE..: a legacy image of the program.
build() {
    image=$1
    system=$2
    type=$3
    shift 3
    bootimg build-legacy --arch arm64 --os "$system" --type "$type" --name "legacy-$type" --time 1700000000 "$@" \
        -o "images/$image"
}

# Legacy images.
make_payloads legacy
gzip -n < legacy.kernel > legacy.kernel.gz
cp legacy.dtb images/legacy.dtb
at="--load 0x41000000 --entry 0x41000004"
check "a kernel is built" build kernel.uimage linux kernel $at --compression gzip @legacy.kernel.gz
check "a ramdisk is built" build ramdisk.uimage linux ramdisk @legacy.ramdisk
check "a multi-file image is built" build multi.uimage linux multi $at @legacy.kernel @legacy.ramdisk @legacy.dtb
check "a program is built" build program.uimage u-boot standalone --load 0x41000000 --entry 0x41000000 @legacy.kernel
check "a script is built" build script.uimage linux script @legacy.script

# Trees that are built, converted and updated.
make_payloads built
check "a tree is built" bootimg build-fit --description "built tree" --time 1700000000 -o images/built.itb \
    kernel-1:kernel:arm64:linux:none:0x41000000:0x41000004:@built.kernel ramdisk-1:ramdisk:arm64:linux:none:-:-:@built.ramdisk \
    fdt-1:flat_dt:arm64:linux:none:-:-:@built.dtb script-1:script:arm64:linux:none:-:-:@built.script
check "an image is converted" bootimg convert images/multi.uimage -o images/converted.itb
make_payloads updated
tree_of updated > updated.its
check "a tree is compiled" dtc -q -I dts -O dtb -o updated.dtb updated.its
check "a tree is updated" bootimg update --hashes --time 1700000000 updated.dtb -o images/updated.itb

# The normal forms of a tree of mkimage.
make_payloads mkimage
tree_of mkimage > mkimage.its
check "mkimage makes a tree" mkimage -E -f mkimage.its images/mkimage.itb
check "a tree is normalised" bootimg normalise images/mkimage.itb -o images/normal.itb
check "a tree is normalised, with payloads after it" bootimg normalise --external images/mkimage.itb -o images/external.itb
check "a tree is normalised, with aligned payloads after it" \
    bootimg normalise --external --align 512 images/mkimage.itb -o images/aligned.itb
check "mkimage makes a tree with aligned payloads after it" mkimage -E -B 200 -f mkimage.its images/mkaligned.itb
check "the two aligned trees mean the same" bootimg compare images/aligned.itb images/mkaligned.itb

# Edits of a tree of mkimage with payloads after the blob: all payloads are others, and the entry point is set.
make_payloads edited
sed 's/entry = <0x41000004>/entry = <0>/' mkimage.its > page.its
check "mkimage makes a tree with payloads at pages" mkimage -E -B 0x1000 -f page.its page.itb

# edit IMAGE OPTION..: edits the tree of mkimage.
edit() {
    image=$1
    shift
    bootimg update "$@" --hashes --set '/images/kernel-1 entry 0x41000004' --payload kernel-1=@edited.kernel \
        --payload ramdisk-1=@edited.ramdisk --payload fdt-1=@edited.dtb --payload script-1=@edited.script page.itb \
        -o "images/$image"
}
check "a tree is edited" edit edited.itb
check "a tree is edited, with the payloads where they were" edit kept.itb --keep-form
trees="built.itb converted.itb updated.itb normal.itb external.itb aligned.itb mkaligned.itb edited.itb kept.itb"

# Trees that U-Boot refuses: without a time, without a description, and with a unit address.
check "a tree without a time" bootimg update --hashes updated.dtb -o images/untimed.itb
check "a tree without a description" sh -c 'sed "/\"tree of/d" updated.its | dtc -q -I dts -O dtb |
    bootimg update --hashes --time 1700000000 -o images/undescribed.itb'
check "a tree with a unit address" sh -c 'sed "s/hash-1/hash@1/" updated.its | dtc -q -I dts -O dtb |
    bootimg update --hashes --time 1700000000 -o images/addressed.itb'
refused="untimed.itb undescribed.itb addressed.itb"

# Images with a flipped byte.
legacy_images="kernel.uimage ramdisk.uimage multi.uimage program.uimage script.uimage"

# flip IMAGE OFFSET NAME: makes images/IMAGE.NAME, which is the image with another byte at this offset.
flip() {
    python3 -c 'import sys
image = bytearray(open(sys.argv[1], "rb").read())
image[int(sys.argv[2])] ^= 1
open(sys.argv[3], "wb").write(image)' "images/$1" "$2" "images/$1.$3"
}

# flip_payloads TREE: flips a byte of each payload, and prints the names of their images.
flip_payloads() {
    bootimg list "images/$1" | sed -n 's/^image \([^ ]*\) size \([0-9]*\) [^ ]* at \([0-9]*\)$/\1 \2 \3/p' |
        while read -r name size place; do
            flip "$1" $((place + size - 1)) "$name"
            echo "$name"
        done
}

for image in $legacy_images; do
    flip "$image" 33 name
    flip "$image" $(($(wc -c < "images/$image") - 1)) data
done
for tree in $trees; do
    flip_payloads "$tree" > "$tree.flipped"
    check "$tree has payloads" test -s "$tree.flipped"
done

# run: starts U-Boot with all images in memory, and gives it the commands in the file `commands`.
run() {
    python3 -B "$here/console.py" "$u_boot" images commands answers
}

# use_of IMAGE: prints U-Boot's command that uses this legacy image.
use_of() {
    case $1 in
    script.*) echo "source @$1" ;;
    ramdisk.*) echo "bootm @kernel.uimage @$1 @legacy.dtb" ;;
    *) echo "bootm @$1" ;;
    esac
}

# use_in_tree TREE NAME: prints U-Boot's command that uses the image of this name in a tree.
use_in_tree() {
    case $2 in
    script-1) echo "source @$1:$2" ;;
    *) echo "bootm @$1#conf-1" ;;
    esac
}

# Everything after which U-Boot waits for another command.
{
    echo "version version"
    for image in $legacy_images; do
        echo "info-$image iminfo @$image"
        for part in name data; do
            echo "info-$image.$part iminfo @$image.$part"
            echo "use-$image.$part $(use_of "$image.$part")"
        done
    done
    for tree in $trees mkimage.itb $refused; do
        echo "info-$tree iminfo @$tree"
    done
    for tree in $trees; do
        while read -r name; do
            echo "info-$tree.$name iminfo @$tree.$name"
            echo "use-$tree.$name $(use_in_tree "$tree.$name" "$name")"
        done < "$tree.flipped"
    done
    echo "script.uimage source @script.uimage"
    for tree in $trees mkimage.itb; do
        echo "script-$tree source @$tree:script-1"
    done
    echo "autostart setenv autostart yes"
    echo "program.uimage bootm @program.uimage"
} > commands
check "U-Boot answers" run
[ "$failed" = 0 ] || finish
grep '^U-Boot' answers/version

# answers NAME LAST PATTERN..: the answer to the command of this name ends with the line LAST, and these patterns are lines of it.
answers() {
    sed 's/^ *//; s/ *$//' "answers/$1" > answer
    wanted_last=$2
    shift 2
    for pattern; do
        grep -Eqx -e "$pattern" answer || { echo "no line $pattern"; cat answer; return 1; }
    done
    [ "$(tail -n 1 answer)" = "$wanted_last" ] || { cat answer; return 1; }
}

# legacy_facts IMAGE, tree_facts IMAGE: print what the program says about an image of this kind, as facts.py prints what U-Boot says.
legacy_facts() {
    bootimg list "$1" | sed -n '/^name\|^time\|^load\|^entry\|^os\|^arch\|^type\|^compression/p; s/^\(part .*\) at .*/\1/p'
    bootimg verify "$1" | grep '^data '
}
tree_facts() {
    bootimg list "$1" | sed -n 's/^image \([^ ]*\) size \([0-9]*\) .* at \([0-9]*\)$/\1 size \2\n\1 at \3/p
        s/^key \([^ ]* [^ ]*\) ok /\1 /p; /^default /p'
    bootimg verify "$1" | sed -n 's/^\([^ ]*\) hash[^ ]* \([^ ]*\) good \(.*\)$/\1 hash \2 \3\n\1 good \2/p'
    bootimg describe "$1" | sed -n 's/"//g; s,^property \(/ .*\),\1,p; s,^property /[a-z]*/\([^/ ]* .*\),\1,p'
}

# agrees IMAGE FACTS PATTERN: each fact that U-Boot prints is one that the program prints (by legacy_facts or tree_facts), and each one
# of the program with this pattern is one of U-Boot. (U-Boot does not print each code of a tree.)
agrees() {
    python3 -B "$here/facts.py" "answers/info-$1" | sort -u > theirs
    "$2" "images/$1" | sort -u > ours
    comm -13 ours theirs > differences
    comm -23 ours theirs | grep -E -e "$3" >> differences
    [ -s theirs ] && [ ! -s differences ] || { cat differences; return 1; }
}

for image in $legacy_images; do
    check "iminfo of $image" answers "info-$image" "status 0" "Verifying Checksum ... OK"
    check "iminfo of $image agrees with list and verify" agrees "$image" legacy_facts .
done
for tree in $trees mkimage.itb; do
    check "iminfo of $tree" answers "info-$tree" "status 0" "Hash\(es\) for Image 0 \(kernel-1\): sha256\+.*"
    check "iminfo of $tree agrees with list, verify and describe" \
        agrees "$tree" tree_facts "^default | (size|at|hash|good|kernel|ramdisk|fdt) "
done

# is_refused_by_u_boot TREE: the program finds all hashes of a tree right, and U-Boot refuses it.
is_refused_by_u_boot() {
    bootimg verify "images/$1" && answers "info-$1" "status 1" "Bad FIT image format!"
}
for tree in $refused; do
    check "U-Boot refuses $tree" is_refused_by_u_boot "$tree"
done

# refuses_part IMAGE PART: the program and U-Boot refuse this legacy image with a flipped byte in its name or in its data.
refuses_part() {
    case $2 in
    name) cause="BadHeaderCrc at 4" pattern=".*Bad [Hh]eader (Checksum|crc)" ;;
    data) cause="BadDataCrc at 24" pattern=".*Bad [Dd]ata (CRC|crc)" ;;
    esac
    refuses "$cause" "images/$1.$2" verify &&
        answers "info-$1.$2" "status 1" "$pattern" && answers "use-$1.$2" "status 1" "$pattern"
}

# finds_bad_payload TREE NAME: the program and U-Boot find the flipped byte in the payload of this image, and no other.
finds_bad_payload() {
    bootimg verify "images/$1.$2" > report
    [ $? = 1 ] || return 1
    [ "$(sed '$d' report | sed -n 's/^\([^ ]*\) [^ ]* [^ ]* bad .*/\1/p' | sort -u)" = "$2" ] || { cat report; return 1; }
    pattern=".*Bad hash value for 'hash-1' hash node in '$2' image node"
    answers "info-$1.$2" "status 1" "$pattern" && answers "use-$1.$2" "status 1" "$pattern"
}

for image in $legacy_images; do
    for part in name data; do
        check "a flipped byte in the $part of $image" refuses_part "$image" "$part"
    done
done
for tree in $trees; do
    while read -r name; do
        check "a flipped byte in $name of $tree" finds_bad_payload "$tree" "$name"
    done < "$tree.flipped"
done

# payloads_of TREE: prints what the payloads of this tree are named after.
payloads_of() {
    case $1 in
    built.itb | updated.itb | edited.itb) echo "${1%.itb}" ;;
    kept.itb) echo edited ;;
    converted.itb) echo legacy ;;
    *) echo mkimage ;;
    esac
}

# Scripts and a program. U-Boot 2023.01 cannot run a script whose payload is after the blob, whoever made the tree.
check "a script runs" answers script.uimage "status 0" "script of legacy"
for tree in built.itb updated.itb normal.itb edited.itb; do
    check "the script of $tree runs" answers "script-$tree" "status 0" "(.* )?script of $(payloads_of "$tree")"
done
tail -n +2 answers/script-mkimage.itb > wanted
for tree in $trees; do
    case $tree in external.itb | aligned.itb | mkaligned.itb | kept.itb)
        check "U-Boot does with the script of $tree what it does with that of mkimage's" \
            sh -c 'tail -n +2 "$1" | diff wanted -' sh "answers/script-$tree"
        ;;
    esac
done
check "a program runs" answers program.uimage "status 0" "kernel of legacy"

# starts NAME COMMAND..: after these commands, of which the last one is bootm, a kernel runs. It finds the ramdisk and the devicetree
# with the texts of this name.
starts() {
    texts=$1
    shift
    printf 'before %s\n' "$@" | sed '$s/^before/start/' > commands
    run && answers start off "kernel of $texts" "ramdisk of $texts" "devicetree of $texts"
}

check "a kernel starts" starts legacy "bootm @kernel.uimage @ramdisk.uimage @legacy.dtb"
check "a multi-file image starts" starts legacy "bootm @multi.uimage"
for tree in $trees; do
    check "$tree starts" starts "$(payloads_of "$tree")" "bootm @$tree#conf-1"
done

# is_used_in_place: U-Boot has passed the devicetree of the aligned tree to its kernel without a copy, at a multiple of 512.
is_used_in_place() {
    starts mkimage "setenv fdt_high ffffffffffffffff" "bootm @aligned.itb#conf-1" &&
        answers start off "Using Device Tree in place at [0-9a-f]*[02468ace]00, end .*"
}
check "the devicetree of aligned.itb is used in place" is_used_in_place
finish
