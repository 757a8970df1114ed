#!/bin/sh
# Tries `check` on FITs that mkimage signs, with and without `sign-images`, and on copies that fdtput changes: a list of signed nodes
# that is cut or goes on, a clone of a node, a hash that U-Boot skips, no list, and too small a size of the strings. The lines of `check`
# are compared with the nodes that mkimage recorded. The script needs Debian's u-boot-tools, device-tree-compiler and openssl, and
# installs them if one is missing and it runs as root.
set -u

root=$(cd "$(dirname "$0")/../.." && pwd)
. "$root/tests/setup"
export SOURCE_DATE_EPOCH=1000000000

need u-boot-tools mkimage
need device-tree-compiler dtc fdtget fdtput
need openssl openssl
need_program
work_in_new_directory

printf 'kernel' > kernel
printf 'devicetree' > devicetree
printf 'ramdisk' > ramdisk
mkdir keys
openssl genpkey -quiet -algorithm RSA -pkeyopt rsa_keygen_bits:2048 -out keys/dev.key 2> /dev/null
openssl req -batch -new -x509 -key keys/dev.key -out keys/dev.crt -subj /CN=dev 2> /dev/null
signature=/configurations/conf-1/signature-1

# source IMAGES SIGNATURE: the source of a FIT with three images, further images, and one configuration with this signature node.
source() {
    cat << END
/dts-v1/;
/ {
    description = "signed";
    images {
        kernel-1 { data = /incbin/("kernel"); type = "kernel"; arch = "arm64"; os = "linux"; compression = "none";
            load = <0x80000>; entry = <0x80000>; hash-1 { algo = "sha256"; }; };
        fdt-1 { data = /incbin/("devicetree"); type = "flat_dt"; arch = "arm64"; compression = "none"; hash-1 { algo = "sha256"; }; };
        ramdisk-1 { data = /incbin/("ramdisk"); type = "ramdisk"; arch = "arm64"; os = "linux"; compression = "none";
            hash-1 { algo = "sha256"; }; };
        $1
    };
    configurations {
        default = "conf-1";
        conf-1 { kernel = "kernel-1"; fdt = "fdt-1"; ramdisk = "ramdisk-1"; $2 };
    };
};
END
}

# sign NAME IMAGES SIGN-IMAGES: makes NAME.itb, which mkimage signs.
sign() {
    source "$2" "signature-1 { algo = \"sha256,rsa2048\"; key-name-hint = \"dev\"; $3 };" > "$1.its"
    mkimage -f "$1.its" -k keys "$1.itb" > log 2>&1
}

# writes NAME LINE..: `check` of NAME.itb writes these lines.
writes() {
    name=$1
    shift
    : > wanted
    [ $# = 0 ] || printf '%s\n' "$@" > wanted
    "$root/bootimg" check "$name.itb" > found
    cmp wanted found
}

# records NAME PATH..: mkimage recorded these paths in NAME.itb.
records() {
    name=$1
    shift
    [ "$(fdtget "$name.itb" "$signature" hashed-nodes)" = "$*" ]
}

kernel_and_devicetree="/ /configurations/conf-1 /images/kernel-1 /images/kernel-1/hash-1 /images/fdt-1 /images/fdt-1/hash-1"
all='sign-images = "kernel", "fdt", "ramdisk";'
clone='kernel-1@1 { data = /incbin/("ramdisk"); type = "kernel"; arch = "arm64"; os = "linux"; compression = "none";
    hash-1 { algo = "sha256"; }; };'

check "mkimage signs without sign-images" sign default "" ""
check "mkimage records the kernel and the devicetree" records default $kernel_and_devicetree
check "the ramdisk is not covered" writes default "uncovered conf-1 signature-1 /images/ramdisk-1"
check "mkimage signs two images" sign two "" 'sign-images = "kernel", "fdt";'
check "it records them" records two $kernel_and_devicetree
check "the ramdisk is not covered either" writes two "uncovered conf-1 signature-1 /images/ramdisk-1"
check "mkimage signs all images" sign all "" "$all"
check "it records all" records all $kernel_and_devicetree /images/ramdisk-1 /images/ramdisk-1/hash-1
check "all is covered" writes all
check "and each configuration is signed" sh -c '"$1" check --signed all.itb > found && [ ! -s found ]' sh "$root/bootimg"

cp all.itb cut.itb
check "a cut list" fdtput -t s cut.itb "$signature" hashed-nodes / /configurations/conf-1 /images/kernel-1 /images/kernel-1/hash-1 \
    /images/fdt-1
check "what it lacks" writes cut "uncovered conf-1 signature-1 /images/fdt-1" "uncovered conf-1 signature-1 /images/ramdisk-1"
cp all.itb foreign.itb
check "a list that goes on" fdtput -t s foreign.itb "$signature" hashed-nodes $(fdtget all.itb "$signature" hashed-nodes) /images/other
check "what it need not have" writes foreign "foreign conf-1 signature-1 /images/other"
check "mkimage signs a FIT with a clone of a node" sign clone "$clone" "$all"
check "it records the same nodes as without the clone" records clone $(fdtget all.itb "$signature" hashed-nodes)
check "the name of the clone" writes clone "unit-address /images/kernel-1@1"
cp all.itb ignored.itb
check "a hash that U-Boot skips" fdtput -t x ignored.itb /images/kernel-1/hash-1 uboot-ignore 1
check "the image has no other, and the new name is after those that were signed" \
    writes ignored "skipped-hash kernel-1 hash-1" "unhashed kernel-1" "strings conf-1 signature-1"
cp all.itb unlisted.itb
check "no list" fdtput -d unlisted.itb "$signature" hashed-nodes
check "the signature covers nothing that is known" writes unlisted "no-nodes conf-1 signature-1"
cp all.itb strings.itb
check "a small size of the strings" fdtput -t x strings.itb "$signature" hashed-strings 0 4
check "names of properties are not covered" writes strings "strings conf-1 signature-1"
source "" "" > unsigned.its
check "mkimage makes a FIT that is not signed" sh -c 'mkimage -f unsigned.its unsigned.itb > log'
check "it is clean" writes unsigned
check "but for --signed" sh -c '"$1" check --signed unsigned.itb > found; echo "unsigned conf-1" | cmp - found' sh "$root/bootimg"

# What check says does not change in the normal form, but for the strings: their block is another one there.
for name in default two all cut foreign clone unlisted; do
    check "$name.itb in normal form" sh -c '"$1" normalise -o normal.itb "$2" 2> log && "$1" check "$2" > one
        "$1" check normal.itb > other; grep -v "^strings " other > rest; cmp one rest' sh "$root/bootimg" "$name.itb"
done
finish
