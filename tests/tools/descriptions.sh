#!/bin/sh
# Compares descriptions of images that mkimage and dtc make with what other tools print: each property has the value that fdtget
# prints, and each payload, inside the blob or after it, the size and the SHA-256 of the file that it was made of. With --deep there is
# also what fdtdump and fdtget print of the payloads that are devicetrees. Then tries compare on the images, and two examples of the manual
# page: git diff over descriptions, and a loop over a directory. It needs Debian's u-boot-tools, device-tree-compiler, python3 and git, and
# installs them if one is missing and it runs as root.
set -u

root=$(cd "$(dirname "$0")/../.." && pwd)
. "$root/tests/setup"
. "$root/tests/tools/sources"
need u-boot-tools mkimage
need device-tree-compiler dtc fdtget fdtput fdtdump
need python3 python3
need git git
need_program
work_in_new_directory
export SOURCE_DATE_EPOCH=1700000000 PATH="$root:$PATH"

# The payload of an image is in the file of its name. The image none-1 has no payload, which mkimage refuses.
make_payloads
: > empty-1
cat > tree.its << END
/dts-v1/;
/memreserve/ 0x1000 0x20;
/memreserve/ 0x80000000 0x1;
/ {
    description = "a tree";
    #address-cells = <1>;
    quoted = "say \"hi\" in C:\\\\";
    empty;
    zero = [00];
    texts = "x", "y z";
    newline = "x\n";
    bytes = [78 00 79];
    images {
$(kernel_node 'hash-1 { algo = "sha256"; };' 'hash-2 { algo = "crc32"; };')
$(ramdisk_node 'hash-1 { algo = "sha512"; };')
        empty-1 { data = []; };
$(devicetree_node 'hash@1 { algo = "sha1"; };')
    };
    configurations {
        default = "conf-1";
        conf-1 { kernel = "kernel-1"; ramdisk = "ramdisk-1"; fdt = "fdt-1", "empty-1"; };
    };
};
END
sed 's/^ *empty-1 .*/&none-1 { os = "linux"; };/' tree.its > none.its

cat > wanted.py << 'END'
"""Prints the description of a flattened image tree, the first argument. The second one is its boot processor. With --deep after it the
description is the deep one, and with --part N it is only what is inside the file, as part N of a legacy image."""
import hashlib
import os
import re
import subprocess
import sys

IMAGE, BOOT_CPU, *OPTIONS = sys.argv[1:]


def output_of(*command):
    return subprocess.run(command, check=True, capture_output=True, text=True).stdout


def value_words(value):
    if not value:
        return []
    if re.fullmatch(rb"([ -~]+\0)+", value):
        return ['"' + re.sub(r'["\\]', r"\\\g<0>", text) + '"' for text in value[:-1].decode().split("\0")]
    return ["0x" + value.hex()]


def payload_words(name):
    if not os.path.exists(name):
        return ["none"]
    with open(name, "rb") as file:
        payload = file.read()
    return ["size", len(payload), "sha256", hashlib.sha256(payload).hexdigest()]


def is_devicetree(name):
    """Whether a file is a devicetree: fdtget reads it, and its root has no child images."""
    listed = subprocess.run(["fdtget", "-l", name, "/"], capture_output=True, text=True)
    return listed.returncode == 0 and "images" not in listed.stdout.split()


def describe_inside(path, name):
    """Prints what is inside the payload with this path, which is in the file of this name."""
    dump = output_of("fdtdump", name)
    (boot_cpu,) = re.findall("// boot_cpuid_phys:\\s*0x([0-9a-f]+)", dump)
    print("inside", path, "boot-cpu", int(boot_cpu, 16))
    for pair in re.findall("^/memreserve/ 0x([0-9a-f]+) 0x([0-9a-f]+);", dump, re.MULTILINE):
        print("inside", path, "reservation", *(f"0x{int(number, 16):016x}" for number in pair))
    describe(name, "/", path + "/")


def describe(file, path, outside=""):
    is_image = not outside and re.fullmatch("/images/[^/]*", path)
    print("node", outside + path)
    if is_image:
        payload = os.path.basename(path)
        print("payload", path, *payload_words(payload))
        if OPTIONS and is_devicetree(payload):
            describe_inside(path, payload)
    for name in sorted(output_of("fdtget", "-p", file, path).split()):
        if not is_image or name not in ("data", "data-offset", "data-position", "data-size"):
            value = bytes(int(byte, 16) for byte in output_of("fdtget", "-t", "bx", file, path, name).split())
            print("property", outside + path, name, *value_words(value))
    for child in output_of("fdtget", "-l", file, path).split():
        describe(file, path.rstrip("/") + "/" + child, outside)


if "--part" in OPTIONS:
    describe_inside(f"part-{OPTIONS[1]}", IMAGE)
    sys.exit()
print("kind fit")
print("boot-cpu", BOOT_CPU)
print("reservation 0x0000000000001000 0x0000000000000020")
print("reservation 0x0000000080000000 0x0000000000000001")
describe(IMAGE, "/")
END

# describes IMAGE BOOT-CPU [--deep]: the description is that of the tools.
describes() {
    python3 wanted.py "$@" > wanted && bootimg describe ${3-} "$1" | diff wanted -
}

# same ONE OTHER: compare writes nothing, and ends with status 0.
same() {
    bootimg compare "$1" "$2" > output && [ ! -s output ] && bootimg compare --quiet "$1" "$2"
}

# differs ONE OTHER: compare writes the file `wanted`, and nothing with --quiet, and ends with status 1.
differs() {
    bootimg compare "$1" "$2" > output
    [ $? = 1 ] && diff wanted output || return 1
    bootimg compare --quiet "$1" "$2" > output
    [ $? = 1 ] && [ ! -s output ]
}

# Flattened image trees: with the payloads inside, after the blob, at fixed places after it, and written again by dtc, also as version
# 16.
make_trees() {
    mkimage -f tree.its inside.itb && mkimage -E -f tree.its after.itb && mkimage -E -p 0x4000 -f tree.its placed.itb &&
        dtc -q -I dtb -O dtb -p 500 -o again.itb inside.itb &&
        dtc -q -I dtb -O dtb -V 16 -o version-16.itb inside.itb && dtc -q -b 3 -o none.itb none.its
}
check "mkimage and dtc make the images" make_trees
for image in inside after placed again version-16; do
    check "the description ($image)" describes "$image.itb" 0
    check "no differences ($image)" same inside.itb "$image.itb"
done
check "the description of a tree of dtc, with an image without a payload" describes none.itb 3
check "the same description of standard input" sh -c 'bootimg describe < none.itb | diff wanted -'
for image in inside after placed again version-16; do
    check "the deep description ($image)" describes "$image.itb" 0 --deep
done

# A legacy image.
mkimage -A arm64 -O linux -T multi -C none -a 8000 -e 8040 -n 'two parts' -d kernel-1:ramdisk-1 multi.uimage > log
echo "kind legacy
name two%20parts
time 1700000000
load 0x00008000
entry 0x00008040
os linux
arch arm64
type multi
compression none
part 0 size 70001 sha256 $(sha256sum < kernel-1 | cut -d ' ' -f 1)
part 1 size 5003 sha256 $(sha256sum < ramdisk-1 | cut -d ' ' -f 1)" > wanted
check "the description of a legacy image" sh -c 'bootimg describe multi.uimage | diff wanted -'
printf -- '-kind legacy\n+kind fit\n' > wanted
check "the differences of two kinds" differs multi.uimage inside.itb

# Images of the repository.
echo 'kind legacy
name two%20parts
time 1700000000
load 0x00008000
entry 0x00008000
os linux
arch arm
type multi
compression none
part 0 size 15 sha256 165c20c59211509ff30f2c8197cfcd3666bf0ae629a0690061ad86ec2871eae4
part 1 size 14 sha256 547af08074e091f043f8964d61e3c1ebff6a09f7f12f29f79c33b2808d3db601' > wanted
check "the description of an example" sh -c 'bootimg describe "$1" | diff wanted -' sh "$root/examples/two-parts.uimage"
check "no differences of two examples" same "$root/examples/kernel.uimage" "$root/examples/kernel-padded.uimage"

# Changed properties. What fdtput writes has no payloads after the blob.
cp inside.itb changed.itb
fdtput -t x changed.itb /images/kernel-1 load 9000
fdtput -d changed.itb /images/ramdisk-1 os
fdtput -t s changed.itb /configurations/conf-1 script other
echo '-property /images/kernel-1 load 0x00008000
+property /images/kernel-1 load 0x00009000
-property /images/ramdisk-1 os "linux"
+property /configurations/conf-1 script "other"' > wanted
check "the differences of changed properties" differs after.itb changed.itb

# A changed payload.
grep -v crc32 tree.its > payload.its
mkimage -f payload.its yesterday.itb > log 2>&1
before=$(sha256sum < kernel-1 | cut -d ' ' -f 1)
noise 3 70001 > kernel-1
mkimage -E -f payload.its today.itb > log 2>&1
after=$(sha256sum < kernel-1 | cut -d ' ' -f 1)
echo "-payload /images/kernel-1 size 70001 sha256 $before
+payload /images/kernel-1 size 70001 sha256 $after
-property /images/kernel-1/hash-1 value 0x$before
+property /images/kernel-1/hash-1 value 0x$after" > wanted
check "the differences of a changed payload" differs yesterday.itb today.itb

# git diff over descriptions, set up by the two commands of the manual page.
export GIT_CONFIG_GLOBAL=/dev/null GIT_CONFIG_SYSTEM=/dev/null
grep -e '^git config diff\.' -e ' >> \.gitattributes$' "$root/man/bootimg.1" > setup
check "the manual page has two commands for git" test "$(wc -l < setup)" = 2
mkdir repository
cp inside.itb changed.itb repository
cp yesterday.itb repository/board.itb
(cd repository && git init -q && sh ../setup && git add . && git -c user.name=n -c user.email=e commit -q -m images)
cp today.itb repository/board.itb
cp after.itb repository/inside.itb
check "git sees two files that have changed" test "$(git -C repository diff --name-only | paste -sd ' ')" = "board.itb inside.itb"
git -C repository diff -U0 > output
check "git diff shows the differences, and none of images that mean the same" sh -c 'grep "^[-+][a-z]" output | diff wanted -'

# The loop over a directory, as the manual page has it.
sed -n '/^for image in/,/^done/p' "$root/man/bootimg.1" > loop
mkdir old new
cp inside.itb old/same.itb
cp placed.itb new/same.itb
cp yesterday.itb old/changed.itb
cp today.itb new/changed.itb
cp multi.uimage old/missing.uimage
cp multi.uimage 'old/a short one'
head -c 70 multi.uimage > 'new/a short one'
sh loop > output 2> errors
check "the loop names the images that are not as they were" test "$(paste -sd , output)" = \
    "old/a short one,old/changed.itb,old/missing.uimage"
echo 'bootimg: new/a%20short%20one: Truncated at 12
bootimg: new/missing.uimage: cannot be opened' > wanted
check "and why two of them were not compared" diff wanted errors

# Devicetrees as payloads: one with a boot processor, memory reservations and nodes below nodes, and a flattened image tree, which is none.
cat > board.dts << 'END'
/dts-v1/;
/memreserve/ 0x4000 0x100;
/memreserve/ 0x80000000 0x1;
/ {
    model = "board";
    compatible = "acme,one", "acme";
    timestamp = <1>;
    chosen { bootargs = "quiet \"x\""; };
    soc {
        #address-cells = <1>;
        uart@1000 { reg = <0x1000 0x20>; status = "okay"; empty; data = [00 01]; images { }; };
    };
};
END
make_deep() {
    dtc -q -O dtb -b 2 -o fdt-1 board.dts && cp inside.itb ramdisk-1 && mkimage -f tree.its deep.itb && mkimage -E -f tree.its deep-after.itb
}
check "mkimage and dtc make images with such payloads" make_deep
check "the deep description of these payloads" describes deep.itb 0 --deep
check "all of it is there" sh -c 'test "$(grep -c "^inside\|//" wanted)" = 17'
check "the same of payloads after the blob" describes deep-after.itb 0 --deep
mkimage -A arm64 -O linux -T multi -C none -a 8000 -e 8040 -n 'two parts' -d ramdisk-1:fdt-1 deep.uimage > log
python3 wanted.py fdt-1 0 --part 1 > wanted
check "the lines of a part" sh -c 'bootimg describe --deep deep.uimage | sed "1,/^part 1 /d" | diff wanted -'

# What differs inside, as fdtput changes it.
make_other() {
    cp fdt-1 before && fdtput -t s fdt-1 / model other && fdtput -t x fdt-1 /soc/uart@1000 reg 2000 20 && fdtput -d fdt-1 /chosen bootargs &&
        fdtput -c fdt-1 /soc/rtc && mkimage -f tree.its deep-other.itb
}
check "fdtput and mkimage make another image" make_other
echo '-property /images/fdt-1// model "board"
+property /images/fdt-1// model "other"
-property /images/fdt-1//chosen bootargs "quiet \"x\""
-property /images/fdt-1//soc/uart@1000 reg 0x0000100000000020
+property /images/fdt-1//soc/uart@1000 reg 0x0000200000000020
+node /images/fdt-1//soc/rtc' > wanted
check "the differences inside" sh -c 'bootimg compare --deep deep-after.itb deep-other.itb | grep // | diff wanted -'
check "and without the bytes of the payload" sh -c 'bootimg compare --deep --ignore /images/fdt-1//none --ignore "/images/fdt-1/hash@1 value" \
    deep-after.itb deep-other.itb | diff wanted -'
check "no differences without these" bootimg compare --deep --ignore '/images/fdt-1/hash@1 value' --ignore '/images/fdt-1// model' \
    --ignore /images/fdt-1//chosen --ignore /images/fdt-1//soc deep-after.itb deep-other.itb

finish
