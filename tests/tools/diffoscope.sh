#!/bin/sh
# Tries contrib/diffoscope-fit.patch, with which diffoscope compares the lines of `bootimg describe --deep` of two flattened image trees:
# the patch applies to the diffoscope that is installed, which then prints the differences that fdtput made, also inside a devicetree; none
# of these lines for images that mean the same; and the error of an image that bootimg refuses. Without bootimg it prints what it printed
# before. The script needs Debian's git, device-tree-compiler and u-boot-tools, and installs them if one is missing and it runs as root.
# Without diffoscope (diffoscope-minimal), which it does not install, only the form of the patch is checked.
set -u

root=$(cd "$(dirname "$0")/../.." && pwd)
. "$root/tests/setup"
patch=$root/contrib/diffoscope-fit.patch
file=diffoscope/comparators/fit.py

need git git
need device-tree-compiler fdtput
need u-boot-tools dumpimage
check "the patch changes one file" test "$(git apply --numstat "$patch" | cut -f 3)" = $file
if ! command -v diffoscope > /dev/null; then
    echo "left out: diffoscope with the patch, since it is not installed (Debian: diffoscope-minimal)"
    finish
fi
need_program
work_in_new_directory

# The modules of the installed diffoscope, by its own interpreter, and a copy of them with the patch.
python=$(sed -n '1s/^#! *//p' "$(command -v diffoscope)")
modules=$($python -c 'import diffoscope; print(diffoscope.__path__[0])')
mkdir patched path
cp -R "$modules" patched
check "the patch applies to $(diffoscope --version)" git apply --directory=patched "$patch"
[ "$failed" = 0 ] || finish
ln -s "$root/crates/bootimg/out/bootimg" path

# compare STATUS ONE OTHER: the diffoscope with the patch ends with this status. What it prints is in the file `output`, and the lines of
# descriptions that only one image has in the file `lines`.
compare() {
    PATH=$PWD/path:$PATH PYTHONPATH=$PWD/patched diffoscope --text output "$2" "$3" > log 2>&1
    [ $? = "$1" ] || { cat log; return 1; }
    touch output
    grep -oE '[-+](kind|boot-cpu|node|property|payload|inside) .*' output > lines || true
}

# differs ONE OTHER: it prints the lines in the file `wanted`.
differs() {
    compare 1 "$1" "$2" && diff wanted lines
}

cp "$root/examples/board.itb" "$root/examples/board-external.itb" .
make_other() {
    ./path/bootimg extract --image fdt-1 -o board.dtb board.itb && fdtput -t s board.dtb / model 'other board' &&
        ./path/bootimg update --payload fdt-1=@board.dtb -o other.itb board.itb && fdtput -t x other.itb /images/kernel-1 load 80200000
}
check "bootimg and fdtput make another image" make_other
dumpimage -T flat_dt -p 2 -o before.dtb board.itb > log
echo "-property /images/kernel-1 load 0x80080000
+property /images/kernel-1 load 0x80200000
-payload /images/fdt-1 size $(wc -c < before.dtb) sha256 $(sha256sum < before.dtb | cut -d ' ' -f 1)
+payload /images/fdt-1 size $(wc -c < board.dtb) sha256 $(sha256sum < board.dtb | cut -d ' ' -f 1)
-property /images/fdt-1// model \"example board\"
+property /images/fdt-1// model \"other board\"" > wanted
check "diffoscope prints what differs, also inside" differs board.itb other.itb
check "and says by which command" grep -q '^├── bootimg describe --deep {}$' output
: > wanted
check "no line differs of images that mean the same" differs board.itb board-external.itb

# An image whose payloads are cut is a tree for dumpimage and fdtget, and bootimg refuses it.
head -c -10 board-external.itb > cut.itb
./path/bootimg describe --deep board-external.itb | sed 's/^/-/' > wanted
check "all lines differ of an image that is refused" differs board-external.itb cut.itb
check "and the error is there" grep -q '^│┄ bootimg: cut.itb: OutsideFile at ' output

# Without bootimg.
rm path/bootimg
if command -v bootimg > /dev/null; then
    echo "left out: diffoscope without bootimg, which is installed"
    finish
fi
: > wanted
check "nothing is described without bootimg" differs board.itb other.itb
cp output with
diffoscope --text output board.itb other.itb > log 2>&1
check "and diffoscope prints what it does without the patch" cmp with output
finish
