#!/bin/sh
# Devicetree blobs that Debian's dtc makes, of versions 17 and 16, with padding, free space, alignment, memory reservations and
# symbols: they are read as fdtget and fdtdump print them. Four large shapes are timed: a search that is quadratic would take
# more than thirty times what sha256sum takes. The program that reads them is tests/calls/print_blob. It needs Debian's
# device-tree-compiler and python3, and installs them if one is missing and it runs as root.
set -u

root=$(cd "$(dirname "$0")/../.." && pwd)
. "$root/tests/kit"

need device-tree-compiler dtc fdtget fdtdump
need python3 python3
need coreutils sha256sum

need_libraries
work_in_new_directory

check "the program is built" build_test_program print_blob "$root/tests/calls/print_blob/main.rt.source" "bi_fdt bi_base"
[ "$failed" = 0 ] || finish
program=$work/print_blob

# nodes FILE PATH NAME: the node at this path and all below it, as fdtget shows them and print_blob prints them.
nodes() {
    echo "node $3"
    for property in $(fdtget -p "$1" "$2"); do
        value=$(fdtget -t bx "$1" "$2" "$property")
        echo "property $property${value:+ $value}"
    done
    for child in $(fdtget -l "$1" "$2"); do
        nodes "$1" "${2%/}/$child" "$child"
    done
    echo end
}

# shown FILE: the blob as fdtdump and fdtget print it.
shown() {
    fdtdump "$1" 2> /dev/null > dump
    sed -n 's|^// totalsize:.*(\([0-9]*\))$|totalsize \1|p' dump
    sed -n 's|^// boot_cpuid_phys:[^0-9]*\([0-9a-fx]*\)$|\1|p' dump | while read -r number; do
        echo "boot_cpuid_phys $((number))"
    done
    sed -n 's|^/memreserve/ 0x\([0-9a-f]*\) 0x\([0-9a-f]*\);$|memreserve \1 \2|p' dump
    nodes "$1" / ""
}

# reads FILE: the program prints the blob as these tools do.
reads() {
    shown "$1" | sed 's/ $//' > wanted
    "$program" < "$1" > printed && sed -i "s/ $//" printed && diff wanted printed
}

cat > board.dts <<'DTS'
/dts-v1/;
/memreserve/ 0x10000000 0x4000;
/memreserve/ 0x2000000000 0x100;
/ {
    #address-cells = <2>;
    #size-cells = <1>;
    compatible = "acme,board", "acme,chip";
    flag;
    aliases { serial0 = &uart; };
    cpus { #address-cells = <1>; #size-cells = <0>; cpu@0 { reg = <0>; }; cpu@1 { reg = <1>; }; };
    soc {
        ranges;
        uart: serial@1000 { reg = <0 0x1000 0x100>; status = "okay"; bytes = [00 ff 10 07]; };
        gpio: gpio@2000 { reg = <0 0x2000 0x100>; gpio-controller; leds { led { pin = <&gpio 3>; }; }; };
    };
    chosen { bootargs = ""; };
};
DTS
printf '/dts-v1/;\n/ { };\n' > empty.dts
for source in board empty; do
    for version in 17 16; do
        for options in "" "-a 64" "-p 100" "-S 4096" "-R 4" "-b 3" "-@" "-s" "-a 8 -p 1 -R 2 -@"; do
            # shellcheck disable=SC2086
            dtc -q -I dts -O dtb -V "$version" $options -o blob.dtb "$source.dts" || { add_counts 0 1; continue; }
            check "dtc -V $version $options $source.dts" reads blob.dtb
        done
    done
done

# Large shapes: a node with 100,000 properties or children, 100,000 tokens FDT_NOP, and 500 chains of 60 nodes.
cat > shapes.py <<'PY'
import subprocess, sys, time
from blobs import NOP, blob, node_around, property_at
def tree(inside, strings=b''):
    return blob(node_around(b'', inside), strings)
def shape(name, n):
    if name == 'properties':
        return tree(b''.join(property_at(9 * i) for i in range(n)), b''.join(b'p%07d\0' % i for i in range(n)))
    if name == 'children':
        return tree(b''.join(node_around(b'n%07d' % i, b'') for i in range(n)))
    if name == 'nops':
        return tree(NOP * n)
    chain = b''
    for i in reversed(range(59)):
        chain = node_around(b'c%d' % i, chain)
    return tree(b''.join(node_around(b't%d' % i, chain) for i in range(n // 200)))
def took(command, data):
    best = 1e9
    for _ in range(9):
        before = time.perf_counter()
        subprocess.run(command, input=data, stdout=subprocess.DEVNULL, check=True)
        best = min(best, time.perf_counter() - before)
    return best
name, program = sys.argv[1:]
data = shape(name, 100000)
ours, sums = took([program, 'count'], data), took(['sha256sum'], data)
print('%s: %.1f ms, sha256sum %.1f ms' % (name, 1000 * ours, 1000 * sums))
# It takes three to six times as long if sha256sum takes 5 ms a MB. Some processors have instructions for SHA-256.
sys.exit(ours > 30 * sums)
PY
for shape in properties children nops chains; do
    check "$shape are read in at most thirty times what sha256sum takes" python_with_blobs shapes.py "$shape" "$program"
done
finish
