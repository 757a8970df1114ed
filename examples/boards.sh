#!/bin/sh
# boards.sh N: writes the source of a FIT with a kernel, and with a devicetree and a configuration for each of N boards. A line of text
# stands for the kernel, and one for each devicetree.
hash='hash-1 { algo = "sha256"; };'
echo '/dts-v1/;'
echo "/ { description = \"$1 boards\"; timestamp = <1700000000>; #address-cells = <1>;"
echo 'images {'
echo 'kernel { description = "kernel"; type = "kernel"; os = "linux"; arch = "arm64"; compression = "none";'
echo "load = <0x80080000>; entry = <0x80080000>; data = \"kernel\"; $hash };"
for board in $(seq -w "$1"); do
    echo "fdt-$board { description = \"devicetree\"; type = \"flat_dt\"; arch = \"arm64\"; compression = \"none\";"
    echo "data = \"devicetree of board $board\"; $hash };"
done
echo '};'
echo "configurations { default = \"board-$(seq -w "$1" | head -n 1)\";"
for board in $(seq -w "$1"); do
    echo "board-$board { kernel = \"kernel\"; fdt = \"fdt-$board\"; compatible = \"maker,board-$board\"; };"
done
echo '}; };'
