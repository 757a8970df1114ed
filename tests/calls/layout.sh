#!/bin/sh
# Blobs that Debian's dtc makes, laid out again: tests/calls/layout/events.py has fdtget and fdtdump print what each blob has, a
# program builds documents from that and writes their texts, and dtc and fdtdump print of each text what they print of the
# blob that it comes from, except for the order of properties and nodes. It needs Debian's device-tree-compiler and python3, and
# installs them if one is missing and it runs as root. The program is tests/calls/layout/main.rt.source.
set -u

root=$(cd "$(dirname "$0")/../.." && pwd)
. "$root/tests/kit"

need device-tree-compiler dtc fdtget fdtdump
need python3 python3

work_in_new_directory

# compile NAME [OPTION..]: a blob, whose source is on standard input.
compile() {
    name=$1
    shift
    dtc -q -O dtb -o "$name" "$@" -
}

compile empty.dtb << END
/dts-v1/;
/ { };
END

compile shared_tail.dtb << END
/dts-v1/;
/ { device = [02]; boot-device = [01]; images { }; };
END

compile board.dtb -b 3 << END
/dts-v1/;
/memreserve/ 0x10000000 0x4000;
/memreserve/ 0x123456789abcdef0 0x1;
/ {
    #address-cells = <1>;
    #size-cells = <1>;
    model = "A board";
    compatible = "vendor,board", "vendor,family";
    interrupt-parent = <&gic>;
    aliases { serial0 = &uart1; serial1 = &uart0; };
    chosen { bootargs = "console=ttyS0,115200"; stdout-path = "serial0:115200n8"; };
    memory@80000000 { device_type = "memory"; reg = <0x80000000 0x20000000>; };
    cpus {
        #address-cells = <1>;
        #size-cells = <0>;
        cpu@1 { device_type = "cpu"; reg = <1>; };
        cpu@0 { device_type = "cpu"; reg = <0>; };
    };
    soc {
        #address-cells = <1>;
        #size-cells = <1>;
        compatible = "simple-bus";
        ranges;
        gic: interrupt-controller@1000 {
            compatible = "arm,gic-400";
            interrupt-controller;
            #interrupt-cells = <3>;
            reg = <0x1000 0x1000>, <0x2000 0x2000>;
        };
        uart0: serial@9000 { compatible = "ns16550a"; reg = <0x9000 0x100>; clock-frequency = <24000000>; };
        uart1: serial@a000 { compatible = "ns16550a"; reg = <0xa000 0x100>; mac = [00 11 22 33 44]; };
    };
};
END

compile padded.dtb -p 4096 -R 5 -V 17 << END
/dts-v1/;
/ { b = [01 02 03]; a; c { d = ""; }; };
END

compile version_16.dtb -V 16 << END
/dts-v1/;
/ { compatible = "old"; node { compatible = "older"; reg = <1 2 3>; }; };
END

python3 -c 'import sys; sys.stdout.buffer.write(bytes(range(256)) * 256 + b"end")' > kernel
compile images.dtb << END
/dts-v1/;
/ {
    timestamp = <1000000000>;
    description = "Images";
    #address-cells = <1>;
    images {
        kernel-1 {
            description = "Linux";
            data = /incbin/("kernel");
            type = "kernel";
            arch = "arm";
            os = "linux";
            compression = "none";
            load = <0x8000>;
            entry = <0x8000>;
            hash-1 { algo = "crc32"; value = <0x12345678>; };
            hash-2 { value = [00]; algo = "sha256"; };
        };
    };
    configurations { default = "conf-1"; conf-1 { kernel = "kernel-1"; }; };
};
END

nodes=30
source=""
while [ "$nodes" -gt 0 ]; do
    source="n { x = <$nodes>; $source };"
    nodes=$((nodes - 1))
done
echo "/dts-v1/; / { $source };" | compile deep.dtb

names="empty shared_tail board padded version_16 images deep"
for one in $names; do
    check "dtc makes $one" test -s "$one.dtb"
done
[ "$failed" = 0 ] || finish
check "fdtget and fdtdump say what the blobs have" sh -c \
    "python3 '$root/tests/calls/layout/events.py' $(for name in $names; do printf '%s.dtb ' "$name"; done) > events"
[ "$failed" = 0 ] || finish

test_crate layout_of_events "bi_lay bi_base"
link_tests layout main
try_crate --steps 20000000 --seconds 60 < events > texts 2> errors
check "the program writes texts" test -s texts
[ "$failed" = 0 ] || { tail -n 20 errors; finish; }

# Each text has as many bytes as its header states.
check "the texts are one after the other" python3 -c '
import sys
texts = open("texts", "rb").read()
for name in sys.argv[1:]:
    size = int.from_bytes(texts[4:8], "big")
    assert len(texts) >= size > 0 and size % 4 == 0
    open(name + ".text", "wb").write(texts[:size])
    texts = texts[size:]
assert not texts' $names
[ "$failed" = 0 ] || finish

# printed FILE: what dtc prints of a blob, its properties and nodes sorted.
printed() {
    dtc -q -s -I dtb -O dts "$1"
}

# dumped FILE: what fdtdump prints of a blob without its header except the boot processor, the lines sorted.
dumped() {
    fdtdump "$1" 2> /dev/null | sed '/^\/\/ [^b]/d' | sort
}

# same COMMAND NAME: the command prints the same of the text as of the blob.
same() {
    "$1" "$2.dtb" > wanted && "$1" "$2.text" > output && [ -s output ] && cmp wanted output
}

for one in $names; do
    check "dtc prints the same of $one" same printed "$one"
    check "fdtdump prints the same of $one" same dumped "$one"
done
check "two names share no bytes" grep -aq "boot-device.device" shared_tail.text
finish
