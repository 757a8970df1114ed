"""Writes the files that are measured: payloads, sources of flattened image trees, and the images that mkimage makes of them."""
import hashlib
import os
import subprocess

MIB = 1 << 20
LARGE = 64 * MIB
RAMDISK = 16 * MIB
IMAGES = 4_998  # With a hash node each, the root, /images, /configurations and a configuration: 10,000 nodes.


def write(path, data):
    with open(path, "wb") as file:
        file.write(data)


def node(name, kind, data, value=""):
    """The source of an image node with a hash node, whose value mkimage computes. Only a kernel has addresses."""
    places = "load = <0x8000>; entry = <0x8000>; " if kind == "kernel" else ""
    return (
        f'{name} {{ description = "k"; data = {data}; type = "{kind}"; arch = "arm"; os = "linux"; '
        f'compression = "none"; {places}hash-1 {{ {value}algo = "sha256"; }}; }};\n'
    )


def source(path, nodes, listed):
    """Writes the source of a tree with these image nodes, and a configuration."""
    with open(path, "w") as file:
        file.write('/dts-v1/;\n/ { description = "k"; #address-cells = <1>;\nimages {\n')
        file.writelines(nodes)
        file.write('};\nconfigurations { default = "conf-1"; conf-1 { description = "k"; ' + listed + " }; };\n};\n")


def tool(*command):
    """Runs a tool, and ends with its output if it fails."""
    result = subprocess.run(command, stdin=subprocess.DEVNULL, stdout=subprocess.PIPE, stderr=subprocess.STDOUT)
    if result.returncode != 0:
        raise SystemExit(f"{' '.join(command)}: status {result.returncode}\n{result.stdout.decode()}")


payload = os.urandom(LARGE)
write("payload", payload)
write("kernel", payload[:-RAMDISK])
write("ramdisk", payload[-RAMDISK:])
small = [b"image %d" % index for index in range(IMAGES)]
write("many", b"".join(small))
with open("many.sizes", "w") as sizes:
    sizes.writelines(f"{len(data)}\n" for data in small)

source("one.its", [node("kernel-1", "kernel", '/incbin/("payload")')], 'kernel = "kernel-1";')
parts = [node("kernel-1", "kernel", '/incbin/("kernel")'), node("ramdisk-1", "ramdisk", '/incbin/("ramdisk")')]
source("two.its", parts, 'kernel = "kernel-1"; ramdisk = "ramdisk-1";')
# mkimage has room for 64 KiB of values that are not in the source.
nodes = [
    node(f"image-{index}", "ramdisk", f"[{data.hex()}]", f"value = [{hashlib.sha256(data).hexdigest()}]; ")
    for index, data in enumerate(small)
]
source("many.its", nodes, 'ramdisk = "image-0";')

header = "-A arm -O linux -T kernel -C none -a 0x8000 -e 0x8000 -n k".split()
tool("mkimage", *header, "-d", "payload", "large.uimage")
tool("mkimage", "-f", "two.its", "two.itb")
tool("mkimage", "-E", "-f", "two.its", "two-external.itb")
tool("mkimage", "-f", "many.its", "many.itb")
