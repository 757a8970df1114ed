"""Prints what U-Boot's `iminfo` printed about an image, as boots.sh prints what `bootimg` says: a line for each fact, sorted.
facts.py ANSWER.
"""

import calendar
import re
import sys
import time

# The names of codes, from the tables in U-Boot's boot/image.c.
CODES = {
    "AArch64": "arm64",
    "Linux": "linux",
    "U-Boot": "u-boot",
    "Kernel Image": "kernel",
    "RAMDisk Image": "ramdisk",
    "Multi-File Image": "multi",
    "Standalone Program": "standalone",
    "Script": "script",
    "Flat Device Tree": "flat_dt",
    "uncompressed": "none",
    "gzip compressed": "gzip",
}
PROPERTIES = {
    "Description": "description",
    "Type": "type",
    "Architecture": "arch",
    "OS": "os",
    "Compression": "compression",
    "Load Address": "load",
    "Entry Point": "entry",
    "Kernel": "kernel",
    "Init Ramdisk": "ramdisk",
    "FDT": "fdt",
}


def seconds(date):
    return calendar.timegm(time.strptime(date, "%Y-%m-%d %H:%M:%S UTC"))


def size(text):
    """The number in `N Bytes = ..`."""
    return int(text.split()[0])


def legacy_facts(lines):
    parts, whole = [], []
    for name, value in lines:
        if name == "Image Name":
            yield f"name {value}"
        elif name == "Created":
            yield f"time {seconds(value)}"
        elif name == "Image Type":
            codes = re.fullmatch(r"(\S+) (\S+) (.*) \((.*)\)", value).groups()
            yield from (f"{field} {CODES[code]}" for field, code in zip(("arch", "os", "type", "compression"), codes))
        elif name in ("Load Address", "Entry Point"):
            yield f"{PROPERTIES[name]} 0x{value}"
        elif name == "Data Size":
            whole.append(f"part 0 size {size(value)}")
        elif re.fullmatch(r"Image \d+", name):
            parts.append(f"part {name[6:]} size {size(value)}")
        elif name == "Verifying Checksum ... OK":
            yield "data crc32 good"
    yield from parts or whole


def fit_facts(lines, address):
    node = "/"
    for name, value in lines:
        begun = re.fullmatch(r"(?:Image|Configuration) \d+ \((.*)\)", name)
        verdicts = re.fullmatch(r"Hash\(es\) for Image \d+ \((.*)\)", name)
        if begun:
            node = begun[1]
        elif verdicts:
            yield from (f"{verdicts[1]} good {mark[:-1]}" for mark in value.split() if mark.endswith("+"))
        elif name == "FIT description":
            yield f"/ description {value}"
        elif name == "Created":
            yield f"/ timestamp {seconds(value):#010x}"
        elif name == "Default Configuration":
            yield f"default {value.strip(chr(39))}"
        elif name == "Data Start":
            yield f"{node} at {int(value, 16) - address}"
        elif name == "Data Size":
            yield f"{node} size {size(value)}"
        elif name == "Hash algo":
            algo = value
        elif name == "Hash value":
            yield f"{node} hash {algo} {value}"
        elif name in PROPERTIES and value != "unavailable":
            yield f"{node} {PROPERTIES[name]} {CODES.get(value, value)}"


def main(path):
    lines = [" ".join(line.split()) for line in open(path)]
    pairs = [(name, value.strip()) for name, _, value in (line.partition(":") for line in lines)]
    if "FIT image found" in lines:
        address = next(int(line.split()[4], 16) for line in lines if line.startswith("## Checking Image at "))
        facts = fit_facts(pairs, address)
    else:
        facts = legacy_facts(pairs)
    print("\n".join(sorted(set(facts))))


if __name__ == "__main__":
    main(sys.argv[1])
