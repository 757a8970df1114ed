"""Measures what the module for Python takes to look into large trees, and fails if that is more than a bound.

A FIT of 576 devicetrees and a kernel: one property of each image. A FIT of 900 images: the payload of each by its path, and by its
name. Each is done with a new image in each round, without `bootimg.open`, and the shortest round counts, since other programs of the
machine only lengthen one. The last line is `N passed, M failed`.
"""

import sys
import time

import bootimg

ROUNDS = 15


def tree_of(count):
    """A FIT with so many devicetrees of 2 KiB, and a kernel."""
    codes = ("linux", "arm64")
    trees = (bootimg.BuildImage(f"fdt-{number}", bytes([number % 256]) * 2048, *codes, "flat_dt") for number in range(count))
    return bootimg.build_fit([bootimg.BuildImage("kernel-1", b"a kernel", *codes, "kernel", load=0x80000), *trees], "many", 7)


def types_of(image):
    """A property of each image."""
    return [one.properties["type"].texts for one in image.images]


def values_of(image):
    """The payload of each image, by its path."""
    return [image.property_value(f"/images/{one.name}", "data") for one in image.images]


def payloads_of(image):
    """The payload of each image, by its name."""
    return [bytes(image.image(one.name).payload) for one in image.images]


failed = 0
for what, call, count, most in (
    ("577 properties", types_of, 577, 0.05),
    ("900 values", values_of, 900, 0.1),
    ("900 payloads", payloads_of, 900, 0.1),
):
    file = tree_of(count - 1)
    taken = []
    for _ in range(ROUNDS):
        with bootimg.open(file) as image:
            begin = time.perf_counter()
            found = call(image)
            taken.append(time.perf_counter() - begin)
            assert len(found) == count
            del found
    shortest = min(taken)
    print(f"{what} of {len(file)} bytes take {shortest:.4f} s, and at most {most} s")
    failed += shortest > most
    if shortest > most:
        print(f"FAILED: {what}")
print(f"{3 - failed} passed, {failed} failed")
sys.exit(failed != 0)
