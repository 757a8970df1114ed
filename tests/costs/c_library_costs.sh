#!/bin/sh
# Measures what normalising 64 MiB by the library for C takes: a legacy image and a flattened image tree. It fails if a call takes more than
# 1.05 times as long as the program with the same file, which also reads it and writes the output; or more than twice as long as a call
# without a buffer, which checks the file and counts the output, and copying as many bytes. A call took less than half as long as the
# program, and as long as these two. Each is the median of the rounds, and the ratios are printed.
# Then it measures what the module for Python takes to read one property of each of 577 nodes of a tree with 576 devicetrees, and one value
# and the payload of each of 900 images, after `bootimg.open`. The bounds are in tests/costs/many_nodes.py. The script needs gcc and python3,
# and installs Debian's if one is missing and it runs as root.
set -u

root=$(cd "$(dirname "$0")/../.." && pwd)
. "$root/tests/kit"

need gcc gcc
need python3 python3
need_program
need_c_library
work_in_new_directory
program=$root/crates/bootimg/out/bootimg

noise 1 67108864 > payload
"$program" build-legacy --os linux --arch arm64 --type kernel < payload > legacy
"$program" build-fit kernel-1:kernel:arm64:linux:none:-:-:67108864 < payload > tree
check "the program that measures is compiled" gcc -O2 -std=c99 -Wall -Wextra -Werror -I"$root/include" \
    "$root/tests/costs/timing.c" "$library" "$heap" -o timing
[ "$failed" = 0 ] || finish

cat > judge.py << 'END'
"""Prints and judges what the calls on a file take: judge.py PROGRAM FILE."""
import statistics
import subprocess
import sys
import time

program, path = sys.argv[1:]


def run_program():
    with open(path, "rb") as source:
        begin = time.perf_counter()
        subprocess.run([program, "normalise"], stdin=source, stdout=subprocess.DEVNULL, check=True)
        return time.perf_counter() - begin


runs = [run_program() for _ in range(11)]
lines = subprocess.run(["./timing", path, "11"], capture_output=True, text=True, check=True).stdout.splitlines()
rounds = [tuple(map(float, line.split())) for line in lines]
call = statistics.median(filled for filled, _, _ in rounds)
least = statistics.median(filled / (counted + copied) for filled, counted, copied in rounds)
whole = call / statistics.median(runs)
print(f"{path}: a call takes {call:.4f} s: {whole:.2f} times the program, {least:.3f} times checking and copying")
sys.exit(whole > 1.05 or least > 2)
END
for image in legacy tree; do
    if python3 judge.py "$program" "$image"; then
        add_counts 1 0
    else
        add_counts 0 1
        echo "FAILED: normalising 64 MiB: $image"
    fi
done

# The module.
check "the shared library is linked" gcc -shared -o libbootimg.so -Wl,--whole-archive "$library" -Wl,--no-whole-archive "$heap"
BOOTIMG_LIBRARY=$PWD/libbootimg.so
PYTHONPATH=$root/python
export BOOTIMG_LIBRARY PYTHONPATH
passes python3 -B "$root/tests/costs/many_nodes.py"
finish
