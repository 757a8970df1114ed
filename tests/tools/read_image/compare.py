"""Compares the outcomes of the calls of the library that read an image with the lines that `list` has to print for the vectors.

compare.py PROGRAM DIRECTORY: PROGRAM is tests/tools/read_image, and DIRECTORY what `tests/conformance/run --export` wrote. Prints a line
for each difference, and last `N passed, M failed`.
"""

import json
import subprocess
import sys
from pathlib import Path

# The causes of the checks of a flattened image tree that come after those of the blob.
AFTER_BLOB = {"NoImages", "BadCell", "NoSize", "OutsideFile"}


def wanted_lines(file, fault):
    """The lines of the program for a file with this fault, or "ok"."""
    if file[:4] != b"\xd0\x0d\xfe\xed":
        return [fault]
    return [fault, "ok" if fault.split()[0] in AFTER_BLOB else fault]


def main():
    program, directory = sys.argv[1], Path(sys.argv[2])
    passed = failed = 0
    for run in json.loads((directory / "runs.json").read_text(encoding="utf-8")):
        command, *options = run["arguments"]
        if command != "list" or options and (options[0] != "--limit" or len(options) != 2) or run["errors"].startswith(("usage", "*")):
            continue
        limit = int(options[1], 0) if options else 0x7FFFFFFF
        file = (directory / run["file"]).read_bytes()
        result = subprocess.run([program, str(limit)], input=file, capture_output=True, timeout=60, check=False)
        wanted = wanted_lines(file, run["errors"] or "ok")
        got = result.stdout.decode().splitlines()
        if got == wanted and result.returncode == 0:
            passed += 1
        else:
            failed += 1
            print(f"FAILED: {run['group']}: {run['file']}, limit {limit}: {wanted} is wanted, {got} is returned")
    print(f"{passed} passed, {failed} failed")


main()
