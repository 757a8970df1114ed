"""Measures list and normalise beside reading alone, and beside reading and one write, and prints a table in Markdown."""
import sys

from measuring import MIB, describe, measure

PROGRAM, BASELINE, ROUNDS = sys.argv[1], sys.argv[2], int(sys.argv[3])
READ, COPY = "read", "read and write"
COMMANDS = {
    READ: [BASELINE, "read"],
    COPY: [BASELINE],
    "list": [PROGRAM, "list"],
    "normalise": [PROGRAM, "normalise"],
    "normalise --external": [PROGRAM, "normalise", "--external"],
    "cat": ["cat"],
    "dd bs=64k": ["dd", "bs=64k"],
    "python3": ["python3", "-c", "import sys; sys.stdout.buffer.write(sys.stdin.buffer.read())"],
}

describe(ROUNDS)
print("| file | command | beside | ms | ratio | MiB |")
print("| --- | --- | --- | ---: | ---: | ---: |")
for name, path in [("payloads inside", "two.itb"), ("payloads after", "two-external.itb")]:
    results = dict(zip(COMMANDS, measure([(command, path) for command in COMMANDS.values()], ROUNDS)))
    for command, (seconds, memory) in results.items():
        base = READ if command in (READ, "list") else COPY
        ratio = seconds / results[base][0]
        print(f"| {name} | `{command}` | {base} | {1000 * seconds:.1f} | {ratio:.2f} | {memory / MIB:.1f} |")
