#!/bin/sh
# Gives list, verify, check and scan 500 files in one call, of which most are refused: wrong bytes in the examples, files that are cut
# short, and noise. The call has to do what 500 calls do: the same lines, with the name of its file in each, and the same lines of errors.
# So no file is skipped, and each that is refused has its line. With -o no output file is written then. Needs python3, and installs
# Debian's if it is missing and the script runs as root.
set -u

root=$(cd "$(dirname "$0")/../.." && pwd)
. "$root/tests/setup"

need python3 python3
need_program
work_in_new_directory

cat > several.py << 'END_OF_PROGRAM'
"""Makes 500 files, and compares one call with all of them with a call for each."""
import json
import os
import random
import sys
from concurrent.futures import ThreadPoolExecutor
from pathlib import Path

from runs import answer_of

PROGRAM, EXAMPLES = sys.argv[1:]
MAGICS = (b"\x27\x05\x19\x56", b"\xd0\x0d\xfe\xed")
passed = failed = 0


def judge(name, good):
    global passed, failed
    passed, failed = passed + good, failed + (not good)
    if not good:
        print(f"FAILED: {name}")


def changed(source, image):
    """An image with some other bytes, an end that is missing, or another number in a field."""
    bytes_ = bytearray(image)
    for _ in range(source.randrange(4)):
        bytes_[source.randrange(min(len(bytes_), 200))] = source.randrange(256)
    if source.random() < 0.4:
        del bytes_[source.randrange(len(bytes_)):]
    if source.random() < 0.3 and len(bytes_) >= 64:
        at = 4 * source.randrange(16)
        bytes_[at:at + 4] = source.choice((b"\xff\xff\xff\xff", b"\x7f\xff\xff\xff", b"\x80\0\0\0", b"\0\0\0\0"))
    return bytes(bytes_)


def labelled(name, text, is_json):
    """The text about an image, with the name of the image in each line."""
    before, after = (f'{{"file":{json.dumps(name)},"result":', "}\n") if is_json else (f"{name}: ", "\n")
    return b"".join(before.encode() + line + after.encode() for line in text.split(b"\n")[:-1])


source = random.Random(7)
examples = sorted(path for path in Path(EXAMPLES).rglob("*") if path.suffix in (".itb", ".uimage", ".scr"))
images = [path.read_bytes() for path in examples]
names, shown = [], []
for number in range(500):
    image = source.choice(MAGICS) + source.randbytes(99) if number % 10 == 0 else changed(source, source.choice(images))
    name = f"a b\\{number}" if number % 50 == 7 else f"image-{number}"
    Path(name).write_bytes(image)
    names.append(name)
    shown.append(name.replace(" ", "%20"))
for name in names[99::100]:
    os.remove(name)

for words in (["list"], ["list", "--json"], ["verify"], ["verify", "--json"], ["check"], ["check", "--json"], ["scan"], ["scan", "--json"]):
    with ThreadPoolExecutor(os.cpu_count()) as pool:
        calls = list(pool.map(lambda name: answer_of(PROGRAM, [*words, name], b""), names))
    status, output, errors = answer_of(PROGRAM, [*words, *names], b"")
    command = " ".join(words)
    refused = sum(status == 2 for status, _, _ in calls)
    judge(f"{command}: some files are refused, and some are not", (5 if words[0] == "scan" else 100) <= refused <= 450)
    judge(f"{command}: a line for each file that is refused", errors.count(b"\n") == refused)
    judge(f"{command}: the lines of errors", errors == b"".join(errors for _, _, errors in calls))
    judge(f"{command}: the status is the greatest", status == max(status for status, _, _ in calls) == 2)
    texts = [labelled(name, text, "--json" in words) for name, (_, text, _) in zip(shown, calls)]
    judge(f"{command}: the lines of all files", output == b"".join(texts))
    Path("output").write_bytes(b"before")
    status, output, also = answer_of(PROGRAM, [*words, "-o", "output", *names], b"")
    judge(f"{command}: the output file is as it was", (status, output, also, Path("output").read_bytes()) == (2, b"", errors, b"before"))
    good = [number for number, (status, _, _) in enumerate(calls) if status < 2]
    status, output, also = answer_of(PROGRAM, [*words, "-o", "output", *(names[number] for number in good)], b"")
    judge(f"{command}: the status without those that are refused", status == max(calls[number][0] for number in good))
    judge(f"{command}: the output file has the lines of all", Path("output").read_bytes() == b"".join(texts[number] for number in good))
    judge(f"{command}: nothing else is written", output + also == b"")
print(f"{passed} passed, {failed} failed")
sys.exit(failed != 0)
END_OF_PROGRAM
passes env PYTHONPATH="$root/tests/tools" python3 -B several.py "$root/crates/bootimg/out/bootimg" "$root/examples"
finish
