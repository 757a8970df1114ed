"""Compares the pages that a program shows with what `mkimage -l`, `dumpimage` and `date` print.

outside.py [--only TEXT] PROGRAM DIRECTORY: for each file in the directory that `mkimage -l` and `show` accept, page.py reads the page, and
of it the lines are made that `mkimage -l` prints: all but the descriptions of images and configurations, the values of hashes and
signatures, and the nodes `fpga`, which a page does not have. Of each image `dumpimage` writes the payload, whose digest by python3 says
whether the value that `mkimage -l` prints is right: the verdict on the page. `date` prints the dates.

It adds to the files a legacy image for each number that a code can be, and for times at the bounds of days, months and years.
--only tries files whose names contain TEXT. With `reference` as PROGRAM tests/conformance/reference.py is tried. The last line is
`N passed, M failed`.
"""

import calendar
import datetime
import hashlib
import itertools
import os
import re
import struct
import subprocess
import sys
import tempfile
import zlib
from concurrent.futures import ThreadPoolExecutor
from pathlib import Path

sys.dont_write_bytecode = True
sys.path.insert(0, str(Path(__file__).resolve().parents[2] / "conformance"))
import page
import reference
from page import WrongPage, page_of

# Lines of `mkimage -l` that are not made of a page.
LEFT_OUT = re.compile(rb"  (?:Description|FPGA|Hash value|Sign value|Timestamp): |HAB Blocks:|    Offset = | Default Configuration: ''$")
WITH_ARCH = ("kernel", "standalone", "ramdisk", "firmware", "flat_dt")
WITH_OS = ("kernel", "ramdisk", "firmware")
WITH_LOAD = ("kernel", "standalone", "firmware", "ramdisk", "fpga")
WITH_ENTRY = ("kernel", "standalone", "ramdisk")
UNKNOWN = {
    "arch": b"Unknown Architecture", "os": b"Unknown OS", "type": b"Unknown Image", "compression": b"Unknown Compression"}
DIGESTS = {name: lambda data, n=name: hashlib.new(n, data).hexdigest() for name in ("md5", "sha1", "sha256", "sha384", "sha512")}
DIGESTS["crc32"] = lambda data: f"{zlib.crc32(data):08x}"
ENVIRONMENT = os.environ | {"TZ": "UTC", "LC_ALL": "C"}


def run(*command, **how):
    return subprocess.run(command, capture_output=True, timeout=60, check=False, env=ENVIRONMENT, **how)


def long_names():
    """For each field, the names of codes with those that `mkimage -l` prints."""
    found = {}
    for field, option in (("arch", "-A"), ("os", "-O"), ("type", "-T"), ("compression", "-C")):
        lines = run("mkimage", option, "list").stderr.decode().splitlines()
        found[field] = dict(re.fullmatch(r"\t(\S+) +(\S.*)", line).groups() for line in lines if line.startswith("\t"))
    found["arch"]["ppc"] = found["arch"]["powerpc"]
    return found


NAMES = long_names()


def date_of(seconds):
    """A time as ctime prints it in UTC."""
    day = datetime.datetime.fromtimestamp(seconds, datetime.timezone.utc)
    return day.strftime("%a %b ").encode() + b"%2d" % day.day + day.strftime(" %H:%M:%S %Y").encode()


def amount(size):
    return b"%d Bytes = %.2f KiB = %.2f MiB" % (size, size / 1024, size / 1048576)


class AnyLine(bytes):
    """The beginning of a line whose end a page does not tell."""


def lines_of_legacy(shown):
    head = shown.head
    yield b"Image Name:   " + page.text(head["name"])
    yield b"Created:      " + date_of(page.seconds(head["date"]))
    words = [NAMES[field][head[field]].encode() if head[field] in NAMES[field] else UNKNOWN[field] for field in ("arch", "os", "type")]
    compression = NAMES["compression"].get(head["compression"], UNKNOWN["compression"].decode()).encode()
    yield b"Image Type:   " + b" ".join(words) + b" (" + compression + b")"
    sizes = [page.number(row["size"]) for row in shown.rows("part")]
    has_table = head["type"] in ("multi", "script")
    yield AnyLine(b"Data Size:    ") if has_table else b"Data Size:    " + amount(sizes[0])
    yield b"Load Address: " + head["load"][2:].encode()
    yield b"Entry Point:  " + head["entry"][2:].encode()
    if has_table:
        yield b"Contents:"
        yield from [b"   Image %d: " % i + amount(size) for i, size in enumerate(sizes)]


def text(prefix, value):
    """A line with the text of a value: what is before its first zero byte."""
    if value is None:
        return prefix + b"unavailable"
    return prefix + value.split(b"\0")[0] if b"\0" in value else AnyLine(prefix)


def coded(prefix, field, cell):
    """A line with the long name of a code, whose name a value is."""
    value = page.plain_value(cell)
    if value is not None and b"\0" not in value:
        return AnyLine(prefix)
    name = b"" if value is None else value.split(b"\0")[0]
    long = NAMES[field].get(name.decode("latin-1"))
    return prefix + (UNKNOWN[field] if long is None else long.encode())


def address(prefix, cell):
    value = page.address(cell)
    if value is not None and len(value) not in (4, 8):
        return AnyLine(prefix)
    return prefix + (b"unavailable" if value is None else b"0x%08x" % int.from_bytes(value, "big"))


def lines_of_fit(shown):
    """The lines but those of signature nodes."""
    head = shown.head
    yield text(b"FIT description: ", page.plain_value(head["description"]))
    seconds = page.seconds(head["date"])
    date = b"unavailable" if seconds is None else date_of(seconds)
    yield b"Created:         " + date
    for i, row in enumerate(shown.rows("image")):
        yield b" Image %d (" % i + page.name(row["image"]) + b")"
        yield b"  Created:      " + date
        yield from lines_of_image(row)
    # A hyphen is an empty name, or no default.
    if head["default"] != "-":
        yield b" Default Configuration: '" + page.name(head["default"]) + b"'"
    for i, row in enumerate(shown.rows("configuration")):
        yield b" Configuration %d (" % i + page.name(row["configuration"]) + b")"
        yield from lines_of_configuration(row)


def lines_of_image(row):
    kind = row["type"]
    yield coded(b"  Type:         ", "type", kind)
    # Without a compression mkimage prints that of code 0.
    yield coded(b"  Compression:  ", "compression", "none" if row["compression"] == "-" else row["compression"])
    yield b"  Data Size:    " + (b"unavailable" if row["size"] == "-" else amount(page.number(row["size"])))
    if kind in WITH_ARCH:
        yield coded(b"  Architecture: ", "arch", row["arch"])
    if kind in WITH_OS:
        yield coded(b"  OS:           ", "os", row["os"])
    if kind in WITH_LOAD or kind == "flat_dt" and row["load"] != "-":
        yield address(b"  Load Address: ", row["load"])
    if kind in WITH_ENTRY:
        yield address(b"  Entry Point:  ", row["entry"])
    for word in row["hashes"].split(" ") if row["hashes"] != "-" else []:
        algorithm = word.removesuffix(":skipped").rpartition(":")[0]
        yield AnyLine(b"  Hash algo:    ") if algorithm == "-" else b"  Hash algo:    " + page.name(algorithm)


def lines_of_configuration(row):
    """The lines of a configuration. Cells of bytes are of values that are no lists."""
    for key, word in (("kernel", b"Kernel:"), ("ramdisk", b"Init Ramdisk:"), ("firmware", b"Firmware:")):
        cell = row.get(key, "-")
        if is_bytes(cell):
            yield AnyLine(b"  %-14s" % word)
        elif cell != "-" or key == "kernel":
            yield b"  %-14s" % word + (b"unavailable" if cell == "-" else page.name(cell.split(" ")[0]))
    for key, word in (("fdt", b"FDT:"), ("loadables", b"Loadables:")):
        cell = row.get(key, "-")
        if cell != "-" and not is_bytes(cell):
            names = cell.split(" ")
            yield b"  %-14s" % word + page.name(names[0])
            yield from [b" " * 16 + page.name(name) for name in names[1:]]


def is_bytes(cell):
    return re.fullmatch('""|0x(?:[0-9a-f]{2})+', cell) is not None


def signatures_of(shown):
    """The lines of the signature nodes."""
    for row in shown.rows("signature"):
        algorithm, key = page.plain_value(row["algorithm"]), page.plain_value(row["key"])
        if algorithm is None:
            yield b"  Sign algo:    invalid/unsupported"
        elif b"\0" not in algorithm or key is not None and b"\0" not in key:
            yield AnyLine(b"  Sign algo:    ")
        else:
            yield b"  Sign algo:    " + algorithm.split(b"\0")[0] + (b"" if key is None else b":" + key.split(b"\0")[0])


def demand_lines(what, found, wanted):
    """The lines are those that are wanted, each AnyLine being the beginning of a line."""
    wanted = [part for line in wanted for part in ([line] if isinstance(line, AnyLine) else line.split(b"\n"))]
    for one, other in zip([*found, b"(no line)"], [*wanted, b"(no line)"]):
        if not (one.startswith(other) if isinstance(other, AnyLine) else one == other):
            raise WrongPage(f"{what}: mkimage -l prints {one}, of the page is made {other}")


def sections(lines):
    """The lines, those of configurations without hash nodes, and apart from them those of signature nodes."""
    kept, signs, is_configuration = [], [], False
    for line in lines:
        is_configuration |= line.startswith((b" Configuration ", b" Default Configuration"))
        if line.startswith(b"  Sign algo:"):
            signs.append(re.sub(rb" \(required\)$", b"", line))
        elif not (LEFT_OUT.match(line) or is_configuration and line.startswith(b"  Hash algo:")):
            kept.append(line)
    return kept, signs


def values_of(lines, index):
    """The algorithm of each hash node of an image and its value, as `mkimage -l` prints them."""
    start = next(at for at, line in enumerate(lines) if line.startswith(b" Image %d (" % index))
    own = list(itertools.takewhile(lambda line: line.startswith(b"  "), lines[start + 1:]))
    pairs = [(one, other) for one, other in zip(own, own[1:]) if one.startswith(b"  Hash algo:")]
    return [(one[16:].decode("latin-1"), other[16:].decode("latin-1")) for one, other in pairs if other.startswith(b"  Hash value:")]


def payload_of(file, index):
    """The payload of an image as dumpimage extracts it, or None."""
    with tempfile.TemporaryDirectory() as directory:
        made = Path(directory, "payload")
        result = run("dumpimage", "-T", "flat_dt", "-p", str(index), "-o", str(made), str(file))
        return made.read_bytes() if result.returncode == 0 and made.exists() else None


def demand_verdicts(shown, file, lines):
    """Each verdict that follows from a payload and a value that the tools print is on the page. Returns how many there are."""
    count = 0
    for i, row in enumerate(shown.rows("image")):
        words = [word.removesuffix(":skipped") for word in row["hashes"].split(" ")]
        payload, values = payload_of(file, i), values_of(lines, i)
        if payload is None or len(words) != len(values):
            continue
        for word, (algorithm, value) in zip(words, values):
            if algorithm in DIGESTS and re.fullmatch("[0-9a-f]+", value):
                wanted = f"{algorithm}:{'good' if DIGESTS[algorithm](payload) == value else 'bad'}"
                if word != wanted:
                    raise WrongPage(f"{row['image']}: {word}, and by dumpimage, mkimage -l and hashlib {wanted}")
                count += 1
    return count


def legacy(code, seconds):
    """A legacy image whose four codes are this number, with a part table of one part, as any image may have it."""
    data = struct.pack(">2I", 5, 0) + b"hello"

    def header(checksum):
        return struct.pack(">7I4B32s", 0x27051956, checksum, seconds, len(data), code, ~code % 2**32, zlib.crc32(data), *[code] * 4, b"n")
    return header(zlib.crc32(header(0))) + data


def times():
    """Times at the bounds of all years, of the months of some, and of the days of one."""
    found = {0, 2**31 - 1, 2**31, 2**32 - 1}
    for year in range(1970, 2107):
        found.add(calendar.timegm((year, 1, 1, 0, 0, 0)))
        found |= {calendar.timegm((year, 2, 28, 23, 59, 59)), calendar.timegm((year, 3, 1, 0, 0, 0))} if year < 2106 else set()
    for year in (1970, 1972, 1999, 2000, 2099, 2100, 2104):
        found |= {calendar.timegm((year, month, 1, 0, 0, 0)) for month in range(1, 13)}
    found |= {951782400 + step for step in (1, 59, 60, 61, 3599, 3600, 36000, 43200, 86399, 86400)}
    return sorted(found | {time - 1 for time in found if time})


class Suite:
    """The program, and what was compared."""

    def __init__(self, program):
        self.program = program if program == "reference" else os.path.abspath(program)
        self.counts = {"legacy image": 0, "flattened image tree": 0, "verdict": 0, "date": 0}

    def page(self, data):
        """The page of an image, or None."""
        if self.program == "reference":
            status, output, _ = reference.main(["show"], data)
        else:
            result = run(self.program, "show", input=data)
            status, output = result.returncode, result.stdout
        return page_of(output.decode("ascii", "replace")) if status == 0 else None

    def wrong_file(self, path):
        """What is wrong with the page of a file, and what was compared."""
        listed = run("mkimage", "-l", str(path))
        lines = listed.stdout.removesuffix(b"\n").split(b"\n")
        if listed.returncode or not lines[0].startswith((b"Image Name:", b"FIT description:")):
            return None, {}
        try:
            shown = self.page(path.read_bytes())
            return None, self.demand_file(shown, path, lines) if shown else {}
        except WrongPage as error:
            return f"{path.name}: {error}", {}

    @staticmethod
    def demand_file(shown, path, lines):
        (kept, signs), head = sections(lines), shown.head
        if head["kind"] == "legacy image":
            if (head["header crc32"], head["data crc32"]) != ("good", "good"):
                raise WrongPage("mkimage -l accepts the checksums")
            demand_lines("the fields", kept, lines_of_legacy(shown))
            return {"legacy image": 1}
        demand_lines("the fields", kept, lines_of_fit(shown))
        demand_lines("the signatures", signs, signatures_of(shown))
        return {"flattened image tree": 1, "verdict": demand_verdicts(shown, path, lines)}

    def wrong_time(self, pair):
        """What is wrong with the date of a legacy image of a time, for which `date` prints this one; and what was compared."""
        try:
            date = self.page(legacy(2, pair[0])).head["date"]
        except WrongPage as error:
            return f"time-{pair[0]}: {error}", {}
        return None if date == pair[1] else f"time-{pair[0]}: {date}, and by date {pair[1]}", {"date": 1}

    def results(self, paths, pairs):
        """What is wrong, or None, for each file and each time."""
        with ThreadPoolExecutor(os.cpu_count()) as pool:
            for reason, counts in [*pool.map(self.wrong_file, paths), *pool.map(self.wrong_time, pairs)]:
                for what, number in counts.items():
                    self.counts[what] += number
                if reason or counts:
                    yield reason


# A FIT whose nodes have unit addresses: `mkimage -l` prints no default configuration for it.
NOT_COMPARED = {"addresses"}


def main(words):
    only = ""
    if words[0] == "--only":
        only, words = words[1], words[2:]
    program, directory = words[0], Path(words[1])
    for code in range(256):
        Path(directory, f"code-{code}").write_bytes(legacy(code, 1700000000 + code))
    found = times()
    dates = run("date", "-u", "-f", "-", "+%Y-%m-%d %H:%M:%S UTC", input="".join(f"@{time}\n" for time in found).encode())
    pairs = [pair for pair in zip(found, dates.stdout.decode().splitlines(), strict=True) if only in f"time-{pair[0]}"]
    suite = Suite(program)
    paths = [path for path in sorted(directory.iterdir()) if only in path.name and path.name not in NOT_COMPARED]
    reasons = list(suite.results(paths, pairs))
    wrong = [reason for reason in reasons if reason]
    for reason in wrong:
        print(f"FAILED: {reason}")
    print("compared: " + ", ".join(f"{number} of {what}" for what, number in suite.counts.items()))
    print(f"{len(reasons) - len(wrong)} passed, {len(wrong)} failed")
    return int(bool(wrong) or not reasons)


if __name__ == "__main__":
    sys.exit(main(sys.argv[1:]))
