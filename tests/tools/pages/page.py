"""Reads the page that `show` prints.

page.py: reads a page from standard input, and prints what it says as JSON. It fails if the page is not of the form that docs/CLI.md has: at
another table or order of tables, a column that is too wide or too narrow, a space at the end of a line, a cell without anything.
"""

import calendar
import json
import re
import sys
import time
from typing import NamedTuple

# The rows of the first table, and the tables that may follow, each by the first word of its heading.
HEADS = {
    "legacy image": [
        "kind", "name", "date", "size", "type", "os", "arch", "compression", "load", "entry", "header crc32", "data crc32"],
    "flattened image tree": ["kind", "description", "date", "size", "boot processor", "default"],
}
TABLES = {
    "legacy image": ["part", "region"],
    "flattened image tree": ["reservation", "image", "configuration", "signature", "region"],
}
KEYS = ["kernel", "fdt", "ramdisk", "firmware", "loadables", "script"]
HEADINGS = {
    "part": ["part", "size", "offset"],
    "reservation": ["reservation", "size"],
    "image": ["image", "type", "os", "arch", "compression", "size", "offset", "load", "entry", "hashes"],
    "signature": ["signature", "algorithm", "key", "verdict", "covers"],
    "region": ["region", "offset", "size"],
}
CONCERN = re.compile(
    r"(?:bad-hash|skipped-hash|unhashed|weak-hash|bad-list|missing|no-nodes|no-images|uncovered|foreign|strings|unit-address|bad-default|trailing)"
    r"(?: [!-~]+)+")
NAME = r"(?:-|%2D|(?!-$)(?:[!-$&-~]|%[0-9A-F]{2})+)"
WORD = r"[A-Za-z][!-$&-~]*"
QUOTED = r'"(?:[ !#-[\]-~]|\\["\\])+"'


class WrongPage(Exception):
    """What is wrong with a page."""


class Page(NamedTuple):
    head: dict
    tables: dict  # rows of cells, without the heading, which is in `headings`
    headings: dict
    concerns: list

    def rows(self, table):
        """The rows of a table, each by the words of the heading."""
        return [dict(zip(self.headings[table], row)) for row in self.tables.get(table, [])]


def demand(condition, what, text):
    if not condition:
        raise WrongPage(f"{what} is wanted, not {text[:200]!r}")


def without_quotes(cell):
    return re.sub(QUOTED, '""', cell)


def split_row(line, starts):
    """The cells of a line, whose columns begin at these places."""
    row = []
    for start, end in zip(starts, [*starts[1:], None]):
        cell = line[start:end]
        if end is not None:
            demand(len(cell) == end - start and cell.endswith("  "), "two spaces before the next cell", line)
        else:
            demand(not cell.endswith(" "), "a line without spaces at its end", line)
        cell = cell.rstrip(" ")
        demand(cell and not cell.startswith(" ") and "  " not in without_quotes(cell), "a cell", line)
        row.append(cell)
    return row


def table(lines, starts):
    """The rows of a table. Each column but the last is as wide as its widest cell."""
    rows = [split_row(line, starts) for line in lines]
    for i, (start, end) in enumerate(zip(starts, starts[1:])):
        demand(max(len(row[i]) for row in rows) == end - start - 2, f"column {i} as wide as its widest cell", "\n".join(lines))
    return rows


def page_of(text):
    """What a page says."""
    demand(text.isascii() and text.endswith("\n") and "\r" not in text, "lines of ASCII", text)
    first, *later = [block.split("\n") for block in text[:-1].split("\n\n")]
    demand(later, "a table and the concerns", text)
    kind = first[0].removeprefix("kind").strip(" ")
    demand(kind in HEADS, "a kind of image", first[0])
    pairs = table(first, [0, max(map(len, HEADS[kind])) + 2])
    demand([word for word, _ in pairs] == HEADS[kind], f"rows of {', '.join(HEADS[kind])}", "\n".join(first))
    tables, headings, left = {}, {}, list(TABLES[kind])
    for lines in later[:-1]:
        starts = [found.start() for found in re.finditer(r"\S+", lines[0])]
        heading, *rows = table(lines, starts)
        demand(heading[0] in left and rows, f"a table of {' or '.join(left)}", lines[0])
        left = left[left.index(heading[0]) + 1:]
        if heading[0] == "configuration":
            wanted = ["configuration", *[key for key in KEYS if key in heading], "compatible"]
        else:
            wanted = HEADINGS[heading[0]]
        demand(heading == wanted, " ".join(wanted), lines[0])
        tables[heading[0]], headings[heading[0]] = rows, heading
    word, *concerns = later[-1]
    demand(word == ("concerns" if concerns else "no concerns"), "concerns or no concerns", "\n".join(later[-1]))
    for line in concerns:
        demand(CONCERN.fullmatch(line), "a concern", line)
    return Page(dict(pairs), tables, headings, concerns)


# What cells say.


def number(cell):
    demand(re.fullmatch("0|[1-9][0-9]*", cell), "a number", cell)
    return int(cell)


def number_or_none(cell):
    return None if cell == "-" else number(cell)


def size(cell):
    demand(cell.endswith(" bytes"), "a size", cell)
    return number(cell.removesuffix(" bytes"))


def name(cell):
    """The bytes of a name."""
    demand(re.fullmatch(NAME, cell), "a name", cell)
    if cell == "-":
        return b""
    made = re.sub(r"%([0-9A-F]{2})", lambda found: chr(int(found[1], 16)), cell).encode("latin-1")
    plain = re.sub(rb"[!-$&-~]", b"", made)
    demand(cell.count("%") == len(plain) or made == b"-", "a name without needless escapes", cell)
    return made


def text(cell):
    """The bytes of a text."""
    return unquoted(cell) if cell.startswith('"') and re.fullmatch(QUOTED, cell) else name(cell)


def unquoted(cell):
    made = re.sub(r'\\(["\\])', r"\1", cell[1:-1])
    demand(not re.fullmatch(WORD, made), "a word without quotes", cell)
    return made.encode()


def value(cell):
    """The bytes of the value of a property, or None where there is none."""
    if cell == "-":
        return None
    if cell == '""':
        return b""
    if re.fullmatch(WORD, cell):
        return cell.encode() + b"\0"
    if re.fullmatch(f"{QUOTED}(?: {QUOTED})*", cell):
        found = re.findall(QUOTED, cell)
        made = [re.sub(r'\\(["\\])', r"\1", quoted[1:-1]) for quoted in found]
        demand(len(made) > 1 or not re.fullmatch(WORD, made[0]), "a word without quotes", cell)
        return b"".join(one.encode() + b"\0" for one in made)
    demand(re.fullmatch("0x(?:[0-9a-f]{2})+", cell), "a value", cell)
    return bytes.fromhex(cell[2:])


def address(cell):
    """The same for an address, whose digits are shown even if they are those of a text."""
    made = value(cell)
    if made is not None and len(made) in (4, 8):
        demand(cell == "0x" + made.hex(), "the digits of an address", cell)
    return made


def plain_value(cell):
    """The same for another value: its digits are shown only if it is not made of texts."""
    made = value(cell)
    if cell.startswith("0x"):
        demand(not re.fullmatch(rb"([\x20-\x7e]+\0)+", made), "texts in quotes", cell)
    return made


def seconds(cell):
    """The seconds of a date, or None."""
    if not re.fullmatch(r"\d{4}-\d\d-\d\d \d\d:\d\d:\d\d UTC", cell):
        return None
    made = calendar.timegm(time.strptime(cell, "%Y-%m-%d %H:%M:%S UTC"))
    demand(0 <= made < 2**32, "a time of 32 bits", cell)
    return made


def time_value(cell):
    """The bytes of a time."""
    made = seconds(cell)
    if made is not None:
        return made.to_bytes(4, "big")
    made = plain_value(cell)
    demand(made is None or len(made) != 4, "the date of a time", cell)
    return made


def names_values(cell):
    """The values that a list of names may be shown for."""
    made = [None] if cell == "-" else []
    if all(re.fullmatch(NAME, word) for word in cell.split(" ")):
        made.append(b"".join(name(word) + b"\0" for word in cell.split(" ")))
    if re.fullmatch('""|0x(?:[0-9a-f]{2})+', cell):
        made.append(value(cell))
    demand(made, "names", cell)
    return made


if __name__ == "__main__":
    found = page_of(sys.stdin.read())
    shown = {each: found.rows(each) for each in found.tables}
    print(json.dumps({"head": found.head, "tables": shown, "concerns": found.concerns}, indent=2))
