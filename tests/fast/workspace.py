"""Reads the files of a workspace, for the other modules beside it."""

import os
import re

# The parts of a crate, and how the names of their files end.
PARTS = {"src": ".rt", "specs": ".antt", "proofs": ".antt"}


MUTUAL = re.compile(r"^(abbrev |unfoldable )?mutual\n(?:(?:  .*)?\n)+", re.M)


def read(path):
    with open(path, encoding="utf-8") as file:
        return file.read()


def without_mutual(text):
    """The text of a module, in which the members of each `mutual` block stand at the top, marked as the block is."""

    def members(block):
        lines = [line[2:] for line in block[0].split("\n")[1:]]
        return "\n".join([""] + [re.sub(r"^((?:pub )?[^\s:()]+ :)", (block[1] or "") + r"\1", line) for line in lines])

    return MUTUAL.sub(members, text)


def crates_of(root):
    """The names of the crates, in the order of crates.txt."""
    lines = read(os.path.join(root, "crates.txt")).splitlines()
    return [line.split(":")[0].split()[0] for line in lines if ":" in line and not line.startswith("#")]


def files_of(root, crate, part):
    """The path and the module of each file of a part of a crate."""
    top, ending = os.path.join(root, "crates", crate, part), PARTS[part]
    for directory, _, names in sorted(os.walk(top)):
        for name in sorted(names):
            if name.endswith(ending):
                path = os.path.join(directory, name)
                yield path, os.path.relpath(path, top)[: -len(ending)].replace(os.sep, ".")
