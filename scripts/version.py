#!/usr/bin/env python3
"""The version, in each place that has it.

version.py                prints the version, and fails with a line for each place that has another one
version.py VERSION DATE   writes this version into each place, and this date, as 2026-11-26, into the manual page; in CHANGELOG.md the
                          heading `Unreleased` becomes that of the version, with an empty one above it

Afterwards the crates bootimg and bi_c are proved and built again, since their code has the version.
"""

import datetime
import re
import sys
from pathlib import Path

ROOT = Path(__file__).resolve().parents[1]
NUMBER = r"(\d+\.\d+\.\d+)"
# The files, and the texts around the version. Each text is in its file at least once.
PLACES = [
    ("crates/bootimg/src/command_line/table.rt", rf'^const VERSION: &str = "{NUMBER} '),
    ("crates/bi_c/src/causes.rt", rf'^const VERSION: &str = "{NUMBER}";'),
    ("crates/bi_c/specs/Calls.antt", rf'is_version : text ≡ codes "{NUMBER}"'),
    ("include/bootimg.h", rf'^#define BOOTIMG_VERSION "{NUMBER}"'),
    ("bootimg.pc.in", rf"^Version: {NUMBER}$"),
    ("python/bootimg/__init__.py", rf'^__version__ = "{NUMBER}"'),
    ("python/pyproject.toml", rf'^version = "{NUMBER}"'),
    ("rust/Cargo.toml", rf'^version = "{NUMBER}"'),
    ("man/bootimg.1", rf"^This page is that of version {NUMBER}\.$"),
    ("tests/calls/program/tests.rt.source", rf'b"bootimg {NUMBER} \(Rattle'),
    ("README.md", rf"bootimg_{NUMBER}_amd64\.deb"),
    ("docs/PACKAGES.md", rf"bootimg_{NUMBER}_amd64\.deb"),
    ("docs/PACKAGES.md", rf"bootimg-{NUMBER}-(?:py3|linux)"),
]


def found_in(root):
    """The versions in each place."""
    for path, pattern in PLACES:
        versions = re.findall(pattern, (root / path).read_text(encoding="utf-8"), re.M)
        yield path, versions or ["no version"]
    heading = re.search(rf"^## \[{NUMBER}\]", (root / "CHANGELOG.md").read_text(encoding="utf-8"), re.M)
    yield "CHANGELOG.md", [heading[1]] if heading else ["no version"]


def replace(path, pattern, made):
    """Replaces each first group of a pattern in a file, or the whole of what matches if there is none."""
    def changed(match):
        if not match.re.groups:
            return made
        start, end = match.start(1) - match.start(), match.end(1) - match.start()
        return match[0][:start] + made + match[0][end:]
    text = path.read_text(encoding="utf-8")
    new = re.sub(pattern, changed, text, flags=re.M)
    if new == text:
        sys.exit(f"{path}: nothing of {pattern} is changed")
    path.write_text(new, encoding="utf-8")


def write(root, version, date):
    for path, pattern in PLACES:
        replace(root / path, pattern, version)
    replace(root / "man/bootimg.1", r"^\.Dd .*$", f".Dd {date:%B} {date.day}, {date.year}")
    replace(root / "CHANGELOG.md", r"^## \[Unreleased\]$", f"## [Unreleased]\n\n## [{version}] - {date:%Y-%m-%d}")


def main(words):
    if len(words) == 2 and re.fullmatch(NUMBER, words[0]):
        write(ROOT, words[0], datetime.date.fromisoformat(words[1]))
        return 0
    if words:
        sys.exit(__doc__.strip())
    places = list(found_in(ROOT))
    version = places[0][1][0]
    wrong = [f"{path}: {other}, not {version}" for path, versions in places for other in versions if other != version]
    print("\n".join(wrong or [version]))
    return int(bool(wrong))


if __name__ == "__main__":
    sys.exit(main(sys.argv[1:]))
