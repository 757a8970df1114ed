"""Checks what the documents of a workspace name. documents.py ROOT prints a line for each thing that is not there, and fails if there
is one:

- each link leads to a file, and to a heading of it;
- each path in backticks that begins with a directory of the workspace is there, but for what is built (`out`), and each file of specs/
  that is named after the directory of a crate;
- each script of tests/ begins with a comment on what it does, and PERFORMANCE.md has each script of bench/, and no other;
- the code in PROOFS.md after a paragraph that names a source and ends with a colon is in that source;
- each check in a table of FORMATS.md has the name of a definition;
- CONFORMANCE.md has the totals of tests/conformance/tools.md, and names each file there on which a tool crashed;
- no line is left from a merge.
"""

import glob
import os
import re
import sys

sys.dont_write_bytecode = True
from workspace import read

PATH = re.compile(r"`((?:crates|tests|docs|bench|examples|contrib|man|python|include|\.ci)/[^`\s]*)`")
OF_U_BOOT = {"include/image.h"}
PLACEHOLDERS = {"NAME", "GROUP", "CRATE", "FILE", "MODULE", "FUNCTION", "T", "SCRIPT"}


def without_blocks(text):
    """The text without its blocks of code."""
    return re.sub(r"^```.*?^```$", "", text, flags=re.M | re.S)


def anchors(path):
    """The names by which links lead to the headings of a page."""
    headings = re.findall(r"^#+ (.*)$", without_blocks(read(path)), re.M)
    return {re.sub(r"[^\w\- ]", "", heading.lower()).replace(" ", "-") for heading in headings}


def wrong_links(root, page, text):
    for target in re.findall(r"\]\(([^)\s]+)\)", without_blocks(text)):
        if re.match(r"\w+:", target):
            continue
        path, _, anchor = target.partition("#")
        file = os.path.normpath(os.path.join(root, os.path.dirname(page), path)) if path else os.path.join(root, page)
        if not os.path.exists(file):
            yield f"no file {target}"
        elif anchor and anchor not in anchors(file):
            yield f"no heading {target}"


def alternatives(path):
    """The paths that a path with one pair of braces stands for."""
    match = re.search(r"\{([^}]*)\}", path)
    return [path[: match.start()] + part + path[match.end() :] for part in match[1].split(",")] if match else [path]


def paragraphs(text):
    """The paragraphs, items of lists and rows of tables of a page, each in one line."""
    found = [""]
    for line in text.splitlines():
        if not line.strip() or re.match(r"\||#|```|\s*(?:[-*]|\d+\.) ", line):
            found.append("")
        found[-1] += " " + line.strip()
    return found


def wrong_paths(root, text):
    for written in PATH.findall(text):
        parts = re.split(r"[/.]", written)
        if written in OF_U_BOOT or "out" in parts or PLACEHOLDERS & set(parts):
            continue
        for path in alternatives(written):
            if not glob.glob(os.path.join(root, path)):
                yield f"no file {path}"
    for paragraph in paragraphs(text):
        directory = None
        for written in re.findall(r"`([^`]*)`", paragraph):
            if re.fullmatch(r"crates/\w+/specs/\w+\.antt", written):
                directory = os.path.dirname(written)
            elif directory and re.fullmatch(r"[A-Z]\w*\.antt", written):
                if not os.path.exists(os.path.join(root, directory, written)):
                    yield f"no file {directory}/{written}"


def wrong_scripts(root, page, scripts):
    """The paths of scripts that the rows of tables and items of lists of a page lack, or have too many. A script without a directory is
    in that of the heading."""
    there, directory = set(), None
    for line in read(os.path.join(root, page)).splitlines():
        heading = re.match(r"#+ (?:`([^`]*)`)?", line)
        row = re.match(r"[|-] `([^` ]*\.(?:sh|py))[ `]", line)
        if heading:
            directory = heading[1]
        elif row and "/" in row[1]:
            there.add(row[1])
        elif row and directory:
            there.add(f"{directory}/{row[1]}")
    for path in sorted(scripts - there):
        yield f"{path} is in no row"
    for path in sorted(there - scripts):
        if not os.path.exists(os.path.join(root, path)):
            yield f"no script {path}"


def words(text):
    return [line.strip() for line in text.splitlines() if line.strip()]


def wrong_code(root, text):
    for head, code in re.findall(r"^((?:[^\n]+\n)*[^\n]*):\n\n```rust\n(.*?)^```$", text, re.M | re.S):
        sources = re.findall(r"`(crates/[^`]*\.rt)`", head)
        if not sources:
            continue
        source = "\n".join(words(read(os.path.join(root, sources[-1]))))
        if "\n".join(words(code)) not in source:
            yield f"this code is not in {sources[-1]}: {words(code)[0]}"


def wrong_checks(root, text):
    definitions = "\n".join(read(path) for path in glob.glob(os.path.join(root, "crates/*/specs/*.antt")))
    for table in re.findall(r"^\| Check \| Passes if .*\n\|---.*\n((?:\|.*\n)+)", text, re.M):
        for name in re.findall(r"^\| `(\w+)(?: \w+)?` ", table, re.M):
            if not re.search(rf"^ +{name} :", definitions, re.M):
                yield f"no check {name}"


def wrong_outcomes(page, tables):
    """The totals of the tables of other tools that a page lacks, and the files with a crash that it does not name."""
    totals, _, rows = tables.partition("<!-- table -->\n")[2].partition("\n\n")
    if not rows or totals not in page:
        yield "the totals are not those of tests/conformance/tools.md"
    for line in rows.splitlines():
        name = line.split(" | ")[0].strip("| ")
        if "**crashed**" in line and name not in page:
            yield f"{name} is not named"


def lines_of_merges(text):
    for line in re.findall(r"^(?:<{7}|>{7})(?: .*)?$", text, re.M):
        yield f"this line is left from a merge: {line}"


def main(root):
    pages = ["README.md", "CHANGELOG.md", "CONTRIBUTING.md", "SECURITY.md", "examples/README.md", "tests/prover/README.md"] + sorted(os.path.relpath(path, root) for path in glob.glob(os.path.join(root, "docs/**/*.md"), recursive=True))
    wrong = []
    for page in pages:
        text = read(os.path.join(root, page))
        for reason in [*wrong_links(root, page, text), *wrong_paths(root, text), *lines_of_merges(text)]:
            wrong.append(f"{page}: {reason}")
    for path in sorted(glob.glob(os.path.join(root, "tests/*/*.sh"))):
        if not re.match(r"#!.*\n# \w", read(path)):
            wrong.append(f"{os.path.relpath(path, root)}: no comment says what it does")
    scripts = {os.path.relpath(path, root) for path in glob.glob(os.path.join(root, "bench/*.sh"))} | {"bench/names.py"}
    wrong += [f"docs/PERFORMANCE.md: {reason}" for reason in wrong_scripts(root, "docs/PERFORMANCE.md", scripts)]
    wrong += [f"docs/dev/PROOFS.md: {reason}" for reason in wrong_code(root, read(os.path.join(root, "docs/dev/PROOFS.md")))]
    wrong += [f"docs/FORMATS.md: {reason}" for reason in wrong_checks(root, read(os.path.join(root, "docs/FORMATS.md")))]
    page, tables = (read(os.path.join(root, path)) for path in ("docs/CONFORMANCE.md", "tests/conformance/tools.md"))
    wrong += [f"docs/CONFORMANCE.md: {reason}" for reason in wrong_outcomes(page, tables)]
    print("\n".join(wrong + [f"{len(pages)} pages"]))
    return bool(wrong)


if __name__ == "__main__":
    sys.exit(main(sys.argv[1]))
