"""Checks the form and the English of the documents of a workspace. english.py ROOT prints a line for each thing that is wrong, and fails
if there is one. `english.py ROOT --counts` prints how often each pattern is there, and in crates/ too, and how frequent some words are:

- README.md has at most 150 lines and 1,200 words;
- no line of a document, of the header for C, of the module for Python or of the manual page has more than 100 columns;
- a page of more than 2,000 words has a table of contents: a link to each of its headings of the second level, before the first of them;
- patterns that read as translated are rare in the prose of all of these together, which is without code and code spans;
- words that are frequent in translated texts are not too frequent in it.
"""

import glob
import os
import re
import sys

sys.dont_write_bytecode = True
from workspace import read

COLUMNS, README_LINES, README_WORDS, WORDS = 100, 150, 1200, 2000

# A pattern, how often it may be there, and what to write instead.
PATTERNS = [
    (r"exactly if", 10, "if and only if, or plain if"),
    (r"of one kind", 0, "of the same kind"),
    (r"means? the same(?! (?:thing|as|of)\b)", 0, "mean the same thing"),
    (r"(?<!there )(?:is|are) no (?!longer\b|more\b|older\b)\w+", 6, "is not a .."),
    (r"every other byte", 0, "all other bytes"),
    (r"than (?:it|they) says?", 1, "the wrong .."),  # once in a sentence of explain, which the manual page has too
    (r"in place of", 2, "instead of"),
    (r"(?<=\w) alone\b", 8, "only"),
    (r"(?:has|have) to be", 2, "must be"),
    (r"also if", 0, "even if"),
    (r"a comma between each two", 0, "separated by commas"),
    (r"as a whole or stays", 0, "is replaced atomically"),
    (r"may only be called if", 0, "Requires: .."),
    (r"at another argument", 0, "for any other argument"),
    (r"suffices?\b", 0, "is enough"),
    (r"not even an empty", 0, "an empty one counts as one"),
    (r"held back|take[sn]? apart", 0, "buffered, extract"),
    (r"\bbeside\b", 25, "next to, alongside, compared with"),
]


def documents(root):
    """The paths of the documents."""
    pages = ["README.md", "CHANGELOG.md", "CONTRIBUTING.md", "SECURITY.md", "examples/README.md"]
    return pages + sorted(os.path.relpath(path, root) for path in glob.glob(os.path.join(root, "docs/**/*.md"), recursive=True))


def others(root):
    """The paths of the header, the module and the manual page."""
    modules = sorted(os.path.relpath(path, root) for path in glob.glob(os.path.join(root, "python/bootimg/*.py")))
    return ["include/bootimg.h", "man/bootimg.1", *modules]


def prose(path, text):
    """The prose of a file in one line: without code, and of a module only strings and comments."""
    if path.endswith(".md"):
        text = re.sub(r"^```.*?^```$|`[^`]*`", " ", text, flags=re.M | re.S)
    elif path.endswith(".py"):
        text = " ".join(string or comment for string, comment in re.findall(r'"""(.*?)"""|#([^\n]*)', text, re.S))
    elif path.endswith(".h"):
        text = " ".join(re.findall(r"/\*(.*?)\*/", text, re.S)).replace("\n * ", " ")
    elif path.endswith(".1"):
        text = re.sub(r"^\.[A-Z][a-z] ?|^\.\\\".*", "", text, flags=re.M)
    return re.sub(r"\s+", " ", text)


def anchor(heading):
    return re.sub(r"[^\w\- ]", "", heading.lower()).replace(" ", "-")


def wrong_forms(root):
    """What is wrong with the lengths of files and lines, and which tables of contents lack what."""
    readme = read(os.path.join(root, "README.md"))
    if len(readme.splitlines()) > README_LINES:
        yield f"README.md: {len(readme.splitlines())} lines"
    if len(readme.split()) > README_WORDS:
        yield f"README.md: {len(readme.split())} words"
    for path in documents(root) + others(root):
        text = read(os.path.join(root, path))
        for number, line in enumerate(text.splitlines(), 1):
            if len(line) > COLUMNS:
                yield f"{path}:{number}: {len(line)} columns"
        if path.endswith(".md") and len(text.split()) > WORDS and path != "README.md":
            head, *rest = re.split(r"^(?=## )", re.sub(r"^```.*?^```$", "", text, flags=re.M | re.S), flags=re.M)
            for section in rest:
                heading = section.splitlines()[0][3:]
                if f"](#{anchor(heading)})" not in head:
                    yield f"{path}: the table of contents lacks: {heading}"


def counts(root, paths):
    """How often each pattern is in the prose of these files, and in which."""
    texts = {path: prose(path, read(os.path.join(root, path))) for path in paths}
    for pattern, most, better in PATTERNS:
        found = {path: len(re.findall(pattern, text, re.I)) for path, text in texts.items()}
        yield pattern, most, better, {path: count for path, count in found.items() if count}


# Words that are frequent in texts that read as translated, and how often they may be there for 1,000 words: twice as often as in git's
# manual pages.
FREQUENT = [
    (r"\b(?:has|have)\b", 5.6, "contains, gives, an active verb"),
    (r"\beach\b", 2.2, "the plural, every"),
    (r"\b(?:that|those) of\b", 0.2, "the noun again"),
    (r"\bso\b", 0.6, "because, a new sentence"),
]


def rates(root, paths):
    """How often each frequent word is there for 1,000 words of prose."""
    text = " ".join(prose(path, read(os.path.join(root, path))) for path in paths)
    for pattern, most, better in FREQUENT:
        yield pattern, most, better, 1000 * len(re.findall(pattern, text, re.I)) / len(text.split())


def wrong_words(root):
    for pattern, most, better, found in counts(root, documents(root) + others(root)):
        if sum(found.values()) > most:
            places = ", ".join(f"{path} {count}" for path, count in found.items())
            yield f"'{pattern}' is there {sum(found.values())} times, and {most} are allowed (write: {better}): {places}"
    for pattern, most, better, rate in rates(root, documents(root) + others(root)):
        if rate > most:
            yield f"'{pattern}' is there {rate:.1f} times in 1,000 words, and {most} are allowed (write: {better})"


def main(root, *words):
    if words == ("--counts",):
        sources = [os.path.relpath(path, root) for path in glob.glob(os.path.join(root, "crates/*/s*/**/*.*t"), recursive=True)]
        for pattern, most, _, found in counts(root, documents(root) + others(root) + sources):
            here = sum(count for path, count in found.items() if not path.startswith("crates/"))
            print(f"{here:5} of {most:3}, in crates/ {sum(found.values()) - here:5}: {pattern}")
        for pattern, most, better, rate in rates(root, documents(root) + others(root)):
            print(f"{rate:5.1f} of {most} in 1,000 words: {pattern} (write: {better})")
        return False
    wrong = [*wrong_forms(root), *wrong_words(root)]
    print("\n".join(wrong + [f"{len(documents(root))} documents"]))
    return bool(wrong)


if __name__ == "__main__":
    sys.exit(main(*sys.argv[1:]))
