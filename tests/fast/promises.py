"""Checks docs/dev/PROMISE_TABLES.md and docs/PROMISES.md against the contracts and the definitions of a workspace.

promises.py ROOT: ROOT/crates.txt names the crates, which are in ROOT/crates. Prints what is wrong with a row, a line for each, and
fails if there is anything. A row is an item of the lists of docs/dev/PROMISE_TABLES.md, below a heading that begins with the crate. Its
cells are the text of the item and the items below it, each of which may be wrapped. A promise has the items `By:`, its functions, and
`With:`, its definitions:

- the functions are `name`, `Type::name`, `module::name` or `module::Type::name`, each perhaps followed by a colon and the labels of
  clauses, and separated by semicolons. Each is a public function of the crate, and has an `ensures` of each label;
- the definitions are `Module.name`, or `crate/Module.name` for another crate, each perhaps followed by names of fields in round
  brackets. Each is in that module of specs/, and the clauses of the row cite it, or cite a definition that does, and so on.

Each function that a library exports, and each of its labels, has to be in a row, but for the facts in modules `known_..`, each of which has
a docstring. A wrong definition, in tests/prover/wrong_definitions.md, has the item `Refused by:`, and each function that this names is a
public one of the crate. Each item of
both lists has these items and no other. In docs/PROMISES.md the reading order names the files of definitions that the contract of
`normalise` leads to, and no other, each function that a library exports and that requires something is named, and each line of the blocks
of code with a contract or a definition is in the sources, and so is the one of README.md.

promises.py ROOT --definitions: prints each definition of specs/, with the comment before it.
"""

import os
import re
import sys

sys.dont_write_bytecode = True
from workspace import crates_of, files_of, read, without_mutual

FUNCTION = re.compile(r'^[ \t]*(?P<pub>pub(?:\(crate\))? )?(?P<export>extern "C" )?fn (?P<name>\w+)', re.M)
BLOCK = re.compile(r"^(?:pub )?(?P<kind>impl|trait)\b(?P<head>[^{]*)\{.*?^\}", re.M | re.S)
MEMBER = re.compile(r"^ +ghost \w+(?: =|:) \{", re.M)
CLAUSE = re.compile(r"(?P<kind>requires|ensures)\*?\s+(?:(?P<label>\w+)\s+)?\{")
GHOST_USE = re.compile(r"^ *(?:ghost )?use Rattle\.(?P<crate>\w+)\.specs\.(?P<module>[\w.]+)\.\{(?P<names>[^}]*)\}", re.M)
DECLARATION = re.compile(r"^(?:(?:pattern|unfoldable|abbrev|pub|record|data) )+(?P<name>[^\s:({]+)")
WORD = re.compile(r"[\w◌-]+(?:-\w+)*")
PROMISES = "The promises", ["By", "With"]
WRONG = "Wrong definitions that the laws refuse", ["Refused by"]


def uses_of(text):
    """What each name means that a file brings in from definitions: (crate, module, name there)."""
    found = {}
    for match in GHOST_USE.finditer(text):
        for item in match["names"].split(","):
            name, _, other = item.strip().partition(" as ")
            found[other or name] = match["crate"], match["module"], name
    return found


def end_of(text, start):
    """The offset after the bracket that closes the one at `start`."""
    closing = {"(": ")", "[": "]", "{": "}"}[text[start]]
    depth = 0
    for index in range(start, len(text)):
        depth += (text[index] == text[start]) - (text[index] == closing)
        if depth == 0:
            return index + 1
    sys.exit("a bracket has no end")


def without_generics(text):
    """The text without what is between angle brackets."""
    text = text.replace("->", "")
    while "<" in text:
        shorter = re.sub(r"<[^<>]*>", "", text)
        if shorter == text:
            break
        text = shorter
    return text


def blocks_of(text):
    """The beginning, the end, the type or trait, and the text of the ghost members of each `impl` or `trait` block, and whether its
    functions are a trait's."""
    for match in BLOCK.finditer(text):
        head = without_generics(match["head"]).split(" where ")[0]
        owner = re.findall(r"\w+", head.split(" for ")[-1].split(":")[0])[-1]
        members = [match[0][member.end() - 1 : end_of(match[0], member.end() - 1)] for member in MEMBER.finditer(match[0])]
        yield match.start(), match.end(), owner, "\n".join(members), match["kind"] == "trait" or " for " in head


def clauses_after(text, start):
    """The kind, the label and the text of each clause of the function whose arguments begin at `start`."""
    index = end_of(text, text.index("(", start))
    while text[index] not in "{;":
        match = CLAUSE.match(text, index)
        if match:
            index = end_of(text, match.end() - 1)
            yield match["kind"], match["label"] or "", text[match.end() : index - 1]
        elif text[index] == "[":
            # The result has an array, whose length follows a semicolon.
            index = end_of(text, index)
        else:
            index += 1


class Crate:
    """The public functions and the definitions of a crate."""

    def __init__(self, root, name):
        self.name = name
        self.directory = os.path.join(root, "crates", name)
        self.functions = {}  # (module, type or "", name): {label: (what names mean, text of the clause)}
        self.members = {}  # type or trait: [(what names mean, text of its ghost members)]
        self.exported = set()  # the keys of those functions that a library exports
        self.documented = set()  # the keys of those functions that have a docstring
        self.required = set()  # the keys of those functions that have a `requires`
        self.definitions = {}  # (module, name): (what names mean, text, comment)
        self.read_exports()
        for path, module in files_of(root, name, "src"):
            self.read_functions(path, module)
        for path, module in files_of(root, name, "specs"):
            if module != "Lib":
                self.read_definitions(path, module)

    def read_exports(self):
        """Reads which modules the root file makes public, and which names it exports."""
        library = os.path.join(self.directory, "src", "lib.rt")
        root = read(library) if os.path.exists(library) else ""
        self.public_modules = set(re.findall(r"^pub mod (\w+);", root, re.M))
        self.public_names = {word for use in re.findall(r"^pub use ([^;]*);", root, re.M) for word in re.findall(r"\w+", use)}

    def read_functions(self, path, module):
        text = read(path)
        source = re.sub(r"//[^\n]*", lambda match: " " * len(match[0]), text)
        uses = uses_of(source)
        blocks = list(blocks_of(source))
        for _, _, owner, members, _ in blocks:
            self.members.setdefault(owner, []).append((uses, members))
        for match in FUNCTION.finditer(source):
            inside = [block for block in blocks if block[0] < match.start() < block[1]]
            owner, of_trait = (inside[0][2], inside[0][4]) if inside else ("", False)
            found = list(clauses_after(source, match.end()))
            clauses = {label: (uses, text) for kind, label, text in found if kind == "ensures"}
            if not (clauses or of_trait) or not (of_trait or match["pub"] == "pub "):
                continue
            key = module, owner, match["name"]
            # A trait may be implemented twice for a type. A function of a trait may have the trait's clauses.
            self.functions.setdefault(key, {}).update(clauses)
            if text[: match.start()].rstrip().rpartition("\n")[2].lstrip().startswith("///"):
                self.documented.add(key)
            in_public_module = module.split(".")[0] in self.public_modules
            if clauses and (match["export"] or (owner or match["name"]) in self.public_names or in_public_module):
                self.exported.add(key)
            if any(kind == "requires" for kind, _, _ in found):
                self.required.add(key)

    def read_definitions(self, path, module):
        text = without_mutual(read(path))
        uses, comment, name = uses_of(text), [], None
        for line in text.splitlines():
            match = DECLARATION.match(line)
            if match:
                name = match["name"]
                uses[name] = self.name, module, name
                self.definitions[module, name] = uses, [line], " ".join(comment)
            elif name and line and not line.startswith("-- "):
                self.definitions[module, name][1].append(line)
            comment = comment + [line[3:]] if line.startswith("-- ") else []

    def find(self, written):
        """The keys of the public functions that are written so in a row."""
        *before, name = written.split("::")
        return [
            (module, owner, function)
            for module, owner, function in self.functions
            if function == name and before in ([owner] if owner else [], [module.split(".")[-1]] + [owner] * bool(owner))
        ]


def cited_in(text, uses):
    """The definitions that a text cites."""
    return {uses[word] for word in WORD.findall(text) if word in uses}


def reachable(crates, clauses):
    """The definitions that the clauses cite, those that these cite, and so on."""
    found = set()
    todo = [definition for uses, text in clauses for definition in cited_in(text, uses)]
    while todo:
        crate, module, name = todo.pop()
        if (crate, module, name) not in found and crate in crates:
            found.add((crate, module, name))
            uses, lines, _ = crates[crate].definitions.get((module, name), ({}, [], ""))
            todo += cited_in("\n".join(lines), uses)
    return found


def items_of(text):
    """The number of its first line, its indentation and its text in one line of each item of the lists of a page, and of each heading,
    whose indentation is -1."""
    items, inside = [], False
    for number, line in enumerate(text.splitlines(), 1):
        item = re.match(r"( *)- (.*)", line)
        if line.startswith("#"):
            items.append([number, -1, line])
        elif item:
            items.append([number, len(item[1]), item[2].strip()])
        elif inside and line.startswith(" "):
            items[-1][2] += " " + line.strip()
        inside = bool(item) or (inside and line.startswith(" "))
    return items


def rows_of(text, kind):
    """The line, the crate and the cells of each item of the lists of this kind. The cells are None if it has other items below it."""
    (title, labels), crate, section, found = kind, None, None, []
    for number, indentation, item in items_of(text):
        if indentation == -1:
            section = item[3:] if item.startswith("## ") else section
            crate = (re.match(r"#+ `(\w+)`", item) or [None, None])[1]
        elif section == title and indentation == 0:
            found.append((number, crate, [item]))
        elif section == title:
            found[-1][2].append(item)
    for number, crate, (first, *rest) in found:
        pairs = [item.partition(": ") for item in rest]
        yield number, crate, [first, *(cell for _, _, cell in pairs)] if [label for label, _, _ in pairs] == labels else None


def check_wrong_row(crates, crate, cells):
    """Yields what is wrong with a row on a wrong definition."""
    if crate not in crates or not cells or not re.search(r"`\w+`", cells[-1]):
        yield "this is no row of two cells below the heading of a crate"
        return
    for function in re.findall(r"`(\w+)`", cells[-1]):
        if not any(key[2] == function for key in crates[crate].functions):
            yield f"no public function `{function}` with a contract is in {crate}"


def check_row(crates, crate, cells, named):
    """Yields what is wrong with a row. Adds the functions and labels that it names to `named`."""
    if crate not in crates or not cells:
        yield "this is no row of three cells below the heading of a crate"
        return
    clauses = []
    for item in cells[1].split("; "):
        function, *labels = re.findall(r"`([^`]*)`", item) or [""]
        keys = crates[crate].find(function)
        if not keys:
            yield f"no public function `{function}` with a contract is in {crate}"
        for key in keys:
            has = crates[crate].functions[key]
            for label in labels:
                if label not in has:
                    yield f"`{function}` has no clause `{label}`"
            for label in labels or has:
                named.add((crate, key, label))
                clauses += [has[label]] if label in has else []
            clauses += crates[crate].members.get(key[1], [])
    cited = reachable(crates, clauses)
    for written, fields in re.findall(r"`([\w/.◌-]+)`(?: \(([^)]*)\))?", cells[2]):
        other, _, path = written.rpartition("/")
        module, _, name = path.rpartition(".")
        definition = other or crate, module, name
        if definition[0] not in crates or definition[1:] not in crates[definition[0]].definitions:
            yield f"no definition `{written}`"
            continue
        if definition not in cited:
            yield f"the clauses do not cite `{written}`"
        text = "\n".join(crates[definition[0]].definitions[definition[1:]][1])
        for field in re.findall(r"`(\w+)`", fields):
            if not re.search(rf"^ +(?:pub )?{field} :", text, re.M):
                yield f"`{written}` has no field `{field}`"


def check_reading_order(crates, text):
    """Yields the files of definitions that the reading order lacks, or has too many."""
    named, directory = set(), None
    section = re.search(r"^## A reading order\n.*?^\d+\. .*?^(?=[^\d\s])", text, re.M | re.S)[0]
    for written in re.findall(r"`([\w/]+\.antt)`", section):
        crate, _, file = written.partition("/specs/")
        directory = crate.split("/")[-1] if file else directory
        named.add((directory, (file or written)[: -len(".antt")]))
    crate = crates["bi_norm"]
    clauses = [clause for key in crate.find("normalise") for clause in crate.functions[key].values()]
    found = {d[:2] for d in reachable(crates, clauses) if d[1:] in crates[d[0]].definitions}
    for crate, module in sorted(found ^ named):
        yield f"the reading order {'lacks' if (crate, module) in found else 'has'} crates/{crate}/specs/{module}.antt"


def check_requirements(crates, text):
    """Yields the calls that a library exports and that require something, but that the page does not name."""
    section = re.search(r"^## What a caller must meet\n.*?^(?=Three more)", text, re.M | re.S)[0]
    named = set(re.findall(r"`([\w:]+)`", section))
    for crate in crates.values():
        for _, owner, name in sorted(crate.required & crate.exported):
            function = "::".join([owner] * bool(owner) + [name])
            if function not in named:
                yield f"it does not say what `{function}` of {crate.name} requires"


def check_quotes(crates, text, count):
    """Yields the lines of a contract or a definition that the page quotes and the sources do not have, if it does not quote this many."""
    blocks = re.findall(r"^```(rust|text)\n(.*?)^```$", text, re.M | re.S)
    quoted = [block for kind, block in blocks if kind == "rust" or re.search(r"^ *pub ", block, re.M)]
    norm = crates["bi_norm"].directory
    sources = set((read(f"{norm}/src/normal_form.rt") + read(f"{norm}/specs/NormalForm.antt")).splitlines())
    if len(quoted) != count:
        yield f"it does not quote {count} contracts or definitions"
    for line in "".join(quoted).splitlines():
        if line not in sources:
            yield f"this line is not in the sources: {line.strip()}"


def check(root):
    """Prints what is wrong with the tables, and returns how much."""
    crates = {name: Crate(root, name) for name in crates_of(root)}
    tables, page = read(f"{root}/docs/dev/PROMISE_TABLES.md"), read(f"{root}/docs/PROMISES.md")
    wrong, rows, named = [], 0, set()
    for number, crate, cells in rows_of(tables, PROMISES):
        rows += 1
        wrong += [f"docs/dev/PROMISE_TABLES.md:{number}: {reason}" for reason in check_row(crates, crate, cells, named)]
    for number, crate, cells in rows_of(read(f"{root}/tests/prover/wrong_definitions.md"), WRONG):
        wrong += [f"tests/prover/wrong_definitions.md:{number}: {reason}" for reason in check_wrong_row(crates, crate, cells)]
    wrong += [f"docs/PROMISES.md: {reason}" for reason in [*check_reading_order(crates, page), *check_quotes(crates, page, 2)]]
    wrong += [f"docs/PROMISES.md: {reason}" for reason in check_requirements(crates, page)]
    wrong += [f"README.md: {reason}" for reason in check_quotes(crates, read(f"{root}/README.md"), 1)]
    for crate in crates.values():
        for key in sorted(crate.exported):
            if key[0].split(".")[-1].startswith("known_"):
                wrong += [] if key in crate.documented else [f"no docstring has `{key[2]}` of {crate.name}"]
                continue
            for label in crate.functions[key]:
                if (crate.name, key, label) not in named:
                    function = "::".join([key[1] or key[0].split(".")[-1], key[2]])
                    wrong.append(f"no row has `{function}`{f': `{label}`' if label else ''} of {crate.name}")
    print("\n".join(wrong + [f"{rows} rows"]))
    return len(wrong) + (rows == 0)


def print_definitions(root):
    for crate in crates_of(root):
        for (module, name), (_, _, comment) in Crate(root, crate).definitions.items():
            print(f"{crate}/{module}.{name}: {comment}")


if __name__ == "__main__":
    if sys.argv[2:] == ["--definitions"]:
        print_definitions(sys.argv[1])
    else:
        sys.exit(min(check(sys.argv[1]), 1))
