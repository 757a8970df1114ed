"""Finds names and texts of a workspace that CONTRIBUTING.md does not want, and fails if one of them is not explained.

words.py ROOT: ROOT/crates.txt names the crates, which are in ROOT/crates; ROOT/tests/fast/words.exceptions explains what may stay.
It finds:

- twice: a name that two modules define: a definition or public lemma, in one crate or in two;
- record: a record that shows a Rust type, and is not called as the type, nor as the type and `Model`; small known files are left out;
- participle: a definition, lemma, function or type whose name is a participle alone;
- label: a clause whose label is not the one of its family: the only clause about the error is `fault` where the error is a Fault, and
  `failed` else; the only clause about the success has the label of `SUCCESS` below;
- long: a line of a lemma's statement that is longer than 140 columns, also of a lemma within another;
- same: one statement that is proved twice, whatever its variables are called and in whatever order they come;
- copy: thirteen lines that two crates have, one after the other, in sources or proofs.
"""

import os
import re
import sys
from collections import defaultdict, namedtuple

sys.dont_write_bytecode = True
from workspace import crates_of, files_of, read, without_mutual

Definition = namedtuple("Definition", "crate part module name public kind statement first last path")
PROOF_OF_FUNCTION = {"Answers", "Invariants", "Proof"}
HEAD = re.compile(r"^ *((?:(?:abbrev|unfoldable|opaque|pub) )*)(record |data )?([^\s:()]+)(?: (?=[({:])|$)(.*)$")
NO_HEAD = re.compile(r" *(?:(?:pub )?(?:use|mod|module|unfolding)\b|[)}\]]|--)")
PARTICIPLES = set(
    "begun borne built cut done found given gone grown held hidden kept known laid left lost made met put read said seen sent set shown"
    " spent split taken told written".split()
)
# Functions may be called so: these are verbs too.
VERBS = {"cut", "put", "read", "set", "split"}
# Functions, and the label of the only clause about their success.
SUCCESS = (("read", "read"), ("check", "ok"), ("check_.*", "ok"), ("add", "added"), ("add_.*", "added"), (".*_into", "appended"))
WIDEST = 140
COPY = 13


def indent(line):
    return len(line) - len(line.lstrip(" "))


def definitions_of(crate, part, module, path):
    """The definitions of a module, at its top or in a `module _` with parameters, which are then part of their statements."""
    lines = without_mutual(read(path)).splitlines()
    column, parameters = 0, ""
    i = 0
    while i < len(lines):
        line = lines[i]
        if line.strip() and indent(line) == 0 and not line.startswith("--"):
            # The parameters of a module may take several lines.
            while re.match(r"(?:pub )?module _ ", line) and not line.endswith(" where"):
                i += 1
                line += " " + lines[i].strip()
            begins = re.match(r"(?:pub )?module _ (.*) where$", line)
            column, parameters = (2, begins[1] + " → ") if begins else (0, "")
        match = HEAD.match(line) if line.strip() and indent(line) == column and not NO_HEAD.match(line) else None
        if not match or not (match[2] or match[4].startswith(":")):
            i += 1
            continue
        words, kind, name = match[1].split(), (match[2] or "").strip(), match[3]
        j = i + 1
        while j < len(lines) and (indent(lines[j]) > column and lines[j].strip() or kind and not lines[j].strip()):
            j += 1
        text = " ".join([match[4]] + [l.strip() for l in lines[i + 1 : j]])
        if not kind:
            kind = "definition" if {"abbrev", "unfoldable"} & set(words) else "lemma"
            text = parameters + text[1:]
        yield Definition(crate, part, module, name, "pub" in words, kind, " ".join(text.split()), i + 1, j, path)
        i = j


def all_definitions(root):
    for crate in crates_of(root):
        for part in ("specs", "proofs"):
            for path, module in files_of(root, crate, part):
                if module.split(".")[-1] not in PROOF_OF_FUNCTION:
                    yield from definitions_of(crate, part, module, path)


def place_of(definition):
    return f"{definition.crate}.{definition.part}.{definition.module}.{definition.name}"


def names_that_are_twice(definitions):
    places = defaultdict(list)
    for definition in definitions:
        if definition.public or definition.part == "specs":
            places[definition.name].append(definition)
    for name, found in sorted(places.items()):
        if len(found) > 1:
            yield "twice", name, ", ".join(map(place_of, found))


def declared_types(text):
    """The Rust types that a module names: the name that the module gives each, and the name in Rust."""
    for module, names in re.findall(r"use Rattle\.\w+\.specs\.declared\.([\w.+]+)\.\{([^}]*)\}", text):
        for name in names.split(","):
            words = name.split()
            if words and words[0] == module.split(".")[-1]:
                yield words[-1], words[0]


def records_with_other_names(root, definitions):
    records = {definition.name for definition in definitions if definition.kind in ("record", "data")}
    shown = []
    for crate in crates_of(root):
        for path, module in files_of(root, crate, "src"):
            pattern = r"impl(?:<[^>]*>)? Model for (\w+)[^{]*\{.*?ghost Value = \{ (?:List )?(\w+) \};"
            for name, record in re.findall(pattern, read(path), re.S):
                shown.append((name, record, f"{crate}.src.{module}"))
    types = {path: dict(declared_types(read(path))) for path in {definition.path for definition in definitions}}
    for definition in definitions:
        match = re.match(r"\(?(\w+)[^→]*→ \(?(?:List |Option )?(\w+)\)?$", definition.statement)
        if match and definition.kind == "definition" and match[1] in types[definition.path]:
            shown.append((types[definition.path][match[1]], match[2], place_of(definition)))
    for name, record, place in sorted(set(shown)):
        # A type of several, as Parts, may be shown as a list of records of one.
        allowed = {name, name + "Model", name.removesuffix("s") + "Model"}
        if record in records and record not in allowed and not re.search(r"\.Known\w+\.\w+$", place):
            yield "record", record, f"shows {name} at {place}"


def is_participle(name):
    return bool(re.fullmatch(r"[A-Za-z][a-z]+[^e\W]ed|[A-Za-z][a-z]*[^e\W]ed", name)) or name.lower() in PARTICIPLES


def names_that_are_participles(root, definitions):
    for definition in definitions:
        # A relation between states may be called by its verb.
        relation = definition.name[0].isupper() and re.search(r"Type 0$| : Type [01] where", definition.statement)
        holds = relation and not re.match(r": Type", definition.statement)
        if is_participle(definition.name) and not holds and (definition.public or definition.part == "specs"):
            yield "participle", definition.name, place_of(definition)
    for crate in crates_of(root):
        for path, module in files_of(root, crate, "src"):
            for name in re.findall(r"\b(?:fn|struct|enum|trait) (\w+)", read(path)):
                if is_participle(name) and name not in VERBS:
                    yield "participle", name, f"{crate}.src.{module}"


def functions_of(text):
    """The path in its file, the type of the result, and the clauses of each function: label and text."""
    text = re.sub(r"//[^\n]*", "", text)
    owners = [(match.start(), match[1]) for match in re.finditer(r"(?m)^impl(?:<[^>]*>)? (?:.* for )?(\w+)", text)]
    for match in re.finditer(r"(?m)^( *)(?:pub(?:\([^)]*\))? )?(?:unsafe )?(?:extern \"C\" )?fn (\w+)", text):
        end = re.compile(r"(?m)^ *\{\}?$|;$| \{$| \{\}$").search(text, match.end())
        head = text[match.end() : end.start()] if end else text[match.end() :]
        result = re.search(r"-> *(.*?)\s*(?=\brequires\b|\bensures\b|\bwhere\b|$)", head, re.S)
        clauses = []
        for clause in re.finditer(r"\bensures(?: (\w+))? \{", head):
            depth, at = 1, clause.end()
            while depth and at < len(head):
                depth += {"{": 1, "}": -1}.get(head[at], 0)
                at += 1
            clauses.append((clause[1] or "", " ".join(head[clause.end() : at - 1].split())))
        owner = [name for start, name in owners if start < match.start()][-1:] if match[1] else []
        yield "::".join(owner + [match[2]]), result[1] if result else "", clauses


def labels_that_differ(root):
    for crate in crates_of(root):
        for path, module in files_of(root, crate, "src"):
            for function, result, clauses in functions_of(read(path)):
                clauses = [(label, re.sub(r"^(?:let .*? in )+", "", text)) for label, text in clauses]
                errors = [label for label, text in clauses if re.match(r"IfErr\b", text)]
                values = [label for label, text in clauses if re.match(r"(?:IfOk|OnOk)\b", text)]
                where = f"{crate}::{module.replace('.', '::')}::{function}"
                wanted = "fault" if re.search(r", Fault>$", result) else "failed"
                if len(errors) == 1 and errors[0] not in ("", wanted):
                    yield "label", f"{where}.{errors[0]}", f"the label of the clause about its error is `{wanted}`"
                for name, wanted in SUCCESS:
                    is_of_family = re.fullmatch(name, function.split("::")[-1]) and (wanted != "ok" or result.startswith("Result<(), "))
                    if is_of_family and len(values) == 1 and values[0] not in ("", wanted):
                        yield "label", f"{where}.{values[0]}", f"the label of the clause about its success is `{wanted}`"


def local_statements(lines):
    """The name, the first line and the line after each statement that a definition of its name follows."""
    for first, line in enumerate(lines):
        match = re.match(r"( *)(?:(?:abbrev|unfoldable|opaque|pub) )*(?!let )([^\s():{},;]+)(?: [^\s():{},;=]+)* :(?: |$)", line)
        last = first + 1
        while match and last < len(lines) and indent(lines[last]) > len(match[1]):
            last += 1
        after = last
        while match and after < len(lines) and lines[after].strip().startswith("unfolding "):
            after += 1
        if match and after < len(lines) and lines[after].strip() and lines[after].split()[0] == match[2]:
            yield match[2], first, last


def long_statements(root):
    for crate in crates_of(root):
        for path, module in files_of(root, crate, "proofs"):
            lines = read(path).splitlines() if module.split(".")[-1] not in PROOF_OF_FUNCTION else []
            for name, first, last in local_statements(lines):
                longest = max(map(len, lines[first:last]))
                if longest > WIDEST:
                    yield "long", f"{crate}.proofs.{module}.{name}", f"{longest} columns"


def bound_groups(statement):
    """The groups of variables that a statement begins with, and what follows them."""
    groups = []
    rest = statement
    while True:
        match = re.match(r"(?:→ *)?([({])((?:[^\s(){}:,]+ )+): ", rest)
        if not match:
            return groups, rest
        depth, at = 1, match.end()
        while depth and at < len(rest):
            depth += {"(": 1, "{": 1, ")": -1, "}": -1}.get(rest[at], 0)
            at += 1
        groups += [(name, rest[match.end() : at - 1]) for name in match[2].split()]
        rest = rest[at:].lstrip()


def in_one_form(statement):
    """A statement with its variables numbered in the order in which it uses them, and its variables' types in that order."""
    groups, rest = bound_groups(statement)
    variables = dict(groups)
    variables.update((name, None) for group in re.findall(r"[({]((?:[^\s(){}:,]+ )+): ", rest) for name in group.split())
    variables.update((name, None) for group in re.findall(r"λ \(?((?:[^\s().:]+ ?)+)", rest) for name in group.split())
    numbers = {}

    def numbered(text):
        def number(match):
            name, dot, field = match[0].partition(".")
            if name in variables:
                numbers.setdefault(name, f"v{len(numbers)}")
                return numbers[name] + dot + field
            return match[0]

        return " ".join(re.sub(r"[^\s(){}\[\],;]+", number, text).split())

    body = numbered(re.sub(r"\(→|→ *\)", "→", rest))
    types, seen = [], set()
    while len(seen) < len([name for name in numbers if variables.get(name)]):
        for name in [name for name in list(numbers) if variables.get(name) and name not in seen]:
            seen.add(name)
            types.append(f"{numbers[name]} : {numbered(variables[name])}")
    return " ; ".join([body] + sorted(types))


def statements_that_are_proved_twice(definitions):
    found = defaultdict(list)
    for definition in definitions:
        # A statement without variables is a fact by its name, or the type of a function.
        fact = bound_groups(definition.statement)[0] or "→" not in definition.statement
        if definition.part == "proofs" and definition.kind == "lemma" and fact:
            found[in_one_form(definition.statement)].append(definition)
    for statement, same in found.items():
        if len(same) > 1:
            yield "same", " = ".join(sorted(map(place_of, same))), statement[:120]


def copies(root):
    places = defaultdict(list)
    for crate in crates_of(root):
        for part in ("src", "proofs"):
            for path, module in files_of(root, crate, part):
                lines = [line.strip() for line in read(path).splitlines()]
                lines = [line for line in lines if line and not re.match(r"(?:pub )?(?:ghost )?use |--|//", line)]
                for at in range(len(lines) - COPY + 1):
                    places[tuple(lines[at : at + COPY])].append((crate, f"{crate}.{part}.{module}"))
    pairs = {" = ".join(sorted({module for _, module in found})) for found in places.values() if len({crate for crate, _ in found}) > 1}
    for pair in sorted(pairs):
        yield "copy", pair, f"{COPY} lines or more"


def exceptions_of(path):
    """What may stay, with the reason of each: lines of kind, name and reason, with tabs between them."""
    for number, line in enumerate(read(path).splitlines(), 1):
        if line and not line.startswith("#"):
            columns = line.split("\t")
            if len(columns) != 3 or not columns[2]:
                sys.exit(f"{path}:{number}: not a kind, a name and a reason")
            yield columns[0], columns[1]


def main(root):
    definitions = list(all_definitions(root))
    found = [
        *names_that_are_twice(definitions),
        *records_with_other_names(root, definitions),
        *names_that_are_participles(root, definitions),
        *labels_that_differ(root),
        *long_statements(root),
        *statements_that_are_proved_twice(definitions),
        *copies(root),
    ]
    exceptions = set(exceptions_of(os.path.join(root, "tests", "fast", "words.exceptions")))
    used = set()
    wrong = 0
    for kind, name, detail in found:
        explained = {(k, n) for k, n in exceptions if k == kind and (n == name or n.endswith("*") and name.startswith(n[:-1]))}
        used |= explained
        if not explained:
            wrong += 1
            print(f"{kind}: {name}: {detail}")
    for kind, name in sorted(exceptions - used):
        wrong += 1
        print(f"tests/fast/words.exceptions: nothing is found that this explains: {kind}: {name}")
    return wrong


if __name__ == "__main__":
    sys.exit(1 if main(sys.argv[1]) else 0)
