"""Reads the declarations of a proof file. Imported by shorten.py."""

import re
from dataclasses import dataclass, field

SIGNATURE = re.compile(r"((?:(?:pub|abbrev|unfoldable) )*)(\S+) :(?:\s|$)")
USE = re.compile(r"^use ([\w.]+)\.\{([^}]*)\}", re.M)
NAME = re.compile(r"[^\W\d][\w'₀-₉-]*")
TOKEN = re.compile(r"[(){}\[\],;]|[^\s(){}\[\],;]+")
# What a term ends at, where it is not in brackets.
KEYWORDS = {"in", "where", "let", "then", "else", "of", "do"}
TACTICS = {"omega", "search", "grind", "simp", "cc", "rw", "grw"}


@dataclass
class Clause:
    """A clause of a declaration: its lines, counted from 0, and the sides of its equation."""

    start: int
    end: int
    left: str = ""
    body: str = ""


@dataclass
class Declaration:
    """A lemma, an answer or a definition of a file."""

    name: str
    marks: set
    indent: int
    first: int  # the first line of its comment, or else that of its signature
    start: int
    end: int = 0  # after its last line
    type_lines: list = field(default_factory=list)
    unfolding: list = field(default_factory=list)
    clauses: list = field(default_factory=list)

    @property
    def is_lemma(self):
        """Whether it has a proof. The names of other declarations with no mark begin `use`, `record` and so on."""
        return bool(self.clauses) and self.marks <= {"pub"}


def indent_of(line):
    return len(line) - len(line.lstrip())


def read_declarations(lines):
    """Returns the declarations of a file, also those in its sections, which `module` begins."""
    declarations, starts, current, levels = [], [len(lines)], None, [0]
    for at, line in enumerate(lines):
        text, indent = line.lstrip(), indent_of(line)
        if not text or text[0] in ")}]" or text.startswith("--"):
            continue
        if indent < levels[-1] or indent not in levels:
            while levels[-1] > indent:
                levels.pop()
            if indent > levels[-1]:
                continue
        signature = SIGNATURE.match(text)
        if signature:
            current = Declaration(signature[2], set(signature[1].split()), indent, comment_before(lines, at), at)
            declarations.append(current)
            starts.append(current.first)
        elif current and indent == current.indent and text.split()[0] == current.name:
            current.clauses.append(Clause(at, at))
        elif not text.startswith("unfolding "):
            current = None
            starts.append(comment_before(lines, at))
        if text.startswith("module "):
            levels.append(indent + 2)
    starts.sort()
    for declaration in declarations:
        finish(declaration, lines, starts)
    return declarations


def comment_before(lines, at):
    while at and lines[at - 1].lstrip().startswith("--"):
        at -= 1
    return at


def finish(declaration, lines, starts):
    """Finds where a declaration and its parts end."""
    declaration.end = trimmed(lines, declaration, declaration.start, next(at for at in starts if at > declaration.start))
    at = declaration.start + 1
    while at < declaration.end and indent_of(lines[at]) > declaration.indent:
        at += 1
    declaration.type_lines = lines[declaration.start : at]
    first = declaration.clauses[0].start if declaration.clauses else declaration.end
    declaration.unfolding = lines[at:first]
    ends = [clause.start for clause in declaration.clauses[1:]] + [declaration.end]
    for clause, end in zip(declaration.clauses, ends):
        clause.end = trimmed(lines, declaration, clause.start, end)
        text = "\n".join(lines[clause.start : clause.end])
        middle = equals_sign(text)
        if middle is not None:
            clause.left, clause.body = " ".join(text[:middle].split()), text[middle + 1 :]


def trimmed(lines, declaration, start, end):
    """The end of lines of a declaration without blank lines, and comments that are not in it."""
    while end > start + 1 and re.fullmatch(rf" {{0,{declaration.indent}}}--.*|\s*", lines[end - 1]):
        end -= 1
    return end


def equals_sign(text):
    """The offset of the `=` of a clause, which is in no brackets."""
    depth = 0
    for at, letter in enumerate(text):
        depth += (letter in "({[⟦") - (letter in ")}]⟧")
        if letter == "=" and depth == 0 and text[at - 1].isspace() and text[at + 1 : at + 2].isspace():
            return at
    return None


def parts(text):
    """The parts of a clause that are proofs of their own, each as the offsets of its start and end: the steps of `let`, what follows the
    last, the fields of records, the arms of cases, the elements of tuples, and the clauses of its lemmas after `where`."""
    tokens = [(match[0], match.start(), match.end()) for match in TOKEN.finditer(without_comments(text))]
    found = []
    for at, (token, start, _) in enumerate(tokens):
        before = tokens[at - 1][0] if at else ""
        if token == "let":
            equals = until(tokens, at + 1, {"="})
            end = until(tokens, equals + 1, {"in"})
            found += [(equals + 1, end)] * (tokens[at + 2][0] == ":")
            if end + 1 < len(tokens) and tokens[end + 1][0] != "let":
                found.append((end + 1, until(tokens, end + 1, {"where", ",", ";", "|"})))
        elif token == "↦":
            found.append((at + 1, until(tokens, at + 1, {"|"})))
        elif token == "{" and "record" in (before, tokens[at - 2][0] if at > 1 else ""):
            found += [(first + 2, end) for first, end in elements(tokens, at, ";") if end > first + 2 and tokens[first + 1][0] == "="]
        elif token == "(" and before not in TACTICS:
            inside = elements(tokens, at, ",")
            found += inside if len(inside) > 1 else []
    clauses = list(clauses_after_where(text))
    found = [(tokens[first][1], tokens[end - 1][2]) for first, end in found if first < end <= len(tokens)]
    inside = [(start, min([end, *(last for first, last in clauses if first <= start < last)])) for start, end in found]
    return sorted({*((start, start + len(text[start:end].rstrip())) for start, end in inside), *clauses})


def without_comments(text):
    """A text with spaces for its comments. Two dashes in quotes begin none."""
    return re.sub(r'"[^"\n]*"|--.*', lambda match: match[0] if match[0][0] == '"' else " " * len(match[0]), text)


def until(tokens, at, ends):
    """The place of the first of these tokens, or of the bracket that closes what is around, from a place on."""
    depth = steps = 0
    while at < len(tokens):
        token = tokens[at][0]
        if depth == 0 and steps == 0 and token in ends or depth == 0 and token in (")", "}", "]"):
            break
        depth += (token in "({[") - (token in ")}]")
        steps += depth == 0 and "in" in ends and (token == "let") - (token == "in")
        at += 1
    return at


def elements(tokens, at, separator):
    """The places at which the elements in a bracket start and end."""
    found, at = [], at + 1
    while at < len(tokens) and tokens[at][0] not in (")", "}", "]"):
        end = until(tokens, at, {separator})
        found.append((at, end))
        at = end + (end < len(tokens) and tokens[end][0] == separator)
    return found


def clauses_after_where(text):
    """The right sides of the clauses of lemmas after `where`, in the lemmas of a clause and of those lemmas."""
    lines = text.split("\n")
    offsets = [sum(len(line) + 1 for line in lines[:at]) for at in range(len(lines) + 1)]
    for at, line in enumerate(lines):
        if not re.search(r"(?:^|\s)where$", line):
            continue
        indent = next((indent_of(later) for later in lines[at + 1 :] if later.strip()), 0)
        starts = [place for place in range(at + 1, len(lines)) if lines[place].strip() and indent_of(lines[place]) <= indent]
        last = next((place for place in starts if indent_of(lines[place]) < indent), len(lines))
        starts = [place for place in starts if place < last and lines[place].strip()[0] not in ")}]"] + [last]
        for start, end in zip(starts, starts[1:]):
            clause = text[offsets[start] : offsets[end]].rstrip()
            middle = equals_sign(clause)
            if middle is not None and not SIGNATURE.match(clause.strip()):
                first = middle + 1 + len(clause[middle + 1 :]) - len(clause[middle + 1 :].lstrip())
                yield offsets[start] + first, offsets[start] + len(clause)


def imports(text):
    """The names that a file imports, each with its module."""
    found = {}
    for module, names in USE.findall(text):
        for name in names.split(","):
            if name.strip():
                found[name.split(" as ")[-1].strip()] = module
    return found


def words(text):
    """The words of a text without its comments."""
    return re.findall(r"[^\s(){}\[\],;]+", without_comments(text))


def calls(name, text):
    """The applications of a name in a term, with their arguments."""
    found = []
    for match in re.finditer(rf"(?<![^\s(\[{{,;]){re.escape(name)}(?=\s)", text):
        call = application(text, match.end())
        if call and f"{name} {call}" not in found:
            found.append(f"{name} {call}")
    return found


def application(text, at):
    """The arguments that follow at an offset, on one line."""
    arguments = []
    while at < len(text):
        if text[at].isspace():
            at += 1
        elif text[at] in "({":
            end = end_of_brackets(text, at)
            arguments.append(" ".join(text[at:end].split()))
            at = end
        else:
            word = re.match(r"[^\s(){}\[\],;]+", text[at:])
            if not word or word[0] in KEYWORDS or not re.match(r"[\w⟨]|\[\]", word[0]):
                break
            arguments.append(word[0])
            at += word.end()
    return " ".join(arguments)


def end_of_brackets(text, start):
    """The offset after the bracket that closes the one at an offset."""
    depth = 0
    for at in range(start, len(text)):
        depth += (text[at] in "({[") - (text[at] in ")}]")
        if depth == 0:
            return at + 1
    return len(text)
