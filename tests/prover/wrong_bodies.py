"""Tries the wrong bodies of a crate, which are in tests/prover/wrong_bodies/CRATE.edits, and prints a line for each.

wrong_bodies.py [--refused | --differs | --unchanged | --judge] CRATE_DIRECTORY EDITS [CALL CRATE]: `CALL check CRATE` runs `rattle check`
on the crate in the current directory, and `CALL try CRATE` runs its tests. The script adds the flags --incremental, --allow-holes and
--only to a check. Without CALL nothing is tried, and only the edits that cannot be made are printed. With --refused the lines `differs:`
are not tried, and with --differs nothing else is. With --unchanged the edits change nothing, and a function has to be proved but for the
holes of others. With --judge each line says what was found, even of an edit that does not count.

EDITS is a file with a heading for each edit, `## NAME`, or a directory of edits for `rt must-fail`. Below its heading an edit has a line
`refused: FUNCTION`, maybe a line `differs: EXPRESSION => RIGHT | WRONG`, and then the lines of an edit for `rt must-fail`, which change
what this function does.

An edit counts only if its function is wrong by its contract. Where the prover finds no proof, this is one of (see FINDINGS):

    false      a goal that the function has without the edit is open, and search ended before its limits
    new        only goals are open that the edit brought, by a call, an arm or a way out
    invariant  only an invariant of a loop does not hold. It is part of the proof, and not of the contract
    answer     only answers do not fit. An answer may have to be written anew after any edit
    limit      search stopped at a limit

An edit of the first kind counts. One of the other kinds counts only if it has a line `differs:`. This shows an input for which the
function does something else: EXPRESSION, in the module of the function, matches the pattern RIGHT, and with the edit it matches WRONG.

A function is proved from its own code and the contracts of the functions that it calls, and `rt ci` proves those. So in a check the
functions without an edit have no code but `unreachable!()`, and a hole for their proof: rattle takes them by their contracts.

Most edits are tried in one check: each is made in a copy of its function, beside the function and under another name, with a copy of
the files of its proof. The others are made in the function itself: those of a method of a trait, of a function that calls itself, and
those that change more than the function. Each edit of the same function then needs a check of its own.
"""

import re
import shutil
import subprocess
import sys
import tempfile
from pathlib import Path
from typing import NamedTuple


# What rattle prints of a function that is proved, but for the holes in the proofs of those that it calls.
PROVED = re.compile("no holes$|depends on a hole in ")

# What is found of a function for which there is no proof. Only the first says by itself that the function is wrong.
FINDINGS = ("false", "new", "invariant", "answer", "limit")

# What makes a way through a function: an arm, a way out, a loop, a choice.
WAY = re.compile(r"\b(?:if|else|match|while|for|loop|return|break|continue)\b|=>|\?(?=[;.,)\s])|&&|\|\|")

# Calls that have no goal of their own: each returns a value, whatever its arguments are.
CALL_WITHOUT_GOAL = re.compile(r"(?:(?:saturating|wrapping)_(?:add|sub)|min|max|get|unwrap_or|len|is_empty)$")


class Edit(NamedTuple):
    name: str
    function: str
    differs: tuple  # an expression, and the patterns of its value without the edit and with it; or nothing
    changes: tuple  # each of a file, the text in it, and the text in its place


class Function(NamedTuple):
    """A function in the sources, by the numbers of its lines, from 0."""

    file: str
    first: int  # of its attributes, or else of its signature
    body: int  # after the opening brace
    last: int  # of the closing brace


class Copy(NamedTuple):
    """A copy of a function, in which an edit is made."""

    edit: Edit
    function: str
    text: str
    original: Function


def read_edits(path):
    """Returns the edits of a file, or those of the files of a directory."""
    if path.is_dir():
        return [parse_edit(file.stem, file.read_text(encoding="utf-8")) for file in sorted(path.glob("*.edit"))]
    pieces = re.split(r"^## (.*)\n", path.read_text(encoding="utf-8"), flags=re.M)
    return [parse_edit(name, text) for name, text in zip(pieces[1::2], pieces[2::2])]


def parse_edit(name, text):
    function, file, old, differs, changes = None, None, None, (), []
    for line in text.split("\n"):
        key, _, text = line.partition(":")
        text = text.removeprefix(" ")
        if key == "refused":
            function = text
        elif key == "differs":
            expression, _, patterns = text.rpartition(" => ")
            differs = (expression, *patterns.split(" | ", 1))
        elif key == "file":
            file = text
        elif key == "old":
            old = text
        elif key == "new":
            changes.append((file, old, text))
    return Edit(name, function, differs, tuple(changes))


def apply(edit, texts):
    """Returns the texts of the files with the edit applied, or None if a text is not in its file once."""
    texts = dict(texts)
    for file, old, new in edit.changes:
        if texts.get(file, "").count(old) != 1:
            return None
        texts[file] = texts[file].replace(old, new)
    return texts


def module_of(file):
    """Returns the path of a module, by that of its file."""
    path = file.removeprefix("src/").removesuffix(".rt")
    return "" if path in ("lib", "main") else path.replace("/", "::")


def block_name(line, module, type_modules):
    """Returns the path of a type, or of the trait of a type, by the first line of an `impl` block in a module. Returns None of another
    line."""
    found = re.match(r"(?:unsafe )?impl(?:<.*?>)? (?:(\w+)(?:<([\w:]+)(?:<.*>)?>)? for )?(&(?:'\w+ )?)?(\w+)(?:<.*>)? \{$", line)
    if not found:
        return None
    parameter = "".join(part[0].upper() + part[1:] for part in (found[2] or "").split("::") if part)
    type_name = ("Ref" if found[3] else "") + found[4]
    return f"{module if found[1] else type_modules.get(type_name, module)}::{type_name}{found[1] or ''}{parameter}"


def functions_of(texts):
    """Returns the functions with a body of several lines in these sources, by their names as rattle prints them."""
    type_modules = {}
    for file, text in texts.items():
        for name in re.findall(r"^(?:pub(?:\([a-z]+\))? )?(?:struct|enum) (\w+)", text, re.M):
            type_modules[name] = module_of(file)
    functions = {}
    for file, text in texts.items():
        lines, block = text.split("\n"), None
        for at, line in enumerate(lines):
            if re.match(r"\S.*\{$", line):
                block = block_name(line, module_of(file), type_modules)
            found = re.match(r'( *)(?:pub(?:\([a-z]+\))? )?(?:extern "C" )?fn (\w+)', line)
            path = block if found and found[1] else module_of(file)
            body = body_of(lines, at, found[1]) if found and path is not None else None
            if body:
                first, last = at, lines.index(f"{found[1]}}}", body)
                while first and re.match(r" *#\[", lines[first - 1]):
                    first -= 1
                functions[f"{path}::{found[2]}".removeprefix("::")] = Function(file, first, body, last)
    return functions


def body_of(lines, at, indent):
    """Returns the number of the line after the opening brace of a function that begins in the line `at`, or None if it has no body of
    several lines."""
    for number in range(at, len(lines)):
        line = lines[number]
        is_signature = number == at or line.startswith(f"{indent})")
        if line == f"{indent}{{}}" or is_signature and line.endswith(" {}"):
            return None
        # An edit may have code after the brace.
        if line == f"{indent}{{" or is_signature and re.search(r" \{( |$)", line):
            return number + 1
    return None


def copy_of(edit, number, texts, functions):
    """Returns a copy of the function of an edit in which the edit is made, or None if it has to be made in the function itself."""
    path, _, name = edit.function.rpartition("::")
    function = functions[edit.function]
    text = "\n".join(texts[function.file].split("\n")[function.first : function.last + 1])
    is_method = text.startswith(" ")
    if is_method and not re.search(rf"^impl(<.*?>)? {path.rpartition('::')[2]}\b", texts[function.file], re.M):
        return None
    own = rf"(self\.|Self::|\b{path.rpartition('::')[2]}::)" if is_method else r"(?<!fn )(?<![\w.:])"
    if "#[cycle" in text or re.search(rf"{own}{name}\(", text):
        return None
    for file, old, new in edit.changes:
        if file != function.file or text.count(old) != 1:
            return None
        text = text.replace(old, new)
    text = re.sub(rf"\bfn {name}\b", f"fn {name}_wrong_{number}", text, count=1)
    return Copy(edit, f"{path}::{name}_wrong_{number}", text, function)


def add_copies(copies, texts):
    """Returns the texts with each copy after its function."""
    texts = dict(texts)
    for copy in sorted(copies, key=lambda copy: copy.original.last, reverse=True):
        file, _, _, last = copy.original
        lines = texts[file].split("\n")
        lines[last + 1 : last + 1] = ["", *copy.text.split("\n")]
        texts[file] = "\n".join(lines)
    return texts


def remove_bodies(texts, kept):
    """Returns the texts with no code but `unreachable!()` in the functions that are not kept, and the names of these functions. Functions
    that call one another have one proof, and are kept."""
    texts, removed = dict(texts), []
    for name, (file, first, body, last) in sorted(functions_of(texts).items(), key=lambda item: item[1].last, reverse=True):
        lines = texts[file].split("\n")
        if name not in kept and name != "main" and not any("#[cycle" in line for line in lines[first:body]):
            lines[body:last] = [re.match(" *", lines[last])[0] + "    unreachable!()"]
            texts[file] = "\n".join(lines)
            removed.append(name)
    return texts, removed


def copy_proof(directory, crate, function, copy):
    """Copies the files of the proof of a function for a copy of it."""
    source, target = (Path(directory, "proofs", *path.split("::")) for path in (function, copy))
    names = [f"Rattle.{crate}.proofs.{path.replace('::', '.')}." for path in (function, copy)]
    for file in source.glob("*.antt"):
        target.mkdir(exist_ok=True)
        (target / file.name).write_text(file.read_text(encoding="utf-8").replace(*names), encoding="utf-8")


def write_hole(directory, crate, function):
    """Writes a proof with a hole instead of that of a function."""
    proof, name = Path(directory, "proofs", *function.split("::")), function.rpartition("::")[2]
    shutil.rmtree(proof, ignore_errors=True)
    proof.mkdir(parents=True)
    lines = [
        f"use Rattle.{crate}.proofs.{function.replace('::', '.')}.Statement.{{statement}}",
        "",
        f"pub {name}_spec : {{M : Type 1}} → statement M",
        f"{name}_spec = ?",
        "",
    ]
    (proof / "Proof.antt").write_text("\n".join(lines), encoding="utf-8")


def check(crate, texts, edited, removed, copies, command, kept):
    """Returns what rattle prints of the edited functions, in a copy of the crate with these texts, without the proofs of the functions
    whose code is removed, and with those of these copies."""
    with tempfile.TemporaryDirectory() as directory:
        for part in ("src", "specs", "proofs"):
            if (crate / part).is_dir():
                shutil.copytree(crate / part, f"{directory}/{part}")
        for file, text in texts.items():
            Path(directory, file).write_text(text, encoding="utf-8")
        for copy in copies:
            copy_proof(directory, crate.name, copy.edit.function, copy.function)
        for function in removed:
            write_hole(directory, crate.name, function)
        only = [word for function in edited for word in ("--only", function)]
        command = [*command, "--incremental", kept, "--allow-holes", *only]
        how = {"stdin": subprocess.DEVNULL, "stdout": subprocess.PIPE, "stderr": subprocess.STDOUT, "text": True, "errors": "replace"}
        return subprocess.run(command, cwd=directory, **how).stdout


class Goal(NamedTuple):
    """A goal that is open, or whose answer is wrong."""

    name: str
    line: int  # where it is in its file, from 0, or -1 of an answer
    column: int
    finding: str


def open_goals(output, function):
    """Returns the goals that are open in the lines of a function."""
    note = rf"^note: {re.escape(function.file)}:(\d+):(\d+): (?:it is not proved that .*|.* found no proof) \(`([^`]*)`\)(.*)$"
    goals = []
    for line, column, name, remark in re.findall(note, output, re.M):
        if function.first < int(line) <= function.last + 1:
            is_invariant = name.startswith("loop") or "invariant of the loop" in remark
            finding = "limit" if "at one of its limits" in remark else "invariant" if is_invariant else "false"
            goals.append(Goal(name, int(line) - 1, int(column) - 1, finding))
    return goals


def inserted(old, new):
    """Returns where the text begins and ends in `new` that is not in `old`."""
    begin = 0
    while begin < min(len(old), len(new)) and old[begin] == new[begin]:
        begin += 1
    end = len(new)
    while end > begin and len(old) - (len(new) - end) > begin and old[len(old) - (len(new) - end) - 1] == new[end - 1]:
        end -= 1
    return begin, end


def ways_and_calls(text):
    """Returns how many ways a text makes, and how many calls it has that have goals of their own."""
    text = re.sub(r"""b?"(\\.|[^"\\])*"|b?'(\\.|[^'\\])'""", "0", text)
    calls = [name for name in re.findall(r"(\w+)!?\(", text) if name[0].islower() and not CALL_WITHOUT_GOAL.match(name)]
    return len(WAY.findall(text)), len(calls)


def is_new(goal, edit, function, text):
    """Returns whether an edit brought a goal: it has more ways or calls than the text in its place, and the goal is in what it added, or
    is named after a word there. The text is that of the file with the edit."""
    lines = text.split("\n")
    words, is_inside, adds = set(), False, False
    for _, old, new in edit.changes:
        adds |= any(more > before for more, before in zip(ways_and_calls(new), ways_and_calls(old)))
        begin, end = inserted(old, new)
        words |= set(re.findall(r"\w+", new[begin:end]))
        at = lines[goal.line].find(new)
        is_inside |= at >= 0 and at + begin <= goal.column < at + max(end, begin + 1)
    ways = re.sub(r"-clause-.*", "", goal.name).split("-")[1:]
    return adds and (is_inside or any(way in words for way in ways if way not in ("then", "else", "in", "in_err")))


def goals_of(output, crate, name, function):
    """Returns the goals of a function that are open and those with a wrong answer, and what rattle says of the function."""
    found = re.search(rf"^fn {re.escape(crate)}::{re.escape(name)}: (.*)$", output, re.M)
    if not found:
        return [], "rattle does not name the function"
    if not re.match("no proof|not proved", found[1]):
        return [], found[1]
    answers = re.escape("./proofs/" + name.replace("::", "/")) + r"/Answers\.antt:\d+:\d+: error: (.*)"
    # These errors name what the edit took away, or an answer with such an error. They say nothing about the contract. rattle may break a
    # message: the lines that continue it begin with two spaces.
    names = r": record `|has no |is no name|is not in scope|w(as|ere) (not admitted|rejected)|have not been loaded|cannot be unfolded"
    joined = re.sub(r"\n  (?=\S)", " ", output)
    wrong = [it for it in re.findall(answers, joined) if not re.search(names, it)]
    answered = [Goal(it, -1, -1, "limit" if "at its own limit" in it else "answer") for it in wrong]
    return open_goals(output, function) + answered, found[1]


def verdict(output, crate, name, function, edit, text):
    """Returns what is found of a function, or None if it is not refused, and why."""
    goals, why = goals_of(output, crate, name, function)
    goals = [goal._replace(finding="new") if goal.finding == "false" and is_new(goal, edit, function, text) else goal for goal in goals]
    for finding in FINDINGS:
        these = [goal.name for goal in goals if goal.finding == finding]
        if these:
            return finding, ", ".join(these)
    return None, why


def fault(output, is_edited):
    """Returns why the output shows nothing of the edited functions, if so: a text could not be read, rattle did not come to its end, or
    a function that is not edited does not depend on a hole alone."""
    unread = re.search(r"^(?:\./)?(?:src|specs)/.*: error.*", output, re.M)
    if unread:
        return unread[0]
    if not re.search(r"^only=\d+ holes=\d+\n\Z", output, re.M):
        return "rattle did not come to its end"
    for function, what in re.findall(r"^fn \w+?::(\S+): (.*)$", output, re.M):
        if not is_edited(function) and not PROVED.match(what):
            return f"{function}: {what}"
    return None


def is_within(edit, texts, functions):
    """Returns whether an edit changes its function alone."""
    file, first, _, last = functions[edit.function]
    text = "\n".join(texts[file].split("\n")[first : last + 1])
    return all(other == file and text.count(old) == 1 for other, old, _ in edit.changes)


def choose(edits, taken, texts, functions):
    """Returns edits that can be made in their functions together, beside those that are taken: of different functions, and one that changes
    more than its function only beside those of other files."""
    chosen = []
    for edit in edits:
        for other in taken + chosen:
            shares_file = {file for file, _, _ in edit.changes} & {file for file, _, _ in other.changes}
            stay_within = is_within(edit, texts, functions) and is_within(other, texts, functions)
            if edit.function == other.function or shares_file and not stay_within:
                break
        else:
            chosen.append(edit)
    return chosen


def try_round(crate, copies, edits, texts, command, kept):
    """Checks these copies, and these edits in their functions. Returns the verdict on each edit, or why the check shows nothing."""
    for edit in edits:
        texts = apply(edit, texts)
    texts = add_copies(copies, texts)
    edited = {copy.function: copy.edit for copy in copies} | {edit.function: edit for edit in edits}
    texts, removed = remove_bodies(texts, edited)
    output = check(crate, texts, edited, removed, copies, command, kept)
    # Functions that call one another have one proof. They are in one module.
    modules = {edit.function.rpartition("::")[0] for edit in edits}
    why = fault(output, lambda name: name in edited or name.rpartition("::")[0] in modules)
    if why:
        return {}, "\n".join([why, *output.splitlines()[-20:]])
    functions = functions_of(texts)
    verdicts = {}
    for name, edit in edited.items():
        verdicts[edit] = verdict(output, crate.name, name, functions[name], edit, texts[functions[name].file])
    return verdicts, None


def report(crate, edit, finding, why, wanted="refused"):
    """Prints the verdict on an edit, and returns whether it is the wanted one: `refused` or `proved`, or any for the judge."""
    counts = finding == "false" or bool(finding and edit.differs)
    is_proved = not finding and bool(PROVED.match(why))
    is_wanted = {"refused": counts, "proved": is_proved, "judged": True}[wanted]
    said = f"{finding}: " if finding else ""
    print(f"{wanted if is_wanted else 'FAILED'}: {crate.name}/{edit.name}: {edit.function}: {said}{why[:160]}", flush=True)
    return is_wanted


def test_of(number, expression, pattern):
    """Returns the lines of a test that the value of an expression matches a pattern."""
    lines = ["#[test]", f"fn differs_{number}(rt: HostRuntime) {{", "    let alloc = rt.alloc();", "    let _ = alloc;"]
    return ["", *lines, f"    assert!(rt; matches!({expression}, {pattern}));", "}"]


def call_of(copy):
    """Returns the pattern of the name of the function of a copy in a call of it. A method is called by its type, as `Type::name(`, or, if
    it takes `self`, as `.name(`, of whatever type the value before the dot is. Functions of the same name of other types are not called."""
    path, _, name = copy.edit.function.rpartition("::")
    before = r"(?<![\w.:])"
    if copy.text.startswith(" "):
        by_type = rf"(?<=\b{path.rpartition('::')[2]}::)"
        takes_self = re.search(r"\bfn \w+(?:<.*?>)?\(\s*(?:&(?:'\w+ )?)?(?:mut )?self\b", copy.text)
        before = rf"(?:{by_type}|(?<=\.))" if takes_self else by_type
    return re.compile(rf"{before}{name}(?=\(|::<)")


def failed_tests(crate, texts, tests, call):
    """Runs these tests, each of a module and its lines, in a copy of the crate with these texts. Returns what is printed, and the numbers
    of those that fail."""
    texts = dict(texts)
    for file, _, lines in tests:
        texts[file] = "\n".join([texts[file].rstrip("\n"), *lines, ""])
    with tempfile.TemporaryDirectory() as directory:
        copy = Path(directory, crate.name)
        for part in ("src", "specs", "proofs"):
            if (crate / part).is_dir():
                shutil.copytree(crate / part, copy / part)
        for file, text in texts.items():
            (copy / file).write_text(text, encoding="utf-8")
        how = {"stdin": subprocess.DEVNULL, "stdout": subprocess.PIPE, "stderr": subprocess.STDOUT, "text": True, "errors": "replace"}
        output = subprocess.run([call[0], "try", *call[1:]], cwd=copy, **how).stdout
    passed = {int(number) for number in re.findall(r"^test .*\bdiffers_(\d+) \.\.\. ok$", output, re.M)}
    return output, {number for _, number, _ in tests} - passed


def differ(crate, edits, texts, call):
    """Tries the lines `differs:` of these edits: each expression has its value without the edit, and the other one with it. The edits that
    are made in copies are tried together, and so are those of different functions. An edit is made in the function itself if its
    expression does not call the function. Returns whether all is so."""
    edits = [edit for edit in edits if edit.differs]
    functions = functions_of(texts)
    copies = [copy for copy in (copy_of(edit, number, texts, functions) for number, edit in enumerate(edits, 1)) if copy]
    copies = [copy for copy in copies if call_of(copy).search(copy.edit.differs[0])]
    rounds = [(texts, [(functions[edit.function].file, 2 * at, test_of(2 * at, *edit.differs[:2])) for at, edit in enumerate(edits)])]
    copied = add_copies(copies, texts)
    tests = []
    for copy in copies:
        number = 2 * edits.index(copy.edit) + 1
        expression = call_of(copy).sub(copy.function.rpartition("::")[2], copy.edit.differs[0])
        tests.append((copy.original.file, number, test_of(number, expression, copy.edit.differs[2])))
    rounds[0] = (copied, rounds[0][1] + tests)
    waiting = [edit for edit in edits if all(copy.edit != edit for copy in copies)]
    while waiting:
        chosen = choose(waiting, [], texts, functions)
        changed, tests = texts, []
        for edit in chosen:
            changed = apply(edit, changed)
            number = 2 * edits.index(edit) + 1
            tests.append((functions[edit.function].file, number, test_of(number, edit.differs[0], edit.differs[2])))
        rounds.append((changed, tests))
        waiting = [edit for edit in waiting if edit not in chosen]
    all_differ = True
    for changed, tests in rounds if edits else []:
        output, failed = failed_tests(crate, changed, tests, call)
        for number in sorted(failed):
            what = "with" if number % 2 else "without"
            print(f"FAILED: {crate.name}/{edits[number // 2].name}: the value {what} the edit is another one")
        if failed:
            print(output[-3000:])
        all_differ &= not failed
    return all_differ


def try_all(crate, edits, texts, command, wanted):
    """Tries the edits. If one has to be refused and is not, in a copy of its function, it is tried in the function itself. Returns whether
    each verdict is the wanted one."""
    functions = functions_of(texts)
    copies = [copy for copy in (copy_of(edit, number, texts, functions) for number, edit in enumerate(edits, 1)) if copy]
    waiting = [edit for edit in edits if all(copy.edit != edit for copy in copies)]
    all_wanted = True
    with tempfile.TemporaryDirectory() as kept:
        while copies or waiting:
            chosen = choose(waiting, [copy.edit for copy in copies], texts, functions)
            verdicts, why = try_round(crate, copies, chosen, texts, command, kept)
            if why:
                print(f"FAILED: {crate.name}: {why}")
                return False
            again = [copy.edit for copy in copies if wanted != "proved" and not verdicts[copy.edit][0]]
            for edit, result in verdicts.items():
                if edit not in again:
                    all_wanted &= report(crate, edit, *result, wanted)
            waiting = again + [edit for edit in waiting if edit not in chosen]
            copies = []
    return all_wanted


def main():
    arguments = sys.argv[1:]
    mode = arguments.pop(0) if arguments[0].startswith("--") else None
    wanted = {"--unchanged": "proved", "--judge": "judged"}.get(mode, "refused")
    crate, edits, *call = arguments
    crate = Path(crate)
    # An edit for `rt must-fail` names no function.
    is_for_rt = Path(edits).name == "must-fail"
    edits = read_edits(Path(edits))
    texts = {str(file.relative_to(crate)): file.read_text(encoding="utf-8") for file in sorted(crate.glob("src/**/*.rt"))}
    functions = functions_of(texts)
    names = {None} if is_for_rt else functions
    applicable = [edit for edit in edits if edit.function in names and apply(edit, texts)]
    for edit in edits:
        if edit not in applicable:
            report(crate, edit, None, "a text is not in its file once, or the sources have no such function")
    if any(edit.differs and len(edit.differs) != 3 for edit in edits):
        print(f"FAILED: {crate.name}: a line `differs:` is not EXPRESSION => RIGHT | WRONG")
        return 1
    if not call:
        return 0 if len(applicable) == len(edits) else 1
    if wanted == "proved":
        # The text of a later change may be there only after an earlier one.
        unchanged = [tuple((file, old, old) for file, old, _ in edit.changes if texts[file].count(old) == 1) for edit in applicable]
        applicable = [edit._replace(changes=changes) for edit, changes in zip(applicable, unchanged)]
    all_wanted = mode not in (None, "--differs") or differ(crate, applicable, texts, call)
    all_wanted &= mode == "--differs" or try_all(crate, applicable, texts, [call[0], "check", *call[1:]], wanted)
    return 0 if all_wanted and len(applicable) == len(edits) else 1


if __name__ == "__main__":
    sys.exit(main())
