#!/usr/bin/env python3
"""Replaces proofs of several lines by one line, where the prover finds them by the lemmas that they cite.

    scripts/shorten.py [--lines NUMBER] [--parts] CRATE [FILE ..]

FILE is a file of `crates/CRATE/proofs`, by its path below `proofs`; without one, each file is tried. The crates below must be built, by
`rt lib` or scripts/build.py. The files are changed in place, and a line tells the lines of each before and after.

A clause of at least three lines, or of NUMBER lines, is tried as `search (rules, L)`, and if it has arithmetic also as
`grind (arith, L)`. With --parts so is each part of it that is a proof of its own, such as a step of a `let`. L are the lemmas that the
proof cites, at most four; a recursive call counts as one. One check tries all of them: each is a further declaration beside the original,
which stays, and an error names each that fails. The other clauses of such a declaration are holes. What succeeds takes the place of the
proof, unless its line is too long. Then the imports and private lemmas go that nothing uses any more, and a second check reads the files
as they are. A proof that fails there is put back.

The lemmas and answers of these files are checked, but not the whole crate: run `rt check` after it.
"""

import argparse
import re
import shutil
import subprocess
import sys
import tempfile
import time
from dataclasses import dataclass
from pathlib import Path

sys.dont_write_bytecode = True
from build import KIT, ROOT, read_crates
from proof_files import calls, imports, parts, read_declarations, without_comments, words

MOST_LEMMAS = 4
MOST_COLUMNS = 140
COMMON = "Rattle.std.proofs.Common"
# Names of proof modules that are no lemmas.
NO_LEMMAS = set("common_steps get_or string_bytes flat_map slice_get vec_len option_map unwrap_or nat_cmp is_ok is_err bytes_eq".split())
NO_LEMMAS |= set("is_some slice_set slice_index slice_index_or bit_xor nat_tests".split())
ARITHMETIC = {"omega", "grind", "arith"}
# Where a definition is opened: below a signature, or in an attribute.
OPENED = re.compile(r"\bunfolding[ (]([^)\n]*)")
# Of a check: an error in a declaration, and a tactic that chose a value, which no proof is to depend on.
ERROR = re.compile(r"^(?:\./)?(proofs/\S+?):(\d+):\d+: (?:error: (?:`([^`]*)`)?|note: `\S+` has chosen a term)", re.M)


@dataclass
class Trial:
    """A line that may take the place of a proof: of a clause, or of a part of it."""

    name: str
    file: Path
    declaration: str
    place: int  # the line of the signature
    number: int  # which clause it is
    start: int  # the offsets in the text of the clause
    end: int
    line: str

    @property
    def proof(self):
        return self.file, self.place, self.number, self.start, self.end


class Shortening:
    """The trials of a crate's proofs, and what came of them."""

    def __init__(self, crate, files, least=3, with_parts=False):
        self.crate = crate
        self.least = least
        self.with_parts = with_parts
        self.home = ROOT / "crates" / crate.name
        self.log = crate.out / "shorten.log"
        self.files = files
        self.before = {file: (self.home / file).read_text() for file in files}
        self.lemmas_of_files = {}
        self.opened = set(re.findall(r"[^\s,():]+", " ".join(OPENED.findall("\n".join(map(Path.read_text, self.sources()))))))
        self.trials = [trial for file in files for trial in self.trials_of(file)]

    def sources(self):
        return [path for part in ("src", "proofs") for path in sorted((self.home / part).rglob("*")) if path.suffix in (".rt", ".antt")]

    def trials_of(self, file):
        lines = self.before[file].split("\n")
        declarations = read_declarations(lines)
        own = {declaration.name for declaration in declarations if declaration.is_lemma}
        # What is opened by its name counts by its value.
        for declaration in filter(lambda declaration: declaration.is_lemma and declaration.name not in self.opened, declarations):
            for number, clause in enumerate(declaration.clauses):
                if not clause.left:
                    continue
                text = "\n".join(lines[clause.start : clause.end])
                body = len(text) - len(clause.body.lstrip())
                for start, end in [(body, len(text)), *(parts(text) if self.with_parts else [])]:
                    # The lines of a clause count from its left side.
                    if text.count("\n", 0 if start == body else start, end) + 1 < self.least:
                        continue
                    for kind, line in self.lines_for(declaration.name, text[start:end], own, imports(self.before[file])):
                        name = f"tried_{kind}_{file.stem}_{declaration.start}_{number}_{start}_{end}"
                        trial = Trial(name, file, declaration.name, declaration.start, number, start, end, line)
                        if len(shortened_line(declaration, clause, text, trial)) <= MOST_COLUMNS:
                            yield trial

    def lines_for(self, name, proof, own, imported):
        """The lines to try in the place of a proof, each with a word for its kind."""
        cited = []
        for word in words(proof):
            module = imported.get(word, "")
            is_lemma = word in own or ".proofs." in module and self.is_lemma(word, module)
            if is_lemma and word not in cited and word != name:
                cited.append(word)
        recursive = calls(name, proof)
        own_first = sorted(cited, key=lambda word: imported.get(word, "").startswith("Rattle.std."))
        lemmas = [*(cited if len(cited) + len(recursive) <= MOST_LEMMAS else own_first[: max(MOST_LEMMAS - len(recursive), 0)]), *recursive]
        if len(lemmas) > MOST_LEMMAS:
            return
        yield "search", with_list("search", "rules", lemmas)
        if ARITHMETIC & set(words(proof)):
            yield "grind", with_list("grind", "arith", lemmas)
        # The lemmas with their arguments, where they are used once.
        applied = [found[0] if len(found := calls(word, proof)) == 1 else word for word in lemmas]
        if applied != lemmas:
            yield "applied", with_list("search", "rules", applied)

    def is_lemma(self, word, module):
        """Whether a name of a module is a lemma: by its file if this is of the repository, or else by its form."""
        _, crate, *path = module.split(".")
        file = ROOT / "crates" / crate / Path(*path).with_suffix(".antt")
        if file not in self.lemmas_of_files:
            lines = file.read_text().split("\n") if file.exists() else []
            self.lemmas_of_files[file] = {declaration.name for declaration in read_declarations(lines) if declaration.is_lemma}
        if file.exists():
            return word in self.lemmas_of_files[file]
        return bool(re.search(r"[-_]", word)) and "◌" not in word and word not in NO_LEMMAS and path[-1] not in ("Goals", "Given")

    def with_trials(self, file):
        """The text of a file with its trials."""
        lines = self.before[file].split("\n")
        declarations = {declaration.start: declaration for declaration in read_declarations(lines)}
        for trial in sorted((trial for trial in self.trials if trial.file == file), key=lambda trial: -trial.place):
            declaration = declarations[trial.place]
            pattern = re.compile(rf"(?<!\S)(?:pub )?{re.escape(declaration.name)}(?!\S)")
            added = ["", pattern.sub(trial.name, declaration.type_lines[0], count=1), *declaration.type_lines[1:], *declaration.unfolding]
            for number, clause in enumerate(declaration.clauses):
                text = "\n".join(lines[clause.start : clause.end])
                if number == trial.number:
                    text = with_line(declaration, clause, text, trial)
                elif clause.left:
                    text = " " * declaration.indent + f"{clause.left} = ?"
                added.append(pattern.sub(trial.name, text, count=1))
            lines[declaration.end : declaration.end] = added
        return with_imports("\n".join(lines), ["arith", "rules"]) + "\n\ntried_control : no_such_name\n"

    def check(self, texts):
        """Checks the crate with these texts in the place of those of its files. Returns what the check prints."""
        self.log.parent.mkdir(exist_ok=True)
        with tempfile.TemporaryDirectory() as room:
            for part in ("src", "specs", "proofs"):
                if (self.home / part).is_dir():
                    shutil.copytree(self.home / part, Path(room, part))
            for file, text in texts.items():
                Path(room, file).write_text(text)
            functions = self.name_lemma_files(Path(room), [file for file in texts if file.name != "Answers.antt"])
            functions += [function_of(file) for file in texts if file.name == "Answers.antt"]
            words = [*self.words(Path(room)), "--allow-holes"]
            for function in sorted(set(functions)):
                words += ["--only", function]
            how = {"stdin": subprocess.DEVNULL, "stdout": subprocess.PIPE, "stderr": subprocess.STDOUT}
            said = subprocess.run(list(map(str, words)), cwd=room, text=True, errors="replace", **how).stdout
        self.log.write_text(said)
        if not re.search(r"^only=", said, re.M):
            sys.exit(f"{self.crate.name}: rattle did not come to its end: {self.log} has what it printed")
        return re.sub(r"\n  +(?=\S)", " ", said)

    def errors(self, texts):
        """Checks the crate with these texts. Returns the file and the declaration of each error."""
        found = set()
        for error in ERROR.finditer(self.check(texts)):
            file = Path(error[1])
            found.add((file, error[3] or declaration_at(texts.get(file, ""), int(error[2]) - 1)))
        return found

    def name_lemma_files(self, room, files):
        """Has the answers of one function import these files, so that a check of the function reads them."""
        if not files:
            return []
        answers = [path for path in (room / "proofs").rglob("Answers.antt") if "+" not in str(path)]
        host = min(answers, key=lambda path: (path.stat().st_size, str(path)))
        modules = [".".join(file.with_suffix("").parts) for file in files]
        uses = [f"use Rattle.{self.crate.name}.{module} as read_{number}" for number, module in enumerate(modules)]
        host.write_text("\n".join([*uses, host.read_text()]))
        return [function_of(host.relative_to(room))]

    def words(self, room):
        """The command that checks the crate. A program is checked as a library of its modules, which reads less."""
        program = room / "src/main.rt"
        if program.exists():
            modules = [line for line in program.read_text().split("\n") if line.startswith("mod ")]
            (room / "src/lib.rt").write_text("\n".join(["#![tactic(auto)]", *modules, ""]))
            program.unlink()
        libraries = {other.name: library_of(other) for other in self.crate.below}
        found = [KIT / "bin/rattle", "check", "--crate-name", self.crate.name, "src/lib.rt"]
        for name in ["std", *self.crate.uses]:
            found += ["--extern", f"{name}={libraries.get(name, KIT / 'rlibs' / f'{name}.rlib')}"]
        for directory in [KIT / "rlibs", *(path.parent for path in libraries.values())]:
            found += ["-L", f"dependency={directory}"]
        found += ["--antt-project", KIT / "rattle/logic/antt-project.json", "--logic-built", KIT / "logic_built"]
        return found + ["--links", f"{self.crate.name}=", "--incremental", self.home / "out/shorten"]

    def successes(self):
        """Tries all in one check. Returns the first trial of each clause that is proved."""
        tried = {trial.file for trial in self.trials}
        errors = self.errors({file: self.with_trials(file) for file in tried})
        failed = {name for _, name in errors}
        read = {file for file, name in errors if name == "tried_control"}
        first = {}
        for trial in self.trials:
            if trial.file in read and trial.name not in failed:
                first.setdefault(trial.proof, trial)
        return [trial for trial in first.values() if not any(is_inside(trial, other) for other in first.values())]

    def shortened(self, trials):
        """The texts of the files with these trials in the place of the proofs."""
        return {file: self.with_lines(file, [trial for trial in trials if trial.file == file]) for file in {trial.file for trial in trials}}

    def with_lines(self, file, trials):
        lines = self.before[file].split("\n")
        declarations = {declaration.start: declaration for declaration in read_declarations(lines)}
        for trial in sorted(trials, key=lambda trial: trial.proof[1:], reverse=True):
            declaration = declarations[trial.place]
            clause = declaration.clauses[trial.number]
            text = "\n".join(lines[clause.start : clause.end])
            # Later parts of the clause are replaced, so its end has moved.
            after = with_line(declaration, clause, text, trial).split("\n")
            lines[clause.start : clause.end] = after
            clause.end = clause.start + len(after)
        text = without_unused("\n".join(lines))
        return with_imports(text, [word for word in ("arith", "rules") if re.search(rf"(?<![\w-]){word}(?![\w-])", text)])

    def proved(self, trials):
        """Checks the files with these trials in the place of the proofs. Returns the trials without those that fail there."""
        while trials:
            wrong = self.errors(self.shortened(trials))
            if not wrong:
                break
            files = {file for file, _ in wrong}
            names = ", ".join(sorted(map(str, files)))
            print(f"put back in {len(files)} files: {names}")
            kept = [trial for trial in trials if (trial.file, trial.declaration) not in wrong]
            if len(kept) == len(trials):
                kept = [trial for trial in trials if trial.file not in files]
            if len(kept) == len(trials):
                sys.exit(f"{self.crate.name}: errors in {names}, where nothing is changed: {self.log} has them")
            trials = kept
        return trials

    def run(self):
        """Shortens the files, and prints how many lines they had and have."""
        trials = self.proved(self.successes()) if self.trials else []
        shorter = 0
        for file, text in sorted(self.shortened(trials).items()):
            before, after = self.before[file].count("\n"), text.count("\n")
            if after < before:
                (self.home / file).write_text(text)
                print(f"{self.crate.name}/{file}: {before} lines, {after} after")
                shorter += before - after
        tried = len({trial.proof for trial in self.trials})
        print(f"{self.crate.name}: {len(trials)} of {tried} proofs are one line, {shorter} lines fewer")


def declaration_at(text, line):
    """The name of the declaration that has this line of a file."""
    found = [declaration.name for declaration in read_declarations(text.split("\n")) if declaration.start <= line < declaration.end]
    return found[0] if found else None


def with_list(tactic, rules, lemmas):
    return f"{tactic} ({', '.join([rules, *lemmas])})" if lemmas else f"{tactic} {rules}"


def is_inside(trial, other):
    """Whether a trial is of a part of what another replaces."""
    return trial != other and trial.proof[:3] == other.proof[:3] and other.start <= trial.start and trial.end <= other.end


def with_line(declaration, clause, text, trial):
    """The text of a clause in which the line of a trial replaces the proof."""
    if trial.end == len(text) and not clause.left.count("\n") and trial.start == len(text) - len(clause.body.lstrip()):
        return " " * declaration.indent + f"{clause.left} = {trial.line}"
    return text[: trial.start] + trial.line + text[trial.end :]


def shortened_line(declaration, clause, text, trial):
    """The line of a clause with the line of a trial."""
    text = with_line(declaration, clause, text, trial)
    return next(line for line in text.split("\n") if trial.line in line)


def function_of(file):
    """The function that a file of answers belongs to, as `rattle check` names it."""
    return "::".join(file.parent.parts[1:])


def library_of(crate):
    """The built library of a crate, by rt or by build.py."""
    found = [crate.out / "rlib" / f"{crate.name}.rlib", crate.library]
    return next((path for path in found if path.is_dir()), None) or sys.exit(f"{crate.name} is not built: run `rt lib` in its directory")


def with_imports(text, needed):
    """The text of a file that imports these names of Common."""
    missing = [word for word in needed if word not in imports(text)]
    if not missing:
        return text
    lines = text.split("\n")
    common = [at for at, line in enumerate(lines) if line.startswith(f"use {COMMON}.{{") and line.endswith("}")]
    for at in common:
        longer = f"{lines[at][:-1]}, {', '.join(missing)}}}"
        if len(longer) <= MOST_COLUMNS:
            return "\n".join([*lines[:at], longer, *lines[at + 1 :]])
    place = common[-1] + 1 if common else 0
    return "\n".join([*lines[:place], f"use {COMMON}.{{{', '.join(missing)}}}", *lines[place:]])


def is_used(name, text):
    """Whether a text without its imports has a name, or the parts of an operator."""

    def has(part):
        return re.search(rf"(?<![\w-]){re.escape(part)}(?![\w-])", text) if part[0].isalnum() else part in text

    return all(has(part) for part in name.split("◌") if part)


def without_unused(text):
    """The text of a file without the private lemmas and the imports that nothing uses."""
    lines = text.split("\n")
    while True:
        declarations = [declaration for declaration in read_declarations(lines) if declaration.is_lemma and not declaration.marks]
        unused = [declaration for declaration in declarations if not is_used(declaration.name, rest_of(lines, declaration))]
        if not unused:
            break
        del lines[unused[-1].first : unused[-1].end]
    rest = code_of(line for line in lines if not line.startswith("use "))
    kept = [used for line in lines if (used := with_used(line, rest)) is not None]
    return re.sub(r"\n{3,}", "\n\n", "\n".join(kept)).rstrip("\n") + "\n"


def rest_of(lines, declaration):
    return code_of(lines[: declaration.first] + lines[declaration.end :])


def code_of(lines):
    return without_comments("\n".join(lines))


def with_used(line, rest):
    """A line without the imports that the rest of the file does not use, or None."""
    module = re.fullmatch(r"use \S+ as (\S+)", line)
    found = re.fullmatch(r"(use [\w.]+\.)\{([^}]*)\}", line)
    if module:
        return line if is_used(module[1], rest) else None
    if not found:
        return line
    names = [name.strip() for name in found[2].split(",") if name.strip()]
    used = [name for name in names if is_used(name.split(" as ")[-1], rest)]
    return f"{found[1]}{{{', '.join(used)}}}" if used else None


def files_of(home, given):
    """The files to shorten, by their paths below the crate."""
    files = [Path("proofs", file) for file in given] or sorted(path.relative_to(home) for path in (home / "proofs").rglob("*.antt"))
    return [file for file in files if file.name not in ("Lib.antt", "Invariants.antt", "Proof.antt") and "+" not in str(file)]


def main():
    parser = argparse.ArgumentParser(usage=__doc__)
    parser.add_argument("--lines", type=int, default=3)
    parser.add_argument("--parts", action="store_true")
    parser.add_argument("crate")
    parser.add_argument("files", nargs="*")
    options = parser.parse_args()
    crate = read_crates(options.crate)[options.crate]
    start = time.monotonic()
    Shortening(crate, files_of(ROOT / "crates" / crate.name, options.files), options.lines, options.parts).run()
    print(f"{time.monotonic() - start:.0f} seconds")


if __name__ == "__main__":
    main()
