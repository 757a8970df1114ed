"""Takes clauses of public functions away, one at a time, and shows that a function of a crate above is not proved without it.

layers.py CRATES PIECES CHECK..: CRATES is the directory of the crates, PIECES a file with a heading for each clause, `## NAME`, and below
it these lines:

    clause: CRATE FILE FUNCTION [LABEL]     the clause: the one with this label, or the one without a label
    weaker: TERM                            what stands in its place, between the braces
    needed: CRATE FUNCTION                  the function of a crate above

CHECK is a command that runs `rattle check`: CHECK UPPER CRATE=COPY.. FLAG.. checks the crate UPPER, in the current directory, over the
copies of crates in these directories: of the lower crates, and of those between them and UPPER.

A function is proved from its own code and the contracts of the functions that it calls. So in a check the other functions of all these
crates have no code but `unreachable!()`, and a hole for their proof: rattle takes them by their contracts. The script prints a line for
each piece. It is refused if a goal of the function stays open, or if an answer to one of its goals is wrong. It is not enough that an
answer names a part that the weaker clause does not have. Each function also has to be proved where nothing is taken away: one check of
each upper crate shows this of all its functions.
"""

import os
import re
import shutil
import subprocess
import sys
import tempfile
from concurrent.futures import ThreadPoolExecutor
from pathlib import Path
from typing import NamedTuple

from wrong_bodies import PROVED, fault, functions_of, goals_of, remove_bodies, write_hole


class Piece(NamedTuple):
    name: str
    lower: str
    file: str
    edited: str
    label: str
    weaker: str
    upper: str
    function: str


def read_pieces(path):
    pieces = re.split(r"^## (.*)\n", path.read_text(encoding="utf-8"), flags=re.M)
    for name, text in zip(pieces[1::2], pieces[2::2]):
        lines = dict(line.split(": ", 1) for line in text.split("\n") if ": " in line)
        lower, file, edited, *label = lines["clause"].split()
        yield Piece(name, lower, file, edited, "".join(label), lines["weaker"], *lines["needed"].split())


def end_of_braces(text, start):
    """Returns the offset after the brace that closes the one at this offset."""
    depth = 0
    for at in range(start, len(text)):
        depth += {"{": 1, "}": -1}.get(text[at], 0)
        if depth == 0:
            return at + 1
    raise ValueError("a brace is not closed")


def weaken(text, piece):
    """Returns the text of a source in which the clause of a piece is replaced."""
    found = list(re.finditer(rf"\bfn {piece.edited}\b", text))
    if len(found) != 1:
        raise ValueError(f"{piece.file} has {len(found)} functions {piece.edited}")
    label = piece.label and piece.label + " "
    after = re.compile(r"\bfn ").search(text, found[0].end())
    clause = re.compile(rf"^ *ensures {label}\{{", re.M).search(text, found[0].start(), after.start() if after else len(text))
    if not clause:
        raise ValueError(f"{piece.edited} has no clause {piece.label}")
    start = clause.end() - 1
    return text[:start] + "{ " + piece.weaker + " }" + text[end_of_braces(text, start) :]


def sources_of(crate):
    return {str(file.relative_to(crate)): file.read_text(encoding="utf-8") for file in sorted(crate.glob("src/**/*.rt"))}


def write_copy(directory, crate, texts, kept):
    """Writes a copy of a crate with these sources, in which only the functions that are kept have their code."""
    for part in ("src", "specs", "proofs"):
        if (crate / part).is_dir():
            shutil.copytree(crate / part, directory / part)
    texts, removed = remove_bodies(texts, kept)
    for file, text in texts.items():
        (directory / file).write_text(text, encoding="utf-8")
    for function in removed:
        write_hole(directory, crate.name, function)


def batches_of(crates, pieces):
    """Returns the pieces in batches, each for one check: of one upper crate, and with functions of their own, none of which names a function
    whose clause another piece takes away. So each function meets only its own weaker clause, of whichever crates the others are."""
    batches = []
    for piece in pieces:
        code = code_of(crates, piece)
        for batch in batches:
            if batch[0].upper == piece.upper and not any(
                piece.function == other.function or names(code, other) or names(code_of(crates, other), piece) for other in batch
            ):
                batch.append(piece)
                break
        else:
            batches.append([piece])
    return batches


def code_of(crates, piece):
    """Returns the text of the upper function of a piece, or nothing if there is none."""
    texts = sources_of(crates / piece.upper)
    function = functions_of(texts).get(piece.function)
    return "\n".join(texts[function.file].split("\n")[function.first : function.last + 1]) if function else ""


def names(code, piece):
    return bool(re.search(rf"\b{piece.edited}\b", code))


def uses_of(crates):
    """Returns the crates of the workspace that each of them uses, by its name. Each crate comes after those that it uses."""
    rows = re.findall(r"^(\w+)(?: staticlib)?:(.*)$", (crates.parent / "crates.txt").read_text(encoding="utf-8"), re.M)
    names = [name for name, _ in rows]
    return {name: [used for used in row.split() if used in names] for name, row in rows}


def between(crates, lowers, upper):
    """Returns these lower crates, and each crate that uses one, directly or by others, and that the upper crate uses."""
    uses = uses_of(crates)

    def reaches(name, targets):
        return name in targets or any(reaches(used, targets) for used in uses[name])

    return [name for name in uses if name != upper and reaches(upper, {name}) and reaches(name, lowers)]


def check(crates, pieces, is_weaker, command):
    """Checks the functions of these pieces, all of one crate, over copies of those below it, with the weaker clauses or with nothing taken
    away. Returns a verdict on each: whether it is refused, and why; or none, and why not."""
    upper, functions = pieces[0].upper, {piece.function: None for piece in pieces}
    texts = {name: sources_of(crates / name) for name in (*between(crates, {piece.lower for piece in pieces}, upper), upper)}
    # The lines that rattle names are those of the copy.
    places = functions_of(remove_bodies(texts[upper], functions)[0])
    try:
        for piece in pieces:
            if piece.function not in places:
                raise ValueError(f"{upper} has no function {piece.function}")
            if is_weaker:
                texts[piece.lower][piece.file] = weaken(texts[piece.lower][piece.file], piece)
    except (KeyError, ValueError) as error:
        return {function: (None, str(error)) for function in functions}
    with tempfile.TemporaryDirectory() as directory:
        for name in texts:
            write_copy(Path(directory, name), crates / name, texts[name], functions if name == upper else {})
        below = [f"{name}={directory}/{name}" for name in texts if name != upper]
        only = [word for function in functions for word in ("--only", function)]
        how = {"stdin": subprocess.DEVNULL, "stdout": subprocess.PIPE, "stderr": subprocess.STDOUT, "text": True, "errors": "replace"}
        output = subprocess.run([*command, upper, *below, "--allow-holes", *only], cwd=f"{directory}/{upper}", **how).stdout
    unread = re.search(r"^/\S*/(?:src|specs)/.*: error.*", output, re.M)
    why = unread[0] if unread else fault(output, lambda name: name in functions)
    if why:
        return {function: (None, "\n".join([why, *output.splitlines()[-20:]])) for function in functions}
    return {function: verdict(output, upper, function, places[function]) for function in functions}


def verdict(output, crate, name, function):
    """Returns whether a function is refused, and why. It is not refused for an answer that names a part that the weaker clause does not
    have."""
    goals, why = goals_of(output, crate, name, function)
    telling = re.findall("`search` did not prove `([^`]*)`", why)
    telling += [goal.name for goal in goals if "projects from a record" not in goal.name]
    return (True, telling[0]) if telling else (False, why)


def line_of(piece, over_whole, over_weaker):
    place = f"{piece.name}: {piece.upper} {piece.function}"
    if over_whole[0] is not False or not PROVED.match(over_whole[1]):
        return f"FAILED: {place}: it is not proved over the whole contract: {over_whole[1]}"
    return f"{'refused' if over_weaker[0] else 'FAILED'}: {place}: {over_weaker[1][:160] if over_weaker[0] else over_weaker[1]}"


def main():
    crates, pieces, *command = sys.argv[1:]
    crates, pieces = Path(crates), list(read_pieces(Path(pieces)))
    # The highest crates take longest, and are the first.
    order = list(uses_of(crates))
    pieces.sort(key=lambda piece: order.index(piece.upper), reverse=True)
    is_refused = True
    with ThreadPoolExecutor(os.cpu_count()) as pool:
        over_whole, over_weaker = {}, []
        for upper in dict.fromkeys(piece.upper for piece in pieces):
            own = [piece for piece in pieces if piece.upper == upper]
            over_whole[upper] = pool.submit(check, crates, own, False, command)
            over_weaker += [(batch, pool.submit(check, crates, batch, True, command)) for batch in batches_of(crates, own)]
        for batch, verdicts in over_weaker:
            lines = [line_of(piece, over_whole[piece.upper].result()[piece.function], verdicts.result()[piece.function]) for piece in batch]
            print("\n".join(lines), flush=True)
            is_refused &= all(line.startswith("refused: ") for line in lines)
    return 0 if is_refused else 1


if __name__ == "__main__":
    sys.exit(main())
