"""Finds definitions that no known fact and no law speaks of, and fails if one of them is not explained.

facts.py ROOT: ROOT/crates.txt names the crates, which are in ROOT/crates; ROOT/tests/fast/facts.exceptions explains what may stay.

A definition of specs/ is looked for if the contract of a public call leads to it: the clauses of a function that a library exports, or of
one in `run` of bootimg, or what its type says of itself for a trait, cite it, or cite a definition that does, and so on. It is found if
the contract of a known fact or of a law leads to it in the same way: of a function in a module `known_..` or `..laws`. A law that an
output is JSON or ASCII says too little of it, and does not count. Lemmas in specs/ are not definitions.

Each line of facts.exceptions has a definition, as `crate/Module.name`, or all of a module, as `crate/Module`, a tab, and the reason.
facts.py ROOT --all prints what is not found, and explains nothing.
"""

import os
import re
import sys

sys.dont_write_bytecode = True
from promises import Crate, reachable
from workspace import crates_of, read

FACTS = re.compile(r"known_\w+|(?:\w+_)?laws")
FORM_ALONE = re.compile(r"\w+_(?:is|are)_(?:json|ascii)")
DEFINITION = re.compile(r"(?:pub )?(?:record|data|abbrev|unfoldable|opaque) ")


def definitions_of(crate):
    """The definitions of a crate, without its lemmas."""
    return {key: found for key, found in crate.definitions.items() if DEFINITION.match(found[1][0])}


def clauses_of(crates):
    """The clauses of the public calls, and those of the known facts and laws."""
    calls, facts = [], []
    for crate in crates.values():
        for (module, owner, name), clauses in crate.functions.items():
            if FACTS.fullmatch(module.split(".")[-1]):
                facts += [] if FORM_ALONE.fullmatch(name) else clauses.values()
            elif (module, owner, name) in crate.exported or (crate.name, module) == ("bootimg", "run"):
                calls += [*clauses.values(), *crate.members.get(owner, [])]
    return calls, facts


def definitions_without_facts(crates):
    """The definitions that public calls lead to and facts and laws do not, as `crate/Module.name`."""
    calls, facts = (reachable(crates, clauses) for clauses in clauses_of(crates))
    return sorted(f"{crate}/{module}.{name}" for crate, module, name in calls - facts if (module, name) in crates[crate].definitions)


def exceptions_of(root):
    """What each line of the exceptions explains."""
    for number, line in enumerate(read(os.path.join(root, "tests", "fast", "facts.exceptions")).splitlines(), 1):
        if line.startswith("#"):
            continue
        name, tab, reason = line.partition("\t")
        if not tab or not reason.strip():
            sys.exit(f"facts.exceptions:{number}: no reason: {line}")
        yield name


def main(root, everything):
    crates = {name: Crate(root, name) for name in crates_of(root)}
    for crate in crates.values():
        crate.definitions = definitions_of(crate)
    left = definitions_without_facts(crates)
    if everything:
        print("\n".join(left))
        return 0
    explained = set(exceptions_of(root))
    # The names of modules have no dots, unless they are below another.
    wrong = [f"no fact: {name}" for name in left if not explained & {name, name.rpartition(".")[0]}]
    used = {name for name in left} | {name.rpartition(".")[0] for name in left}
    wrong += [f"explains nothing: {name}" for name in sorted(explained - used)]
    print("\n".join(wrong + [f"{len(left)} definitions without a fact are explained"] * (not wrong)))
    return len(wrong)


if __name__ == "__main__":
    sys.exit(min(main(sys.argv[1], sys.argv[2:] == ["--all"]), 1))
