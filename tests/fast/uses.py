"""Prints each `use` line of the crates of a workspace that names what its file may not cite, and fails if there is one.

uses.py ROOT: ROOT/crates.txt names the crates, which are in ROOT/crates. docs/dev/PROOFS.md states the rule:

- sources and specs/ cite no lemma of the workspace, so no module of proofs/;
- of another crate a file cites no private type, no module of specs/ that uses a private type of its crate, no proof of a function,
  and no lemma about the code: one in a module that uses a private type or such a module of specs/.
"""

import os
import re
import sys

sys.dont_write_bytecode = True
from workspace import PARTS, crates_of, files_of, read

USE = re.compile(r"\s*(?:pub )?(?:ghost )?use Rattle\.(?P<path>[^\s{;]+?)(?:\.?\{.*\}|\s+as \w+)?\s*;?\s*$")
PROOF_OF_FUNCTION = {"Answers", "Invariants", "Proof"}


def all_files(root, crate):
    """The module and the path of each source, definition and proof of a crate."""
    return [(f"{part}.{module}", path) for part in PARTS for path, module in files_of(root, crate, part)]


def public_names(crate):
    """The names that a library's root exports, and the types of its public modules."""
    root = os.path.join(crate, "src", "lib.rt")
    if not os.path.exists(root):
        return set()
    names, sources = set(), [read(root)]
    for module in re.findall(r"^pub mod (\w+);", sources[0], re.M):
        sources.append(read(os.path.join(crate, "src", module + ".rt")))
        names |= set(re.findall(r"^pub (?:struct|enum|trait) (\w+)", sources[-1], re.M))
    for source in sources:
        for exported in re.findall(r"^pub use ([^;]*);", source, re.M):
            names |= set(re.findall(r"\w+", exported))
    return names


def uses_of(path, crates):
    """The line, the crate and the module of each `use` of a file that names a crate of the workspace."""
    for number, line in enumerate(read(path).splitlines(), 1):
        if not re.match(r"\s*(?:pub )?(?:ghost )?use Rattle\.", line):
            continue
        match = USE.match(line)
        if not match:
            sys.exit(f"{path}:{number}: not understood: {line}")
        crate, _, module = match["path"].partition(".")
        if crate in crates:
            yield number, crate, module


def is_private_type(module, public):
    """Whether a module has the model of a type that the crate does not export."""
    parts = [part for part in module.split(".") if part != "TheVariants"]
    return parts[:2] == ["specs", "declared"] and parts[-1] not in public


def modules_about_code(crate, files, uses, public):
    """The modules of specs/ that use a private type of their crate, and those of proofs/ that use one, or one of these modules, or
    prove a function."""
    own = {module: {cited for _, other, cited in uses[path] if other == crate} for module, path in files}
    private = {module for module in own if any(is_private_type(cited, public) for cited in own[module])}
    specs = {module for module in private if module.startswith("specs.")}
    return private | {
        module
        for module in own
        if module.startswith("proofs.") and (own[module] & specs or module.split(".")[-1] in PROOF_OF_FUNCTION)
    }


def main(root):
    crates = crates_of(root)
    files = {crate: all_files(root, crate) for crate in crates}
    uses = {path: list(uses_of(path, crates)) for crate in crates for _, path in files[crate]}
    public = {crate: public_names(os.path.join(root, "crates", crate)) for crate in crates}
    code = {crate: modules_about_code(crate, files[crate], uses, public[crate]) for crate in crates}
    wrong = 0
    for crate in crates:
        for module, path in files[crate]:
            for number, other, cited in uses[path]:
                if cited.startswith("proofs.") and not module.startswith("proofs."):
                    reason = "a contract or definition cites a lemma"
                elif other == crate:
                    continue
                elif is_private_type(cited, public[other]):
                    reason = f"this type of {other} is private"
                elif cited in code[other] or re.search(r"\.(Goals|Given)$", cited):
                    reason = f"this module is about the code of {other}"
                else:
                    continue
                wrong += 1
                print(f"{os.path.relpath(path, root)}:{number}: Rattle.{other}.{cited}: {reason}")
    return wrong


if __name__ == "__main__":
    sys.exit(1 if main(sys.argv[1]) else 0)
