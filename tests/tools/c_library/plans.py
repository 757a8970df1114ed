"""Tries `bootimg.build_fit` of the module for Python on the runs of `build-fit` that `tests/conformance/run --export` wrote.

plans.py RUNS LIBRARY: over the shared LIBRARY, what is built of the images, the configurations and the options of a run is the FIT that
the run has to write, or is refused as the run is. Only runs are left out that are refused before anything is built: for a word, or for a
file. The last line is `N passed, M failed`.
"""

import json
import os
import sys
from pathlib import Path

sys.dont_write_bytecode = True
root = Path(__file__).resolve().parents[3]
runs = Path(sys.argv[1]).resolve()
os.environ["BOOTIMG_LIBRARY"] = str(Path(sys.argv[2]).resolve())
sys.path[:0] = [str(root / "python"), str(root / "tests/conformance")]
import bootimg
import reference

passed = failed = 0
PLANNED = {"--config", "--default", "--hash", "--compatible", "--describe-config", "--describe-image"}


def check(name, holds):
    global passed, failed
    passed += bool(holds)
    failed += not holds
    if not holds:
        print(f"FAILED: {name}")


def bytes_of(name):
    path = runs / name
    return path.read_bytes() if path.is_file() else None


def images_of(entry, options, has_texts):
    """The images of a run. They have texts if the run gives texts, and this is asked for, and otherwise codes."""
    lengths = [length for *_, length in options["words"]]
    payloads = reference.parts_of(reference.Files(bytes_of(entry["file"]), bytes_of), lengths, options["limit"])
    words = [word.split(":") for word in entry["arguments"] if word.count(":") == 7]
    for (name, texts, load, entry_point, _), word, payload in zip(options["words"], words, payloads, strict=True):
        codes = {field: reference.code(field, text) for field, text in zip(("type", "arch", "os", "compression"), word[1:5])}
        kind = codes if not has_texts or None in texts.values() or texts["type"] == "multi" else {"texts": bootimg.BuildTexts(**texts)}
        own = options["describe-image"].get(name)
        yield bootimg.BuildImage(name, payload, **kind, load=load, entry=entry_point, description=own)


def configurations_of(options):
    for name, listed in options["config"]:
        lists = {key.decode(): names for key, names in listed.items()}
        texts = [text for configured, text in options["compatible"] if configured == name]
        yield bootimg.BuildConfiguration(name, **lists, compatible=texts, description=options["describe-config"].get(name))


def built(entry, options, has_texts):
    """The FIT, or the line of what is refused."""
    try:
        return bootimg.build_fit(
            images_of(entry, options, has_texts),
            options["description"],
            options["time"],
            options["external"],
            options["limit"],
            align=options.get("align"),
            configurations=configurations_of(options),
            default=options.get("default"),
            hashes=[algorithm.decode() for algorithm in options["hash"]],
        )
    except bootimg.Refused as refused:
        return str(refused)


def is_before_building(entry):
    """Whether a run is refused for a word, or for a file or the pieces of standard input."""
    line = entry["errors"] or ""
    return line.startswith(("usage", "BadPart")) or line == "*" or ": " in line


found = {"planned": 0, "plain": 0, "refused": 0}
for entry in json.loads((runs / "runs.json").read_text(encoding="utf-8")):
    arguments = entry["arguments"]
    if not arguments or arguments[0] != "build-fit" or is_before_building(entry) or entry["file"] is None:
        continue
    _, options = reference.parse(arguments)
    if entry["status"] == 2 and len(bytes_of(entry["file"])) > options["limit"]:
        continue
    wanted = entry["errors"] if entry["status"] == 2 else bytes.fromhex(entry["output"])
    is_planned = PLANNED & {word.partition("=")[0] for word in arguments}
    found["refused" if entry["status"] == 2 else "planned" if is_planned else "plain"] += 1
    check(f"{' '.join(arguments)}", built(entry, options, True) == wanted)
    names = [{field: reference.CODES[field].get(reference.code(field, text)) for field, text in texts.items() if text}
             for _, texts, *_ in options["words"]]
    if names == [texts for _, texts, *_ in options["words"]]:
        check(f"{' '.join(arguments)}: of codes", built(entry, options, False) == wanted)
check("there are enough runs of each kind", found["planned"] >= 5 and found["plain"] >= 8 and found["refused"] >= 12)


def refusal(**options):
    """How building two kernels with these options fails."""
    kernels = [bootimg.BuildImage(name, b"x", "linux", "arm64", "kernel") for name in ("a", "b")]
    try:
        bootimg.build_fit(kernels, **options)
    except (bootimg.Refused, bootimg.WrongArgument, TypeError) as refused:
        return str(refused)
    return None


# What no word of the program can give.
one, other = bootimg.BuildConfiguration("one", "a"), bootimg.BuildConfiguration("other", ["b", b"a"], fdt=["a"])
for wanted, options in [
    (None, {"configurations": [one, other], "default": "other", "hashes": bootimg.ALGORITHMS}),
    ("BadField at 2", {"configurations": [one, other], "default": "two"}),
    ("BadField at 0", {"default": "one"}),
    ("BadField at 1", {"configurations": [one, other._replace(script="c")]}),
    ("BadField at 1", {"configurations": [one, other._replace(name="a/b")]}),
    ("DuplicateNode at 1", {"configurations": [one, one]}),
    ("BadField at 1", {"configurations": [one, other._replace(compatible="x\0")]}),
    ("BadField at 0", {"configurations": [one._replace(description="\0"), other]}),
    ("wrong argument: 'sha224'", {"hashes": ["sha256", "sha224"]}),
    ("wrong argument: limit", {"hashes": [], "limit": 63}),
]:
    check(f"it is refused with {wanted}: {options}", refusal(**options) == wanted)
twice = bootimg.open(bootimg.build_fit([bootimg.BuildImage("a", b"x", "linux", "arm64", "kernel")], hashes=["md5", "md5"]))
check("an algorithm may come twice", [hash.algorithm for hash in twice.images[0].hashes] == ["md5", "md5"])
check("the nodes are numbered", [hash.node for hash in twice.images[0].hashes] == ["hash-1", "hash-2"])
check("there may be none", not bootimg.open(bootimg.build_fit([bootimg.BuildImage("a", b"x", "linux", "arm64", "kernel")], hashes=())).images[0].hashes)
try:
    bootimg.build_fit([bootimg.BuildImage("a", b"x", "linux", "arm64")])
    check("an image has codes or texts", False)
except TypeError:
    check("an image has codes or texts", True)
print(f"{passed} passed, {failed} failed")
sys.exit(failed != 0)
