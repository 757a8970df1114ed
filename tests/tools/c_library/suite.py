"""Compares the library with the program, on the runs that `tests/conformance/run --export` wrote.

suite.py RUNS PROGRAM CALLS LIBRARY: for each run of a call of the library, whose image comes from standard input, CALLS (the program of
calls.c) and `python3 -m bootimg` over the shared LIBRARY have to do what PROGRAM does. The runs have to have each cause that a call of
the library can have, each note, and each reason why nothing is extracted. The last line is `N passed, M failed`.
"""

import contextlib
import io
import json
import os
import re
import subprocess
import sys
import urllib.parse
from concurrent.futures import ThreadPoolExecutor
from pathlib import Path

sys.dont_write_bytecode = True

runs, program, calls, library = map(Path, sys.argv[1:])
os.environ["BOOTIMG_LIBRARY"] = str(library.resolve())
sys.path.insert(0, str(Path(__file__).resolve().parents[3] / "python"))
import bootimg

# The options of each command, beside --limit.
COMMANDS = {
    "normalise": {"--external", "--align"},
    "update": {"--external", "--align", "--time", "--hashes"},
    "extract": {"--part", "--image", "--config", "--default", "--key", "--index"},
    "list": {"--json"},
    "describe": {"--json", "--deep"},
    "scan": {"--json"},
    "show": {"--layout", "--json"},
    "verify": {"--json"},
    "check": {"--allow", "--signed", "--json"},
    "convert": set(),
}
FLAGS = {"--external", "--hashes", "--default", "--json", "--layout", "--signed", "--deep"}
SELECTIONS = {"--part", "--image", "--config", "--default"}


def number_of(word, least=0, most=0xFFFFFFFF):
    """The number of a word, in decimal, if it is one in this range, as the program reads numbers."""
    if not re.fullmatch(r"[0-9]+|0x[0-9a-fA-F]+", word):
        return None
    number = int(word, 16 if word.startswith("0x") else 10)
    return str(number) if least <= number <= most else None


def value_for_calls(option, word):
    """The option and the value for calls.c, or None if the value is not one of the option."""
    if option == "--align":
        number = number_of(word, 4, 0x100000)
        return [option, number] if number and int(number).bit_count() == 1 else None
    if option in ("--limit", "--part", "--index", "--time"):
        number = number_of(word, 64, bootimg.LIMIT) if option == "--limit" else number_of(word)
        return [option, number] if number else None
    if option == "--allow":
        kinds = set(word.split(","))
        allowed = kinds <= set(bootimg.CONCERNS)
        return ["--kinds", str(sum(1 << bootimg.CONCERNS.index(kind) for kind in kinds))] if allowed else None
    if option == "--key":
        return [option, word] if word in bootimg.KEYS else None
    return [option, word] if not word.startswith("-") else None


def words_for_calls(words):
    """The arguments for calls.c, or None if it is no run of one call with arguments that are in their ranges."""
    command, *options = words
    if command not in COMMANDS:
        return None
    result, seen = [command], set()
    while options:
        option = options.pop(0)
        if option in seen or option not in COMMANDS[command] | {"--limit"}:
            return None
        seen.add(option)
        if option in FLAGS:
            result.append(option)
            continue
        value = value_for_calls(option, options.pop(0)) if options else None
        if value is None:
            return None
        result += value
    if command == "update" and not seen & {"--time", "--hashes"} or command == "extract" and len(seen & SELECTIONS) != 1:
        return None
    if "--part" in seen and "--index" in seen or "--align" in seen and "--external" not in seen or {"--layout", "--json"} <= seen:
        return None
    return result


def outcome(command, **streams):
    done = subprocess.run(command, capture_output=True, check=False, **streams)
    return done.returncode, done.stdout, done.stderr


def by_module(words):
    """What the module does, which is called in this process."""
    output, errors = io.TextIOWrapper(io.BytesIO()), io.StringIO()
    with contextlib.redirect_stdout(output), contextlib.redirect_stderr(errors):
        status = bootimg.main(words)
    return status, output.buffer.getvalue(), errors.getvalue().encode()


def differences(entry):
    """The names of what differs from the program, or None if the run is no call of the library."""
    words = words_for_calls(entry["arguments"]) if entry["arguments"] else None
    path = str(runs / entry["file"]) if entry["file"] else None
    if not words or not path or not os.path.exists(path):
        return None
    status, output, errors = outcome([program.resolve(), *entry["arguments"], path])
    wanted = status, output, errors
    found = []
    if outcome([calls.resolve(), *words, path]) != wanted:
        found.append("calls.c")
    return found, entry["arguments"] + [path], wanted


def compared(entry):
    """How the module and the call for C differ from the program on a run that compares the file with another one, or None if it is none
    of one call. The program refuses a file that is over the limit while it reads it, before it looks at the other one."""
    command, *words = entry["arguments"] or [""]
    if command != "compare" or not entry["file"]:
        return None
    options, images, seen = [], [], set()
    while words:
        word = words.pop(0)
        if word in ("--json", "--deep", "--quiet") and word not in seen:
            seen.add(word)
            options.append(word)
        elif word in ("--ignore", "--limit") and words and (value := value_for_calls(word, words.pop(0))):
            options += value
        elif word == "-" or not word.startswith("-") and (runs / word).is_file():
            images.append(str(runs / (entry["file"] if word == "-" else word)))
        else:
            return None
    if len(images) != 2 or options.count("--limit") > 1 or options.count("--ignore") > 8:
        return None
    limit = int(options[options.index("--limit") + 1]) if "--limit" in options else bootimg.LIMIT
    if any(os.path.getsize(image) > limit for image in images):
        return None
    status, output, errors = outcome([program.resolve(), command, *options, *images])
    found = []
    if by_module([command, *options, *images]) != (status, output, errors):
        found.append("bootimg.compare")
    if "--quiet" not in seen and outcome([calls.resolve(), command, *options, *images]) != (status, output, errors):
        found.append("calls.c")
    return [f"{name}: {' '.join(entry['arguments'])}" for name in found], "--deep" in seen


def by_module_or_reason(path, words, form):
    """The status and the output of a call of `get` of the module, and why it fails."""
    try:
        return 0, bootimg.get(path.read_bytes(), *words, form=form), ""
    except bootimg.Refused as refused:
        return 2, b"", str(refused)
    except bootimg.NotFound as missing:
        return 2, b"", missing.reason
    except bootimg.WrongArgument:
        return 2, b"", "bad value"


def by_calls_or_reason(path, words, form):
    """The same of the call for C."""
    named = [] if len(words) == 1 else ["--property", words[1]]
    status, output, errors = outcome([calls.resolve(), "get", "--as", form, "--place", words[0], *named, path])
    return (2, output, "bad value") if status == 14 else (status, output, errors.decode().strip().rpartition(": ")[2])


def gotten(entry):
    """How the module and the call for C differ from the program on a run that gets one value, or None if it is no such run."""
    command, *words = entry["arguments"] or [""]
    form = "shown"
    if words[:1] == ["--as"]:
        form, words = words[1], words[2:]
    path = runs / entry["file"] if entry["file"] else None
    named = len(words) == 2 and not words[1].startswith("/") or len(words) == 3 and words[1].startswith("/")
    if command != "get" or not named or words[0] != "-" or not path or not path.exists() or form not in bootimg.VALUE_FORMS:
        return None
    options = ["--as", form] if form != "shown" else []
    status, output, errors = outcome([program.resolve(), "get", *options, path, *words[1:]])
    wrong = []
    for name, call in ("bootimg.get", by_module_or_reason), ("calls.c", by_calls_or_reason):
        found, text, reason = call(path, words[1:], form)
        if (found, text) != (status, output) or reason.encode() not in errors:
            wrong.append(f"{name}: {' '.join(entry['arguments'])}")
    return wrong


# The options of an update that edits, and those that have a value.
EDITS = {"--remove", "--set", "--payload", "--keep-form"}
EDITS_WITH_VALUE = {"--remove", "--set", "--payload", "--time", "--limit", "--align"}


class NoCall(Exception):
    """A run that is none of one call of the library."""


def options_of_edits(words):
    """The options of a run that edits, each with its values."""
    options = {}
    while words:
        option = words.pop(0)
        if option not in EDITS_WITH_VALUE | {"--keep-form", "--external", "--hashes"} or option in EDITS_WITH_VALUE and not words:
            raise NoCall
        options.setdefault(option, []).append(words.pop(0) if option in EDITS_WITH_VALUE else True)
    many = {"--remove", "--set", "--payload"}
    if not EDITS & {*options} or any(len(values) > 1 for option, values in options.items() if option not in many):
        raise NoCall
    return options


def single_number(options, option, least=0, most=0xFFFFFFFF):
    """The number of an option, if it is there."""
    if option not in options:
        return None
    number = number_of(options[option][0], least, most)
    if number is None:
        raise NoCall
    return int(number)


def field_of(word):
    """The name and the value of a field of a legacy image, by the word that sets it."""
    field, _, value = word.partition(" ")
    if field == "name":
        name = b"" if value == "-" else urllib.parse.unquote_to_bytes(value)
        if bootimg._shown(os.fsdecode(name)) == value:
            return field, name
    if field in ("time", "load", "entry") and number_of(value):
        return field, int(number_of(value))
    if field in bootimg.CODES and field != "type":
        code = number_of(value, 0, 255)
        return field, bootimg.code_number(field, value if code is None else int(code))
    raise NoCall


def parameters_of_edits(path, words):
    """The parameters of a call of `edit` of the module that does what a run does. A place that is edited twice is a fault of the command
    line alone."""
    options = options_of_edits([*words])
    settings, payloads = options.get("--set", []), [word.partition("=@")[::2] for word in options.get("--payload", [])]
    fields = [field_of(word) for word in settings if not word.startswith("/")]
    places = [tuple(word.split(" ")[:2]) for word in settings if word.startswith("/")] + [name for name, _ in fields + payloads]
    if len({*places}) != len(places) or not all(file and (runs / file).is_file() for _, file in payloads):
        raise NoCall
    fields, limit = dict(fields), single_number(options, "--limit", 64, bootimg.LIMIT) or bootimg.LIMIT
    time, given = fields.pop("time", None), single_number(options, "--time")
    is_fit = path.read_bytes()[:4] == b"\xd0\x0d\xfe\xed"
    if any((runs / file).stat().st_size > limit for _, file in payloads) or time is not None and is_fit:
        raise NoCall
    return {
        "remove": options.get("--remove", []),
        "set": [word for word in settings if word.startswith("/")],
        "payloads": {name: (runs / file).read_bytes() for name, file in payloads},
        "fields": fields,
        "time": time if given is None else given,
        "hashes": "--hashes" in options,
        "external": "--external" in options,
        "align": single_number(options, "--align"),
        "keep_form": "--keep-form" in options,
        "limit": limit,
    }, {name: str(runs / file) for name, file in payloads}


def arguments_of_edits(parameters, paths):
    """The arguments of calls.c for the same."""
    edits = [(0, word, 0) for word in parameters["remove"]] + [(1, word, 0) for word in parameters["set"]]
    kinds = {"load": 6, "entry": 7, "os": 8, "arch": 9, "compression": 10}
    edits += [(5, value, 0) if field == "name" else (kinds[field], "", value) for field, value in parameters["fields"].items()]
    edits += [(3, "", parameters["time"])] if parameters["time"] is not None else []
    edits += [(4, "", 0)] if parameters["hashes"] else []
    forms = parameters["external"] + parameters["keep_form"], parameters["align"] is not None and not parameters["external"]
    if max(forms) > 1 or forms[1] or parameters["align"] in (0, 1) or b"\0" in parameters["fields"].get("name", b""):
        raise NoCall
    words = [word for kind, name, number in edits for word in ("--edit", str(kind), name, str(number))]
    words += [word for name, path in paths.items() for word in ("--payload", name, path)]
    words += ["--external"] if parameters["external"] else ["--keep-form"] if parameters["keep_form"] else []
    return words + (["--align", str(parameters["align"])] if parameters["align"] else []) + ["--limit", str(parameters["limit"])]


def notes_of_edits(notes):
    """The notes of the program on what is edited."""
    lines = [f"{notes.signatures} signature nodes carried, not checked"] * (notes.signatures > 0)
    lines += [f"{notes.inside} payloads are inside the blob now, see --external"] * (notes.inside > 0)
    lines += [f"payloads are no longer aligned to {notes.lost_alignment} bytes, see --align"] * (notes.lost_alignment is not None)
    lines += [f"{notes.lost_positions} fixed positions of payloads were not kept"] * (notes.lost_positions > 0)
    return "".join(f"bootimg: note: {line}\n" for line in lines)


def edits_by_module(path, parameters):
    """What the module does with an update that edits, as the program: the status, the output and the errors."""
    file, line = path.read_bytes(), f"bootimg: {path}: "
    try:
        return 0, bootimg.edit(file, **parameters), notes_of_edits(bootimg.edit_notes(file, **parameters))
    except bootimg.WrongArgument:
        return 2, b"", "bootimg: usage: bad value\n"
    except bootimg.NotFound as missing:
        word = f" {parameters['remove'][missing.index]}" if missing.reason == "nothing to remove" else ""
        return 2, b"", f"{line}{missing.reason}{word}\n"
    except bootimg.Refused as refused:
        return 2, b"", f"{line}{refused}\n"


def edited(entry):
    """How the module and the call for C differ from the program on a run that edits, or None if it is none of one call."""
    command, *words = entry["arguments"] or [""]
    path = runs / entry["file"] if entry["file"] else None
    if command != "update" or not path or not path.exists():
        return None
    try:
        parameters, paths = parameters_of_edits(path, words)
    except (NoCall, bootimg.WrongArgument):
        return None
    named = [word.replace("=@", f"=@{runs}/", 1) if last == "--payload" else word for last, word in zip(["", *words], words)]
    status, output, errors = outcome([program.resolve(), "update", *named, path])
    wanted = status, output, errors.decode()
    wrong = [f"bootimg.edit: {' '.join(words)}"] if edits_by_module(path, parameters) != wanted else []
    try:
        by_calls = outcome([calls.resolve(), "edit", *arguments_of_edits(parameters, paths), path])
    except NoCall:
        return wrong
    if (2 if by_calls[0] == 14 else by_calls[0], *by_calls[1:]) != (status, output, errors) and not (
        by_calls[0] == 14 and b"bad value" in errors
    ):
        wrong.append(f"calls.c: {' '.join(words)}")
    return wrong


with open(runs / "runs.json", encoding="utf-8") as file:
    entries = json.load(file)
passed = failed = 0
with ThreadPoolExecutor() as pool:
    results = [result for result in pool.map(differences, entries) if result]
for found, words, wanted in results:
    if by_module(words) != wanted:
        found.append("bootimg.py")
    for name in found:
        print(f"FAILED: {name}: {' '.join(words)}")
    failed += len(found)
    passed += 2 - len(found)

values = [found for found in map(gotten, entries) if found is not None]
passed += sum(2 - len(found) for found in values)
failed += sum(map(len, values)) + (len(values) < 30)
for found in values:
    for name in found:
        print(f"FAILED: {name}")
if len(values) < 30:
    print("FAILED: too few runs get one value")

of_two = [found for found in map(compared, entries) if found is not None]
passed += sum(2 - len(found) for found, _ in of_two)
failed += sum(len(found) for found, _ in of_two)
for found, _ in of_two:
    for name in found:
        print(f"FAILED: {name}")
for count, what in (sum(is_deep for _, is_deep in of_two), "deep"), (sum(not is_deep for _, is_deep in of_two), "other"):
    failed += count < 50
    if count < 50:
        print(f"FAILED: too few {what} runs compare: {count}")

of_edits = [found for found in map(edited, entries) if found is not None]
passed += sum(2 - len(found) for found in of_edits)
failed += sum(map(len, of_edits)) + (len(of_edits) < 80)
for found in of_edits:
    for name in found:
        print(f"FAILED: {name}")
if len(of_edits) < 80:
    print("FAILED: too few runs edit")

# Each code has its first name.
named = [
    f"{field} {bootimg.code_name(word, code)} {code}\n"
    for field, word in enumerate(bootimg.CODES)
    for code in range(256)
    if bootimg.code_name(word, code) is not None
]
same = outcome([calls.resolve(), "codes"]) == (0, "".join(named).encode(), b"")
passed += same
failed += not same
if not same:
    print("FAILED: the names of codes")

# Images that are built have the other two causes.
refusals = {bootimg.cause_name(number) for number in range(1, 27)} - {"BadField", "Unsupported"} | set(bootimg.REASONS[:9])
seen = {re.sub(r"( at)? \d+$", "", wanted[2].decode(errors="replace").strip().rpartition(": ")[2]) for _, _, wanted in results}
noted = b"".join(wanted[2] for _, _, wanted in results)
for note in b"signature nodes carried", b"payloads are no longer aligned", b"fixed positions of payloads":
    passed += note in noted
    failed += note not in noted
    if note not in noted:
        print(f"FAILED: no run has the note on {note.decode()}")
for refusal in sorted(refusals):
    passed += refusal in seen
    failed += refusal not in seen
    if refusal not in seen:
        print(f"FAILED: no run has {refusal}")
print(f"{passed} passed, {failed} failed")
sys.exit(failed != 0)
