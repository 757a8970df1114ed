"""Writes a C program that compiles only if a header agrees with the library's sources.

declarations.py SOURCES HEADER MODULE: for each export of SOURCES/*.rt the program declares the function again, with the parameters of the
source, after it includes <bootimg.h>; for each struct it asserts the size, and the offset and the size of each field; and it asserts the
value of each constant, as the code of the library has it. The script itself fails if the header has other functions or constants than the
sources, or other names of parameters, or if the module for Python has other numbers.
"""

import ast
import re
import sys
from pathlib import Path

# The numbers and the structs of the source in C.
NUMBERS = {"u8": "uint8_t", "u32": "uint32_t", "u64": "uint64_t", "usize": "size_t"}
STRUCTS = {
    "Answer": "bootimg_result",
    "Region": "bootimg_region",
    "FitFields": "bootimg_fit_fields",
    "LegacyFields": "bootimg_legacy_fields",
    "NoteNumbers": "bootimg_note_numbers",
    "ReservationElement": "bootimg_reservation",
    "ImageElement": "bootimg_image",
    "PropertyElement": "bootimg_property",
    "TreeElement": "bootimg_tree_element",
    "HashElement": "bootimg_hash",
    "ConcernElement": "bootimg_concern",
    "BuildElement": "bootimg_build_image",
    "Range": "bootimg_range",
    "BuildTexts": "bootimg_build_texts",
    "BuildConfiguration": "bootimg_build_configuration",
    "BuildOptions": "bootimg_build_options",
    "EditElement": "bootimg_edit_element",
    "EditNoteNumbers": "bootimg_edit_note_numbers",
}
# What a parameter of the source is in C.
TYPES = {"Global": [], "&[u8]": ["const uint8_t *", "size_t"]}
for name, in_c in (NUMBERS | STRUCTS).items():
    TYPES |= {name: [in_c], f"&mut {name}": [f"{in_c} *"], f"&mut [{name}]": [f"{in_c} *", "size_t"]}
    TYPES |= {f"&{name}": [f"const {in_c} *"], f"&[{name}]": [f"const {in_c} *", "size_t"]}

sources = {path.name: path.read_text(encoding="utf-8") for path in sorted(Path(sys.argv[1]).glob("*.rt"))}
lines = ["#include <bootimg.h>", "#include <stddef.h>"]

# C89 has no static assertions: the size of an array that is negative is an error.
asserted = 0


def assert_that(condition):
    global asserted
    asserted += 1
    lines.append(f"typedef char assertion_{asserted}[({condition}) ? 1 : -1];")


def words(parameters):
    """The names of the parameters of a declaration in C."""
    return [re.findall(r"\w+", parameter)[-1] for parameter in parameters.split(",")]


header = Path(sys.argv[2]).read_text(encoding="utf-8")
declared = {name: words(parameters) for name, parameters in re.findall(r"^uint32_t (\w+)\((.*?)\);", header, re.M | re.S)}
exported = {}
for source in sources.values():
    for name, parameters, result in re.findall(r'pub extern "C" fn (\w+)\((.*?)\)\s*->\s*(\w+)', source, re.S):
        typed = [(parameter, kind.strip()) for parameter, kind in re.findall(r"(\w+):\s*([^,]+)", parameters)]
        in_c = [one for _, kind in typed for one in TYPES[kind]]
        lines.append(f"{TYPES[result][0]} {name}({', '.join(in_c)});")
        exported[name] = [
            parameter + ending
            for parameter, kind in typed
            for ending in ("", "_size" if "[u8]" in kind else "_count")[: len(TYPES[kind])]
        ]

# The structs have the layout of C: each field is at the next multiple of its size, or of that of a size_t if it is a struct. Each struct
# is as long as some size_t.
found = {}
for source in sources.values():
    found |= dict(re.findall(r"#\[repr\(C\)\]\n[^{]*?pub struct (\w+) \{(.*?)\n\}", source, re.S))
if {*found} != {*STRUCTS}:
    sys.exit(f"the structs of the source are {sorted(found)}")
for struct, fields in found.items():
    in_c, offset = STRUCTS[struct], "0"
    for field, kind in re.findall(r"pub (\w+): (\w+),", fields):
        size = f"sizeof({TYPES[kind][0]})"
        aligned = "sizeof(size_t)" if kind in STRUCTS else size
        offset = f"(({offset}) + {aligned} - 1) / {aligned} * {aligned}"
        assert_that(f"offsetof({in_c}, {field}) == {offset}")
        assert_that(f"sizeof((({in_c} *)0)->{field}) == {size}")
        offset = f"({offset}) + {size}"
    assert_that(f"sizeof({in_c}) == (({offset}) + sizeof(size_t) - 1) / sizeof(size_t) * sizeof(size_t)")

# The size of a struct that begins with its size is the one that the code asks for.
asked = re.search(r"const OPTIONS_SIZE: usize = (\d+);", sources["plan_building.rt"])[1]
assert_that(f"sizeof(bootimg_build_options) == {asked}")

# The numbers of the code, by their names in the header. A pattern finds the name and the number, or in some files the number first.
FOUND = [
    ("", "answer.rt", r"const (?P<name>[A-Z_]+): u32 = (?P<number>\d+);"),
    ("", "kind.rt", r"Ok\(Kind::(?P<name>\w+)\) => succeed\(0, (?P<number>\d+), answer\)"),
    ("", "arguments.rt", r"(?P<number>\d+) => Some\((?:Form|Key)::(?P<name>\w+)\)"),
    ("", "extract.rt", r"ExtractError::(?P<name>\w+) => Failure::NotFound\((?P<number>\d+), "),
    ("ARGUMENT_", "argument.rt", r"Argument::(?P<name>\w+) => (?P<number>\d+),"),
    ("", "failure.rt", r"const (?P<name>[A-Z_]+): u32 = (?P<number>\d+);"),
    ("", "failure.rt", r"ConfigError::(?P<name>\w+)[()a-z]* => Failure::NotFound\((?P<number>\d+), "),
    ("", "codes.rt", r"const (?P<name>[A-Z_]+): u32 = (?P<number>\d+);"),
    ("", "values.rt", r"const (?P<name>[A-Z_]+): u32 = (?P<number>\d+);"),
    ("", "ignoring.rt", r"const (?P<name>[A-Z_]+): u32 = (?P<number>\d+);"),
    ("", "edits.rt", r"const (?P<name>BAD_EDIT|FINDS_NOTHING|KEEP_FORM): u32 = (?P<number>\d+);"),
    ("EDIT_", "edits.rt", r"const (?P<name>(?!BAD_EDIT|FINDS_NOTHING|KEEP_FORM)[A-Z]+): u32 = (?P<number>\d+);"),
    ("ELEMENT_", "all_nodes.rt", r"const (?P<name>[A-Z_]+): u32 = (?P<number>\d+);"),
    ("VALUE_", "values.rt", r"(?P<number>\d+) => Some\(ValueForm::(?P<name>\w+)\)"),
    ("PLACE_", "images.rt", r"Place::(?P<name>\w+)(?:\(offset\))? => \((?:0|offset as usize), (?P<number>\d+)\)"),
    ("CAUSE_", "causes.rt", r"(?P<number>\d+) => Some\(Cause::(?P<name>\w+)\)"),
    ("VERDICT_", "verdicts.rt", r"Verdict::(?P<name>\w+) => (?P<number>\d+),"),
    ("HAS_", "fit_building.rt", r"(?P<name>load|entry): address_if\(has_bit\((?P<number>\d+), image.addresses\)"),
    ("HAS_", "plan_building.rt", r"piece_if\(has_bit\((?P<number>\d+), \w+\.given\), input, \w+\.(?P<name>description|default)"),
    ("HAS_", "plan_building.rt", r"has_bit\((?P<number>\d+), element\.given\) \{\s+Some\(Some\((?P<name>texts)\)\)"),
    ("ALGORITHM_", "plan_building.rt", r"(?P<number>\d+) => Some\(Algo::(?P<name>\w+)\)"),
    ("CHANGE_", "update.rt", r"let new_(?P<name>time) = if has_bit\((?P<number>\d+), changes\)"),
    ("CHANGE_", "update.rt", r"(?P<name>hashes): has_bit\((?P<number>\d+), changes\)"),
    ("ALLOW_", "arguments.rt", r"(?P<name>(?!signed\b)\b\w+): has_bit\((?P<number>\d+), kinds\)"),
    ("", "arguments.rt", r"\b(?P<name>signed): has_bit\((?P<number>\d+), kinds\)"),
    ("CONCERN_", "concerns.rt", r"ConcernKind::(?P<name>\w+) => (?P<number>\d+),"),
    ("", "concerns.rt", r"Key::(?P<name>\w+) => (?P<number>\d+),"),
]
# What has another name in the header.
RENAMED = {"DONE": "OK", "UNKNOWN_ALGO": "UNKNOWN_ALGORITHM"}
numbers = {}
for prefix, file, pattern in FOUND:
    for found in re.finditer(pattern, sources[file]):
        in_header = re.sub(r"(?<=[a-z])(?=[A-Z])", "_", found["name"]).upper()
        numbers[f"BOOTIMG_{prefix}{RENAMED.get(in_header, in_header)}"] = int(found["number"])
most = re.search(r"\(64\.\.=(\w+)\).*\(1\.\.=(\d+)\)", (Path(sys.argv[1]) / "../../bi_base/src/limits.rt").read_text(encoding="utf-8"))
numbers |= {"BOOTIMG_LIMIT": int(most[1].replace("_", ""), 0), "BOOTIMG_DEPTH": int(most[2])}
for name, number in numbers.items():
    assert_that(f"{name} == {number}u")
    if numbers.get(name.replace("_ALLOW_", "_CONCERN_")) != number:
        sys.exit(f"{name} is not the number of the kind of concerns")
print("\n".join(lines))

for name in sorted({*declared, *exported}):
    if declared.get(name) != exported.get(name):
        sys.exit(f"{name}: the header has {declared.get(name)}, and the source {exported.get(name)}")
constants = {*re.findall(r"^(?:#define|   ) (BOOTIMG_\w+) (?:= )?\w+,?$", header, re.M)}
if constants != {*numbers}:
    sys.exit(f"the header and the source differ in {constants ^ {*numbers}}")
version = re.search(r'VERSION: &str = "(.*)"', sources["causes.rt"])[1]
if f'#define BOOTIMG_VERSION "{version}"' not in header:
    sys.exit(f"the version of the library is {version}")

# The module: its constants by their values, and its words by their places.
module = {}
for statement in ast.parse(Path(sys.argv[3]).read_text(encoding="utf-8")).body:
    if isinstance(statement, ast.Assign) and isinstance(statement.targets[0], ast.Tuple):
        module["statuses"] = [name.id.lstrip("_") for name in statement.targets[0].elts]
    elif isinstance(statement, ast.Assign) and isinstance(statement.targets[0], ast.Name):
        if isinstance(statement.value, (ast.Constant, ast.Tuple)):
            module[statement.targets[0].id] = ast.literal_eval(statement.value)


def placed(words, prefix, number_of_place):
    """The number that each word has by its place, by its name in the header."""
    return {f"BOOTIMG_{prefix}{word.replace('-', '_').upper()}": number_of_place(place) for place, word in enumerate(words)}


in_module = placed(module["CONCERNS"], "ALLOW_", lambda place: 1 << place)
in_module |= placed(module["KEYS"], "", lambda place: place) | placed(module["statuses"], "", lambda place: place)
in_module |= placed(module["VERDICTS"], "VERDICT_", lambda place: place)
in_module |= placed(module["ALGORITHMS"], "ALGORITHM_", lambda place: place)
in_module |= placed(module["ARGUMENTS"], "ARGUMENT_", lambda place: place + 1)
in_module |= {"BOOTIMG_SIGNED": module["_SIGNED"]}
in_module |= {"BOOTIMG_LIMIT": module["LIMIT"], "BOOTIMG_DEPTH": module["DEPTH"], "BOOTIMG_MISSING": module["_MISSING"]}
for name, number in in_module.items():
    if numbers.get(name) != number:
        sys.exit(f"{name}: the module has {number}, and the source {numbers.get(name)}")
