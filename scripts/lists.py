#!/usr/bin/env python3
"""Writes the lists of commands, options and values that other files repeat.

lists.py          writes each list again
lists.py --check  prints how each list differs from that of the sources, and fails if one does

The commands are those of the table in crates/bootimg/src/command_line/table.rt, in its order, and `help`, and their options those of
table/options.rt next to it. Values that have names are the strings of the functions in VALUES. Completions also offer MORE_VALUES, and the
names in an image that are in NAMES. A list stands in its file between a line with `lists.py: begin NAME` and one with `lists.py: end`,
where NAME is a function of this module.
"""

import difflib
import re
import sys
import textwrap
from pathlib import Path

ROOT = Path(__file__).resolve().parents[1]
FILES = ["contrib/bootimg.bash", "contrib/_bootimg", "contrib/bootimg.fish", "man/bootimg.1", "README.md"]
TABLE = ["crates/bootimg/src/command_line/table/options.rt", "crates/bootimg/src/command_line/table.rt"]
# The most columns of a line of words in the manual page, after its macro.
WIDTH = 76

# The files and functions whose strings are the values of an option or of an argument.
VALUES = {
    "os": ["bi_legacy/src/codes.rt: os_name"],
    "arch": ["bi_legacy/src/codes.rt: arch_name"],
    "type": ["bi_legacy/src/codes.rt: type_name"],
    "compression": ["bi_legacy/src/codes.rt: compression_name"],
    "key": ["bi_fit/src/key.rt: name"],
    "allow": ["bi_report/src/check.rt: word"],
    "ignore": ["bi_describe/src/ignored.rt: plain_word"],
    "as": ["bootimg/src/command_line/get.rt: parse_form"],
    "hash": ["bi_hash/src/algo.rt: name", "bootimg/src/command_line/hashes.rt: parse_hashes"],
    "cause": ["bi_base/src/fault.rt: name", "bi_report/src/check.rt: word"],
}

# The tables whose names, before `invalid`, are more values of an option.
MORE_VALUES = {name: f"const {name.upper()}_NAMES: " for name in ("os", "arch", "type")}
MORE_VALUES_FILE = "crates/bi_show/src/show/codes.rt"

# What the completions find for an option or an argument with this name and this name of its value: a part, image or configuration of the
# image on the line, a path or a property of it, or the name of a --config on the line.
NAMES = {
    ("part", "N"): "part",
    ("image", "NAME"): "image",
    ("config", "NAME"): "config",
    ("where", "WHERE"): "where",
    ("default", "NAME"): "default",
}


def lower(word):
    """The name of a value as the manual page and the completions have it."""
    return word if word == "N" else word.lower()


class Option:
    """An option or an argument of a command."""

    def __init__(self, name, value_name, help, form, values=()):
        self.name, self.values = name, list(values)
        # The values that completions offer, and what they find.
        self.offered = self.values + more_values(name, help, self.values)
        self.names = NAMES.get((name, value_name))
        self.is_argument = "Positional" in form
        self.is_repeated = form in ("Positionals", "RequiredPositionals", "Repeated")
        self.is_part = self.is_argument and "@FILE" in help
        self.is_file = self.is_argument and not (self.values or self.names or self.is_part)
        self.is_output = "Short" in form
        self.is_list = "," in value_name
        self.flags = [f"-{short}" for short in re.findall(r"Short\('(.)'\)", form)] + [f"--{name}"]
        written = {"Positional": f"[{value_name}]", "Positionals": f"[{value_name}]...", "RequiredPositionals": f"{value_name}..."}
        self.written = written.get(form, value_name)
        # The name of the value, of a form such as `KIND[,KIND]..` the first words.
        self.value = lower(value_name.split("[")[0])
        # The first words of the help, without a condition.
        words = re.split(r"[:,;.] ", re.sub(r"^With .*?: ", "", help))[0]
        self.summary = words[:1].upper() + words[1:]


class Command:
    """A command, with its options and arguments by their names in the table."""

    def __init__(self, name, aliases, about, usage, options):
        self.name, self.about, self.usage = name, about, usage
        self.names = [name, *aliases]
        self.by_variable = options
        self.options = [option for option in options.values() if not option.is_argument]
        self.arguments = [option for option in options.values() if option.is_argument]


def read(path):
    return (ROOT / path).read_text(encoding="utf-8")


def strings(text):
    """The string literals of a piece of Rust."""
    found = [re.sub(r"\\\n\s*", "", literal) for literal in re.findall(r'"((?:[^"\\]|\\.)*)"', text, re.S)]
    return [literal.replace("\\n", "\n").replace("\\x20", " ") for literal in found]


def values_of(name):
    """The values of the option or the argument of this name."""
    for place in VALUES.get(name, []):
        path, function = place.split(": ")
        body = re.search(rf"^( *)(?:pub )?fn {function}\(.*?^\1\{{$(.*?)^\1\}}$", read(f"crates/{path}"), re.M | re.S)
        yield from strings(body[2])


def more_values(name, help, values):
    """The values of an option that have no place in the manual page: names of U-Boot that no listing prints, and powers of two."""
    powers = re.search(r"a power of two from (\d+) to (\d+)", help)
    if powers:
        return [str(1 << bit) for bit in range(64) if int(powers[1]) <= 1 << bit <= int(powers[2])]
    if not values or name not in MORE_VALUES:
        return []
    table = read(MORE_VALUES_FILE).split(MORE_VALUES[name])[1].split('"invalid"')[0]
    return [word for word in strings(table) if word not in values]


def commands():
    """The commands of the program, each with its options."""
    text = re.sub(r"//.*", "", "".join(map(read, TABLE)))
    constants = dict(re.findall(r"^(?:pub )?const (\w+): &str = (.*?);$", text, re.M))
    fields, options, found = {}, {}, []
    for variable, body in re.findall(r"^pub const (\w+): OptionText = OptionText \{\n(.*?)^\};", text, re.M | re.S):
        base = re.search(r"\.\.(\w+)", body)
        fields[variable] = dict(fields[base[1]]) if base else {}
        fields[variable].update(re.findall(r'^    (\w+): ((?:"(?:[^"\\]|\\.)*"|[^,"])*),$', body, re.M | re.S))
        form = fields[variable]["form"].split("::")[1]
        name, value_name, help = (strings(fields[variable][field])[0] for field in ("name", "value_name", "help"))
        options[variable] = Option(name, value_name, help, form, values_of(name))
    for body in re.findall(r"CommandText \{\n( +name: \".*?options: &\[.*?\]),\n", text, re.S):
        texts = {field: strings(value) for field, value in re.findall(r"^ +(\w+): (.*?)(?=^ +\w+: |\Z)", body, re.M | re.S)}
        variables = re.findall(r"\b[A-Z_]+\b", body[body.index("options: ") :])
        own = {variable: options[variable] for variable in variables}
        found.append(Command(texts["name"][0], texts["aliases"], texts["about"][0], texts["usage"][0], own))
    names = [command.name for command in found]
    argument = Option("command", "COMMAND", "A command", "Positional", [*names, "help"])
    return [*found, Command("help", [], "Print this message or the help of the given subcommand(s)", "bootimg help [COMMAND]", {"COMMAND": argument})]


def bash(all):
    yield "declare -gA _bootimg_options=("
    for command in all:
        words = [f"{flag}{'=' * bool(option.value)}" for option in command.options for flag in option.flags]
        yield from [f'    [{name}]="{" ".join(words)}"' for name in command.names]
    yield ")"
    yield "declare -gA _bootimg_values=("
    for option in distinct(all).values():
        if option.offered and not option.is_argument:
            yield f'    [--{option.name}]="{"," * option.is_list}{" ".join(option.offered)}"'
    for command in all:
        yield from [f'    [{command.name}]="{" ".join(argument.values)}"' for argument in command.arguments if argument.values]
    yield ")"
    yield "declare -gA _bootimg_names=("
    for command in all:
        for option in command.by_variable.values():
            if option.names:
                yield f"    [{command.name}{'' if option.is_argument else f' --{option.name}'}]={option.names}"
    yield ")"
    names = [name for command in all if any(argument.is_file for argument in command.arguments) for name in command.names]
    yield f'_bootimg_files=" {" ".join(names)} "'


def valued(all):
    """The options that take a value, of commands that read an image."""
    reading = [command for command in all if any(argument.is_file for argument in command.arguments)]
    return [flag for option in distinct(reading).values() if option.value and not option.is_argument for flag in option.flags]


def zsh(all):
    yield f"typeset -ga _bootimg_valued=({' '.join(valued(all))})"
    yield ""
    yield "_bootimg_commands() {"
    yield "    local -a commands=("
    yield from [f"        '{command.name}:{command.about}'" for command in all]
    yield "    )"
    yield "    _describe command commands"
    yield "}"
    yield ""
    yield "# Sets `options` to the options and arguments of a command."
    yield "_bootimg_options() {"
    yield from [f"    local -a {variable.lower()}=({specification(option)})" for variable, option in distinct(all).items()]
    yield "    case $1 in"
    for command in all:
        words = " ".join(f"${variable.lower()}" for variable in command.by_variable)
        yield f"    {' | '.join(command.names)}) options=({words}) ;;"
    yield "    esac"
    yield "}"


def specification(option):
    """What _arguments of zsh takes for an option or an argument."""
    words = " ".join(option.offered)
    action = "_files" if option.is_file or option.is_output else f"({words})" if words else " "
    if option.names:
        action = f" _bootimg_names {option.names}"
    if option.is_list and words:
        action = f" _values -s , {option.value} {words}"
    if option.is_part:
        action = "_bootimg_part"
    first, name = "*" * option.is_repeated, option.value.replace(":", "\\:")
    value = f":{name}:{action}" if name else ""
    if option.is_argument:
        return f"'{first}{value}'"
    if option.is_output:
        return f"'({' '.join(option.flags)})'{{{option.flags[0]}+,{option.flags[1]}=}}'[{option.summary}]{value}'"
    return f"'{first}--{option.name}{'=' * bool(value)}[{option.summary}]{value}'"


def fish(all):
    yield f"set -g __bootimg_valued {' '.join(valued(all))}"
    yield from [f"complete $first -a {command.name} -d '{command.about}'" for command in all]
    for variable, option in distinct(all).items():
        having = [command for command in all if variable in command.by_variable]
        names = " ".join(name for command in having for name in command.names)
        if option.is_file and any(argument.names for command in having for argument in command.arguments):
            names += "; and __bootimg_at_first"
        words = f"(__bootimg_names {option.names})" if option.names else " ".join(option.offered)
        if option.is_list:
            words = f'(__fish_complete_list , "printf %s\\n {words}")' if words else ""
        elif option.is_part:
            words = "(__bootimg_part)"
        flags = "-F" if option.is_file else "-s o -l output -r -F" if option.is_output else ""
        if not flags and not option.is_argument:
            flags = f"-l {option.name}" + " -x" * bool(option.value)
        flags += f" -d '{option.summary}'" * (not option.is_argument) + f" -a '{words}'" * bool(words)
        if flags:
            yield f"complete -c bootimg -n '__bootimg_is {names}' {flags.strip()}"


def mdoc(word):
    """A word of a usage in the language of the manual page."""
    word = re.sub(r"<?\b([A-Z]+)\b>?", lambda name: f"Ar {lower(name[1])}", word)
    word = re.sub(r"(?<![\w-])-(?=[-a-z])", "Fl ", word)
    word = re.sub(r"^\[(.*)\]", r"Op \1", re.sub(r"^\((.*)\)$", r"Pq \1", word))
    return word if word in "<>" else f".{word.replace('...', ' ...')}"


def synopsis(all):
    for command in all:
        for usage in command.usage.split("\n"):
            yield from [".Nm", f".Cm {command.name}"]
            for word in re.findall(r"\(.*?\)|--?\S+ <\w+>|\S+", usage)[2:]:
                if word != "[OPTIONS]":
                    yield mdoc(word)
                    continue
                for option in command.options:
                    # The usage has an option before its other options, perhaps in another form of the command.
                    if f"--{option.name}" not in command.usage and not any(f"{flag} " in usage for flag in option.flags):
                        yield f".Op Fl -{option.name}" + f" Ar {option.value}" * bool(option.value) + " ..." * option.is_repeated


def values(all):
    for option in distinct(all).values():
        if option.values and not option.is_argument:
            yield f".It Ar {option.value}"
            words = textwrap.wrap(" , ".join(option.values), WIDTH, break_on_hyphens=False)
            yield from [f".Cm {line}" for line in words]


def readme(all):
    yield from ["| Command | What it does |", "|---|---|"]
    for command in all[:-1]:
        words = " ".join([command.name, *(argument.written for argument in command.arguments)])
        yield f"| `{words}` | {command.about} |"


def distinct(all):
    """The options and arguments of all commands by their names in the table."""
    return {variable: option for command in all for variable, option in command.by_variable.items()}


def made(text, all):
    """The text of a file with its lists as they are in the sources."""
    def region(match):
        lines = globals()[match["name"]](all)
        return match["begin"] + "".join(f"{line}\n" for line in lines) + match["end"]
    return re.sub(r"(?P<begin>^.*lists\.py: begin (?P<name>\w+).*\n)(?:.*\n)*?(?P<end>.*lists\.py: end)", region, text, flags=re.M)


def main(words):
    if words not in ([], ["--check"]):
        sys.exit(__doc__.strip())
    all, wrong = commands(), False
    for path in FILES:
        text = read(path)
        new = made(text, all)
        if not words:
            (ROOT / path).write_text(new, encoding="utf-8")
        elif new != text:
            wrong = True
            sys.stdout.writelines(difflib.unified_diff(text.splitlines(True), new.splitlines(True), path, f"{path} of the sources"))
    if wrong:
        print("scripts/lists.py writes these lists again")
    return int(wrong)


if __name__ == "__main__":
    sys.exit(main(sys.argv[1:]))
