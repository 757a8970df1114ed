"""Turns the JSON that a command writes back into the lines that it writes without --json.

lines.py COMMAND: reads the JSON from standard input, and prints the lines. It fails if the text is not of the form that docs/CLI.md has:
at a space outside of a string, another escape, another member or order of members, another type or a name that `list` never prints.
"""

import json
import re
import sys

LEGACY = "kind", "name", "time", "load", "entry", "os", "arch", "type", "compression", "parts"
CODES = LEGACY[5:9]
VERDICTS = "good", "bad", "unknown-algorithm", "no-payload", "malformed"
# The members of each concern after its kind.
CONCERNS = {
    "bad-hash": ("image", "node", "algorithm", "verdict"),
    "unhashed": ("image",),
    "weak-hash": ("image", "algorithms"),
    "bad-list": ("configuration", "key"),
    "missing": ("configuration", "key", "index"),
    "bad-default": ("default",),
    "trailing": ("size",),
    "skipped-hash": ("image", "node"),
    "unsigned": ("configuration",),
    **dict.fromkeys(("no-nodes", "no-images", "strings"), ("configuration", "signature")),
    **dict.fromkeys(("uncovered", "foreign"), ("configuration", "signature", "path")),
    "unit-address": ("path",),
}


class WrongJson(Exception):
    """What is wrong with a text."""


def demand(condition, what, value):
    if not condition:
        raise WrongJson(f"{what} is wanted, not {json.dumps(value)[:200]}")


def members(value, *names):
    """The values of an object that has these members, in this order."""
    demand(type(value) is dict and tuple(value) == names, f"an object of {', '.join(names)}", value)
    return value.values()


def array(value):
    demand(type(value) is list, "an array", value)
    return value


def number(value):
    demand(type(value) is int and value >= 0, "a number", value)
    return value


def string(value, pattern=r"[ -~]*"):
    demand(type(value) is str and re.fullmatch(pattern, value), f"a string of {pattern}", value)
    return value


def name(value):
    """A name as `list` prints it."""
    return string(value, r"(?:[!-$&-~]|%[0-9A-F]{2})+")


def name_or_hyphen(value):
    return "-" if value is None else name(value)


def digits(value):
    return string(value, r"(?:[0-9a-f]{2})*")


def code(value):
    return str(number(value) if type(value) is int else name(value))


def payload_lines(word, value, path):
    """The line of a payload, which begins with this, and the lines of the devicetree that it is, if they are there. The payload has this
    path."""
    is_tree = type(value) is dict and "devicetree" in value
    size, sha256, *tree = members(value, "size", "sha256", *["devicetree"] * is_tree)
    yield f"{word} size {number(size)} sha256 {string(sha256, '[0-9a-f]{64}')}"
    if is_tree:
        boot_cpu, reserved, root = members(tree[0], "boot_cpu", "reservations", "root")
        yield f"inside {path} boot-cpu {number(boot_cpu)}"
        yield from [f"inside {path} {line}" for line in reservations(reserved)]
        yield from node(root, (), path)


def reservations(value):
    for reservation in array(value):
        pair = [string(each, "0x[0-9a-f]{16}") for each in members(reservation, "address", "size")]
        yield f"reservation {' '.join(pair)}"


def header(fields):
    """The lines for the fields of a legacy image."""
    kind, shown, time, load, entry, *codes = fields
    yield f"kind {string(kind, 'legacy')}"
    yield f"name {name(shown)}"
    yield f"time {number(time)}"
    yield f"load 0x{number(load):08x}"
    yield f"entry 0x{number(entry):08x}"
    for field, value in zip(CODES, codes):
        yield f"{field} {code(value)}"


def is_legacy(value):
    return type(value) is dict and value.get("kind") == "legacy"


# Each of these returns the lines of a command.


def listing(value):
    if is_legacy(value):
        *fields, parts, unused = members(value, *LEGACY, "unused")
        yield from header(fields)
        yield f"parts {len(array(parts))}"
        for i, part in enumerate(parts):
            offset, size = map(number, members(part, "offset", "size"))
            yield f"part {i} size {size} at {offset}"
        yield f"unused {number(unused)}"
        return
    kind, boot_cpu, total_size, reserved, images, configurations, default = members(
        value, "kind", "boot_cpu", "total_size", "reservations", "images", "configurations", "default")
    yield f"kind {string(kind, 'fit')}"
    yield f"boot-cpu {number(boot_cpu)}"
    yield f"total-size {number(total_size)}"
    yield from reservations(reserved)
    for image in array(images):
        shown, payload = members(image, "name", "payload")
        yield f"image {name(shown)} {placed(payload)}"
    for configuration in array(configurations):
        shown, keys = members(configuration, "name", "keys")
        yield f"config {name(shown)}"
        for key in array(keys):
            yield f"key {shown} {listed(key)}"
    if default is not None:
        yield f"default {name(default)}"


def placed(payload):
    if payload is None:
        return "none"
    given, offset, size = members(payload, "property", "offset", "size")
    return f"size {number(size)} {string(given, 'data(-offset|-position)?')} at {number(offset)}"


def listed(key):
    """What a configuration lists under a key, or the reason why it lists nothing."""
    word, reason = (*key, "", "")[:2] if type(key) is dict else ("", "")
    first, value = members(key, word, reason)
    demand(word == "key" and reason in ("images", "bad_list", "missing"), "a key", key)
    string(first, "[a-z]+")
    if reason == "images":
        return " ".join([first, "ok", *map(name, array(value))])
    if reason == "bad_list":
        demand(value is True, "true", value)
        return f"{first} bad-list"
    return f"{first} missing {number(value)}"


def description(value):
    if is_legacy(value):
        *fields, parts = members(value, *LEGACY)
        yield from header(fields)
        for i, part in enumerate(array(parts)):
            yield from payload_lines(f"part {i}", part, f"part-{i}")
        return
    kind, boot_cpu, reserved, root = members(value, "kind", "boot_cpu", "reservations", "root")
    yield f"kind {string(kind, 'fit')}"
    yield f"boot-cpu {number(boot_cpu)}"
    yield from reservations(reserved)
    yield from node(root, ())


def node(value, above, outside=""):
    """The lines of a node and of those below it. `above` has the names of the nodes above it but the root, or is empty for the root.
    `outside` is the path of the payload that the tree is in, or empty for the image itself."""
    demand(type(value) is dict, "a node", value)
    names = (*above, name(value.get("name"))) if above or "name" in value else ()
    path = f"{outside}{'/' * bool(outside)}/{'/'.join(names)}"
    is_image = not outside and len(names) == 2 and names[0] == "images"
    *first, properties, children = members(
        value, *["name"] * bool(names), *["payload"] * is_image, "properties", "children")
    yield f"node {path}"
    if is_image and first[1] is None:
        yield f"payload {path} none"
    elif is_image:
        yield from payload_lines(f"payload {path}", first[1], path)
    for each in array(properties):
        yield " ".join([f"property {path}", *words_of_property(each)])
    for child in array(children):
        demand(type(child) is dict and "name" in child, "a node with a name", child)
        yield from node(child, names, outside)


def words_of_property(value):
    if type(value) is dict and "strings" in value:
        shown, strings = members(value, "name", "strings")
        demand(array(strings) != [] and "" not in strings, "strings that are not empty", strings)
        return [name(shown), *['"' + re.sub(r'(["\\])', r"\\\1", string(each)) + '"' for each in strings]]
    shown, value = members(value, "name", "hex")
    return [name(shown), *["0x" + value] * (digits(value) != "")]


def report(value):
    if is_legacy(value):
        _, *checksums = members(value, "kind", "header_crc32", "data_crc32")
        return [f"{which} crc32 {string(verdict, 'good')}" for which, verdict in zip(("header", "data"), checksums)]
    kind, hashes, summary = members(value, "kind", "hashes", "summary")
    string(kind, "fit")
    lines = []
    for each in array(hashes):
        image, hash_node, algorithm, verdict, found = members(each, "image", "node", "algorithm", "verdict", "value")
        shown = digits(found) or "-" if found is not None else "-"
        lines.append(f"{name(image)} {name(hash_node)} {name_or_hyphen(algorithm)} {string(verdict, '|'.join(VERDICTS))} {shown}")
    counts = members(summary, *[verdict.replace("-", "_") for verdict in VERDICTS])
    return [*lines, "summary " + " ".join(f"{verdict} {number(count)}" for verdict, count in zip(VERDICTS, counts))]


def concerns(value):
    (found,) = members(value, "concerns")
    for each in array(found):
        kind = each.get("concern") if type(each) is dict else None
        demand(kind in CONCERNS, "a concern", each)
        _, *values = members(each, "concern", *CONCERNS[kind])
        words = [kind]
        for member, word in zip(CONCERNS[kind], values):
            if member in ("index", "size"):
                words.append(str(number(word)))
            elif member == "algorithms":
                words += map(name, array(word))
            else:
                may_be_null = member in ("algorithm", "default") or kind == "unsigned"
                words.append(name_or_hyphen(word) if may_be_null else name(word))
        yield " ".join(words)


def differences(value):
    same, found = members(value, "same", "differences")
    demand(type(same) is bool and same == (array(found) == []), "whether there is no difference", same)
    for each in found:
        sign, line = members(each, "sign", "line")
        string(line)
        demand(sign in ("-", "+") or sign == "" and line[:1] not in ("-", "+"), "a sign", each)
        yield sign + line


COMMANDS = {"list": listing, "describe": description, "verify": report, "check": concerns, "compare": differences}


def value_of(text):
    """The value of a text, which is one line of JSON as json.dumps writes it without spaces. It writes all that is not printable ASCII
    as an escape."""
    try:
        value = json.loads(text)
    except ValueError as error:
        raise WrongJson(f"{error}: {text[:200]!r}") from None
    written = json.dumps(value, separators=(",", ":")).encode() + b"\n"
    demand(text == written, "one line without spaces and needless escapes", text.decode())
    return value


def labelled(value, is_alone):
    """What stands before each line of an image, and the value of the image. Of several images each has a name."""
    if is_alone and not (type(value) is dict and "file" in value):
        return "", value
    file, result = members(value, "file", "result")
    return f"{name(file)}: ", result


def lines_of(command, text):
    """The lines of a command that writes this JSON: one value, or one in each line for several images."""
    texts = text.splitlines(keepends=True) or [text]
    labels = [labelled(value_of(each), len(texts) == 1) for each in texts]
    return "".join(f"{label}{line}\n" for label, value in labels for line in COMMANDS[command](value)).encode()


if __name__ == "__main__":
    sys.stdout.buffer.write(lines_of(sys.argv[1], sys.stdin.buffer.read()))
