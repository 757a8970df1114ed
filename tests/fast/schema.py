"""Checks docs/bootimg.schema.json against the conformance suite. schema.py ROOT fails, with a line for each thing that is wrong, if

- a JSON output of the vectors does not match the definition of its command in the schema;
- an output matches it without one of its members, or with one more member, anywhere in it;
- a branch of the schema matches no part of any output, or the schema has a keyword that this script does not know.

It knows the keywords that the schema needs, and reads them as the draft 2020-12 does.
"""

import copy
import json
import re
import sys
from pathlib import Path

sys.dont_write_bytecode = True
ROOT = Path(sys.argv[1])
sys.path.insert(0, str(ROOT / "tests/conformance"))
import vectors

SCHEMA = json.loads((ROOT / "docs/bootimg.schema.json").read_text())
TYPES = {"object": dict, "array": list, "string": str, "boolean": bool, "null": type(None)}
KNOWN = {
    "$ref", "oneOf", "anyOf", "type", "const", "enum", "pattern", "minimum", "maximum", "properties", "required", "additionalProperties",
    "items",
}  # fmt: skip
matched = set()


def is_type(value, name):
    return isinstance(value, int) and not isinstance(value, bool) if name == "integer" else isinstance(value, TYPES[name])


def matches(value, schema):
    """Whether a value matches a schema. Notes the branches that matched."""
    if set(schema) - KNOWN:
        sys.exit(f"FAILED: unknown keywords: {sorted(set(schema) - KNOWN)}")
    if "$ref" in schema:
        return matches(value, SCHEMA["$defs"][schema["$ref"].removeprefix("#/$defs/")])
    branches = [branch for branch in schema.get("oneOf", []) if matches(value, branch)]
    matched.update(map(id, branches))
    return (
        ("oneOf" not in schema or len(branches) == 1)
        and ("type" not in schema or is_type(value, schema["type"]))
        and ("const" not in schema or value == schema["const"] and isinstance(value, type(schema["const"])))
        and ("enum" not in schema or value in schema["enum"])
        and ("pattern" not in schema or bool(re.search(schema["pattern"], value)))
        and schema.get("minimum", 0) <= (value if is_type(value, "integer") else 0) <= schema.get("maximum", 1 << 64)
        and (not isinstance(value, list) or "items" not in schema or all(matches(item, schema["items"]) for item in value))
        and (not isinstance(value, dict) or "properties" not in schema or matches_object(value, schema))
    )


def matches_object(value, schema):
    members = schema["properties"]
    return (
        set(schema["required"]) <= set(value) <= set(members)
        and [name for name in members if name in value] == list(value)
        and all(matches(value[name], members[name]) for name in value)
    )


def objects_in(value):
    """The objects in a value, itself among them."""
    if isinstance(value, dict):
        yield value
    for part in value.values() if isinstance(value, dict) else value if isinstance(value, list) else []:
        yield from objects_in(part)


def changed(value):
    """The value without one of its members, and with one more, for each object and each member in it."""
    for index, found in enumerate(list(objects_in(value))):
        for name in [*found, None]:
            other = copy.deepcopy(value)
            one = list(objects_in(other))[index]
            if name is None:
                one["more"] = 0
            elif name not in ("payload", "devicetree"):  # not every node has a payload, and not every payload is a devicetree
                del one[name]
            if other != value:
                yield other


def branches_in(schema):
    """The alternatives in a schema."""
    for name, part in schema.items() if isinstance(schema, dict) else []:
        if name == "oneOf":
            yield from part
        for one in part if isinstance(part, list) else [part]:
            yield from branches_in(one)


def outputs():
    """The command, the name and the JSON of each output of the vectors that is JSON."""
    for run in vectors.Vectors(ROOT / "tests/conformance/vectors").all_runs():
        for line in run.output.splitlines() if "--json" in run.arguments and run.output else []:
            value = json.loads(line)
            yield run.arguments[0], run.name(), value["result"] if run.group == "several" else value


def main():
    wrong, count = [], 0
    for command, name, value in outputs():
        count += 1
        schema = SCHEMA["$defs"][command]
        if not matches(value, schema):
            wrong.append(f"not of the schema: {name}")
        kept = set(matched)
        wrong += [f"of the schema after a change: {name}: {json.dumps(other)}" for other in changed(value) if matches(other, schema)]
        matched.clear()
        matched.update(kept)
    wrong += [f"no output is of the branch {json.dumps(branch)}" for branch in branches_in(SCHEMA) if id(branch) not in matched]
    print("\n".join(wrong + [f"{count} outputs"]))
    return bool(wrong) or not count


if __name__ == "__main__":
    sys.exit(main())
