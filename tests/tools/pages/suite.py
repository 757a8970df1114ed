"""Compares the pages that a program shows with what its other commands write as JSON, on the files of tests/conformance and on others.

suite.py [--only TEXT] [--outputs FILE] PROGRAM [FILE..] (see tests/tools/runs.py): runs `show` and `show --layout` on each file of the
suite and on each FILE, with the limits that `check` has in a run of the suite too. The errors are those of `check`, and else the status is
0. A page is that of tests/conformance/reference.py, byte for byte. page.py, which shares no code with the reference, reads it, and then it
says what `list`, `describe`, `verify` and `check` say of the file with --json; its layout has each byte of the file.
"""

import json
import shlex
import sys
from functools import partial
from pathlib import Path

sys.dont_write_bytecode = True
TESTS = Path(__file__).resolve().parents[2]
sys.path += [str(TESTS / "conformance"), str(TESTS / "tools")]
import page
import reference
from page import WrongPage, page_of
from runs import answer_of, options_of, report
from vectors import Vectors

FIELDS = ("type", "os", "arch", "compression")


class Suite:
    """The files, and what the program and the reference do with them: a status, an output and the text on standard error."""

    def __init__(self, program, others):
        vectors = Vectors(TESTS / "conformance" / "vectors")
        self.program = program
        self.files = {name: vectors.bytes(name) for name in vectors.bodies}
        self.files |= {Path(other).name: Path(other).read_bytes() for other in others}
        self.limits = [
            (run.file, run.arguments[1:]) for run in vectors.all_runs()
            if run.arguments[:2] == ["check", "--limit"] and len(run.arguments) == 3]

    def reference(self, name, arguments):
        return reference.main(arguments, self.files[name])

    def answer(self, name, arguments):
        if self.program == "reference":
            return self.reference(name, arguments)
        return answer_of(self.program, arguments, self.files[name])

    def runs(self):
        """Each file with the arguments of `show`."""
        for name in self.files:
            yield name, ["show"]
            yield name, ["show", "--layout"]
        for name, limit in self.limits:
            yield name, ["show", *limit]

    def wrong_run(self, name, arguments):
        """What is wrong with a run, and its output."""
        answer, wanted = self.answer(name, arguments), self.reference(name, arguments)
        checked = self.answer(name, ["check", *[word for word in arguments[1:] if word != "--layout"]])
        wrong = []
        if (answer[0] == 2, answer[2]) != (checked[0] == 2, checked[2]) or answer[0] not in (0, 2) or answer[0] == 2 and answer[1]:
            wrong.append(f"status {answer[0]} and {answer[2]}, and check: {checked[0]} and {checked[2]}")
        if answer != wanted:
            wrong.append(f"{answer} is not what the reference does: {wanted}")
        if answer[0] == 0:
            try:
                self.demand_facts(name, page_of(answer[1].decode("ascii", "replace")), "--layout" in arguments, checked[1].decode())
            except WrongPage as error:
                wrong.append(str(error))
        return wrong, answer[1]

    def demand_facts(self, name, shown, has_layout, concerns):
        """The page says what the other commands say."""
        values = {word: json.loads(self.answer(name, [word, "--json"])[1]) for word in ("list", "describe", "verify")}
        same("the concerns", shown.concerns, concerns.splitlines())
        same("the size of the file", page.size(shown.head["size"]), len(self.files[name]))
        if values["list"]["kind"] == "legacy":
            demand_legacy(shown, values["list"], values["verify"])
        else:
            demand_fit(shown, values["list"], values["describe"], values["verify"])
        same("whether there is a layout", "region" in shown.tables, has_layout)
        if has_layout:
            demand_layout(shown, values["list"], len(self.files[name]))


def same(what, one, other):
    if one != other:
        raise WrongPage(f"{what} on the page: {one}, in the JSON: {other}")


def demand_legacy(shown, listed, verdicts):
    head = shown.head
    same("the kind", head["kind"], "legacy image")
    same("the name", page.text(head["name"]), page.name(listed["name"]))
    same("the time", page.seconds(head["date"]), listed["time"])
    for field in ("load", "entry"):
        same(field, head[field], f"0x{listed[field]:08x}")
    for field in FIELDS:
        # The page has more names.
        if type(listed[field]) is str or head[field].isdecimal():
            same(field, head[field], str(listed[field]))
    same("the checksums", [head["header crc32"], head["data crc32"]], [verdicts["header_crc32"], verdicts["data_crc32"]])
    parts = [(page.number(row["part"]), page.number(row["size"]), page.number(row["offset"])) for row in shown.rows("part")]
    same("the parts", parts, [(i, part["size"], part["offset"]) for i, part in enumerate(listed["parts"])])


def value_of(node, name):
    """The bytes of the value of a property in the JSON of describe, or None."""
    for each in node["properties"]:
        if each["name"] == name:
            return b"".join(one.encode() + b"\0" for one in each["strings"]) if "strings" in each else bytes.fromhex(each["hex"])
    return None


def children_of(root, name):
    return next((child["children"] for child in root["children"] if child["name"] == name), [])


def demand_fit(shown, listed, described, verified):
    head, root = shown.head, described["root"]
    same("the kind", head["kind"], "flattened image tree")
    same("the description", page.plain_value(head["description"]), value_of(root, "description"))
    same("the time", page.time_value(head["date"]), value_of(root, "timestamp"))
    same("the boot processor", page.number(head["boot processor"]), listed["boot_cpu"])
    same("the default", head["default"], listed["default"] or "-")
    reservations = [(row["reservation"], row["size"]) for row in shown.rows("reservation")]
    same("the reservations", reservations, [(each["address"], each["size"]) for each in listed["reservations"]])
    demand_images(shown.rows("image"), listed["images"], children_of(root, "images"), verified["hashes"])
    demand_configurations(shown, children_of(root, "configurations"))
    demand_signatures(shown.rows("signature"), root)


def mark_of(image, name):
    """The mark of a hash node of an image that U-Boot skips."""
    value = value_of(next(child for child in image["children"] if child["name"] == name), "uboot-ignore")
    return ":skipped" if value is not None and len(value) == 4 and any(value) else ""


def demand_images(rows, listed, nodes, hashes):
    same("the images", [row["image"] for row in rows], [image["name"] for image in listed])
    for row, image, node in zip(rows, listed, nodes):
        what = f"of {row['image']}"
        for field in FIELDS:
            same(f"the {field} {what}", page.plain_value(row[field]), value_of(node, field))
        for field in ("load", "entry"):
            same(f"the {field} {what}", page.address(row[field]), value_of(node, field))
        for field in ("size", "offset"):
            same(f"the {field} {what}", page.number_or_none(row[field]), image["payload"] and image["payload"][field])
        own = [each for each in hashes if each["image"] == row["image"]]
        wanted = [f"{each['algorithm'] or '-'}:{each['verdict']}{mark_of(node, each['node'])}" for each in own]
        same(f"the hashes {what}", row["hashes"], " ".join(wanted) or "-")


def demand_configurations(shown, nodes):
    rows = shown.rows("configuration")
    same("the configurations", [row["configuration"] for row in rows], [node["name"] for node in nodes])
    if rows:
        keys = [key for key in page.KEYS if any(value_of(node, key) is not None for node in nodes)]
        same("the keys", shown.headings["configuration"][1:-1], keys)
    for row, node in zip(rows, nodes):
        for key in shown.headings["configuration"][1:-1]:
            found = value_of(node, key)
            if found not in page.names_values(row[key]):
                raise WrongPage(f"{key} of {row['configuration']}: {row[key]} is shown for {found}")
        same(f"what {row['configuration']} is for", page.plain_value(row["compatible"]), value_of(node, "compatible"))


def demand_signatures(rows, root):
    wanted = [
        (f"/{parent}/{node['name']}/{child['name']}", value_of(child, "algo"), value_of(child, "key-name-hint"), "not verified")
        for parent in ("images", "configurations") for node in children_of(root, parent) for child in node["children"]
        if child["name"].startswith("signature")]
    found = [(row["signature"], page.plain_value(row["algorithm"]), page.plain_value(row["key"]), row["verdict"]) for row in rows]
    same("the signatures", found, wanted)


def demand_layout(shown, listed, length):
    """The regions are in order, and together have all bytes; what is free is in no other region."""
    regions = [(row["region"], page.number(row["offset"]), page.number(row["size"])) for row in shown.rows("region")]
    same("the order of the regions", [at for _, at, _ in regions], sorted(at for _, at, _ in regions))
    end = 0
    for name, at, size in regions:
        if name in ("free space", "trailing bytes"):
            same(f"where the {name} begins", at, end)
            same(f"whether the {name} has bytes", size > 0, True)
        elif at > end:
            raise WrongPage(f"no region has the bytes from {end} on")
        end = max(end, at + size)
    same("the end of the regions", end, length)
    if listed["kind"] == "legacy":
        wanted = [(f"part {i}", part["offset"], part["size"]) for i, part in enumerate(listed["parts"])]
        unused = listed["unused"]
    else:
        placed = [(image["name"], image["payload"]) for image in listed["images"] if image["payload"]]
        wanted = [(f"image {name}", payload["offset"], payload["size"]) for name, payload in placed]
        ends = [listed["total_size"], *[at + size for _, at, size in wanted]]
        unused = length - max(ends)
    parts = [region for region in regions if region[0].startswith(("part ", "image ")) and region[0] != "part table"]
    same("the payloads", parts, sorted(wanted, key=lambda region: region[1]))
    same("the trailing bytes", [size for name, _, size in regions if name == "trailing bytes"], [unused] * (unused > 0))


def main(words):
    options, program, others = options_of(words)
    suite = Suite(program, others)
    runs = [(f"{name}: {shlex.join(arguments)}", partial(suite.wrong_run, name, arguments)) for name, arguments in suite.runs()]
    return report(runs, options)


if __name__ == "__main__":
    sys.exit(main(sys.argv[1:]))
