"""Compares what a program does with --json with what it does without, on the files of tests/conformance.

suite.py [--only TEXT] [--outputs FILE] PROGRAM (see tests/tools/runs.py): runs list, describe, verify and check on each file, compare on
it and itself and on it and another one, and these commands with the options that they have in a run of the suite: each without --json and
with it. The status and standard error are the same. The output is JSON of which lines.py makes the lines, and is that of
tests/conformance/reference.py. describe is also tried with the least limit that its JSON fits in, and with one less. What show and scan
write with --json is that of the reference.
"""

import shlex
import sys
import tempfile
from functools import partial
from pathlib import Path

sys.dont_write_bytecode = True
TESTS = Path(__file__).resolve().parents[2]
sys.path += [str(TESTS / "conformance"), str(TESTS / "tools")]
import reference
from lines import COMMANDS, WrongJson, lines_of, value_of
from runs import answer_of, options_of, report
from vectors import Vectors


def with_json(arguments):
    return [arguments[0], "--json", *arguments[1:]]


def is_too_large(answer):
    return b": TooLarge at " in answer[2]


def payload_bytes(value):
    """The bytes of all payloads in the JSON of describe."""
    if isinstance(value, list):
        return sum(map(payload_bytes, value))
    if not isinstance(value, dict):
        return 0
    return value["size"] if "sha256" in value else sum(map(payload_bytes, value.values()))


class Suite:
    """The files, and what the program and the reference do with them: a status, an output and the text on standard error."""

    def __init__(self, program, directory):
        self.vectors, self.program, self.directory = Vectors(TESTS / "conformance" / "vectors"), program, directory
        for name in self.vectors.bodies:
            (directory / name).write_bytes(self.vectors.bytes(name))
        self.accepted = [name for name in self.vectors.bodies if self.reference(name, ["list"])[0] == 0]

    def reference(self, name, arguments):
        return reference.main(arguments, self.vectors.bytes(name), self.vectors.named)

    def answer(self, name, arguments):
        if self.program == "reference":
            return self.reference(name, arguments)
        return answer_of(self.program, arguments, self.vectors.bytes(name), self.directory)

    def runs(self):
        """Each file with arguments without --json."""
        found = {}
        for place, name in enumerate(self.vectors.bodies):
            other = self.accepted[place % len(self.accepted)]
            for command in ("list", "describe", "verify", "check", f"compare - {name}", f"compare - {other}"):
                found[name, command] = None
        for run in self.vectors.all_runs():
            if run.arguments and run.arguments[0] in COMMANDS and "--json" not in run.arguments:
                found[run.file, shlex.join(run.arguments)] = None
        return list(found)

    def wrong_run(self, name, command):
        """What is wrong with a run, and the JSON that it writes."""
        arguments = shlex.split(command)
        lines, answer = self.answer(name, arguments), self.answer(name, with_json(arguments))
        return list(self.differences(arguments, lines, answer, self.reference(name, with_json(arguments)))), answer[1]

    def differences(self, arguments, lines, answer, wanted):
        """How an answer with --json differs from the one without, and from the one that is wanted."""
        if wanted[2].startswith(b"error: "):
            # The text of the parser of arguments is its own.
            wanted = 2, b"", answer[2] or wanted[2]
        elif (answer[0], answer[2]) != (lines[0], lines[2]):
            # The limit of describe is on what it writes.
            if arguments[0] != "describe" or not (is_too_large(answer) or is_too_large(lines)):
                yield f"status {answer[0]} and {answer[2]}, not {lines[0]} and {lines[2]}"
        if answer != wanted:
            yield f"{answer} is not what the reference does: {wanted}"
        if answer[0] in (0, 1) and lines[0] in (0, 1) and "--quiet" not in arguments:
            try:
                made = lines_of(arguments[0], answer[1])
            except WrongJson as error:
                yield str(error)
            else:
                if made != lines[1]:
                    yield f"the lines {made} are made of the JSON, not {lines[1]}"

    def wrong_output(self, name, command):
        """How the answer to a command differs from that of the reference, and the JSON that it writes."""
        arguments = shlex.split(command)
        answer, wanted = self.answer(name, arguments), self.reference(name, arguments)
        return [] if answer == wanted else [f"{answer} is not what the reference does: {wanted}"], answer[1]

    def wrong_limits(self, name, command):
        """What is wrong with the least limit for the JSON of a description, and with one less. There is no JSON."""
        _, output, _ = self.answer(name, ["describe", "--json"])
        least = max(64, len(self.vectors.bytes(name)), len(output), payload_bytes(value_of(output)))
        found = []
        for limit, wanted in ((least, (0, output, b"")), (least - 1, (2, b"", f"bootimg: TooLarge at {least - 1}\n".encode()))):
            answer = self.answer(name, [*command.split(), str(limit)])
            if limit >= 64 and answer != wanted:
                found.append(f"{answer} with the limit {limit}, not {wanted}")
        return found, b""


def main(words):
    options, program, _ = options_of(words)
    with tempfile.TemporaryDirectory() as directory:
        suite = Suite(program, Path(directory))
        runs = [(f"{name}: {command}", partial(suite.wrong_run, name, command)) for name, command in suite.runs()]
        others = [(name, command) for name in suite.vectors.bodies for command in ("show --json", "scan --json")]
        runs += [(f"{name}: {command}", partial(suite.wrong_output, name, command)) for name, command in others]
        limited = "describe --json --limit"
        runs += [(f"{name}: {limited}", partial(suite.wrong_limits, name, limited)) for name in suite.accepted]
        return report(runs, options)


if __name__ == "__main__":
    sys.exit(main(sys.argv[1:]))
