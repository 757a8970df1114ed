"""What the suites have in common that make runs of a program (json/suite.py, pages/suite.py): their arguments, and their report.

SUITE [--only TEXT] [--outputs FILE] PROGRAM ..: --only makes the runs whose names contain TEXT. --outputs writes the outputs, one after the
other. With `reference` as PROGRAM tests/conformance/reference.py is tried, without a process. The last line is `N passed, M failed`.
"""

import os
import subprocess
from concurrent.futures import ThreadPoolExecutor
from pathlib import Path


def answer_of(program, arguments, file, directory=None):
    """The status, the output and the text on standard error of a program with this file as its standard input."""
    result = subprocess.run([program, *arguments], input=file, capture_output=True, cwd=directory, timeout=60, check=False)
    return result.returncode, result.stdout, result.stderr


def options_of(words):
    """The options by their names, the program, and the other arguments."""
    options = {"--only": "", "--outputs": ""}
    while words[0] in options:
        options[words[0]] = words[1]
        words = words[2:]
    program, *others = words
    return options, program if program == "reference" else os.path.abspath(program), others


def report(runs, options):
    """Makes runs, each of which is a name and a call that returns what is wrong and the output. Returns the status of the suite."""
    runs = [(name, call) for name, call in runs if options["--only"] in name]
    failed, outputs = 0, []
    with ThreadPoolExecutor(os.cpu_count()) as pool:
        for (name, _), (wrong, output) in zip(runs, pool.map(lambda run: run[1](), runs)):
            failed += bool(wrong)
            outputs.append(output)
            if wrong:
                print("\n    ".join([f"FAILED: {name}", *wrong]))
    if options["--outputs"]:
        Path(options["--outputs"]).write_bytes(b"".join(outputs))
    print(f"{len(runs) - failed} passed, {failed} failed")
    return int(failed > 0 or not runs)
