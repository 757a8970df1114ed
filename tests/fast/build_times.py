"""Shows that the time that is left of a build, as scripts/build.py prints it, rises by no more than a fifth in a run on a steady machine.

build_times.py ROOT tries runs of two kinds, and prints a line for each that rises by more:

- the logs in tests/fast/build_times, each the file build.times of a real build. A machine with other work is not steady: for a log whose
  name begins with `busy`, the clock is the processor time of the build, as on a machine that always gives it the same share;
- made runs, for one to four processors: each crate takes up to a tenth more or less than in the table of scripts/estimate.py, and uses
  1.3 to 1.9 of two processors if it has them.

The table must have the crates of the program and of the library for C. The last line is `N passed, M failed`.
"""

import random
import sys
from pathlib import Path

sys.dont_write_bytecode = True
ROOT = Path(sys.argv[1]).resolve()
sys.path.insert(0, str(ROOT / "scripts"))
from estimate import CRATES, seconds_left

MOST_RISE = 1.2
# The estimate of the last minutes may be off by a minute.
LEAST = 300


def read_log(path):
    """The lines of a build: the seconds, what the crates that are proved took, and what those that run have used."""
    proved, lines = {}, {}
    for seconds, name, used, *end in map(str.split, path.read_text().splitlines()):
        if end:
            proved[name] = float(used)
        else:
            lines.setdefault(float(seconds), (dict(proved), {}))[1][name] = float(used)
    for seconds, (done, running) in lines.items():
        used = sum(done.values()) + sum(running.values())
        yield used if path.name.startswith("busy") else seconds, done, running


def crates_below():
    """The program, the library for C and the crates that they need, each with all those that it needs itself."""
    lines = [line.partition(":") for line in (ROOT / "crates.txt").read_text().splitlines() if line[0] != "#"]
    uses = {name.split()[0]: words.split() for name, _, words in lines}

    def needed(name):
        direct = [other for other in uses[name] if other in uses]
        return set(direct).union(*map(needed, direct))

    return {name: needed(name) for name in ["bootimg", "bi_c", *needed("bootimg"), *needed("bi_c")]}


def made_run(seed, jobs, below):
    """The lines of a made run. Of the crates that can begin, the one with the longest chain of crates above it is first."""
    drawn = random.Random(seed)
    needed = {name: seconds * drawn.uniform(0.9, 1.1) for name, seconds in CRATES.items()}
    speed = {name: drawn.uniform(0.65, 0.95) for name in CRATES}
    above = {name: sum(CRATES[other] for other in CRATES if name in below[other]) for name in CRATES}
    waiting, running, proved, seconds = list(CRATES), {}, {}, 0
    while waiting or running:
        ready = [name for name in waiting if not below[name] & {*waiting, *running}]
        for name in sorted(ready, key=lambda name: -above[name])[: max(jobs - len(running), 0)]:
            waiting.remove(name)
            running[name] = 0
        seconds += 1
        for name in list(running):
            share = jobs / len(running)
            running[name] += share * speed[name] if share > 1 else 1
            if running[name] >= needed[name]:
                proved[name] = running.pop(name)
        if seconds % 20 == 0 and running:
            yield seconds, dict(proved), dict(running)


def largest_rise(lines):
    """The largest ratio of an estimate to an earlier one."""
    least, rise = None, 1
    for seconds, proved, running in lines:
        left = seconds_left(seconds, CRATES, proved, running)
        if left is not None and left > LEAST:
            least = min(left, least or left)
            rise = max(rise, left / least)
    return rise


def main():
    runs = {path.name: read_log(path) for path in sorted((ROOT / "tests/fast/build_times").iterdir())}
    below = crates_below()
    if set(below) != set(CRATES):
        sys.exit(f"FAILED: only in crates.txt or in the table of scripts/estimate.py: {sorted(set(below) ^ set(CRATES))}")
    for jobs in (1, 2, 4):
        runs |= {f"made run {seed}, {jobs} processors": made_run(seed, jobs, below) for seed in range(10)}
    rises = {name: largest_rise(lines) for name, lines in runs.items()}
    if "--rises" in sys.argv:
        print(rises)
    failed = [name for name, rise in rises.items() if rise > MOST_RISE]
    for name in failed:
        print(f"FAILED: {name}: the time that is left rises by {rises[name] - 1:.0%}")
    print(f"{len(runs) - len(failed)} passed, {len(failed)} failed")


main()
