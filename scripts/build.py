#!/usr/bin/env python3
"""Proves and builds the program, or the library for C, with the compiler of the Rattle kit.

    scripts/build.py [--jobs NUMBER] [--library | --run -- ARGUMENT ..]

With --run it ends as the program does with these arguments, and with --library it builds the library for C instead. A crate begins as
soon as those that it uses are proved; of those that can begin, the one with the longest chain of crates above it is first. As many
crates as --jobs, or as there are processors, are proved at once, and a crate that is proved alone gets all of them. Of each library the
statements are kept, and not the proofs: that takes less time and memory. A crate is proved again only if it, or one that it uses, has
changed. In a checkout in which rt has proved crates, rt builds, since it goes on from the proofs that it kept.

The libraries go to crates/CRATE/out/built, the program to crates/bootimg/out/bootimg, and the library for C to
crates/bi_c/out/libbi_c.a. What the compiler prints is in crates/CRATE/out/build.log, and out/build.times beside the result has the
processor seconds of each crate. The program has the time at which its build began, so a source that is edited meanwhile is newer. One
build works in a checkout at a time. The status is 2 if it fails.
"""

import argparse
import fcntl
import hashlib
import os
import re
import shutil
import signal
import subprocess
import sys
import time
from dataclasses import dataclass, field
from pathlib import Path

sys.dont_write_bytecode = True
from estimate import CRATES, processor_seconds, seconds_left

ROOT = Path(__file__).resolve().parent.parent
KIT = Path(os.path.realpath(shutil.which("rt") or "/")).parent.parent
TARGET = "x86_64-unknown-linux-gnu"
SECONDS_BETWEEN_LINES = 20
WHAT = {"bootimg": "the program", "bi_c": "the library for C"}


@dataclass
class Crate:
    """A crate of the repository: the libraries that it uses, of the repository and of the kit, and whether it is a static library."""

    name: str
    uses: list
    is_static: bool
    lines: int = 0
    inputs: str = ""
    above: float = 0
    below: list = field(default_factory=list)

    @property
    def seconds(self):
        """The processor seconds that it took to prove where this was measured, or a guess."""
        return CRATES.get(self.name, max(self.lines / 17, 1))

    @property
    def out(self):
        return ROOT / "crates" / self.name / "out"

    @property
    def is_program(self):
        return (ROOT / "crates" / self.name / "src/main.rt").exists()

    @property
    def library(self):
        return self.out / "built" / f"{self.name}.rlib"

    @property
    def result(self):
        if self.is_program:
            return self.out / self.name
        return self.out / f"lib{self.name}.a" if self.is_static else self.library

    @property
    def record(self):
        """The file that has the checksum of what the result was built from."""
        return self.out / "built" / "inputs"

    def is_current(self):
        return self.result.exists() and self.record.exists() and self.record.read_text() == self.inputs


def read_crates(wanted):
    """The crates that the wanted one needs and itself, each after those that it uses."""
    crates = {}
    for line in (ROOT / "crates.txt").read_text().splitlines():
        found = re.fullmatch(r"([a-z0-9_]+)( staticlib)?:(.*)", line)
        if found:
            crates[found[1]] = Crate(found[1], found[3].split(), found[2] is not None)
    ordered = {}

    def add(crate):
        for name in crate.uses:
            if name in crates:
                add(crates[name])
        ordered.setdefault(crate.name, crate)

    add(crates[wanted])
    for crate in ordered.values():
        measure(crate, ordered)
    for crate in reversed(ordered.values()):
        users = [other.above for other in ordered.values() if crate.name in other.uses]
        crate.above = crate.seconds + max(users, default=0)
    return ordered


def measure(crate, crates):
    """Counts the lines of a crate, and computes the checksum of all that its result is built from."""
    checksum = hashlib.sha256((KIT / "KIT-ID").read_bytes())
    for part in ("src", "specs", "proofs"):
        for path in sorted((ROOT / "crates" / crate.name / part).rglob("*")):
            if path.suffix in (".rt", ".antt") and path.name[0] not in ".#":
                text = path.read_bytes()
                crate.lines += text.count(b"\n")
                checksum.update(b"%s %d\n" % (bytes(path.relative_to(ROOT)), len(text)) + text)
    for name in crate.uses:
        if name in crates:
            crate.below += [other for other in [*crates[name].below, crates[name]] if other not in crate.below]
            checksum.update(crates[name].inputs.encode())
        checksum.update(f"uses {name}\n".encode())
    crate.inputs = checksum.hexdigest()


def words_of(crate, jobs):
    """The command that proves a crate and builds it."""
    libraries = {other.name: other.library for other in crate.below}
    root_file = "src/main.rt" if crate.is_program else "src/lib.rt"
    words = [KIT / "bin/rattle", "build", "--crate-name", crate.name, root_file]
    for name in ["std", *crate.uses]:
        words += ["--extern", f"{name}={libraries.get(name, KIT / 'rlibs' / f'{name}.rlib')}"]
    for directory in [KIT / "rlibs", *(path.parent for path in libraries.values())]:
        words += ["-L", f"dependency={directory}"]
    words += ["--antt-project", KIT / "rattle/logic/antt-project.json", "--logic-built", KIT / "logic_built"]
    words += ["--links", f"{crate.name}=", "--jobs", str(jobs)]
    if crate.is_program:
        return words + ["--toolchain", KIT / "toolchain", "--backend", "llvm", "-o", f"out/{crate.name}.o"]
    if crate.is_static:
        return words + ["--crate-type", "staticlib", "--toolchain", KIT / "toolchain", "--backend", "llvm", "-o", crate.result]
    return words + ["--statements", "-o", crate.library]


def link(crate):
    """Links the program, whose file is replaced at once."""
    archives = [KIT / "c/libos_c.a", KIT / "c/liblibc_c.a"]
    words = [KIT / "bin/rattle-link", "--target", TARGET, "--toolchain", KIT / "toolchain", "-o", "out/linked"]
    subprocess.run([*words, f"out/{crate.name}.o", *archives], cwd=crate.out.parent, check=True, stdout=subprocess.DEVNULL)
    os.replace(crate.out / "linked", crate.result)


class Build:
    """A build: the crates that are not proved yet, and the processes that prove crates."""

    def __init__(self, crates, jobs, times):
        self.jobs = jobs
        self.times = times
        self.waiting = [crate for crate in crates.values() if not crate.is_current()]
        self.measured = {crate.name: crate.seconds for crate in self.waiting}
        self.running = {}
        # The processor seconds of each crate that is proved.
        self.proved = {}
        self.start = time.monotonic()

    def can_begin(self, crate):
        unfinished = [*self.waiting, *(other for other, _ in self.running.values())]
        return not any(other in unfinished for other in crate.below)

    def begin_crates(self):
        """Begins as many crates as there are free processors. A crate that is alone gets all."""
        free = self.jobs - sum(jobs for _, jobs in self.running.values())
        ready = sorted(filter(self.can_begin, self.waiting), key=lambda crate: -crate.above)[: max(free, 0)]
        for place, crate in enumerate(ready):
            jobs = free - len(ready) + 1 if place == 0 else 1
            self.begin(crate, jobs)

    def begin(self, crate, jobs):
        shutil.rmtree(crate.library, ignore_errors=True)
        crate.record.parent.mkdir(parents=True, exist_ok=True)
        crate.record.unlink(missing_ok=True)
        with open(crate.out / "build.log", "w") as log:
            words = words_of(crate, jobs)
            process = subprocess.Popen(words, cwd=crate.out.parent, stdin=subprocess.DEVNULL, stdout=log, stderr=log)
        self.waiting.remove(crate)
        self.running[process] = (crate, jobs)

    def finish_crates(self):
        """Takes the crates whose processes have ended."""
        for process in list(self.running):
            ended, status, usage = os.wait4(process.pid, os.WNOHANG)
            if not ended:
                continue
            process.returncode = os.waitstatus_to_exitcode(status)
            crate, _ = self.running.pop(process)
            if process.returncode != 0:
                fail(f"{crate.name} is not proved: {crate.out / 'build.log'} has what rattle printed")
            if crate.is_program:
                link(crate)
            crate.record.write_text(crate.inputs)
            self.proved[crate.name] = usage.ru_utime + usage.ru_stime
            self.note(crate.name, self.proved[crate.name], "proved")

    def stop(self):
        for process in self.running:
            process.terminate()
        for process in self.running:
            process.wait()

    def report(self):
        """Prints how far the build is."""
        seconds = time.monotonic() - self.start
        used = {crate.name: processor_seconds(process.pid) for process, (crate, _) in self.running.items()}
        for name in used:
            self.note(name, used[name])
        left = seconds_left(seconds, self.measured, self.proved, used)
        shown = f", about {left / 60:.0f} minutes left" if left is not None else ""
        names = ", ".join(sorted(used))
        say(f"{seconds:.0f} s: proving {names}; {len(self.proved)} of {len(self.measured)} crates are proved{shown}")

    def note(self, *words):
        """Adds a line to the file of times, which tests/fast/build_times.py reads."""
        with open(self.times, "a") as file:
            print(f"{time.monotonic() - self.start:.0f} {words[0]} {words[1]:.0f}", *words[2:], file=file)

    def run(self):
        self.times.unlink(missing_ok=True)
        shown = self.start
        while self.waiting or self.running:
            self.begin_crates()
            time.sleep(0.2)
            self.finish_crates()
            if self.running and time.monotonic() - shown >= SECONDS_BETWEEN_LINES:
                shown = time.monotonic()
                self.report()


def build_with_rt(crate):
    """Has rt build the program or the library, which goes on from the proofs that it kept."""
    log = crate.out / "build.log"
    say(f"a source has changed: proving and building {crate.name} again (log: {log})")
    crate.out.mkdir(exist_ok=True)
    with open(log, "w") as file:
        words = ["rt", "run", "--", "--version"] if crate.is_program else ["rt", "lib"]
        process = subprocess.Popen(words, cwd=crate.out.parent, stdin=subprocess.DEVNULL, stdout=file, stderr=file)
        try:
            if process.wait() != 0:
                fail(f"{crate.name} cannot be built: {log} has what rt printed")
        finally:
            process.terminate()


def is_newer(crate, crates):
    """Whether the result of a crate, which another build made, is newer than each source. The times of directories do not count: a
    copy of a checkout has new ones."""
    if crate.record.exists() or not crate.result.exists():
        return False
    sources = [ROOT / "crates.txt", *(path for name in crates for path in (ROOT / "crates" / name / "src").rglob("*.rt"))]
    return max(path.stat().st_mtime for path in sources) <= crate.result.stat().st_mtime


def build(wanted, jobs):
    """Builds what is wanted, unless it is current."""
    crates = read_crates(wanted)
    result = crates[wanted].result
    start = time.time()
    if is_newer(crates[wanted], crates):
        os.utime(result, (start, start))
        return result
    if any((crate.out / "incremental").exists() for crate in crates.values()):
        build_with_rt(crates[wanted])
    else:
        steps = Build(crates, jobs, crates[wanted].out / "build.times")
        if steps.waiting:
            minutes = sum(steps.measured.values()) / 60
            say(f"proving and building {WHAT[wanted]}: once, {minutes / 2:.0f} to {minutes:.0f} minutes of processor time")
        try:
            steps.run()
        finally:
            steps.stop()
    os.utime(result, (start, start))
    return result


def lock(out):
    """Waits until no other build works in the checkout. The lock lasts as long as the process."""
    try:
        out.mkdir(parents=True, exist_ok=True)
        descriptor = os.open(out / "lock", os.O_WRONLY | os.O_CREAT, 0o666)
    except OSError:
        fail(f"cannot write to {out}, where the program is built")
    try:
        fcntl.flock(descriptor, fcntl.LOCK_EX | fcntl.LOCK_NB)
    except OSError:
        say("waiting for another build")
        fcntl.flock(descriptor, fcntl.LOCK_EX)


def say(text):
    print(f"bootimg: {text}", file=sys.stderr, flush=True)


def fail(text):
    say(text)
    sys.exit(2)


def end(number, _):
    say("interrupted; the next call builds the program")
    sys.exit(128 + number)


def prepare():
    """Fails if there is no kit, and ends a build that is interrupted with its processes."""
    if shutil.which("rt") is None:
        fail(f"rt, the command of the Rattle kit, is not in PATH: see 'Set-up' in {ROOT}/README.md")
    for number in (signal.SIGTERM, signal.SIGHUP, signal.SIGINT):
        signal.signal(number, end)


def main():
    parser = argparse.ArgumentParser(usage=__doc__)
    parser.add_argument("--jobs", type=int, default=len(os.sched_getaffinity(0)))
    parser.add_argument("--library", action="store_true")
    parser.add_argument("--run", action="store_true")
    parser.add_argument("arguments", nargs="*")
    options = parser.parse_args()
    prepare()
    lock(ROOT / "crates/bootimg/out")
    result = build("bi_c" if options.library else "bootimg", max(1, options.jobs))
    if options.run:
        os.execv(result, [result, *options.arguments])


if __name__ == "__main__":
    main()
