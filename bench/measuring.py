"""Measures commands: their wall time and their peak memory."""
import os
import platform
import subprocess
import time

MIB = 1 << 20


class Failed(Exception):
    """A command ended with another status than 0."""


def seconds_of(command, source):
    """Runs a command once, with its output in a file, and returns the seconds."""
    with open(source, "rb") as file, open("output", "wb") as target:
        begin = time.perf_counter()
        status = subprocess.run(command, stdin=file, stdout=target, stderr=subprocess.DEVNULL).returncode
        taken = time.perf_counter() - begin
    if status != 0:
        raise Failed(f"`{short(' '.join(command))}` ended with status {status}")
    return taken


def memory_of(command, source):
    """Runs a command once, and returns its peak memory in bytes. A process begins with the peak of the one that starts it, so a
    small one does."""
    with open(source, "rb") as file, open("output", "wb") as target:
        timed = ["/usr/bin/time", "-f", "%M", "-o", "memory", *command]
        subprocess.run(timed, stdin=file, stdout=target, stderr=subprocess.DEVNULL)
    with open("memory") as file:
        return 1024 * int(file.read().split()[-1])


def measure(commands, rounds):
    """Returns the seconds, the least of all rounds, and the memory of each of these commands and files. In a round each is run
    once."""
    seconds = [min(taken) for taken in zip(*([seconds_of(*it) for it in commands] for _ in range(rounds)))]
    return list(zip(seconds, [memory_of(*it) for it in commands]))


def short(line):
    """The start of a command line, without what it writes to."""
    text = line.split(" -o ")[0]
    return text if len(text) <= 48 else text[:45] + "..."


def describe(rounds):
    """Prints what this is measured on."""
    with open("/proc/cpuinfo") as file:
        models = [line.split(":")[1].strip() for line in file if line.startswith("model name")]
    with open("/proc/meminfo") as file:
        memory = int(file.readline().split()[1]) * 1024
    model = models[0] if models else platform.machine()
    print(f"{len(os.sched_getaffinity(0))} cores ({model}), {memory / (1 << 30):.0f} GiB of memory, ", end="")
    print(f"{platform.system()} {platform.release()}. The load was {os.getloadavg()[0]:.1f} at the start.")
    print(f"A time is the least of {rounds} rounds.\n")
