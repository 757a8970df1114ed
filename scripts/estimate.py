"""How long a build still takes. Imported by build.py and quick.py."""

import os
from pathlib import Path

# The processor seconds that each crate took to prove in one run of `rt ci`, on a machine with four cores and other work (bi_tree, bi_plain
# and bi_edit by `rt check`), and each step of the quick build. A build writes those of its crates to out/build.times. Of the time that is
# left only the ratios count.
CRATES = {
    "bi_base": 187, "bi_blob": 54, "bi_hash": 105, "bi_lay": 167, "bi_legacy": 148, "bi_fdt": 493, "bi_tree": 89, "bi_fit": 969,
    "bi_plain": 155, "bi_norm": 266, "bi_coverage": 300, "bi_common": 295, "bi_edit": 401, "bi_report": 718, "bi_describe": 459,
    "bi_values": 240, "bi_labels": 60, "bi_show": 564, "bi_commands": 277, "bi_files": 294, "bootimg": 1223, "bi_c": 462,
}  # fmt: skip
STEPS = {"translating": 65, "compiling": 95, "linking": 2}
# How much must be done before an estimate is worth a line, and as how much a step counts at most that has not ended.
LEAST_SHARE = 0.02
MOST_CREDIT = 0.95


def seconds_left(seconds, measured, ended, running):
    """The seconds that are left of a build that began so many seconds ago, or None if it is too early to say. `measured` has what each
    step took where it was measured, `ended` what each step that has ended took here, and `running` what each that runs has used: all
    in processor seconds. A step that runs counts as far as it is, if this machine needs as much more for it as for those that ended."""
    proved = sum(measured[name] for name in ended)
    slowness = sum(ended.values()) / proved if proved else 1
    done = proved + sum(min(used / slowness, MOST_CREDIT * measured[name]) for name, used in running.items())
    whole = sum(measured.values())
    return seconds * (whole - done) / done if done > LEAST_SHARE * whole else None


def processor_seconds(process):
    """The processor seconds that a process has used, with those that it began, as /proc has them."""
    directory = Path(f"/proc/{process}")
    try:
        fields = (directory / "stat").read_text().rpartition(")")[2].split()
        children = [child for task in directory.glob("task/*/children") for child in task.read_text().split()]
    except OSError:
        return 0
    return sum(map(int, fields[11:15])) / os.sysconf("SC_CLK_TCK") + sum(map(processor_seconds, children))
