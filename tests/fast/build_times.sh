#!/bin/sh
# Shows that the time that is left of a build, as scripts/build.py prints it, rises by no more than a fifth in a run on a steady machine:
# over stored logs and made runs (tests/fast/build_times.py). Then shows that this finds an estimate that rises by more. It needs python3,
# and installs Debian's if it is missing and the script runs as root.
set -u

root=$(cd "$(dirname "$0")/../.." && pwd)
. "$root/tests/setup"

need python3 python3
work_in_new_directory
passes python3 "$root/tests/fast/build_times.py" "$root"
copy_here crates.txt scripts/estimate.py tests/fast/build_times
sed -i 's/^MOST_CREDIT = .*/MOST_CREDIT = 0/' copy/scripts/estimate.py
check "an estimate that counts nothing of the crates that are being proved is found" sh -c 'python3 "$1" copy |
    grep -q "^FAILED: made run .*, 2 processors: the time that is left rises"' sh "$root/tests/fast/build_times.py"
finish
