#!/bin/sh
# Tries the quick program, which scripts/quick.py builds without a proof: it does what the vectors of tests/conformance want, and some 500
# commands, of which some fail, give the same status, output, errors and files as by the proved program. Only its version differs. Needs
# python3, and installs Debian's if it is missing and the script runs as root.
set -u

root=$(cd "$(dirname "$0")/../.." && pwd)
. "$root/tests/setup"

need python3 python3
need_program
check "the quick program is built" "$root/scripts/quick.py"
[ "$failed" = 0 ] || finish
work_in_new_directory
proved=$root/crates/bootimg/out/bootimg
quick=$root/crates/bootimg/out/quick/bootimg

check "its version says that it is not proved, and nothing else than that" sh -c '
    "$1" --version | sed "s/(Rattle logic .*)/(not proved)/" > wanted
    grep -Eqx "bootimg [0-9.]+ \(not proved\)" wanted && "$2" --version | cmp - wanted' sh "$proved" "$quick"
check "the proved program does not say so" sh -c '! grep -Fq "not proved" "$1"' sh "$proved"
passes "$root/tests/conformance/run" "$quick"
passes "$root/tests/conformance/run" --changes 4000 "$quick"
passes python3 "$root/tests/tools/quick_program.py" "$root/examples" "$proved" "$quick"
check "these are 500 commands" test "$(sed -n '$s/ passed.*//p' log)" -ge 500

# A program that differs in one output is found.
printf '#!/bin/sh\n"%s" "$@" | sed s/default/Default/\n' "$quick" > faulty
chmod +x faulty
check "a program with another output is found" sh -c '! python3 "$1" "$2" "$3" ./faulty > found &&
    grep -Fq "FAILED: bootimg list board.itb" found' sh "$root/tests/tools/quick_program.py" "$root/examples" "$proved"
finish
