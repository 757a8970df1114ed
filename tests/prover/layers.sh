#!/bin/sh
# Shows that the proofs of each crate use the contracts of the crates below it: with one clause less of a public function, a function of
# a crate above is not proved. The clauses are in tests/prover/layers.txt, and the checks in tests/prover/layers.py. As many are checked
# at a time as there are processors. The script needs python3, and installs Debian's if it is missing and the script runs as root.
set -u

root=$(cd "$(dirname "$0")/../.." && pwd)
here=$root/tests/prover
. "$root/tests/kit"

# uses_of_crate CRATE: the libraries that a crate of the workspace uses.
uses_of_crate() {
    sed -n "s/^$1\( staticlib\)*: *//p" "$root/crates.txt"
}

# The script calls itself, to have rattle check a crate in the current directory over copies of those below it: CRATE COPY=DIRECTORY..
# FLAG... The other crates are taken as they are built. A program is checked as a library of its modules.
if [ "${1-}" = check ]; then
    crate=$2
    shift 2
    uses=$(uses_of_crate "$crate")
    copies=
    while [ "${1#*=}" != "$1" ]; do
        copies="$copies $1"
        uses="$uses $(uses_of_crate "${1%%=*}")"
        shift
    done
    built=$(printf '%s\n' core $uses | sort -u)
    for copy in $copies; do
        built=$(echo "$built" | grep -Fxv "${copy%%=*}")
        may_use=$(printf '%s\n' core std $(uses_of_crate "${copy%%=*}") | sort -u | paste -sd ,)
        set -- "$@" --lib "${copy%%=*}:$may_use=${copy#*=}/src/lib.rt"
    done
    if [ -f src/main.rt ]; then
        modules_of_program src/main.rt > src/lib.rt
        rm src/main.rt
    fi
    rattle check "$crate" src/lib.rt "$built" "$@"
    exit
fi

need python3 python3
need_libraries
work_in_new_directory

# One more piece has the clause itself in its place, and has to fail: its function is proved. It is checked with other pieces.
cat "$here/layers.txt" - > pieces << 'END'

## a_clause_in_its_own_place
clause: bi_base src/crc.rt finish
weaker: result ≡ 0xFFFFFFFF - self
needed: bi_legacy header::header_checksum
END
python3 -B "$here/layers.py" "$root/crates" pieces "$here/layers.sh" check > log 2>&1
for name in $(sed -n 's/^## //p' "$here/layers.txt"); do
    check "$name: a function above needs the clause" grep -F "refused: $name: " log
done
kept="FAILED: a_clause_in_its_own_place: bi_legacy header::header_checksum: \(no holes\|depends on a hole in \)"
check "nothing is refused for a clause in its own place" grep "^$kept" log
grep -v -e '^refused: ' -e "^$kept" log
finish
