#!/bin/sh
# Tries ./test in a copy, with a stub instead of each script and of rt: which scripts its arguments start, in which order, which of them
# wait for `rt ci`, what it prints if one fails, and how it ends. A run takes less than a second, and one in which rt is slow takes two.
set -u

root=$(cd "$(dirname "$0")/../.." && pwd)
. "$root/tests/setup"

work_in_new_directory
started=$work/started
broken=$work/broken
slow=$work/slow
export started broken slow

# stub PATH NAME: makes a program that adds this name to the file `started`, and fails if the file `broken` has it. It waits before if the
# file `slow` has the name.
stub() {
    mkdir -p "$(dirname "$1")"
    printf '#!/bin/sh\nname=%s\n' "$2" > "$1"
    cat >> "$1" << 'END'
! grep -Fqx "$name" "$slow" || sleep 2
echo "$name${1:+ $*}" >> "$started"
! grep -Fqx "$name" "$broken"
END
    chmod +x "$1"
}

cp "$root/test" test
scripts=$(cd "$root" && printf '%s\n' tests/*/*.sh)
for script in $scripts; do
    stub "$script" "$script"
done
stub bin/rt rt
: > broken
: > slow
PATH=$work/bin:$PATH

# run STATUS ARGUMENT..: ./test with these arguments, from another directory, ends with this status.
run() {
    wanted=$1
    shift
    : > started
    (cd / && "$work/test" "$@") > output 2>&1
    [ $? = "$wanted" ] || { cat output; false; }
}

# starts WANTED ARGUMENT..: ./test with these arguments succeeds, and starts the scripts in the file WANTED, each once.
starts() {
    wanted_scripts=$1
    shift
    run 0 "$@" && sort started | diff "$wanted_scripts" -
}

# is_last: the scripts of costs are started at the end.
is_last() {
    tail -n "$(ls tests/costs/*.sh | wc -l)" started > last
    ! grep -v '^tests/costs/' last
}

printf '%s\n' $scripts | sort > all
{ echo "rt ci" && grep -v '^tests/boots/' all; } | sort > everything
check "the gate" starts everything
check "the scripts of costs are the last" is_last

# A script that needs what `rt ci` builds calls a function for that. Its name is not written here, since this script needs nothing.
needing=$(cd "$root" && grep -l 'need[_]' $scripts)
for script in $needing; do
    printf '# %s_libraries\n' need >> "$script"
done

# wait_for_proofs: until `rt ci` ends, the gate starts only scripts of fast and of calls without such a call, and it starts some.
wait_for_proofs() {
    echo rt > slow
    starts everything
    status=$?
    : > slow
    grep -e '^tests/fast/' -e '^tests/calls/' all | grep -Fxv "$needing" > beside
    sed '/^rt ci$/,$d' started > before
    [ "$status" = 0 ] && [ -s before ] && ! grep -Fxv -f beside before
}
check "the scripts that need what rt ci builds wait for it" wait_for_proofs

for group in fast tools calls prover costs boots; do
    grep "^tests/$group/" all > wanted
    check "the group $group" starts wanted "$group"
done
grep -e '^tests/fast/' -e '^tests/costs/' -e '/layout\.sh$' all > wanted
check "two groups and two scripts" starts wanted costs tests/calls/layout.sh fast tests/fast/words.sh
check "the scripts of costs are the last of these" is_last
echo tests/tools/claims.sh > wanted
check "one script" starts wanted tests/tools/claims.sh

# of_crate NAME TESTS: ./test crate NAME proves the crate, and starts the script with its tests and its wrong code, in this order.
of_crate() {
    run 0 crate "$1" && printf '%s\n' "rt check" "$2" "tests/prover/wrong_bodies.sh $1" | diff - started
}
for crate in bi_base bi_report bi_commands bi_c bootimg; do
    mkdir -p "crates/$crate/src"
done
check "the tests of a crate of the formats" of_crate bi_base tests/calls/library.sh
check "those of the commands" of_crate bi_commands tests/calls/commands.sh
check "those of a crate that bi_commands exports" of_crate bi_report tests/calls/commands.sh
check "those of the library for C" of_crate bi_c tests/tools/c_library.sh
check "those of the program" of_crate bootimg tests/calls/program.sh

# is_list: --list prints the path of each script, which has no comment here, and nothing is started.
is_list() {
    run 0 --list && [ ! -s started ] && [ "$(cat output)" = "$scripts" ]
}
check "the scripts are listed" is_list

# is_wrong ARGUMENT..: these arguments are refused, and nothing is started.
is_wrong() {
    run 2 "$@" && [ ! -s started ] && grep -q '^usage: ' output && [ "$(wc -l < output)" = 1 ]
}
check "an unknown group is refused" is_wrong none
check "an unknown script is refused" is_wrong fast tests/fast/none.sh
check "an unknown option is refused" is_wrong --help
check "a list of one group is refused" is_wrong --list fast
check "an unknown crate is refused" is_wrong crate bi_none
check "two crates are refused" is_wrong crate bi_base bi_c
check "an empty argument is refused" is_wrong ""
check "two groups in one argument are refused" is_wrong "fast tools"

# names TEXT ARGUMENT..: ./test with these arguments fails, and this is its last line.
names() {
    text=$1
    shift
    run 1 "$@" && tail -n 1 output | tr -s ' ' | grep -Fqx "failed: $text"
}
echo tests/fast/words.sh > broken
check "a script that fails is named" names "tests/fast/words.sh" fast
check "so it is by the gate" names "tests/fast/words.sh"
echo tests/costs/fit_costs.sh > broken
check "so is one of costs" names "tests/costs/fit_costs.sh" costs
echo rt > broken
check "so are the proofs" names "rt ci"
echo tests/prover/wrong_bodies.sh > broken
check "so is wrong code" names tests/prover/wrong_bodies.sh
finish
