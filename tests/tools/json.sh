#!/bin/sh
# Tries --json of list, describe, verify, check and compare on the files of tests/conformance (tests/tools/json/suite.py): the status and
# standard error are those without --json, and of the JSON the lines are made again that the command writes without it. jq and python3 read
# the JSON and print the same bytes, but jq rounds a number of more than 15 digits. What show and scan write with --json is that of the
# reference. tests/conformance/vectors/json.txt has the known JSON. Programs with one fault each have to fail. The script needs python3
# and Debian's jq, and installs them if one is missing and it runs as root.
#
# json.sh [PROGRAM]: tries this program, and builds none.
set -u

root=$(cd "$(dirname "$0")/../.." && pwd)
. "$root/tests/setup"
suite=$root/tests/tools/json/suite.py

need python3 python3
need jq jq
if [ $# = 0 ]; then
    need_program
fi
program=$(readlink -f "${1:-$root/crates/bootimg/out/bootimg}")
work_in_new_directory

passes "$root/tests/conformance/run" --only 'json: ' "$program"
passes python3 "$suite" --outputs json "$program"
check "there is JSON of each kind" sh -c '[ "$(cut -d "\"" -f 2 json | sort -u | tr "\n" " ")" = "concerns file images kind same " ]'
grep -vE ':[0-9]{16}' json > exact
check "jq reads the JSON, and prints the same bytes" sh -c 'jq -c . exact | cmp - exact'

# names_members PAGE: the page has the members of the JSON, and no others.
names_members() {
    grep -oE '"[a-z0-9_]+":' "$root/$1" | tr -d '":' | sort -u > got
    jq -r '.. | objects | keys_unsorted[]' json | sort -u | diff got -
}

for page in man/bootimg.1 docs/CLI.md; do
    check "$page has the members of the JSON" names_members "$page"
done

# saves ARGUMENT..: with -o the program writes the same JSON to a file.
saves() {
    "$program" "$@" > wanted && [ -s wanted ] && "$program" "$@" -o saved && cmp wanted saved
}

kernel=$root/examples/kernel.uimage
for command in list describe verify check "compare $kernel"; do
    # shellcheck disable=SC2086
    check "an output file has the JSON of ${command%% *}" saves $command --json "$kernel"
done

# faulty COMMAND..: makes the program `faulty`, which runs these commands after the program if it has the argument --json. They may
# change the file $t/out, which has its output, and $status.
faulty() {
    {
        printf '#!/bin/sh\nt=$(mktemp -d)\n"%s" "$@" > $t/out 2> $t/errors\nstatus=$?\n' "$program"
        printf 'case " $* " in *" --json "*)\n'
        printf '%s\n' "$@"
        printf ';; esac\ncat $t/out\ncat $t/errors >&2\nrm -r $t\nexit $status\n'
    } > faulty
    chmod +x faulty
}

# is_found TEXT SCRIPT [REASON]: of the runs with TEXT, not all pass with a program whose JSON is changed by this script of sed. The reason
# is that lines.py does not make the lines of the JSON, or this one.
is_found() {
    faulty "sed -i '$2' \$t/out"
    python3 "$suite" --only "$1" ./faulty > log
    [ $? = 1 ] && grep -q "^    .*${3:-\(Expecting\|is wanted, not\|of the JSON, not\)}" log || { cat log; false; }
}

check "a space is found" is_found 'kernel: list' 's/,"time"/, "time"/'
check "another order of members is found" is_found 'kernel: list' 's/\("load":[0-9]*\),\("entry":[0-9]*\)/\2,\1/'
check "a number that is a string is found" is_found 'kernel: list' 's/"time":\([0-9]*\)/"time":"\1"/'
check "another number is found" is_found 'kernel: list' 's/"offset":64/"offset":65/'
check "a missing end is found" is_found 'kernel: verify' 's/}$//'
check "an escape too many is found" is_found 'values: describe' 's/%/\\u0025/'
check "an escape too few is found" is_found 'values: describe' 's/\\\\"/"/'
check "a value that is left out is found" is_found 'more-values: describe' 's/,{"name":"9","strings":\[[^]]*\]}//'
check "a devicetree that is left out is found" is_found 'deep-one: describe --deep' \
    's/,"devicetree":.*}}},"properties":\[{"name":"load"/},"properties":[{"name":"load"/'
check "a verdict is found" is_found 'hash-short: verify' 's/"verdict":"bad"/"verdict":"good"/'
check "a string for null is found" is_found 'hash-without-value: verify' 's/"value":null/"value":""/' 'is not what the reference does'
check "a concern of another kind is found" is_found 'hash-good: check' 's/weak-hash/unhashed/'
check "a sign in a line is found" is_found 'no-payload: compare' 's/"sign":"-","line":"/&-/'
check "that two images are the same is found" is_found 'no-payload: compare' 's/"same":false/"same":true/'
faulty 'status=0'
check "another status is found" sh -c '! python3 "$1" --only "hash-short: verify" ./faulty > log && grep -q "^FAILED: " log' sh "$suite"
finish
