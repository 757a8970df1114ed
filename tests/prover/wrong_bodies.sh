#!/bin/sh
# Tries wrong bodies of functions, which are in tests/prover/wrong_bodies: the prover has to refuse the function that each edit names.
# The wrong bodies of a crate are tried together, in a copy of the crate over the other crates as they are built, so this takes much
# less time than `rt must-fail`, which checks a crate once for each edit. The checks are in tests/prover/wrong_bodies.py, and so is what
# makes an edit count. As many crates are tried at a time as there are processors. The arguments name the crates. Without any, all are
# tried, but not their lines `differs:`, which tests/calls/differs.sh tries. The script needs python3, and installs Debian's if it is
# missing and the script runs as root.
#
# Before the crates there may be one of these:
# --unchanged: the edits change nothing, and each function has to be proved: a copy that is refused without its edit would show nothing
# --judge: what is found of each edit is printed, even of one that does not count
# --differs: only the lines `differs:` are tried. Nothing is proved, so this needs no libraries
set -u

root=$(cd "$(dirname "$0")/../.." && pwd)
here=$root/tests/prover
. "$root/tests/kit"

# The script calls itself, to have rattle check a copy of a crate in the current directory, or to run the tests of the copy.
case ${1-} in
check | try)
    verb=$1
    crate=$2
    shift 2
    # rattle reads the code of all libraries below a program or a static library, which takes minutes, and only what is public of those
    # below another library. So a program is checked as a library of its modules, and a static library as any other. An edit of main.rt
    # would fail, since rattle would not name its function.
    if [ -f src/main.rt ]; then
        modules_of_program src/main.rt > src/lib.rt
        rm src/main.rt
    fi
    libraries=$(sed -n "s/^$crate\( staticlib\)*: *//p" "$root/crates.txt")
    if [ "$verb" = check ]; then
        rattle check "$crate" src/lib.rt "$libraries" "$@"
        exit
    fi
    work=$(dirname "$PWD")
    [ "$crate" = scripted_io ] || libraries="$libraries scripted_io"
    crate=$PWD
    try_crate --steps 20000000 --seconds 300 < /dev/null
    exit
    ;;
esac

mode=
[ $# != 0 ] || mode=--refused
wanted=refused
case ${1-} in
--unchanged) wanted=proved ;;
--judge) wanted=judged ;;
--differs) wanted= ;;
esac
case ${1-} in
--*)
    mode=$1
    shift
    ;;
esac
export mode

need python3 python3
[ "$mode" = --differs ] || need_libraries
work_in_new_directory

# Tries the wrong bodies of the crate $2. What they give is in the file $2.log.
try='
    here=$1/tests/prover
    python3 "$here/wrong_bodies.py" $mode "$1/crates/$2" "$here/wrong_bodies/$2.edits" "$here/wrong_bodies.sh" "$2" > "$2.log" 2>&1 ||
        echo "FAILED: $2: ended with status $?" >> "$2.log"'

# tries_each CRATE..: tries the wrong bodies of these crates.
tries_each() {
    printf '%s\n' "$@" | awk '!seen[$0]++' | xargs -n 1 -P "$(nproc)" sh -c "$try" sh "$root"
}

# has_no_failure LOG: this file is there, and has no line of a failure. If only the lines `differs:` are tried, it is empty.
has_no_failure() {
    [ -f "$1" ] && if [ "$mode" = --differs ]; then [ ! -s "$1" ]; else ! grep -q '^FAILED: ' "$1"; fi
}

# The crates that take longest are the first.
[ $# != 0 ] || set -- bootimg bi_report bi_c bi_fit $(basename -s .edits "$here"/wrong_bodies/*)
check "each crate is tried" tries_each "$@"
for crate in $(printf '%s\n' "$@" | sort -u); do
    log=$crate.log
    check "what is tried in $crate has no failure" has_no_failure "$log"
    for name in $(sed -n 's/^## //p' "$here/wrong_bodies/$crate.edits"); do
        [ -z "$wanted" ] || check "$crate/$name is $wanted" grep -F "$wanted: $crate/$name: " "$log"
    done
    case $mode in
    --differs | --judge) cat "$log" ;;
    *) grep -v "^$wanted: " "$log" ;;
    esac
done
finish
