#!/bin/sh
# Tries the vectors of tests/conformance: over the program as both compilers build it, over the reference in python3, and over five
# programs with one fault each, which have to fail. Both builds also do with changed files what the reference does. The calls that read
# an image return the fault of each file, in the program tests/tools/read_image. The tables in
# tests/conformance/tools.md must be those that tests/conformance/tools prints; that is tried only with the versions of the tools
# that the file names. The script needs python3 and Debian's u-boot-tools and device-tree-compiler, and installs them if one is missing and
# it runs as root.
set -u

root=$(cd "$(dirname "$0")/../.." && pwd)
. "$root/tests/kit"
suite=$root/tests/conformance
tables=$suite/tools.md

need python3 python3
need u-boot-tools mkimage dumpimage
need device-tree-compiler dtc fdtdump
need_program
need_libraries
work_in_new_directory

# is_current PROGRAM: the program is not older than a source.
is_current() {
    [ -x "$1" ] && [ -z "$(cd "$root" && find crates crates.txt -name out -prune -o -type f -newer "$1" -print | head -n 1)" ]
}

# faulty NAME COMMAND..: makes the program NAME. It runs `bootimg` with its arguments, and then these commands, which may change the
# output in $t/out, the standard error in $t/errors and the exit status in $status.
faulty() {
    name=$1
    shift
    {
        printf '#!/bin/sh\nt=$(mktemp -d)\n"%s" "$@" > $t/out 2> $t/errors\nstatus=$?\n' "$program"
        printf '%s\n' "$@"
        printf 'cat $t/out\ncat $t/errors >&2\nrm -r $t\nexit $status\n'
    } > "$name"
    chmod +x "$name"
}

# fails TEXT NAME WANTED: of the runs with TEXT in their names, the program NAME fails this one, and not all.
fails() {
    "$suite/run" --only "$1" "./$2" > log
    [ $? = 1 ] && grep -Fqx "FAILED: $3" log && ! tail -n 1 log | grep -q '^0 passed'
}

program=$root/crates/bootimg/out/bootimg
passes "$suite/run" "$program"
passes "$suite/run" --changes 4000 "$program"
passes "$suite/run" --reference

# `rt ci` builds the program with Rattle's own compiler, too. If ./test runs it first, it sets `rt_ci`.
other=$program.by-rattle
if is_current "$other"; then
    passes "$suite/run" "$other"
    passes "$suite/run" --changes 4000 "$other"
elif [ -n "${rt_ci-}" ]; then
    check "rt ci builds the program with Rattle's own compiler" is_current "$other"
else
    echo "left out: rt ci has not built $other from these sources"
fi

# The calls of the library.
check "the program that reads images is built" build_test_program read_image "$root/tests/tools/read_image/main.rt.source" \
    "bi_norm bi_fit bi_fdt bi_legacy bi_base"
"$suite/run" --export files > /dev/null
passes python3 "$root/tests/tools/read_image/compare.py" ./read_image files

faulty status '[ $status = 1 ] && status=0'
faulty byte 'tr "\021" "\020" < $t/out > $t/changed; mv $t/changed $t/out'
faulty offset 'sed -i "s/BadPart at 68/BadPart at 64/" $t/errors'
faulty output '[ $status = 2 ] && echo > $t/out'
faulty line 'sed -i "/^trailing/d" $t/out'
check "a wrong status is found" fails ": verify" status "fit: hash-short: verify"
check "a wrong byte is found" fails ": normalise --external" byte "blob: smallest: normalise --external"
check "a wrong offset is found" fails "legacy: part-" offset "legacy: part-1: list"
check "output beside a refusal is found" fails "kernel: " output "legacy: kernel: list --limit 72"
check "a line that is left out is found" fails ": check" line "meanings: kernel-loose: check"

# The tables, and the versions that they were made with.
versions=$("$suite/tools" --versions)
if [ "$(sed -n '/^```text$/,/^```$/p' "$tables" | sed '1d;$d')" != "$versions" ]; then
    echo "left out: the tables of tests/conformance/tools.md, which are not of these versions:"
    echo "$versions"
elif ! setarch -R true; then
    echo "left out: the tables of tests/conformance/tools.md, since setarch -R does not run here"
else
    "$suite/tools" > table
    sed '1,/^<!-- table -->$/d' "$tables" > stored
    check "the tables of tests/conformance/tools.md" diff stored table
fi
finish
