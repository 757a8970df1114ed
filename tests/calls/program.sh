#!/bin/sh
# Runs the tests of the program, which are in tests/calls/program. They give `run` and `run_with_files` arguments, small images and files in
# memory, and readers and writers that fail. They are built and run without a proof, in a crate with the modules of bootimg.
set -u

root=$(cd "$(dirname "$0")/../.." && pwd)
. "$root/tests/kit"

work_in_new_directory
program_crate
link_tests program
link_tests commands images
rm "$crate/src/tests.rt"
{
    cat "$root/tests/calls/program/tests.rt.source"
    ls "$crate/src/tests" | sed 's/\(.*\)\.rt$/mod \1;/'
} > "$crate/src/tests.rt"
test_modules tests images
run_tests
finish
