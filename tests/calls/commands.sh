#!/bin/sh
# Runs the tests of bi_norm, bi_values, and of bi_commands and the crates whose commands it exports, which are in tests/calls/commands. They
# make the calls of these crates on small images, and over readers and writers that fail. They are built and run without a proof.
set -u

root=$(cd "$(dirname "$0")/../.." && pwd)
. "$root/tests/kit"

work_in_new_directory
test_crate command_tests "bi_commands bi_values bi_norm bi_fit bi_legacy bi_hash bi_base scripted_io"
link_tests commands
test_modules
run_tests
finish
