#!/bin/sh
# Runs the tests of bi_base, bi_hash, bi_legacy, bi_lay, bi_fdt, bi_fit, bi_tree, bi_plain and bi_edit, which are in
# tests/calls/library. They make the calls that these crates offer, on values with known answers, and on readers and writers that
# fail. They are built and run without a proof.
set -u

root=$(cd "$(dirname "$0")/../.." && pwd)
. "$root/tests/kit"

work_in_new_directory
test_crate library_tests "bi_edit bi_plain bi_tree bi_fit bi_fdt bi_lay bi_legacy bi_hash bi_base scripted_io md5 sha1 sha2"
link_tests library
link_tests commands images
test_modules
run_tests
finish
