#!/bin/sh
# Reads all contracts and definitions, and checks that a known fact or a law speaks of each definition that the contract of a public
# call leads to: tests/fast/facts.py says how, and tests/fast/facts.exceptions explains what may stay. Then takes facts out of a copy of the
# crates, and shows that this is found. The script needs no prover. It needs python3, and installs Debian's if it is missing and the script
# runs as root.
set -u

root=$(cd "$(dirname "$0")/../.." && pwd)
. "$root/tests/setup"

need python3 python3
work_in_new_directory
copy_here crates.txt tests/fast/facts.exceptions 'crates/*/src' 'crates/*/specs'

check "a fact or a law speaks of each definition, or it is explained" python3 "$root/tests/fast/facts.py" copy
[ "$failed" = 0 ] || finish

# is_found LINE FILE COMMAND: with this file of the copy as sed's command makes it, this is one of the lines that are printed.
is_found() {
    cp "copy/$2" original
    sed "$3" original > "copy/$2"
    cmp -s original "copy/$2" && { echo "the file is the same"; return 1; }
    python3 "$root/tests/fast/facts.py" copy > found
    status=$?
    cp original "copy/$2"
    [ "$status" = 1 ] && grep -x "$1" found || { cat found; false; }
}

check "definitions without the facts about pens are found" \
    is_found 'no fact: bi_base/SinkPens.KeptPuts' crates/bi_base/src/known_pens.rt '/ensures { PutsAreKnown }/d'
check "definitions without the facts about comparisons that fail are found" \
    is_found 'no fact: bi_norm/Comparing.IsCompareError' crates/bi_norm/src/known_files.rt '/ensures { CompareErrorsAreKnown }/d'
# Facts about what the program does lead to this definition, too.
sed -i '/ensures/d' copy/crates/bootimg/src/known_works.rt
sed -i '/ensures { NextImagesAreKnown }/d' copy/crates/bootimg/src/known_runs.rt
check "a law that an output is JSON is not enough" \
    is_found 'no fact: bi_report/VerifiedFiles.IsVerifyOutput' crates/bi_report/src/known_texts.rt '/ensures { VerifyOutputsAreKnown }/d'
check "an exception that explains nothing is found" \
    is_found 'explains nothing: nothing' tests/fast/facts.exceptions '$a\
nothing	It is gone.'
check "an exception without a reason is found" sh -c '
    printf "bi_fit/Kept.IsKept\n" >> copy/tests/fast/facts.exceptions
    ! python3 "$1/tests/fast/facts.py" copy 2> found && grep "no reason: bi_fit/Kept.IsKept" found' sh "$root"
finish
