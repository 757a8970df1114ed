#!/bin/sh
# Reads the `use` lines of all sources, definitions and proofs, and checks that each file cites only what it may of its own crate and
# of the crates below: docs/dev/PROOFS.md states the rule, and tests/fast/uses.py checks it. Then breaks the rule in a copy of the crates, in
# each way in turn, and shows that this is found. The script needs no prover. It needs python3, and installs Debian's if it is missing
# and the script runs as root.
set -u

root=$(cd "$(dirname "$0")/../.." && pwd)
. "$root/tests/setup"

need python3 python3
work_in_new_directory
copy_here crates.txt 'crates/*/src' 'crates/*/specs' 'crates/*/proofs'

check "each file cites only what it may" python3 "$root/tests/fast/uses.py" copy
[ "$failed" = 0 ] || finish

# is_found FILE LINE: with this line at its head, this file of the copy breaks the rule there, and no other file does.
is_found() {
    cp "copy/crates/$1" original
    { printf '%s\n' "$2"; cat original; } > "copy/crates/$1"
    python3 "$root/tests/fast/uses.py" copy > found
    status=$?
    cp original "copy/crates/$1"
    [ "$status" = 1 ] && grep "^crates/$1:1: " found && [ "$(wc -l < found)" = 1 ] || { cat found; false; }
}

check "a contract that cites a lemma of its crate is found" \
    is_found bi_base/src/cells.rt 'ghost use Rattle.bi_base.proofs.CellLaws.{length-cell};'
check "a contract that cites a lemma of a crate below is found" \
    is_found bi_fit/src/fit.rt 'ghost use Rattle.bi_base.proofs.CellLaws.{length-cell};'
check "a definition that cites a lemma is found" \
    is_found bi_fit/specs/Text.antt 'use Rattle.bi_blob.proofs.Blobs.Faults.{one_blob_fault}'
check "a contract that cites the table of a blob is found" \
    is_found bi_fit/src/nodes.rt 'ghost use Rattle.bi_fdt.specs.Table.{item_in};'
check "a proof that cites the table of a blob is found" \
    is_found bi_fit/proofs/PayloadAreas.antt 'use Rattle.bi_fdt.specs.Table.{item_in}'
check "a proof that cites a lemma about the table of a blob is found" \
    is_found bi_fit/proofs/PayloadAreas.antt 'use Rattle.bi_fdt.proofs.GrowingTables.{get_at}'
check "a proof that cites a private type is found" \
    is_found bi_norm/proofs/NormalForms.antt 'use Rattle.bi_fdt.specs.declared.table.Entry.TheVariants as entry'
check "a proof that cites the answers of a function is found" \
    is_found bi_norm/proofs/NormalForms.antt 'use Rattle.bi_fit.proofs.fit.Fit.read.Answers.{returns}'
check "a proof that cites the goals of a function is found" \
    is_found bi_norm/proofs/NormalForms.antt 'use Rattle.bi_fit.proofs.fit.Fit.read.Goals as goal'
finish
