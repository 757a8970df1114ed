#!/bin/sh
# Reads the names of all definitions, lemmas and clauses, and the statements of all lemmas: one word for one thing, by the rules of CONTRIBUTING.md.
# tests/fast/words.py says what is looked for; tests/fast/words.exceptions explains what may stay. Then breaks each rule in a
# copy of the crates, and shows that this is found. The script needs no prover. It needs python3, and installs Debian's if it is missing
# and the script runs as root.
set -u

root=$(cd "$(dirname "$0")/../.." && pwd)
. "$root/tests/setup"

need python3 python3
work_in_new_directory
copy_here crates.txt tests/fast/words.exceptions 'crates/*/src' 'crates/*/specs' 'crates/*/proofs'

check "each name, label and statement follows the rules, or is explained" python3 "$root/tests/fast/words.py" copy
[ "$failed" = 0 ] || finish

# is_found FILE LINE TEXT..: with these lines at the end of this file of the copy, one thing is found, which this line begins with.
is_found() {
    file=copy/crates/$1
    wanted=$2
    shift 2
    cp "$file" original
    printf '%s\n' "" "$@" >> "$file"
    python3 "$root/tests/fast/words.py" copy > found
    status=$?
    cp original "$file"
    [ "$status" = 1 ] && grep "^$wanted" found && [ "$(wc -l < found)" = 1 ] || { cat found; false; }
}

check "a definition of the name of another is found" \
    is_found bi_fit/specs/Names.antt 'twice: IsBlob: ' 'abbrev pub IsBlob : Type 0' 'IsBlob = Unit {0}'
check "a private definition of the name of another is found" \
    is_found bi_fit/specs/Names.antt 'twice: IsBlob: ' 'abbrev IsBlob : Type 0' 'IsBlob = Unit {0}'
check "a lemma of the name of another is found" \
    is_found bi_norm/proofs/FilesWithoutMeaning.antt 'twice: AreBytes-none: ' 'pub AreBytes-none : 1 ≡ 1' 'AreBytes-none = refl'
check "a record with another name than its type is found" \
    is_found bi_fit/specs/Judgement.antt 'record: Judgement: shows Key' 'abbrev pub judgement_of_key : Key → Judgement' \
    'judgement_of_key key = judgement_of_key key'
check "a participle is found" \
    is_found bi_fit/specs/Names.antt 'participle: sorted: ' 'abbrev pub sorted : List ℕ → List ℕ' 'sorted names = names'
check "a long statement is found" \
    is_found bi_fit/proofs/Trees.antt 'long: bi_fit.proofs.Trees.long_one: 1' \
    "$(printf 'long_one : 1 ≡ 1%s' "$(printf ' × 1 ≡ 1%.0s' $(seq 20))")" 'long_one = long_one'
check "a long abbreviation of a proof is found" \
    is_found bi_fit/proofs/Trees.antt 'long: bi_fit.proofs.Trees.long_type: 1' \
    "$(printf 'abbrev long_type : 1 ≡ 1%s' "$(printf ' × 1 ≡ 1%.0s' $(seq 20))")" 'long_type = long_type'
check "a long statement of a lemma within another is found" \
    is_found bi_fit/proofs/Trees.antt 'long: bi_fit.proofs.Trees.inner: 1' 'outer_one : 1 ≡ 1' 'outer_one = inner' '  where' \
    "$(printf '    inner : 1 ≡ 1%s' "$(printf ' × 1 ≡ 1%.0s' $(seq 20))")" '    inner = refl'
check "a statement that is proved twice is found" \
    is_found bi_fit/proofs/Trees.antt 'same: ' \
    'names_of_each : {Old New : Type 0} (new : Old → New) (some : Nodes Old) → names (with_each new some) ≡ names some'
check "a label that is not that of its family is found" \
    is_found bi_fit/src/changes.rt 'label: bi_fit::changes::add_change.failure: ' \
    'fn add_change() -> Result<(), Error>' '    ensures added { OnOk result ⊤ }' \
    '    ensures failure { IfErr result (λ _. ⊤) }' '{' '    Ok(())' '}'
check "a fault with another label is found" \
    is_found bi_fit/src/changes.rt 'label: bi_fit::changes::check_change.failed: ' \
    'fn check_change() -> Result<(), Fault>' '    ensures ok { OnOk result ⊤ }' \
    '    ensures failed { IfErr result (λ _. ⊤) }' '{' '    Ok(())' '}'
check "lines of another crate are found" \
    is_found bi_c/src/kind.rt 'copy: bi_base.src.crc_tables = bi_c.src.kind: ' "$(sed -n 100,120p copy/crates/bi_base/src/crc_tables.rt)"
check "an exception that explains nothing is found" sh -c '
    printf "twice\tnothing\tIt is gone.\n" >> copy/tests/fast/words.exceptions
    python3 "$1/tests/fast/words.py" copy > found
    [ $? = 1 ] && grep "explains: twice: nothing" found' sh "$root"
finish
