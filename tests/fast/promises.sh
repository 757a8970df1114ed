#!/bin/sh
# Checks docs/dev/PROMISE_TABLES.md: each function, clause and definition that a row names is in the sources, the clauses of a row lead to its
# definitions, and each function that a library exports is in a row, with each of its clauses. Checks docs/PROMISES.md: the reading order
# names the files of definitions that the contract of `normalise` leads to, the calls that require something are named, and the claim is
# quoted there and in README.md as it is in the sources.
# tests/fast/promises.py does this. Then breaks a page, a contract or a definition in a copy, in each way in turn, and shows that this is
# found. The script needs no prover. It needs python3, and installs Debian's if it is missing and the script runs as root.
#
# promises.sh --definitions: prints each definition of the crates, with the comment before it.
set -u

root=$(cd "$(dirname "$0")/../.." && pwd)
. "$root/tests/setup"

need python3 python3
if [ "${1-}" = --definitions ]; then
    exec python3 "$root/tests/fast/promises.py" "$root" --definitions
fi
work_in_new_directory
copy_here crates.txt 'crates/*/src' 'crates/*/specs' README.md docs/PROMISES.md docs/dev/PROMISE_TABLES.md \
    tests/prover/wrong_definitions.md

check "the tables are those of the sources" python3 "$root/tests/fast/promises.py" copy
[ "$failed" = 0 ] || finish

# is_found FILE OLD NEW LINE: with the text NEW instead of OLD in this file of the copy, this line is printed, and no other file is
# changed.
is_found() {
    cp "copy/$1" original
    python3 - "copy/$1" "$2" "$3" << 'END' || return
import sys
path, old, new = sys.argv[1:]
with open(path, encoding="utf-8") as file:
    text = file.read()
assert old in text, f"{old} is not in {path}"
with open(path, "w", encoding="utf-8") as file:
    file.write(text.replace(old, new))
END
    python3 "$root/tests/fast/promises.py" copy > found
    status=$?
    cp original "copy/$1"
    [ "$status" = 1 ] && grep -q -e "$4" found || { cat found; false; }
}

check "a function of another name is found" \
    is_found crates/bi_norm/src/normal_form.rt 'pub fn normalise(' 'pub fn normalize(' 'no public function `normalise` '
check "a function that is not public is found" \
    is_found crates/bi_norm/src/cutting.rt 'pub fn cut<' 'fn cut<' 'no public function `cut` '
check "a clause of another label is found" \
    is_found crates/bi_norm/src/normal_form.rt 'ensures normal_form {' 'ensures normal {' '`normalise` has no clause `normal_form`'
check "a clause that no row names is found" \
    is_found crates/bi_norm/src/normal_form.rt 'ensures normal_form {' 'ensures more { ⊤ }
    ensures normal_form {' 'no row has `normal_form::normalise`: `more` of bi_norm'
check "a definition of another name is found" \
    is_found crates/bi_norm/specs/Cutting.antt IsCutFault IsFaultOfCut 'no definition `Cutting.IsCutFault`'
check "a clause that says less is found" \
    is_found crates/bi_norm/src/normal_form.rt 'ensures normal_form { IfOk result (λ text. IsNormalForm limits form file.now text.items) }' \
    'ensures normal_form { ⊤ }' 'the clauses do not cite `NormalForm.IsNormalForm`'
check "a definition that says less is found" \
    is_found crates/bi_report/specs/CheckedFiles.antt 'pub are_concerns : AreConcerns limits file concerns' 'pub are_concerns : ⊤' \
    'the clauses do not cite `Checking.AreConcerns`'
check "a field that is not there is found" \
    is_found crates/bi_norm/specs/NormalForm.antt 'pub distinguishes :' 'pub tells :' \
    '`NormalForm.IsNormalForm` has no field `distinguishes`'
check "a missing row is found" \
    is_found docs/dev/PROMISE_TABLES.md '`same_meaning`: `compared`, `failed`; ' '' 'no row has `comparing::same_meaning`: `compared` of bi_norm'
check "a fact without a docstring is found" is_found crates/bi_hash/src/known_verdicts.rt '/// ' '// ' 'no docstring has `verdicts_are_known` of bi_hash'
check "a wrong definition that no function refuses is found" \
    is_found tests/prover/wrong_definitions.md '  - Refused by: `firmware_text`
' '  - Refused by: `firmware`
' 'no public function `firmware` with a contract is in bi_legacy'
check "a file that the reading order lacks is found" \
    is_found docs/PROMISES.md '`Strings.antt`: the bytes' 'The bytes' 'the reading order lacks crates/bi_base/specs/Strings.antt'
check "a file that it has for no reason is found" \
    is_found docs/PROMISES.md '`Crc.antt`' '`Crc.antt` and `CrcTables.antt`' 'the reading order has crates/bi_base/specs/CrcTables.antt'
check "a call that requires something and is not named is found" \
    is_found docs/PROMISES.md '`Tree::new`' 'A new tree' 'it does not say what `Tree::new` of bi_tree requires'
check "a definition that is quoted wrongly is found" \
    is_found docs/PROMISES.md '(normal_text form other ≡ text)' '(normal_text form other ≡ file)' 'this line is not in the sources: → (normal'
check "a claim of README that is quoted wrongly is found" \
    is_found README.md '↔ (other ≡ meaning)' '↔ ⊤' 'README.md: this line is not in the sources: → (normal'
check "a row without definitions is found" \
    is_found docs/dev/PROMISE_TABLES.md '  - With: `NormalForm.IsNormalForm` (`is_own`)
' '' 'this is no row of three cells below the heading of a crate'
check "a wrong definition that nothing refuses is found" \
    is_found tests/prover/wrong_definitions.md '  - Refused by: `firmware_text`
' '' 'this is no row of two cells below the heading of a crate'
check "a row of an unknown crate is found" \
    is_found docs/dev/PROMISE_TABLES.md '### `bi_norm`:' '### `bi_normal`:' 'this is no row of three cells below the heading of a crate'
finish
