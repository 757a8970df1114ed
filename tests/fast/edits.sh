#!/bin/sh
# Checks that each piece of wrong code can be made in the sources: each text of an edit is in its file once, and the sources have the
# function that it names. Nothing is proved. The tables in tests/prover/README.md have the pieces of their crates, and no
# others. Then changes a source and a table in a copy, and shows that this is found. Then the judge of wrong code is tried, on what
# rattle prints of each kind of edit, and at last wrong_bodies.sh, on what a judge prints. The script needs python3, and installs
# Debian's if it is missing and the script runs as root.
set -u

root=$(cd "$(dirname "$0")/../.." && pwd)
. "$root/tests/setup"

need python3 python3
work_in_new_directory
copy_here crates.txt 'crates/*/src' 'crates/*/must-fail' tests/checks tests/setup tests/kit tests/prover

# can_be_made CRATE EDITS: each edit in this file or directory can be made in this crate of the copy.
can_be_made() {
    python3 -B "$root/tests/prover/wrong_bodies.py" "copy/crates/$1" "$2"
}

shown=copy/tests/prover/README.md

# is_in_table CRATE: the table of this crate has its pieces of wrong code, in the order of their file, and no others.
is_in_table() {
    sed -n "/^## \`$1\`/,/^## /s/^| \`\([^\`]*\)\` |.*/\1/p" "$shown" > rows
    sed -n 's/^## //p' "copy/tests/prover/wrong_bodies/$1.edits" > pieces
    diff pieces rows
}

for edits in copy/tests/prover/wrong_bodies/*; do
    crate=$(basename "$edits" .edits)
    check "each wrong body of $crate can be made" can_be_made "$crate" "$edits"
    ! grep -q "^## \`$crate\`" "$shown" || check "each wrong body of $crate is in its table" is_in_table "$crate"
done
# never_cut: the pieces of the table of those that are never cut, each after its crate.
never_cut() {
    sed -n '/^## Never cut/,/^## `/s/^| .* | `\([a-z_]*\)` | \(.*\) |$/\1 \2/p' "$shown" | tr -d '`,' |
        while read -r crate pieces; do
            printf "$crate %s\n" $pieces
        done
}

# are_there: that table has its pieces, and each is in the file of its crate.
are_there() {
    [ "$(never_cut | wc -l)" -ge 35 ] && never_cut | while read -r crate piece; do
        grep -qx "## $piece" "copy/tests/prover/wrong_bodies/$crate.edits" || { echo "$crate/$piece"; exit 1; }
    done
}

check "each piece that is never cut is there" are_there
for edits in copy/crates/*/must-fail; do
    crate=${edits#copy/crates/}
    check "each edit that must fail of ${crate%%/*} can be made" can_be_made "${crate%%/*}" "$edits"
done
[ "$failed" = 0 ] || finish

# is_found CRATE FILE PATTERN EDIT: with this pattern of sed applied to this file of the copy, this edit and no other cannot be made.
is_found() {
    file=copy/crates/$1/$2
    cp "$file" original
    sed -i "$3" "$file"
    can_be_made "$1" "copy/tests/prover/wrong_bodies/$1.edits" > found
    status=$?
    cp original "$file"
    [ "$status" = 1 ] && grep -q "^FAILED: $1/$4: " found && [ "$(wc -l < found)" = 1 ] || { cat found; false; }
}

check "an edit whose text is not in the source is found" \
    is_found bi_norm src/fit_building/images.rt 's/ || !has_type_or_texts/ || !has_texts/' build_checks_in_another_order
check "an edit whose function is not in the source is found" \
    is_found bi_hash src/algo.rt 's/fn find_by_name/fn find_name/' algorithm_found_by_prefix

# is_cut CRATE PIECE: without this piece are_there fails, and names it.
is_cut() {
    file=copy/tests/prover/wrong_bodies/$1.edits
    cp "$file" original
    sed -i "/^## $2$/d" "$file"
    ! are_there > found
    status=$?
    cp original "$file"
    [ "$status" = 0 ] && [ "$(cat found)" = "$1/$2" ]
}

check "a piece that is cut is found" is_cut bi_norm input_returned_as_its_normal_form
check "another one too" is_cut bi_fit shared_region_refused
# is_missed COMMAND LINE: with the tables edited by this command of sed, this line of diff is printed for bi_hash, and no other.
is_missed() {
    cp "$shown" original
    sed -i "$1" "$shown"
    ! is_in_table bi_hash > found
    status=$?
    cp original "$shown"
    [ "$status" = 0 ] && [ "$(grep '^[<>]' found)" = "$2" ] || { cat found; false; }
}

check "a piece without a row is found" is_missed '/^| `value_prefix_is_good`/d' '< value_prefix_is_good'
check "a row without a piece is found" is_missed '/^| `value_prefix_is_good`/a | `value_is_good` | more |' '> value_is_good'

# A crate with a function, edits of it, and what rattle would print of the copies in which these are made.
mkdir -p toy/src
cat > toy/src/sums.rt << 'END'
pub fn next(n: u64) -> Result<u64, Error> {
    let m = count(n)?;
    Ok(m + 1)
}
END
while read -r name old new; do
    printf '## %s\nrefused: sums::next\nfile: src/sums.rt\nold: %s\nnew: %s\n\n' "$name" "$(echo "$old" | tr _ ' ')" "$(echo "$new" | tr _ ' ')"
done > toy.edits << 'END'
another_value m_+_1 m_+_2
way_out Ok(m if_m_>_9_{_return_Err(Full);_}_Ok(m
new_call count(n)? count(twice(n)?)?
loops m_+_1 m_+_3
other_answer m_+_1 m_+_4
long_search m_+_1 m_+_5
right m_+_1 1_+_m
END
cat > rattle << 'END'
#!/bin/sh
[ "$1" = check ] || { sed -n 's/^fn \(differs_[0-9]*\).*/test \1 ... ok/p' src/sums.rt; exit; }
# note COPY COLUMN GOAL REMARK: what is printed of an open goal, in the second line of a copy, or in the third.
note() {
    echo "note: src/sums.rt:$(($(grep -n "fn next_wrong_$1" src/sums.rt | cut -d: -f1) + $2)):$3: it is not proved that it holds (\`$4\`)$5"
}
note 1 0 1 returns
note 2 2 22 returns-then-m-gt9
note 3 1 13 returns-in_err-twice
note 4 1 5 loop-preserved
note 6 0 1 returns '; `search` gave up at one of its limits'
echo './proofs/sums/next_wrong_5/Answers.antt:9:5: error: `returns`: the two types differ'
for copy in 1 2 3 4 5 6; do
    echo "fn toy::sums::next_wrong_$copy: no proof: expected answers"
done
echo 'fn toy::sums::next_wrong_7: no holes'
echo 'fn toy::sums::next: no holes'
echo 'only=7 holes=6'
END
chmod +x rattle

# judged FLAGS WANTED: with these flags the lines that the judge prints of the edits begin with these words.
judged() {
    python3 -B "$root/tests/prover/wrong_bodies.py" $1 toy toy.edits "$PWD/rattle" toy > lines
    sed 's|^\(.*\): toy/\(.*\): sums::next: \([a-z ]*\).*|\1 \2 \3|; s|^\(FAILED: toy/.*\): the value.*|\1 differs|; /^test /d; /^$/d' lines | uniq > found
    printf '%s\n' "$2" | diff - found
}

judgments='another_value false
way_out new
new_call new
loops invariant
other_answer answer
long_search limit
right no holes'
check "the judge tells the kinds of edits" judged --judge "$(echo "$judgments" | sed 's/^/judged /')"
check "an edit counts only if a goal of the function is false" \
    judged "" "$(echo "$judgments" | sed 's/^another/refused another/; t; s/^/FAILED /')"
sed -i 's/^refused: sums::next$/&\ndiffers: next(1) => Ok(2) | Ok(3)/' toy.edits
check "an edit counts if an input shows that it differs" \
    judged "" "$(echo "$judgments" | sed 's/^right/FAILED right/; t; s/^/refused /')"
sed -i 's/ok.p/FAILED\/p/' rattle
check "an input on which nothing differs is found" \
    judged --differs "$(echo "$judgments" | sed 's|^\([a-z_]*\) .*|FAILED: toy/\1 differs|')"

# A type and an edit of one of its functions. In the test with the edit only this function is replaced by its copy.
mkdir -p named/src
cat > named/src/sums.rt << 'END'
impl Sum {
    pub fn new(n: u64) -> Sum {
        Sum { n }
    }
}
END
cat > named.edits << 'END'
## another_sum
refused: sums::Sum::new
differs: new(Sum::new(Limits::new(1))).new() => 1 | 2
file: src/sums.rt
old: Sum { n }
new: Sum { n: 2 }
END
cat > rattle << 'END'
#!/bin/sh
tail -n 2 src/sums.rt > "$TMPDIR/last"
sed -n 's/^fn \(differs_[0-9]*\).*/test \1 ... ok/p' src/sums.rt
END
is_renamed() {
    TMPDIR=$PWD python3 -B "$root/tests/prover/wrong_bodies.py" --differs named named.edits "$PWD/rattle" named &&
        grep -F 'matches!(new(Sum::new_wrong_1(Limits::new(1))).new(), 2)' last
}
check "only the function of an edit is replaced by its copy" is_renamed

# wrong_bodies.sh in the copy, where the judge prints the lines in the file `said` and ends with the status in the file `status`, and
# where rt builds nothing.
cat > copy/tests/prover/wrong_bodies.py << END
import sys

print(open("$work/said").read(), end="")
sys.exit(int(open("$work/status").read()))
END
mkdir bin
echo '#!/bin/sh' > bin/rt
chmod +x bin/rt

# counts_of SAID STATUS ARGUMENT..: runs the script with these arguments, where the judge prints this and ends with this status.
counts_of() {
    printf '%s\n' "$1" | sed '/^$/d' > said
    echo "$2" > status
    shift 2
    PATH=$PWD/bin:$PATH copy/tests/prover/wrong_bodies.sh "$@" > found 2>&1
}

# is_passed SAID STATUS ARGUMENT..: the script then succeeds, and prints its counts alone.
is_passed() {
    counts_of "$@" && grep -qx '[1-9][0-9]* passed, 0 failed' found && [ "$(wc -l < found)" = 1 ] || { cat found; false; }
}

# is_failed LINE SAID STATUS ARGUMENT..: the script then fails, prints this line, and counts a failure.
is_failed() {
    line=$1
    shift
    counts_of "$@"
    [ $? = 1 ] && grep -Fqx -e "$line" found && tail -n 1 found | grep -qx '[0-9]* passed, [1-9][0-9]* failed' || { cat found; false; }
}

all=$(sed -n 's|^## \(.*\)|refused: bi_hash/\1: as it has to be|p' copy/tests/prover/wrong_bodies/bi_hash.edits)
same="FAILED: bi_hash/digest: the value with the edit is another one"
ended="FAILED: bi_hash: ended with status 3"
check "wrong code that is refused passes" is_passed "$all" 0 bi_hash
first=$(echo "$all" | sed -n '1s|refused: \(.*\): .*|\1|p')
check "a piece without a line fails" is_failed "FAILED: $first is refused" "$(echo "$all" | sed 1d)" 0 bi_hash
check "a line on an input fails beside pieces that are refused" is_failed "$same" "$all
$same" 1 bi_hash
check "a judge that stops fails after pieces that are refused" is_failed "$ended" "$all" 3 bi_hash
check "inputs on which all differ pass" is_passed "" 0 --differs bi_hash
check "an input on which nothing differs fails" is_failed "$same" "$same" 1 --differs bi_hash
check "a judge that stops fails without a line" is_failed "$ended" "" 3 --differs bi_hash
check "what is found is printed" is_failed "$ended" "$all" 3 --judge bi_hash
rm copy/tests/prover/wrong_bodies/bi_hash.edits
check "a crate whose wrong code is not there fails" is_failed "$ended" "no such file" 3 bi_hash
finish
