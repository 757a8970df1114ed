#!/bin/sh
# Checks the form and the English of the documents, the header, the module for Python and the manual page: lengths, columns, tables of
# contents, patterns that must be rare, and words that must not be frequent. tests/fast/english.py does this. Then breaks each rule in a
# copy, and shows that this is found. It needs python3, and installs Debian's if it is missing and the script runs as root.
set -u

root=$(cd "$(dirname "$0")/../.." && pwd)
. "$root/tests/setup"

need python3 python3
check "the documents have their form" python3 "$root/tests/fast/english.py" "$root"
[ "$failed" = 0 ] || finish
work_in_new_directory
copy_here README.md CHANGELOG.md CONTRIBUTING.md SECURITY.md examples/README.md 'docs/*.md' 'docs/dev/*.md' include man 'python/bootimg/*.py'

# is_found FILE COMMAND TEXT: with this file of the copy edited by this command of sed, a line that begins with this text is printed, and
# no other file is changed.
is_found() {
    cp "copy/$1" original
    sed -i "$2" "copy/$1"
    python3 "$root/tests/fast/english.py" copy > found
    status=$?
    cp original "copy/$1"
    [ "$status" = 1 ] && grep -q "^$3" found || { cat found; false; }
}

check "a README of more lines is found" is_found README.md '1s/$/\n\n\n\n\n\n\n\n\n\n\n\n\n\n\n\n\n\n\n\n\n\n\n\n\n\n\n\n\n\n\n/' "README.md: 1[5-9][0-9] lines"
check "a README of more words is found" is_found README.md "\$a $(seq -s ' ' 1200)" "README.md: [0-9]* words"
check "a long line is found" is_found docs/dev/DESIGN.md "\$a $(printf '%0101d' 0)" "docs/dev/DESIGN.md:[0-9]*: 101 columns"
check "a long line of the header is found" is_found include/bootimg.h "1s/.*/$(printf '%0101d' 0)/" "include/bootimg.h:1: 101 columns"
check "a heading that the table of contents lacks is found" is_found docs/CLI.md '$a \
\
## More' "docs/CLI.md: the table of contents lacks: More"
check "a word in a document is found" is_found docs/FAQ.md "\$a $(seq -f 'exactly if %g' 11 | paste -sd ' ')" "'exactly if' is there"
check "a word over two lines is found" is_found docs/FAQ.md '$a every\
other byte' "'every other byte' is there 1 times"
check "a word of the header is found" is_found include/bootimg.h 's/mean the same thing/mean the same/' "'means? the same"
check "a word of the module is found" is_found python/bootimg/__init__.py 's/mean the same thing/mean the same/' "'means? the same"
check "a word of the manual page is found" is_found man/bootimg.1 's/they mean the same thing/they mean the same/' "'means? the same"
check "a word that is too frequent is found" is_found docs/FAQ.md "\$a $(seq -f 'each %g' 200 | paste -sd ' ')" "'.beach.b' is there [3-9]"
check "other frequent words are found" is_found docs/FAQ.md "\$a $(seq -f 'those of %g' 50 | paste -sd ' ')" "'.b(?:that|those) of.b' is there"
check "code is not read as prose" sh -c '
    printf "\140every other byte\140\n" >> copy/docs/FAQ.md
    python3 "$1/tests/fast/english.py" copy' sh "$root"
finish
