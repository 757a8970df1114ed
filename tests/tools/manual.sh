#!/bin/sh
# Compares the manual page and the completions for bash, zsh and fish with the program: the page describes each command, each option,
# each cause of a refusal and each other line of a failure, and nothing else. The completions offer each command, each option, each value
# of an option that has names, files for the commands that take one, and the names in the image on the line. (tests/fast/lists.sh compares
# the lists that are written by a script.) The script needs python3 and Debian's mandoc, zsh and fish, and installs those that are missing
# if it runs as root. Without zsh or fish it leaves out their completions.
set -u

root=$(cd "$(dirname "$0")/../.." && pwd)
. "$root/tests/setup"
need mandoc mandoc
need bash bash
need python3 python3
need_program
work_in_new_directory
page=$root/man/bootimg.1
completion=$root/contrib/bootimg.bash

# same WANTED GOT: both files have the same lines, in any order.
same() {
    [ -s "$1" ] && sort -u "$1" > wanted.sorted && sort -u "$2" > got.sorted && diff wanted.sorted got.sorted
}

# A word for each option in the help of a command, which is standard input.
options() {
    sed -n '/^Options:/,/^$/p' | grep -oE '^ *(-[a-zA-Z], )?--[a-z-]+' | grep -oE -e '--?[a-zA-Z-]+'
}

# complete WORD..: prints what the completion for bash offers for the last word of a line of these words.
complete() {
    echo "$*" | complete_by_bash | tail -n +2
}

# complete_by_bash, complete_by_zsh, complete_by_fish: print for each line of standard input a line `= LINE`, and then a line for each
# word that the completion offers for the last word of the line.
complete_by_bash() {
    python3 "$root/tests/tools/manual/complete.py" "$completion"
}
complete_by_zsh() {
    zsh "$root/tests/tools/manual/complete.zsh" "$root/contrib"
}
complete_by_fish() {
    fish --no-config -c 'source $argv[1]
        while read --line line; echo "= $line"; complete -C $line | cut -f 1; end' "$root/contrib/bootimg.fish"
}

# offers WANTED LINE: in the file `offered`, which one of these wrote, the words for this line are those of the file WANTED.
offers() {
    awk -v line="= $2" '/^= / { on = $0 == line; next } on' offered > got
    if [ "$1" = nothing ]; then
        [ ! -s got ]
    else
        same "$1" got
    fi || { cat got; false; }
}

# The page is well-formed.
lint() {
    mandoc -Tlint "$page" > lint 2>&1
    [ ! -s lint ] || { cat lint; false; }
}
check "mandoc finds nothing wrong in the page" lint
mandoc -Tascii "$page" | sed 's/.\x08//g' > text

# The version is that of the page, of the newest changes that are released, of the header for C, and of what is packed of it. The logic is that of the installed kit.
"$root/bootimg" --version > version
version=$(cut -d ' ' -f 2 version)
logic=$(rt version | cut -d ' ' -f 2-)
check "the program has the version of the page" grep -Fqx "This page is that of version $version." "$page"
check "and of the newest changes" sh -c 'grep "^## \[" "$0" | grep -Fvx "## [Unreleased]" | head -n 1 | grep -Fq "## [$1] "' \
    "$root/CHANGELOG.md" "$version"
check "and of the header for C" grep -Fqx "#define BOOTIMG_VERSION \"$version\"" "$root/include/bootimg.h"
check "and of its file for pkg-config" grep -Fqx "Version: $version" "$root/bootimg.pc.in"
check "and of the module for Python" grep -Fqx "__version__ = \"$version\"" "$root/python/bootimg/__init__.py"
check "and of its wheel" grep -Fqx "version = \"$version\"" "$root/python/pyproject.toml"
check "the program names the logic of the kit" test "$(cat version)" = "bootimg $version (Rattle $logic)"

# Commands.
"$root/bootimg" --help > help
sed -n '/^Commands:/,/^$/p' help | awk '/^  [a-z]/ { print $1 }' > commands
awk '/^\.Ss Commands/ { on = 1 } /^\.Ss Options/ { on = 0 } on && /^\.It Cm/ { print $3 }' "$page" > page.commands
check "the page has the commands of the program" same commands page.commands
complete bootimg "" | grep -v '^-' > completed
check "the completion has them" same commands completed
complete bootimg "" | grep '^-' > completed
options < help > wanted
check "the completion has the options of the program" same wanted completed
complete bootimg help "" > completed
check "help is completed by them" same commands completed
cp wanted program.options

# Options.
cp wanted all.options
mkdir -p "a directory"
: > kernel.itb
while read -r command; do
    [ "$command" != help ] || continue
    "$root/bootimg" "$command" --help > help
    options < help > wanted
    cat wanted >> all.options
    cp wanted "options.$command"
    complete bootimg "$command" - > completed
    check "the completion has the options of $command" same wanted completed
    files="kernel.itb a directory"
    case $command in build-* | explain) files= ;; esac
    check "the completion has the files that $command reads" \
        test "$(complete bootimg "$command" k) $(complete bootimg "$command" "a\\ ")" = "${files:- }"
done < commands
awk '/^\.Ss Options/ { on = 1 } /^\.Ss Values/ { on = 0 } on && /^\.It Fl/' "$page" | grep -oE 'Fl -?[a-zA-Z-]+' |
    sed 's/^Fl /-/' > page.options
check "the page has the options of all commands" same all.options page.options

# Values. docs/FORMATS.md has a table of the codes, and after it a list of more names; the help of extract names the keys.
codes() {
    sed -n '/^### Codes with names/,/^### Checks/p' "$root/docs/FORMATS.md" > section
    {
        sed -n "s/^| $1 | \(.*\) |\$/\1/p" section
        sed -n "/^- $1: /,/[;.]\$/{ s/^- $1: //; s/[;.]\$//; p }" section
    } | tr ',' '\n' | awk 'NF { print $2 }'
}
codes "operating system" > os
codes architecture > arch
codes "image type" > type
codes compression > compression
"$root/bootimg" extract --help | sed -n 's/.*--key.* one of \(.*\) \[.*/\1/p' | tr -s ', ' '\n\n' > key
"$root/bootimg" check --help | awk '/its kind:$/ { on = 1 } /^A legacy/ { on = 0 } on && /^  [a-z]/ { print $1 }' > allow
printf '%s\n' crc32 md5 sha1 sha256 sha384 sha512 none > hash
for option in os arch type compression key allow hash; do
    command=build-legacy
    case $option in
    key) command=extract ;;
    allow) command=check ;;
    hash) command=build-fit ;;
    esac
    complete bootimg "$command" "--$option" "" > completed
    check "the completion has the values of --$option" same "$option" completed
    complete bootimg "$command" "--$option=" | sed "s/^--$option=//" > completed
    check "and after a sign (--$option)" same "$option" completed
done
awk '/^\.It Cm check/ { on = 1 } /^\.It Cm extract/ { on = 0 } on && /^\.It Li/ { print $3 }' "$page" > got
check "the page says what each kind of line of check is" same allow got
complete bootimg check --allow missing,unh > completed
check "a kind is completed after a comma" test "$(cat completed)" = missing,unhashed
complete bootimg check --allow=missing,trailing, | sed 's/^--allow=missing,trailing,//' > completed
check "and after two of them and a sign" same allow completed
complete bootimg check --allow '$(touch made),' > completed
check "nothing that is typed is run" test ! -e made
check "a word that is begun is completed" test "$(complete bootimg build-legacy --os l)" = linux
check "an option that is begun is completed" test "$(complete bootimg extract --conf)" = --config
check "an option that takes any value has none" test -z "$(complete bootimg extract --part "")$(complete bootimg build-fit --default "")"
check "an algorithm is completed after a comma" test "$(complete bootimg build-fit --hash crc32,sha38)" = crc32,sha384
check "a file is completed as the output" test "$(complete bootimg build-fit -o kern)$(complete bootimg list --output kern)" = \
    kernel.itbkernel.itb
check "a file is completed after the value of an option" test "$(complete bootimg extract --part 1 kern)" = kernel.itb
check "a length is not" test -z "$(complete bootimg build-legacy kern)"
check "the program takes the values" sh -c '
    for os in $(cat os); do "$0" build-legacy --os "$os" --arch 2 --type 5 < "$0" > image || exit; done
    for arch in $(cat arch); do "$0" build-legacy --os 5 --arch "$arch" --type 5 < "$0" > image || exit; done
    for type in $(cat type); do "$0" build-legacy --os 5 --arch 2 --type "$type" < "$0" > image || exit; done
    for compression in $(cat compression); do
        "$0" build-legacy --os 5 --arch 2 --type 5 --compression "$compression" < "$0" > image || exit
    done
    for kind in $(cat allow); do "$0" check --allow "$kind" image || exit; done' "$root/bootimg"

# Failures.
sed -n 's/^            Cause::.* => "\(.*\)",$/\1/p' "$root/crates/bi_base/src/fault.rt" > causes
check "there are causes in the code" test "$(wc -l < causes)" -ge 26
# `explain` knows the kinds of concerns, too.
sed -n 's/^            ConcernKind::.* => "\(.*\)",$/\1/p' "$root/crates/bi_report/src/check.rt" >> causes
check "there are kinds of concerns in the code" test "$(wc -l < causes)" -ge 41
awk '/^\.Sh DIAGNOSTICS/ { on = 1 } /^These lines have no offset/ { on = 0 } on && /^\.It Li/ { print $3 }' "$page" > got
check "the page has the causes of the code" same causes got
# A wide page has each sentence in one line.
mandoc -Tascii -Owidth=1000 "$page" | sed 's/.\x08//g' | sed -n '/^DIAGNOSTICS/,/^     These lines have no offset/p' |
    awk '/^     [A-Za-z][A-Za-z-]*$/ { name = $1; next }
        /^     [A-Za-z][A-Za-z-]*  [^ ]/ { name = $1; sub(/^ *[A-Za-z-]* */, ""); print name ": " $0; name = ""; next }
        /^             / && name { sub(/^ */, ""); print name ": " $0; name = "" }' |
    sed "s/\`/'/g; s/  */ /g" > sentences
"$root/bootimg" explain > explained
check "explain prints the sentences of the page, in their order" diff sentences explained
check "explain prints each sentence alone" sh -c '
    while read -r cause; do "$0" explain "$cause" | sed "s/^/$cause: /"; done < causes | diff sentences -' "$root/bootimg"
complete bootimg explain "" > completed
check "the completion has the causes" sh -c 'grep -v "^-" completed | sort > got && sort causes | diff - got'

# odd_names: a FIT whose images have odd names, some of which make a file if a shell runs them.
odd_names() {
    python_with_blobs -c 'import sys
from blobs import blob_of, node
names = [b"k@1", b"k@2", b"$(touch${IFS}made)", b"`touch\tmade`", b"k;touch", b"a%b"]
images = [node(name, [(b"data", b"x"), (b"#cells", b"")]) for name in names]
sys.stdout.buffer.write(blob_of(node(b"", [], [node(b"images", [], images)])))'
}

# The completions in each shell: lines that are completed, each after the file of the words that are wanted.
: > nothing
cp "$root/examples/board.itb" "$root/examples/two-parts.uimage" .
odd_names > odd
mkdir bin
ln -s "$root/bootimg" bin/bootimg
PATH=$work/bin:$PATH
printf '%s\n' kernel-1 ramdisk-1 fdt-1 > images
printf '%s\n' conf-1 conf-2 > configurations
printf '%s\n' 0 1 > parts
printf '%s\n' k@1 k@2 > units
sed 's|^|/images/|' units > unit.paths
printf '%s\n' '$(touch${IFS}made)' 'k;touch' k@1 k@2 > odd.names
printf '%s\n' '$(touch${IFS}made)' 'k;touch' k@1 k@2 '`touch%09made`' a%25b > odd.escaped
bootimg describe board.itb | awk '/^node/ { print $2 }' > paths
grep '^/conf' paths > configuration.paths
printf '%s\n' arch compression description entry load os type > properties
printf '%s\n' name time load entry os arch type compression > fields
printf '%s\n' a bb > given
echo kernel.itb > image
echo missing,unhashed > kinds
{
    printf '%s\tbootimg %s\n' commands "" commands "help " program.options - causes "explain " kinds "check --allow missing,unh" \
        nothing "extract --part " image "extract --part 1 kern" image "list --output kern" image "build-fit -o kern"
    while read -r command; do
        [ "$command" != help ] || continue
        printf '%s\tbootimg %s\n' "options.$command" "$command -"
        case $command in
        build-legacy | build-fit | explain) printf 'nothing\tbootimg %s kern\n' "$command" ;;
        *) printf 'image\tbootimg %s kern\n' "$command" ;;
        esac
    done < commands
    printf '%s\tbootimg %s\n' key "extract --key " allow "check --allow " hash "build-fit --hash " align "update --align "
    printf '%s\tbootimg %s\n' images "extract board.itb --image " image.fdt "extract board.itb --image=f" \
        configurations "extract -o kernel.itb board.itb --config " parts "extract --key fdt two-parts.uimage --part " \
        nothing "extract two-parts.uimage --image " nothing "extract --config " nothing "extract none --image " \
        odd.names "extract odd --image " odd.escaped "extract --escaped odd --image " units "extract odd --image k@" \
        images "extract --offset 4 shifted --image " nothing "extract shifted --image " \
        paths "get board.itb " configuration.paths "get --as text board.itb / description /conf" fields "get two-parts.uimage load " \
        properties "get board.itb /images/kernel-1 " unit.paths "get odd /images/k@" \
        given "build-fit --config a:kernel=k --config=bb:kernel=k --default "
    for option in os arch type compression; do
        printf '%s\tbootimg build-legacy --%s \n' "$option" "$option"
    done
    echo --image=fdt-1 > image.fdt
    echo @kernel.itb > part
    echo a:2:2:5:0:-:-:@kernel.itb > payload
    printf '%s\tbootimg %s\n' part "build-legacy 5 @kern" payload "build-fit a:2:2:5:0:-:-:@kern"
} > cases
{ printf abcd && cat board.itb; } > shifted
for power in $(seq 2 20); do echo $((1 << power)); done > align
for shell in bash zsh fish; do
    is_installed "$shell" "$shell" || continue
    # bash and zsh quote words, and bash also offers options where none is begun.
    cut -f 2 cases | "complete_by_$shell" |
        awk '/^= / { all = /-$/ } !/^= / { gsub(/\\/, "") } all || !/^--?[a-zA-Z]+$/' > offered
    while IFS='	' read -r wanted line; do
        check "the completion for $shell: $line" offers "$wanted" "$line"
    done < cases
done
check "no name is run" test ! -e made

# Other lines of failures.
awk '/^These lines have no offset/ { on = 1 } /^\.Sh SEE/ { on = 0 } on && /^\.It Li/' "$page" |
    sed 's/^\.It Li //; /^usage/!s/ , /\n/g' > got
sed -n '/fn put_text/,/^    }$/p' "$root/crates/bootimg/src/failure.rt" | grep -oE '(put|put_numbered|put_value|put_word)\(b"[^"]*"(, index|, words?)?' |
    sed 's/.*"\(.*\)", index$/\1N/; s/.*"\(.*\)", words$/\1PATH NAME/; s/.*"\(.*\)", word$/\1WORD/; s/.*"\(.*\)"$/\1/' > lines
check "the page has the other lines of failures, of the code" same lines got
for status in 0 1 2; do
    check "the page has the exit status $status" grep -Fqx ".It $status" "$page"
done

# Examples: each command in them is one that the program reads.
sed -n '/^EXAMPLES/,/^DIAGNOSTICS/p' text | grep -oE 'bootimg [a-z]+(-[a-z]+)?' | awk '{ print $2 }' | sort -u > examples
sort -u commands > sorted.commands
check "the examples name commands of the program" test -z "$(comm -23 examples sorted.commands)"

finish
