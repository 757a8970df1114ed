#!/bin/sh
# Tries the page that contrib/page/build.sh makes. In node, the scripts of the page make the runs of tests/conformance that are of calls
# which the page makes: status, bytes, cause and offset have to be those of the vectors (tests/tools/page/suite.js). In Chromium, the page
# has to show what the program prints. The page that is built without a proof makes the same runs, and says what it is.
#
#   page.sh                     what needs wasm-opt, node or Chromium is left out if that is missing, unless CI=true: then Debian's
#                               binaryen, nodejs and chromium are installed, as root, or the script fails
#   page.sh --again             builds the page a second time too, which has to give the same bytes
#   page.sh --screenshot FILE   writes a picture of the page with an example, and tries nothing
set -u

root=$(cd "$(dirname "$0")/../.." && pwd)
. "$root/tests/kit"
build=$root/contrib/page/build.sh
assemble=$root/contrib/page/assemble.py
examples=$root/examples
program=$root/crates/bootimg/out/bootimg
dom=$root/tests/tools/page/dom.py

# has PACKAGE COMMAND WHAT: whether the command is there. If it is not, says what is left out.
has() {
    [ "${CI-}" != true ] || need "$1" "$2"
    command -v "$2" > /dev/null || { echo "left out: $3, since $2 is missing (Debian: $1)"; return 1; }
}

# dumps NAME CONDITION: opens the page NAME.html in Chromium, and there its example, and makes NAME.dom of what it shows as soon as the
# condition holds, an expression of JavaScript. The browser reports no error.
dumps() {
    timeout 400 python3 "$root/tests/tools/page/chromium.py" "$work/profile" "$1.html" "$2" > "$1.dom" 2> errors || { cat errors; false; }
}

# opens NAME IMAGE: makes the page NAME.html with this example, and NAME.dom of what Chromium shows.
opens() {
    python3 "$assemble" page module.wasm "$2" "$1.html" && dumps "$1" "byId('refusal') || byId('describe')"
}

# shows NAME ID COMMAND..: the text of this element of the page NAME is what the command prints, or `(nothing)`.
shows() {
    shown=$1.dom
    id=$2
    shift 2
    "$@" > wanted 2>&1
    [ -s wanted ] || echo "(nothing)" > wanted
    python3 "$dom" text "$id" < "$shown" > found && [ "$(cat found)" = "$(cat wanted)" ] || { diff wanted found; false; }
}

# refusal FILE: what the page shows of a file that the program refuses: its line, and what the cause means.
refusal() {
    line=$("$program" list < "$1" 2>&1 | sed 's/^bootimg: /The image is refused: /')
    cause=${line#*refused: }
    printf '%s%s' "$line" "$("$program" explain "${cause%% *}")"
}

# opens_two NAME IMAGE OTHER: the same with a script in the page, which chooses OTHER to be compared, and then follows the first concern.
opens_two() {
    python3 "$assemble" page module.wasm "$2" one.html &&
        python3 "$root/tests/tools/page/add_script.py" one.html "$root/tests/tools/page/two_files.js" "$3" "$1.html" &&
        dumps "$1" "document.body.dataset.followed"
}

# has_text NAME ID TEXT: the text of this element of the page NAME has this text.
has_text() {
    python3 "$dom" text "$2" < "$1.dom" > found && grep -Fq -e "$3" found || { cat found; false; }
}

# signed: a FIT with a signature that covers only the root, and a load address that describe prints as text.
signed() {
    python_with_blobs -c 'import sys
from blobs import blob_of, node
image = node(b"k", [(b"data", b"abc"), (b"load", b"  \40\0"), (b"entry", b"\0\0\0\1\0\0\0\0")])
signature = node(b"signature-1", [(b"value", b"abcd"), (b"hashed-nodes", b"/\0")])
configuration = node(b"c", [(b"kernel", b"k\0")], [signature])
lists = node(b"configurations", [(b"default", b"c\0")], [configuration])
sys.stdout.buffer.write(blob_of(node(b"", [], [node(b"images", [], [image]), lists])))'
}

# odd_names: a flattened image tree whose images have names that look like HTML, and other bytes.
odd_names() {
    python_with_blobs -c 'import sys
from blobs import blob_of, node
images = [node(name, [(b"data", b"abc")]) for name in (b"<i>", b"\"&amp;", b"\xe2\x80\xae\n")]
sys.stdout.buffer.write(blob_of(node(b"", [], [node(b"images", [], images)])))'
}

# refuses_imports: no page is made of a module that imports a function.
refuses_imports() {
    printf '\0asm\1\0\0\0\1\4\1\140\0\0\2\7\1\1a\1b\0\0' > imports.wasm
    ! python3 "$assemble" page imports.wasm "$examples/board.itb" none.html 2> errors && [ ! -e none.html ] &&
        grep -Fqx "the module has imports" errors
}

# fails TEXT ARGUMENT..: no page is made with these arguments, and the script prints one line, which begins so.
fails() {
    text=$1
    shift
    ! "$build" "$@" > output 2> errors && [ ! -s output ] && [ "$(wc -l < errors)" = 1 ] && grep -q "^$text" errors ||
        { cat output errors; false; }
}

# has_own_elements NAME ELEMENT: the page NAME has the elements of a table, and none of this name.
has_own_elements() {
    python3 "$dom" elements < "$1.dom" | tr ' ' '\n' > elements
    grep -Fqx table elements && ! grep -Fx "$2" elements
}

try_in_chromium() {
    python3 "$assemble" module page.html module.wasm
    for image in board.itb kernel-padded.uimage; do
        check "Chromium opens the page: $image" opens "$image" "$examples/$image"
        for command in show list verify check describe; do
            check "it shows the output of $command: $image" shows "$image" "$command" "$program" "$command" "$examples/$image"
        done
    done
    head -c 1000 "$examples/kernel.uimage" > short
    check "Chromium opens the page with a file that is refused" opens refused short
    check "it shows the line of the program" shows refused refusal refusal short
    # Another byte of the kernel.
    cp "$examples/board.itb" bad.itb
    printf x | dd of=bad.itb bs=1 seek=200 conv=notrunc 2> errors
    check "Chromium opens the page with two images" opens_two two bad.itb "$examples/board.itb"
    check "it shows the output of compare" shows two compare "$program" compare bad.itb "$examples/board.itb"
    row='kernel-1kernel, arm64, linux, none0x800800000x80080000sha256 bad, unhashed468184Extract'
    check "it shows load addresses, entry points and concerns" has_text two result "$row"
    check "a bad verdict has its colour" has_text two bad '1 bad'
    check "a good one has another" has_text two good '2 good'
    check "a concern leads to its line" shows two status sh -c '"$0" verify bad.itb | head -n 1' "$program"
    check "two images are equal" opens_two equal "$examples/board.itb" "$examples/board-external.itb"
    check "it says so" has_text equal comparison "Compared with board-external.itbBoth mean the same thing."
    check "an image that is refused is compared" opens_two compared "$examples/board.itb" short
    check "it shows the line of the program" has_text compared comparison "Compared with shortshort: Truncated at 12"
    signed > signed.itb
    check "Chromium opens the page with a signed image" opens_two signed signed.itb signed.itb
    check "it shows addresses as numbers" has_text signed result "k0x202020000x0000000100000000unhashed3"
    check "a concern leads to a line that was not shown" shows signed status echo "node /images/k"
    odd_names > names.itb
    check "Chromium opens the page with odd names" opens names names.itb
    check "it shows them as the program prints them" shows names list "$program" list names.itb
    check "no name is an element of the page" has_own_elements names i
}

has binaryen wasm-opt "everything" || finish
need python3 python3
need_program
need_c_library
work_in_new_directory
check "the page is built" "$build" "$work/page.html"
[ "$failed" = 0 ] || finish
check "no page is made of a module with imports" refuses_imports
check "no page is made of an example that is not there" fails "page: none is not a file" page.html none
case ${1-} in
--screenshot)
    timeout 60 chromium --headless --no-sandbox --disable-gpu --disable-dev-shm-usage --user-data-dir="$work/profile" \
        --virtual-time-budget=20000 --screenshot=picture.png --window-size=1040,1690 --hide-scrollbars "file://$work/page.html#example"
    cd - > /dev/null && mv "$work/picture.png" "$2"
    exit
    ;;
--again)
    check "the page is built again" "$build" "$work/again.html"
    check "it has the same bytes" cmp page.html again.html
    ;;
esac
check "the page is built without a proof" "$build" --quick "$work/quick.html"
check "it says so, and claims no proof" sh -c 'grep -Fq "<b>Not proved:</b> this page" quick.html && ! grep -Fq "<b>Proved:</b>" quick.html'
check "the other claims one" sh -c 'grep -Fq "<b>Proved:</b>" page.html && ! grep -Fq "this page was built without" page.html'
if has nodejs node "the runs of tests/conformance"; then
    "$root/tests/conformance/run" --export runs > log
    for name in page quick; do
        passes node "$root/tests/tools/page/suite.js" "$name.html" runs "$examples"
    done
fi
if has chromium chromium "what the page shows"; then
    try_in_chromium
fi
finish
