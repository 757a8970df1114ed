#!/bin/sh
# Makes the page that shows what a boot image holds, one HTML file:
#
#   contrib/page/build.sh [--quick] [PAGE [EXAMPLE]]
#
# PAGE is by default dist/bootimg.html in the checkout. EXAMPLE is the image that the page can show without a file, by default
# examples/board.itb. The library is proved and built first if needed. With --quick it is built without a proof, which takes minutes, and
# the page says so. The script needs the kit, python3, and wasm-opt of Debian's binaryen. Its output is the path of the page. A failure is
# a line on standard error, and the status is then 1. PAGE is replaced as a whole, or stays as it was.
set -u

fail() {
    echo "page: $*" >&2
    exit 1
}

# run COMMAND..: runs a command, and ends the script with the last line that it printed if it fails.
run() {
    "$@" > "$work/log" 2>&1 || fail "$1 failed: $(tail -n 1 "$work/log")"
}

here=$(dirname "$(readlink -f "$0")")
root=$(cd "$here/../.." && pwd)
verb=page
level=-O3
if [ "${1-}" = --quick ]; then
    verb=quick
    level=-O1
    shift
fi
page=${1:-$root/dist/bootimg.html}
example=$(readlink -f "${2:-$root/examples/board.itb}")
crate=$root/crates/bi_c
library=$crate/out/libbi_c.a
module=$crate/out/module.bc
[ "$verb" = page ] || module=$crate/out/quick/module.bc
target=wasm64-unknown-unknown

[ -f "$example" ] || fail "${2:-$example} is not a file"
for tool in rt python3 wasm-opt; do
    command -v "$tool" > /dev/null || fail "$tool is not found (docs/PAGE.md has what is needed)"
done
compilers=$(dirname "$(rt doc)")/toolchain/bin
work=$(mktemp -d) || fail "cannot make a directory"
trap 'rm -rf "$work"' EXIT
trap 'exit 1' HUP INT TERM

# is_current FILE: the file is there, and no source is newer.
is_current() {
    [ -f "$1" ] && [ -z "$(find "$root/crates.txt" "$root"/crates/bi_*/src -type f -newer "$1" | head -n 1)" ]
}

# prove_library: proves the library and builds those below it.
prove_library() {
    (cd "$crate" && rt check)
}

# read_module: the module as text, in module.ll, for the other target. It names the processor and the stack probes of x86-64, which
# WebAssembly has not, and the layout of data: that of WebAssembly with 64 bits has the same sizes and alignments. A module without a
# proof holds the exports under other names, and not exported.
read_module() {
    exports=
    [ "$verb" = page ] || exports='s/@"bi_c::[a-z_:]*::\(bootimg_[a-z0-9_]*\)"/@\1/; s/^define internal \(.*@bootimg_\)/define \1/'
    layout=e-m:e-p:64:64-p10:8:8-p20:8:8-i64:64-i128:128-n32:64-S128-ni:1:10:20
    "$compilers/clang" --target=x86_64-unknown-linux-gnu -x ir "$module" -S -emit-llvm -O0 -Xclang -disable-llvm-passes -o read.ll &&
        sed -e 's/"target-cpu"="[^"]*"//; s/"probe-stack"="[^"]*"//; s/"stack-probe-size"="[^"]*"//' \
            -e "$exports" \
            -e "s/^target triple = .*/target triple = \"$target\"/" \
            -e "s/^target datalayout = .*/target datalayout = \"$layout\"/" read.ll > module.ll
}

# compile FLAG..: compiles for WebAssembly.
compile() {
    "$compilers/clang" --target="$target" -mcpu=lime1 -mbulk-memory -c "$@"
}

# link_module: links the library, the heap and the multiplication. The calls of the library are exported, and what the page allocates by.
# The stack is first in the memory and grows down to 0, so a call that needs more of it ends.
link_module() {
    exports=$(sed -n 's/^define .*@\(bootimg_[a-z0-9_]*\)(.*/--export=\1/p' module.ll)
    "$compilers/ld.lld" -flavor wasm -mwasm64 --no-entry --stack-first -z stack-size=1048576 --gc-sections --strip-all $exports \
        -o linked.wasm library.o heap.o multiply.o
}

# lower_module: gives the module a memory of 32 bits, which every browser has.
lower_module() {
    python3 "$here/assemble.py" without-table linked.wasm untabled.wasm &&
        wasm-opt --enable-memory64 --enable-bulk-memory --enable-sign-ext --enable-nontrapping-float-to-int --enable-mutable-globals \
            --enable-multivalue --memory64-lowering -O1 untabled.wasm -o bootimg.wasm
}

# write_page: puts the page together beside where it will be, and gives it its name.
write_page() {
    mkdir -p "$(dirname "$page")" && python3 "$here/assemble.py" "$verb" bootimg.wasm "$example" "$page.$$" && mv -f "$page.$$" "$page"
}

if is_current "$module"; then
    :
elif [ "$verb" = quick ]; then
    "$root/scripts/quick.py" --module "$module" || fail "the library cannot be built without a proof"
else
    echo "page: proving and building the library, which takes an hour if nothing is proved" >&2
    is_current "$library" || run prove_library
    run "$here/module.sh" "$library" "$module"
fi
page=$(readlink -m "$page")
cd "$work" || exit 1
run read_module
run compile -x ir module.ll "$level" -ffunction-sections -o library.o
for name in heap multiply; do
    run compile -std=c11 -ffreestanding -nostdinc -fno-builtin -Wall -Wextra -Werror -O2 "$here/$name.c" -o "$name.o"
done
run link_module
run lower_module
run write_page
echo "$page"
