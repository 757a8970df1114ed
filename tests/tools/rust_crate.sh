#!/bin/sh
# Builds and tests the crate for Rust (rust/) over the library for C: its own tests, its examples and lints, and that it returns of the
# vectors of tests/conformance what the module for Python returns (tests/tools/c_library/structure.py), with the lines of `check` as the
# texts of concerns. The crate has no dependency. The script needs cargo 1.70 or later, without which it leaves out everything, gcc and
# python3, and installs Debian's gcc and python3 if one is missing and it runs as root.
set -u

root=$(cd "$(dirname "$0")/../.." && pwd)
. "$root/tests/kit"

if ! cargo --version > /dev/null 2>&1; then
    echo "left out: the crate for Rust, without cargo"
    finish
fi
need gcc gcc
need python3 python3
need_c_library
work_in_new_directory
BOOTIMG_LIB_DIR=$work/lib
LD_LIBRARY_PATH=$work/lib
CARGO_TARGET_DIR=$work/target
PYTHONDONTWRITEBYTECODE=1
export BOOTIMG_LIB_DIR LD_LIBRARY_PATH CARGO_TARGET_DIR PYTHONDONTWRITEBYTECODE

mkdir lib
check "the shared library is linked" \
    gcc -shared -o lib/libbootimg.so -Wl,--whole-archive "$library" -Wl,--no-whole-archive "$heap"
cp -r "$root/rust" crate
mkdir examples
cp "$root"/examples/*.itb "$root"/examples/*.uimage examples
cargo="cargo --offline --quiet"

# has_no_output COMMAND..: the command succeeds, and prints nothing.
has_no_output() {
    "$@" > output 2>&1 && [ ! -s output ] || { cat output; return 1; }
}
cd crate || exit 2
check "it is built without a warning" has_no_output $cargo build --all-targets
check "its tests" $cargo test
check "it has no dependency" test "$(cargo --offline tree --prefix none | wc -l)" = 1
! cargo fmt --version > /dev/null 2>&1 || check "it has the layout of rustfmt" cargo fmt --check
! cargo clippy --version > /dev/null 2>&1 || check "clippy finds nothing" $cargo clippy --all-targets -- -D warnings
check "its documentation is made without a warning" has_no_output $cargo doc --no-deps
cd .. || exit 2
check "its version is that of the library" grep -Fqx "version = \"$(sed -n 's/#define BOOTIMG_VERSION "\(.*\)"/\1/p' "$root/include/bootimg.h")\"" \
    "$root/rust/Cargo.toml"
cat > wanted << 'END'
kernel-1      468 bytes at 184
ramdisk-1      29 bytes at 896
fdt-1         106 bytes at 1112
END
check "the table of the images of a FIT" sh -c 'target/debug/examples/images < examples/board.itb | diff wanted -'
"$root/tests/conformance/run" --export runs > log || cat log
find runs examples -type f ! -name '*.json' | sort > images
# shellcheck disable=SC2046
passes python3 "$root/tests/tools/c_library/structure.py" lib/libbootimg.so target/debug/examples/structure $(cat images)
finish
