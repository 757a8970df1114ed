#!/bin/sh
# Proves and builds the static library bi_c, over the libraries of the workspace that are there, and keeps the LLVM module that it is
# compiled from:
#
#   contrib/page/module.sh LIBRARY MODULE
#
# The file LIBRARY is the one that `rt lib` makes, and MODULE the one that rattle gives to the kit's clang. So rattle gets, instead of the
# kit's compilers, a directory whose clang copies what it compiles. What an earlier `rt lib` has proved in crates/bi_c is not proved again.
set -eu

library=$(readlink -f "$1")
kept=$(readlink -f "$2")
root=$(cd "$(dirname "$(readlink -f "$0")")/../.." && pwd)
kit=$(dirname "$(rt doc)")
work=$(mktemp -d)
trap 'rm -rf "$work"' EXIT
trap 'exit 1' HUP INT TERM

# The compilers.
mkdir -p "$work/toolchain/bin"
ln -s "$kit/toolchain/lib" "$work/toolchain/lib"
ln -s "$kit"/toolchain/bin/* "$work/toolchain/bin"
rm "$work/toolchain/bin/clang"
cat > "$work/toolchain/bin/clang" << END
#!/bin/sh
for argument; do
    case \$argument in *.bc) cp "\$argument" "$work/module.bc" ;; esac
done
exec "$kit/toolchain/bin/clang" "\$@"
END
chmod +x "$work/toolchain/bin/clang"

# What rt calls rattle with. rt locks the directory of a crate in the same way.
cd "$root/crates/bi_c"
exec 7< .
flock 7
set -- --extern "std=$kit/rlibs/std.rlib" -L "dependency=$kit/rlibs"
for crate in $(sed -n 's/^bi_c staticlib: *//p' "$root/crates.txt"); do
    set -- "$@" --extern "$crate=$root/crates/$crate/out/rlib/$crate.rlib"
done
for directory in "$root"/crates/*/out/rlib; do
    set -- "$@" -L "dependency=$directory"
done
[ ! -d out/incremental ] || set -- "$@" --incremental out/incremental
"$kit/bin/rattle" build --crate-name bi_c --crate-type staticlib --links bi_c= "$@" \
    --antt-project "$kit/rattle/logic/antt-project.json" --logic-built "$kit/logic_built" --jobs 1 \
    --backend llvm --toolchain "$work/toolchain" -o "$library" src/lib.rt
mv "$work/module.bc" "$kept"
