#!/bin/sh
# Tries ./package. In two directories it writes packages of the same bytes. That of Debian is installed in an empty root, used as a new
# user would (the program, the manual page, the completions, pkg-config, C, C++, Rust and Python) and removed without a trace; lintian
# finds no error in it. The wheel is installed by pip, without a network. The program needs no library if it is linked statically, and
# does then what the suite of tests/conformance wants.
#
# package.sh [--all]: With --all also the archives, whose programs are compiled for other processors, which takes a minute each, or ten
# if the proofs of the program are not kept, as after `rt ci`. They run on the first x86-64 and, by qemu, on arm64, and do what the
# suite wants.
#
# The script needs gcc, g++, binutils, dpkg, pkg-config, mandoc and python3, and installs Debian's if one is missing and it runs as root.
# So it does with lintian, mypy, fish, zsh, qemu-user-static and gcc-aarch64-linux-gnu, and leaves out what needs one that it has not.
set -u

root=$(cd "$(dirname "$0")/../.." && pwd)
. "$root/tests/kit"
case $#,${1-} in
0,) all= ;;
1,--all) all=yes ;;
*)
    echo "usage: package.sh [--all]" >&2
    exit 2
    ;;
esac
need gcc gcc
need g++ g++
need binutils readelf
need dpkg dpkg-deb
need pkg-config pkg-config
need mandoc mandoc
need python3 python3
need_program
need_c_library
work_in_new_directory
chmod 755 .
tests=$root/tests/tools/package
image=$root/examples/kernel.uimage
suite=$root/tests/conformance/run
unset BOOTIMG_LIBRARY
export PYTHONDONTWRITEBYTECODE=1
"$root/bootimg" list "$image" > listing

# What is packed.
kinds="deb wheel"
if [ -n "$all" ]; then
    kinds="$kinds x86_64"
    if is_installed "gcc-aarch64-linux-gnu libc6-dev-arm64-cross" aarch64-linux-gnu-gcc; then
        kinds="$kinds aarch64"
    fi
fi

# The checkout once more, with what is built of the program and of the library for C. The other crates are links.
mkdir other
(cd "$root" && git ls-files -co --exclude-standard | tar cf - -T -) | (cd other && tar xf -)
ln -s "$root/.git" other/.git
for crate in "$root"/crates/*/; do
    crate=crates/$(basename "$crate")
    case $crate in
    */bootimg | */bi_c) (cd "$root" && tar cf - --exclude incremental "$crate/out") | (cd other && tar xf -) ;;
    *) ln -s "$root/$crate/out" "other/$crate/out" ;;
    esac
done
[ ! -d "$root/crates/bootimg/out/incremental" ] || ln -s "$root/crates/bootimg/out/incremental" other/crates/bootimg/out

check "the packages are written" "$root/package" --output dist $kinds
[ "$failed" = 0 ] || finish
check "the packages are written in another directory" sh -c 'cd / && "$0"/other/package $1' "$work" "$kinds"
check "they are the same, byte for byte" diff -r dist other/dist
check "they have their checksums" sh -c 'cd dist && sha256sum -c SHA256SUMS && [ $(wc -l < SHA256SUMS) = $1 ] &&
    [ $(ls | wc -l) = $(($1 + 1)) ]' sh "$(echo $kinds | wc -w)"

# is_wrong ARGUMENT..: these arguments are refused.
is_wrong() {
    "$root/package" "$@" > output 2> errors
    [ $? = 2 ] && [ ! -s output ] && [ "$(wc -l < errors)" = 1 ] && grep -q "^usage: " errors
}
for arguments in rpm --output --output= "deb --bad"; do
    check "wrong arguments: $arguments" is_wrong $arguments
done

# lists COMMAND..: the command prints the listing of the image in standard input.
lists() {
    "$@" < "$image" | cmp - listing
}

# The package for Debian, in an empty root, where dpkg notes what it installs.
mkdir -p installed/var/lib/dpkg/info installed/var/lib/dpkg/updates installed/var/lib/dpkg/triggers
touch installed/var/lib/dpkg/status installed/var/lib/dpkg/available
if [ "$(id -u)" = 0 ]; then
    check "dpkg installs the package" dpkg --root="$work/installed" --force-depends --install dist/bootimg_*.deb
    check "dpkg knows its version" test "$(dpkg-query --root="$work/installed" -W -f '${Version} ${Status}' bootimg)" = \
        "$("$root/bootimg" --version | cut -d ' ' -f 2) install ok installed"
else
    echo "left out: dpkg, which needs root"
    check "the package is unpacked" dpkg-deb -x dist/bootimg_*.deb installed
fi
usr=$work/installed/usr
lib=$usr/lib/x86_64-linux-gnu
check "the program runs" lists "$usr/bin/bootimg" list
check "the manual page can be read" sh -c 'mandoc -Tlint "$1" && mandoc -Tmarkdown "$1" | grep -q "^# EXAMPLES"' sh \
    "$usr/share/man/man1/bootimg.1.gz"
check "the completion for bash can be loaded" bash --norc -c '. "$0" && complete -p bootimg' \
    "$usr/share/bash-completion/completions/bootimg"
if is_installed zsh zsh; then
    check "zsh completes a command" sh -c 'echo "bootimg ver" | zsh "$1/manual/complete.zsh" "$2" | grep -Fqx verify' sh \
        "$root/tests/tools" "$usr/share/zsh/vendor-completions"
fi
if is_installed fish fish; then
    check "fish completes a command" sh -c 'PATH=$1/bin:$PATH HOME=$2 XDG_DATA_DIRS=$1/share fish -c "complete -C \"bootimg ver\"" |
        grep -q "^verify"' sh "$usr" "$work"
fi
# What pkg-config says of that root, with its system directories.
export PKG_CONFIG_LIBDIR="$lib/pkgconfig" PKG_CONFIG_SYSROOT_DIR="$work/installed"
export PKG_CONFIG_ALLOW_SYSTEM_CFLAGS=1 PKG_CONFIG_ALLOW_SYSTEM_LIBS=1
flags=$(pkg-config --cflags --libs bootimg)
check "pkg-config has the directories" test "$flags" = "-I$usr/include -L$lib -lbootimg "
check "a program in C is compiled" gcc -std=c99 -Wall -Wextra -pedantic -Werror "$tests/list.c" $flags -o list_c
check "it runs" lists env LD_LIBRARY_PATH="$lib" ./list_c
check "a program in C is linked statically" gcc -static "$tests/list.c" $(pkg-config --static --cflags --libs bootimg) -o list_static
check "it runs on its own" lists env -i ./list_static
check "a program in C++ is compiled" g++ -std=c++11 -Wall -Wextra -pedantic -Werror "$tests/list.cpp" $flags -o list_cpp
check "it runs, too" lists env LD_LIBRARY_PATH="$lib" ./list_cpp
check "a program in Python runs" lists env PYTHONPATH="$usr/lib/python3/dist-packages" python3 "$tests/list.py"
if command -v rustc > /dev/null; then
    check "a program in Rust is compiled" rustc -L "$lib" -o list_rust "$tests/list.rs"
    check "it runs as the others" lists env LD_LIBRARY_PATH="$lib" ./list_rust
else
    echo "left out: a program in Rust, without rustc"
fi
if is_installed lintian lintian; then
    check "lintian finds no error" lintian --allow-root --fail-on error dist/bootimg_*.deb
fi
if [ "$(id -u)" = 0 ]; then
    check "dpkg removes the package" dpkg --root="$work/installed" --purge bootimg
    check "nothing is left" test "$(cd installed && find . -mindepth 1 ! -path './var*')" = ""
fi

# The wheel.
check "there is a new environment for Python" python3 -m venv environment
pip="environment/bin/python3 -m pip --disable-pip-version-check --no-input"
find environment ! -name '*.pyc' | sort > before
check "pip installs the wheel" $pip install --no-index dist/bootimg-*.whl
check "a program runs with it" lists environment/bin/python3 "$tests/list.py"
check "so does the module" lists environment/bin/python3 -m bootimg list
if is_installed mypy mypy; then
    check "its types are known" mypy --strict --cache-dir mypy --python-executable environment/bin/python3 "$tests/list.py"
fi
check "pip removes it" $pip uninstall --yes bootimg
check "nothing of it is left" sh -c 'find environment ! -name "*.pyc" | sort | diff before -'
check "pip makes a wheel without the library" $pip wheel --no-index --no-deps --wheel-dir plain "$root/python"
check "it is for any platform" test -f plain/bootimg-*-py3-none-any.whl

# is_alone PROGRAM: the program needs no library and no loader.
is_alone() {
    readelf -Wld "$1" > log && ! grep -q -e NEEDED -e INTERP log
}

# unpack PROCESSOR: unpacks an archive. The path of its program is in `program`.
unpack() {
    tar xzf dist/bootimg-*-linux-"$1".tar.gz
    program=$(echo "$work"/bootimg-*-linux-"$1"/bin/bootimg)
}

# does_all PROGRAM..: the program for x86-64 or arm64, run by these words, does what the suite wants, and writes a file with -o.
does_all() {
    passes "$suite" "$@"
    check "$1: a file is written" sh -c '"$@" list -o listed < "$0" && cmp listed listing' "$image" "$@"
}

# The program as it is built here, linked as those of the archives. Its object file is not there after `rt ci`.
object=$root/crates/bootimg/out/bootimg.o
if [ -f "$object" ]; then
    check "the program is linked statically" gcc -static -o alone "$object" "$(dirname "$heap")/libos_c.a" "$heap"
    check "it needs no library" is_alone ./alone
    does_all ./alone
    if [ "$(id -u)" = 0 ]; then
        mkdir empty
        cp alone empty
        check "it runs where nothing else is" lists chroot empty /alone list
    fi
else
    echo "left out: the program that is linked statically, since $object is not there"
fi

case $kinds in
*x86_64*)
    unpack x86_64
    check "the program for x86-64 needs no library" is_alone "$program"
    does_all "$program"
    if is_installed qemu-user-static qemu-x86_64-static; then
        check "it runs on the first x86-64" lists qemu-x86_64-static -cpu qemu64 "$program" list
    fi
    ;;
esac
case $kinds in
*aarch64*)
    unpack aarch64
    check "the program for arm64 needs no library" is_alone "$program"
    if is_installed qemu-user-static qemu-aarch64-static; then
        check "it runs on arm64" lists qemu-aarch64-static "$program" list
        does_all "$(command -v qemu-aarch64-static)" "$program"
    fi
    ;;
esac
finish
