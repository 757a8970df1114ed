#!/bin/sh
# Tries ./install: what it installs and removes, in new and in existing directories, over other files, with wrong arguments, and
# where it cannot write; and the library that it installs, from C by pkg-config, shared and static, and from Python. Nothing is
# installed outside a directory of its own. The script needs bash, gcc, binutils, pkg-config and python3, and installs Debian's if one is
# missing and it runs as root.
set -u

root=$(cd "$(dirname "$0")/../.." && pwd)
. "$root/tests/kit"
need bash bash
need gcc gcc
need binutils ar nm readelf
need pkg-config pkg-config
need python3 python3
need_program
need_c_library
work_in_new_directory
chmod 755 .
install=$root/install

# fails STATUS TEXT ARGUMENT..: installing with these arguments ends with this status and prints one line, which begins so.
fails() {
    wanted=$1
    text=$2
    shift 2
    "$install" "$@" > output 2> errors
    [ $? = "$wanted" ] && [ ! -s output ] && [ "$(wc -l < errors)" = 1 ] && grep -q "^$text" errors || { cat output errors; false; }
}

# holds DIRECTORY PATH..: the directory holds these files and directories, and nothing else.
holds() {
    (cd "$1" && find . -mindepth 1 | sort) > got
    shift
    printf './%s\n' "$@" | sort | diff - got
}

program_directories="bin share share/man share/man/man1 share/bash-completion share/bash-completion/completions share/zsh
    share/zsh/site-functions share/fish share/fish/vendor_completions.d"
program_files="bin/bootimg share/man/man1/bootimg.1 share/bash-completion/completions/bootimg share/zsh/site-functions/_bootimg
    share/fish/vendor_completions.d/bootimg.fish"
# python_files DIRECTORY: the files of the module in this directory.
python_files() {
    printf "$1/bootimg/%s\n" __init__.py __main__.py codes.py edits.py image.py libbootimg.so py.typed
}
directories="$program_directories include lib lib/pkgconfig share/bootimg share/bootimg/python share/bootimg/python/bootimg"
files="$program_files include/bootimg.h lib/libbootimg.a lib/libbootimg.so lib/libbootimg.so.0 lib/pkgconfig/bootimg.pc
    $(python_files share/bootimg/python)"
list=share/bootimg/made-directories

# A new directory, and away again.
check "installing to a new directory" "$install" --prefix "$work/new/a/b"
check "it holds the files" holds new/a/b $directories $files $list
check "the program is that of the checkout" cmp new/a/b/bin/bootimg "$root/crates/bootimg/out/bootimg"
check "it runs" new/a/b/bin/bootimg --version
check "the page is that of the checkout" cmp new/a/b/share/man/man1/bootimg.1 "$root/man/bootimg.1"
check "the completion for bash can be loaded" bash --norc -c '. "$0" && complete -p bootimg' \
    "$work/new/a/b/share/bash-completion/completions/bootimg"
check "that for zsh is that of the checkout" cmp new/a/b/share/zsh/site-functions/_bootimg "$root/contrib/_bootimg"
check "and so is that for fish" cmp new/a/b/share/fish/vendor_completions.d/bootimg.fish "$root/contrib/bootimg.fish"
check "modes" test "$(cd new/a/b && stat -c %a bin bin/bootimg share/man/man1/bootimg.1 include/bootimg.h lib/libbootimg.a \
    lib/libbootimg.so.0 lib/pkgconfig/bootimg.pc | paste -sd ' ')" = "755 755 644 644 644 644 644"
check "installing again" "$install" --prefix="$work/new/a/b"
check "it holds the same files" holds new/a/b $directories $files $list
check "removing it" "$install" --uninstall --prefix "$work/new/a/b"
check "nothing is left" test ! -e new
check "removing it again fails" fails 1 "install: nothing is installed in $work/new/a/b" --uninstall --prefix "$work/new/a/b"

# Existing directories stay, even if they are empty, and so do other files.
mkdir -p old/bin old/share/man
echo other > old/share/other
check "installing to a directory that exists" "$install" --prefix "$work/old"
check "it holds the new files and the old one" holds old $directories $files $list share/other
echo page > old/share/man/man1/other.1
check "removing it" "$install" --prefix "$work/old" --uninstall
check "what was there before stays" holds old bin share share/man share/man/man1 share/man/man1/other.1 share/other
for directory in $directories; do
    mkdir -p "whole/$directory"
done
check "installing where every directory exists" "$install" --prefix "$work/whole"
check "keeps no list" holds whole $directories $files
check "removing it from there" "$install" --prefix "$work/whole" --uninstall
check "every directory stays" holds whole $directories

# A file that is replaced, a umask, and a running program.
mkdir -p replaced/bin
printf '#!/bin/sh\nsleep 1\n' > replaced/bin/bootimg
chmod 755 replaced/bin/bootimg
replaced/bin/bootimg &
check "installing over an older program that runs, with a strict umask" sh -c 'umask 077 && "$1" --prefix "$2"' \
    sh "$install" "$work/replaced"
check "it is replaced" cmp replaced/bin/bootimg "$root/crates/bootimg/out/bootimg"
check "others can run it" test "$(stat -c %a replaced/bin/bootimg replaced/share | paste -sd ' ')" = "755 755"
wait

# --destdir, and the default prefix. There is no list of directories then, and they stay.
check "installing below a directory" "$install" --destdir "$work/stage"
check "the prefix is /usr/local" holds stage/usr/local $directories $files
check "removing it" "$install" --destdir "$work/stage/" --uninstall
check "no file is left of it" test -z "$(find stage ! -type d)"
rm -r stage
check "installing below a directory that does not begin with /" "$install" --destdir=stage --prefix=/usr
check "the prefix is /usr" holds stage/usr $directories $files
rm -r stage

# Other directories: those of Debian, and one outside the prefix.
places="--libdir /usr/lib/here --mandir=/usr/man --pythondir /usr/lib/python"
check "installing in other directories" "$install" --prefix /usr --destdir "$work/stage" $places
other_files="bin/bootimg man/man1/bootimg.1 share/bash-completion/completions/bootimg share/zsh/site-functions/_bootimg
    share/fish/vendor_completions.d/bootimg.fish include/bootimg.h lib/here/libbootimg.a lib/here/libbootimg.so
    lib/here/libbootimg.so.0 lib/here/pkgconfig/bootimg.pc $(python_files lib/python)"
(cd stage/usr && find . ! -type d | sed 's|^\./||' | sort) > got
check "they hold the files" sh -c 'printf "%s\n" "$@" | sort | diff - got' sh $other_files
check "the file for pkg-config names the directory" \
    test "$(PKG_CONFIG_PATH=stage/usr/lib/here/pkgconfig pkg-config --variable=libdir bootimg)" = /usr/lib/here
check "so does the link for Python" test "$(readlink stage/usr/lib/python/bootimg/libbootimg.so)" = ../../here/libbootimg.so.0
check "Python finds the library there" env -u BOOTIMG_LIBRARY PYTHONPATH=stage/usr/lib/python python3 -c \
    'import bootimg; assert bootimg.version() == bootimg.__version__'
check "removing it from there" "$install" --prefix /usr --destdir "$work/stage" $places --uninstall
check "nothing is left there but directories" test -z "$(find stage ! -type d)"
rm -r stage
check "installing with a directory outside the prefix" "$install" --prefix "$work/inside" --libdir "$work/out side/lib"
check "the library is there" test -f "out side/lib/libbootimg.so.0"
check "and a link to it" env -u BOOTIMG_LIBRARY PYTHONPATH=inside/share/bootimg/python python3 -c 'import bootimg'
check "removing both" "$install" --prefix "$work/inside" --libdir "$work/out side/lib" --uninstall
check "nothing is left of both" sh -c '[ ! -e inside ] && [ ! -e "out side" ]'

# The stand-in for mkimage.
check "installing with the stand-in" "$install" --prefix "$work/standing" --with-mkimage
check "it holds the stand-in" holds standing $directories $files $list bin/mkimage
check "the stand-in works" env -i PATH=/usr/bin:/bin standing/bin/mkimage -q -A arm -n name -d "$root/README.md" image
check "it makes an image" sh -c '"$1" list < image | grep -Fqx "name name"' sh "$root/bootimg"
check "removing all" "$install" --prefix "$work/standing" --uninstall
check "nothing of it is left" test ! -e standing
mkdir -p standing/bin
echo "another program" > standing/bin/mkimage
check "another mkimage is not replaced" fails 1 "install: $work/standing/bin/mkimage is another program" --prefix "$work/standing" \
    --with-mkimage
check "nothing is installed beside it" holds standing bin bin/mkimage
check "installing without the stand-in" "$install" --prefix "$work/standing"
check "removing that again" "$install" --prefix "$work/standing" --uninstall
check "another mkimage is not removed" holds standing bin bin/mkimage

# The library. Programs in C are compiled by what pkg-config prints of the installed files.
check "installing the program alone" "$install" --prefix "$work/alone" --without-library
check "it holds nothing of the library" holds alone $program_directories $program_files share/bootimg $list
check "removing that alone" "$install" --prefix "$work/alone" --uninstall
check "nothing of that is left" test ! -e alone
cat > lister.c << 'END'
#include <bootimg.h>
#include <stdio.h>
static uint8_t file[1000000], text[100000];
int main(int count, char **words)
{
    FILE *input = fopen(words[count - 1], "rb");
    size_t size = input ? fread(file, 1, sizeof file, input) : 0;
    bootimg_result answer;
    if (bootimg_list(file, size, BOOTIMG_LIMIT, BOOTIMG_DEPTH, text, sizeof text, &answer) != BOOTIMG_OK)
        return 2;
    return fwrite(text, 1, answer.size, stdout) != answer.size;
}
END
lists() {
    "$@" "$root/examples/kernel.uimage" > output && "$root/bootimg" list "$root/examples/kernel.uimage" | cmp - output
}
prefix=$work/with-library/usr
check "installing the library" "$install" --prefix "$prefix"
PKG_CONFIG_PATH=$prefix/lib/pkgconfig
export PKG_CONFIG_PATH
check "pkg-config finds it" pkg-config --exists bootimg
version=$(pkg-config --modversion bootimg)
check "its version is that of the header" grep -Fqx "#define BOOTIMG_VERSION \"$version\"" "$prefix/include/bootimg.h"
check "its version is that of the program" test "$("$root/bootimg" --version | cut -d ' ' -f 1,2)" = "bootimg $version"
check "a program is linked to the shared library" sh -c 'gcc -std=c99 -Wall -Wextra -pedantic -Werror lister.c -o shared \
    $(pkg-config --cflags --libs bootimg)'
check "it names the library by its soname" sh -c 'readelf -d shared | grep -F NEEDED | grep -Fq "[libbootimg.so.0]"'
check "the library has that soname" sh -c 'readelf -d "$1" | grep -F SONAME | grep -Fq "[libbootimg.so.0]"' sh "$prefix/lib/libbootimg.so.0"
check "the link points to it" test "$(readlink "$prefix/lib/libbootimg.so")" = libbootimg.so.0
nm -D --defined-only "$prefix/lib/libbootimg.so" | sed -n 's/.* T //p' | sort > exported
sed -n 's/^uint32_t \(bootimg_[a-z_]*\)(.*/\1/p' "$prefix/include/bootimg.h" | sort > declared
check "it exports what the header declares" diff declared exported
check "it exports nothing else" test "$(nm -D --defined-only "$prefix/lib/libbootimg.so" | wc -l)" = "$(wc -l < declared)"
check "addresses are bound when it is loaded, and read-only then" sh -c 'readelf -Wdl "$1" > log && grep -q BIND_NOW log &&
    grep -q GNU_RELRO log && ! grep GNU_STACK log | grep -q E' sh "$prefix/lib/libbootimg.so.0"
check "that program runs" lists env LD_LIBRARY_PATH="$prefix/lib" ./shared
check "a program is linked to the static library" \
    sh -c 'gcc -std=c99 lister.c -o static -static $(pkg-config --static --cflags --libs bootimg)'
check "it runs on its own" lists env -i ./static
check "Python finds the library" lists env -u BOOTIMG_LIBRARY PYTHONPATH="$prefix/share/bootimg/python" python3 -m bootimg list
check "Python finds it in another directory" sh -c 'cd / &&
    env -u BOOTIMG_LIBRARY -u PYTHONDONTWRITEBYTECODE PYTHONPATH="$1/share/bootimg/python" python3 -c \
    "import bootimg; assert bootimg.version() == \"$2\""' sh "$prefix" "$version"
check "Python keeps compiled code there" sh -c 'ls "$1"/share/bootimg/python/bootimg/__pycache__/__init__.*' sh "$prefix"
check "removing the library" "$install" --prefix "$prefix" --uninstall
check "nothing of the library is left" test ! -e with-library
check "installing for another root" "$install" --destdir "$work/other-root" --prefix /opt/boot
PKG_CONFIG_PATH=$work/other-root/opt/boot/lib/pkgconfig
check "pkg-config has the prefix of that root" test "$(pkg-config --variable=prefix bootimg)" = /opt/boot
check "removing it from there too" "$install" --destdir "$work/other-root" --prefix /opt/boot --uninstall
check "no file of it stays" test -z "$(find other-root ! -type d)"
cannot_link() {
    ! CC=$1 "$install" --prefix "$work/unlinked" > output 2> errors && [ ! -s output ] && [ "$(cat errors)" = "install: $2" ] &&
        [ ! -e unlinked ] || { cat output errors; false; }
}
check "without a compiler" cannot_link no-compiler "no-compiler is not found: install a C compiler, or give --without-library"
check "with one that fails" cannot_link false "the shared library cannot be linked by false"

# prints_usage: the line goes to standard output, and nothing is installed.
prints_usage() {
    "$install" --help > output 2> errors && [ ! -s errors ] && [ "$(wc -l < output)" = 1 ] && grep -q "^usage: ./install " output
}
check "--help prints the usage" prints_usage

# Wrong arguments.
for arguments in --bad -p help --prefix --destdir "--prefix relative" --prefix= "--uninstall --with-mkimage" --uninstall=x here \
    "--uninstall --without-library" --without-library=x "--libdir lib" --mandir= "--pythondir" "--mandir man"; do
    check "wrong arguments: $arguments" fails 2 "usage: ./install " $arguments
done

# Where it cannot write, nothing is left half done.
mkdir -p blocked/share/man
echo file > blocked/share/bash-completion
check "a file in the place of a directory" fails 1 "install: cannot make the directory $work/blocked/share/bash-completion" \
    --prefix "$work/blocked"
check "nothing changes" holds blocked share share/man share/bash-completion
rm blocked/share/bash-completion
mkdir -p blocked/share/bash-completion/completions/bootimg
check "a directory in the place of a file" fails 1 \
    "install: $work/blocked/share/bash-completion/completions/bootimg is a directory" --prefix "$work/blocked"
check "nothing changes then" holds blocked share share/man share/bash-completion share/bash-completion/completions \
    share/bash-completion/completions/bootimg
check "where no directory can be made" fails 1 "install: cannot make the directory /proc/bootimg" --prefix /proc/bootimg
# The script may run as root, who can write to any directory: nobody cannot. A stub is in the place of the checkout.
mkdir -p stub/crates/bootimg/out stub/man closed/bin closed/share/man/man1
cp "$install" stub
cp "$root/man/bootimg.1" stub/man
cp -r "$root/contrib" stub
printf '#!/bin/sh\necho built > "$(dirname "$0")/crates/bootimg/out/bootimg"\n' > stub/bootimg
chmod -R a+rwX stub
chmod a+x stub/bootimg stub/install
chmod 777 closed closed/bin closed/share
chmod 555 closed/share/man/man1
as_nobody() {
    if [ "$(id -u)" = 0 ]; then
        setpriv --reuid=65534 --regid=65534 --clear-groups "$@"
    else
        "$@"
    fi
}
closed() {
    ! as_nobody stub/install --without-library --prefix "$work/closed" > output 2> errors &&
        [ "$(cat errors)" = "install: cannot write to $work/closed/share/man/man1" ] || { cat errors; false; }
}
check "a directory that cannot be written" closed
check "nothing is left in the others" holds closed bin share share/man share/man/man1

# It builds first.
rm -f stub/crates/bootimg/out/bootimg
check "installing without a built program" stub/install --without-library --prefix "$work/made"
check "builds it" grep -Fqx built made/bin/bootimg
printf '#!/bin/sh\necho "bootimg: no" >&2\nexit 2\n' > stub/bootimg
not_built() {
    ! stub/install --without-library --prefix "$work/none" 2> errors && grep -Fqx "install: the program is not built" errors
}
check "a build that fails" not_built
check "installs nothing" test ! -e none
ln -s "$install" linked
check "a link to the script works" ./linked --prefix "$work/by-link"

finish
