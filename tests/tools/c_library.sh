#!/bin/sh
# Tries the library for C, built from crates/bi_c, and the module for Python over it. The header compiles as C and as C++ and declares
# the functions that the library exports, with the parameters, the struct and the constants of the sources. The module has the same
# numbers. tests/tools/c_library/calls.c makes each call, as gcc and clang compile it with their sanitizers: on the examples and the
# vectors of tests/conformance, it and the module do what the program does. The module takes files in any buffer, without a copy
# (tests/tools/c_library/buffers.py), what `bootimg.open` returns is what the vectors say (tests/tools/c_library/objects.py), what is built
# of the arguments of `build-fit` is what the program writes (tests/tools/c_library/plans.py), and what the
# calls for C that take images apart return is the same (tests/tools/c_library/structure.c). mypy finds nothing wrong in its types. The
# programs in docs/LIBRARY.md print what the document shows, of FITs of 8 MiB; that in Rust is left out without cargo. The script needs gcc,
# g++, clang, nm, pkg-config, python3, mkimage and dtc, and installs Debian's if one is missing and it runs as root, and so it does mypy,
# without which it leaves out the types.
set -u

root=$(cd "$(dirname "$0")/../.." && pwd)
. "$root/tests/kit"

# The script calls itself, to build a program in Rattle over the libraries that are there: `rt` would build those again that `rt ci` built.
if [ "${1-}" = build ]; then
    build_test_program "$3" "$2" "bi_commands bi_base"
    exit
fi

need gcc gcc
need g++ g++
need clang clang clang++
need binutils nm
need python3 python3
need pkg-config pkg-config
need u-boot-tools mkimage
need device-tree-compiler dtc
need_program
need_c_library
work_in_new_directory
PYTHONDONTWRITEBYTECODE=1
export PYTHONDONTWRITEBYTECODE
program=$root/crates/bootimg/out/bootimg
header=$root/include/bootimg.h

# The header.
printf '#include <bootimg.h>\n#include <bootimg.h>\nint main(void) { return 0; }\n' > header.c
for compiler in "gcc -std=c99" "clang -std=c99" "g++ -x c++ -std=c++98 -Wno-long-long" "clang++ -x c++"; do
    check "the header compiles: $compiler" $compiler -Wall -Wextra -pedantic -Werror -I"$root/include" -fsyntax-only header.c
done
# The header against the sources: names, parameters and their types, the layout of the struct, and the numbers of the statuses.
check "the functions of the header are those of the sources" \
    sh -c 'python3 "$1/tests/tools/c_library/declarations.py" "$1/crates/bi_c/src" "$1/include/bootimg.h" "$1/python/bootimg/__init__.py" \
        > declarations.c' sh "$root"
for compiler in "gcc -std=c99" "clang -std=c99"; do
    check "so are their types, the struct and the numbers: $compiler" \
        $compiler -Wall -Wextra -pedantic -Werror -I"$root/include" -fsyntax-only declarations.c
done
# is_found OLD NEW: with this change of the header or of the module, a difference is found.
is_found() {
    mkdir -p changed
    sed "s/$1/$2/" "$header" > changed/bootimg.h
    sed "s/$1/$2/" "$root/python/bootimg/__init__.py" > changed/module.py
    ! { cmp -s "$header" changed/bootimg.h && cmp -s "$root/python/bootimg/__init__.py" changed/module.py; } ||
        { echo "nothing changed"; return 1; }
    ! { python3 "$root/tests/tools/c_library/declarations.py" "$root/crates/bi_c/src" changed/bootimg.h changed/module.py \
        > changed/declarations.c 2> log && gcc -std=c99 -Ichanged -fsyntax-only changed/declarations.c 2> log; }
}
check "a field of another size is found" is_found "size_t value;" "uint32_t value;"
check "exchanged fields are found" is_found "uint32_t cause;" "uint32_t later, cause;"
check "a region of another kind is found" is_found "bootimg_region payload;" "uint8_t payload[8];"
check "a code of another size is found" is_found "uint8_t arch;" "uint16_t arch;"
check "a parameter of another type is found" is_found "bootimg_version(uint8_t \*buffer" "bootimg_version(const uint8_t *buffer"
check "exchanged parameters are found" is_found "uint32_t key, uint32_t index" "uint32_t index, uint32_t key"
check "another number of a status is found" is_found "BOOTIMG_NO_ROOM 3u" "BOOTIMG_NO_ROOM 4u"
check "another number of a kind is found" is_found "BOOTIMG_FIT 2u" "BOOTIMG_FIT 1u"
check "another number of a form is found" is_found "BOOTIMG_EXTERNAL 1u" "BOOTIMG_EXTERNAL 2u"
check "another number of a field is found" is_found "CODE_ARCH 1u" "CODE_ARCH 2u"
check "exchanged fields of the notes are found" is_found "size_t signatures;" "size_t other, signatures;"
check "another number of a cause is found" is_found "CAUSE_BAD_PART = 6" "CAUSE_BAD_PART = 7"
check "another number of a verdict is found" is_found "VERDICT_BAD 1u" "VERDICT_BAD 3u"
check "exchanged verdicts of the module are found" is_found '"good", "bad"' '"bad", "good"'
check "another number of a place is found" is_found "PLACE_DATA_OFFSET 2u" "PLACE_DATA_OFFSET 3u"
check "another number of a key is found" is_found "BOOTIMG_FDT 1u" "BOOTIMG_FDT 2u"
check "another number of a change is found" is_found "BOOTIMG_CHANGE_HASHES 2u" "BOOTIMG_CHANGE_HASHES 4u"
check "another number of a reason is found" is_found "BOOTIMG_NO_INDEX 8u" "BOOTIMG_NO_INDEX 9u"
check "another number of a kind of concerns is found" is_found "CONCERN_MISSING = 16" "CONCERN_MISSING = 8"
check "exchanged fields of a concern are found" is_found "size_t index;" "size_t size_, index;"
check "another bit of a concern is found" is_found "ALLOW_WEAK_HASH 4u" "ALLOW_WEAK_HASH 2u"
check "another limit is found" is_found "BOOTIMG_LIMIT 0x7fffffffu" "BOOTIMG_LIMIT 0xffffffffu"
check "a constant that the library has not is found" is_found "#define BOOTIMG_FDT 1u" "&\\n#define BOOTIMG_TEE 6u"
check "another version is found" is_found 'BOOTIMG_VERSION "0' 'BOOTIMG_VERSION "9'
check "another number of an algorithm is found" is_found "ALGORITHM_SHA1 2u" "ALGORITHM_SHA1 3u"
check "exchanged ranges of a configuration are found" is_found "bootimg_range kernel;" "bootimg_range fdt_, kernel;"
check "options of another size are found" is_found "bootimg_region default_name;" "bootimg_region default_name, other_name;"
check "exchanged algorithms of the module are found" is_found '"crc32", "md5"' '"md5", "crc32"'
check "exchanged keys of the module are found" is_found '"kernel", "fdt"' '"fdt", "kernel"'
check "exchanged concerns of the module are found" is_found '^    "unhashed",' \
    '    "exchanged",/; s/^    "weak-hash",/    "unhashed",/; s/^    "exchanged",/    "weak-hash",'
check "exchanged statuses of the module are found" is_found "_OK, _REFUSED" "_REFUSED, _OK"
check "another depth of the module is found" is_found "DEPTH = 64" "DEPTH = 63"
check "a missing function is found" is_found "^uint32_t bootimg_kind" "int32_t bootimg_kind"
nm -g --defined-only "$library" 2> /dev/null | sed -n 's/.* T //p' | sort > exported
sed -n 's/^uint32_t \(bootimg_[a-z_]*\)(.*/\1/p' "$header" | sort > declared
check "the library exports what the header declares, and nothing else" diff exported declared
check "there are declarations" test -s declared
grep -o 'BOOTIMG_VERSION "[^"]*"' "$header" | cut -d '"' -f 2 > wanted

# The module. Its types are those that mypy finds strictly.
if is_installed mypy mypy; then
    check "the types of the module" mypy --strict --cache-dir mypy "$root/python/bootimg" "$root/python/backend.py"
fi

# The shared library.
check "the shared library is linked" gcc -shared -o libbootimg.so -Wl,--whole-archive "$library" -Wl,--no-whole-archive "$heap"
BOOTIMG_LIBRARY=$work/libbootimg.so
PYTHONPATH=$root/python
export BOOTIMG_LIBRARY PYTHONPATH

# same COMMAND [ARGUMENT..]: calls.c, and what is in `module`, do what the program does with these arguments: status, output and errors.
same() {
    "$program" "$@" > output 2> errors
    status=$?
    for tried in ./calls ${module:+"$module"}; do
        $tried "$@" > output2 2> errors2
        [ $? = "$status" ] && cmp output output2 && cmp errors errors2 || { cat errors2; return 1; }
    done
}

examples=$root/examples

# refuses_number NUMBER: the program and the module fail with this number, with status 2 and without output.
refuses_number() {
    for tried in "$program" "python3 -m bootimg"; do
        $tried list --limit "$1" "$examples/kernel.uimage" > output 2> errors
        [ $? = 2 ] && [ ! -s output ] && [ -s errors ] || { cat output errors; return 1; }
    done
}

# names_file PATH: the module names a file in the line of a failure as the program does.
names_file() {
    "$program" list "$1" > output 2> errors
    status=$?
    python3 -m bootimg list "$1" > output2 2> errors2
    [ $? = "$status" ] && cmp output output2 && cmp errors errors2 || { cat errors errors2; return 1; }
}
mkdir names
for path in "names/a b" names/a%b names/é names/-; do
    check "a missing file is named by the module: $path" names_file "$path"
    head -c 100 "$examples/kernel.uimage" > "$path"
    check "a refused file is named by the module: $path" names_file "$path"
done
check "a file with an empty name is named by the module" names_file ""
check "a directory is named by the module" names_file names
for number in 1_000 +1000 0x_ff 0X3e8 " 1000 " ١٠٠٠ 1000.0 -1 "" 0x; do
    check "the module takes no number that the program refuses: '$number'" refuses_number "$number"
done
for image in kernel.uimage two-parts.uimage board.itb board-external.itb; do
    passes python3 "$root/tests/tools/c_library/buffers.py" libbootimg.so "$examples/$image"
done
"$root/tests/conformance/run" --export runs > log || cat log
passes python3 "$root/tests/tools/c_library/objects.py" runs libbootimg.so
passes python3 "$root/tests/tools/c_library/plans.py" runs libbootimg.so
# The module calls one shared library, so it is tried beside the calls of one compiler.
module="python3 -m bootimg"
for compiler in gcc clang; do
    check "$compiler compiles the calls" $compiler -std=gnu99 -Wall -Wextra -Werror -g -fsanitize=address,undefined \
        -I"$root/include" "$root/tests/tools/c_library/calls.c" "$library" "$heap" -lpthread -o calls
    check "$compiler compiles the calls that take images apart" $compiler -std=gnu99 -Wall -Wextra -Werror -g \
        -fsanitize=address,undefined -I"$root/include" "$root/tests/tools/c_library/structure.c" "$library" "$heap" -lpthread -o structure
    [ "$failed" = 0 ] || finish
    find runs "$examples" -type f ! -name '*.json' ! -name '*.md' | sort > images
    # shellcheck disable=SC2046
    passes python3 "$root/tests/tools/c_library/structure.py" libbootimg.so structure $(cat images)
    for image in "$examples"/*.itb "$examples"/*.uimage "$examples"/boot.scr "$examples"/board.its; do
        for command in normalise "normalise --external" "normalise --external --align 64" list describe verify check convert "list --limit 100" \
            show "show --layout" "show --layout --limit 1000" "show --json" scan "scan --json" "scan --limit 100" "list --json" \
            "describe --json" "verify --json" "check --json" "describe --json --limit 1000" \
            "describe --deep" "describe --deep --json" "describe --deep --limit 1000" \
            "update --time 5" "update --time 0x65000000 --hashes" "update --hashes --external" "update --external --align 0x1000 --time 7" "extract --part 0" "extract --part 1" \
            "extract --image kernel-1" "extract --image none" "extract --config conf-1" "extract --config conf-1 --key fdt" \
            "extract --config none" "extract --default" "extract --default --key ramdisk" "extract --default --index 1"; do
            check "$compiler: $command $(basename "$image")" same $command "$image"
        done
        check "$compiler: the kind of $(basename "$image")" sh -c './calls kind "$1" > kind 2> errors
            "$2" list "$1" 2> errors2 | head -n 1 | cmp - kind && cmp errors errors2' sh "$image" "$program"
        for other in "$examples"/*.itb "$examples"/kernel*.uimage "$examples"/board.its; do
            check "$compiler: compare $(basename "$image") $(basename "$other")" same compare "$image" "$other"
            check "$compiler: the same in JSON" same compare --json "$image" "$other"
            for words in "--ignore time" "--ignore time,signatures --json" "--ignore /images --ignore part-0" \
                "--ignore /configurations/conf-1" --deep "--deep --json" "--deep --limit 1000" "--deep --ignore /images/fdt-1//"; do
                check "$compiler: compare $words $(basename "$image") $(basename "$other")" same compare $words "$image" "$other"
            done
        done
        check "$compiler: a word that names nothing, $(basename "$image")" same compare --ignore time --ignore nothing "$image" "$image"
        check "$compiler: the same, $(basename "$image")" same compare --deep --ignore time --ignore nothing "$image" "$image"
        check "$compiler: numbers out of their ranges, $(basename "$image")" ./calls arguments "$image"
        check "$compiler: four threads, $(basename "$image")" ./calls threads "$image"
    done
    check "$compiler: what the causes mean is what explain prints" sh -c 'for number in $(seq 26); do
        ./calls cause --number "$number" && printf ": " && ./calls sentence --number "$number" && echo || exit
    done > output && "$1" explain | head -n 26 | diff output -' sh "$program"
    ./calls version > output
    echo >> output
    check "$compiler: the version is that of the header" cmp output wanted
    check "$compiler: the version is that of the program" sh -c '"$1" --version | cut -d " " -f 2 | cmp - output' sh "$program"
    check "$compiler: the struct is as large as the library's" test "$(./calls sizes)" = "32 0 8 16 20 24 28"
    passes python3 "$root/tests/tools/c_library/suite.py" runs "$program" calls libbootimg.so
    module=
done

# Each allocation of each call fails in turn.
check "the calls without memory are compiled" gcc -O1 -std=c99 -Wall -Wextra -Werror -I"$root/include" \
    -Wl,--wrap=malloc -Wl,--wrap=realloc "$root/tests/tools/c_library/memory.c" "$library" "$heap" -o memory
for image in "$examples"/*.itb "$examples"/*.uimage "$examples"/boot.scr; do
    check "each allocation fails in turn, $(basename "$image")" sh -c '[ "$(./memory "$1")" -gt 10 ]' sh "$image"
done

# The programs of docs/LIBRARY.md, over the library as ./install installs it: each ```c, ```python and ```rust block is run by the command
# in the ```text block after it, which also has what it prints. The one in Rattle is proved first.
check "the library is installed" "$root/install" --prefix "$work/installed"
mkdir programs
cd programs || exit 2
check "the releases are made" "$root/tests/tools/c_library/releases.sh" "$program"
check "the programs of docs/LIBRARY.md" python3 "$root/tests/tools/c_library/document.py" "$root/docs/LIBRARY.md" "$work/installed" \
    "$root/tests/tools/c_library.sh" build
check "what is carved out is what was there" sh -c 'cmp image-65536 "$1/kernel.uimage" && cmp image-1048576 releases/1.itb &&
    [ "$(ls image-* | wc -l)" = 2 ]' sh "$examples"
check "what differs is the devicetree" cmp changed-2 b.dtb
if is_installed mypy mypy; then
    check "the types of those in Python" env MYPYPATH="$root/python" mypy --strict --cache-dir mypy ./*.py
fi
finish
