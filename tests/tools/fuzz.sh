#!/bin/sh
# Makes each call of the library for C on random inputs: libFuzzer changes the vectors of tests/conformance and the examples, and
# tests/tools/c_library/fuzz.c checks what each call leaves, and what calls say of the same file. The library is compiled again from the
# module that its build keeps, so that libFuzzer sees which code an input reaches. It runs for SECONDS, by default 10. Inputs that are kept
# in CORPUS are used and added to. The script needs clang with libFuzzer and python3, and installs Debian's if one is missing and it runs as
# root; it leaves out everything if this clang has no libFuzzer.
#
# fuzz.sh [SECONDS [CORPUS]]
set -u

root=$(cd "$(dirname "$0")/../.." && pwd)
. "$root/tests/kit"

seconds=${1-10}
kept=${2-}
[ -z "$kept" ] || kept=$(readlink -f "$kept")
need clang clang
need python3 python3
need_c_library
work_in_new_directory

target=$root/tests/tools/c_library/fuzz.c
# The target makes each call that the header declares.
sed -n 's/^uint32_t \(bootimg_[a-z_]*\)(.*/\1/p' "$root/include/bootimg.h" | sort > declared
grep -oh 'bootimg_[a-z_]*(' "$target" "$root/tests/tools/c_library/arrays.h" | tr -d '(' | sort -u > called
check "the target makes each call" diff declared called

if ! clang -std=gnu99 -Wall -Wextra -Werror -g -fsanitize=fuzzer-no-link,address,undefined -I"$root/include" -c "$target" -o target.o 2> log ||
    ! printf 'int LLVMFuzzerTestOneInput(void) { return 0; }' | clang -fsanitize=fuzzer -x c - -o empty 2>> log; then
    echo "left out: random inputs, without libFuzzer"
    cat log
    finish
fi
# The kit's clang reads the module. Its counters are those of libFuzzer.
kit=$(dirname "$(rt doc)")
check "the library is compiled with counters" "$kit/toolchain/bin/clang" -O2 -fsanitize=fuzzer-no-link -Wno-override-module \
    -c "$root/crates/bi_c/out/module.bc" -o library.o
check "the target is linked" clang -fsanitize=fuzzer,address,undefined target.o library.o "$heap" -o fuzz
[ "$failed" = 0 ] || finish

# The first eight bytes of an input choose numbers, and the length of a name, which is before the file.
mkdir corpus
"$root/tests/conformance/run" --export runs > log || cat log
python3 - runs "$root/examples" << 'END'
import hashlib
import sys
from pathlib import Path

names = [b"", b"/", b"/images/kernel-1", b"kernel-1", b"conf-1"]
for directory in sys.argv[1:]:
    for path in sorted(Path(directory).rglob("*")):
        if not path.is_file() or path.stat().st_size > 60000:
            continue
        file = path.read_bytes()
        for name in names if directory != sys.argv[1] else names[:1]:
            data = bytes((0, 0, 0, len(name))) + bytes(4) + name + file
            Path("corpus", hashlib.sha256(data).hexdigest()).write_bytes(data)
END
cat > words << 'END'
"images"
"configurations"
"default"
"data"
"data-size"
"data-offset"
"data-position"
"hash-1"
"signature-1"
"hashed-nodes"
"hashed-strings"
"uboot-ignore"
"algo"
"value"
"sha256"
"crc32"
"kernel"
"loadables"
"\xd0\x0d\xfe\xed"
"\x27\x05\x19\x56"
"\x00\x00\x00\x01"
"\x00\x00\x00\x02"
"\x00\x00\x00\x03"
"\x00\x00\x00\x09"
END
check "no check fails in $seconds seconds" ./fuzz -max_total_time="$seconds" -max_len=65536 -timeout=60 -rss_limit_mb=4096 -dict=words \
    -print_final_stats=1 ${kept:+"$kept"} corpus
finish
