#!/bin/sh
# Tries the pages of `show` on the files of tests/conformance, on the examples and on images that mkimage makes. tests/tools/pages/suite.py:
# each page is that of the reference, byte for byte; read again by tests/tools/pages/page.py, it says what list, describe, verify and check
# say with --json, and its layout has each byte of the file; errors are those of check. tests/tools/pages/outside.py: the fields are those
# that `mkimage -l` prints, for each code that a legacy image can have too; the verdicts are right by dumpimage and python3, and the dates
# by date. Programs with one fault each have to fail. The script needs python3 and Debian's u-boot-tools, device-tree-compiler and openssl,
# and installs them if one is missing and it runs as root.
#
# pages.sh [PROGRAM]: tries this program, and builds none.
set -u

root=$(cd "$(dirname "$0")/../.." && pwd)
. "$root/tests/setup"
pages=$root/tests/tools/pages
examples="$root/examples/board.itb $root/examples/board-external.itb $root/examples/boot.scr $root/examples/kernel.uimage
    $root/examples/kernel-padded.uimage $root/examples/two-parts.uimage"

need python3 python3
need u-boot-tools mkimage dumpimage
need device-tree-compiler dtc
need openssl openssl
if [ $# = 0 ]; then
    need_program
fi
program=$(readlink -f "${1:-$root/crates/bootimg/out/bootimg}")
work_in_new_directory
export TZ=UTC SOURCE_DATE_EPOCH=1700000000

# made NAME OPTION..: makes two FITs of NAME.its, one with payloads after the blob, with a line for each.
made() {
    name=$1
    shift
    mkimage "$@" -f "$name.its" "files/$name.itb" > log && mkimage "$@" -E -f "$name.its" "files/$name-external.itb" > log
}

# its_of_words: a source with an image for each type, with the names of systems, architectures and compressions in turn.
its_of_words() {
    python3 - << 'END'
import itertools
import re
import subprocess

def words(option):
    lines = subprocess.run(["mkimage", option, "list"], capture_output=True, text=True).stderr.splitlines()
    return [re.match(r"\t(\S+)", line)[1] for line in lines if line.startswith("\t")]

types, systems, arches, compressions = map(words, ("-T", "-O", "-A", "-C"))
print('/dts-v1/;\n/ { description = "each type"; #address-cells = <1>;\nimages {')
count = max(map(len, (types, systems, arches)))
turns = zip(range(count), *map(itertools.cycle, (types, systems, arches, compressions, ("crc32", "md5", "sha1", "sha256", "sha512"))))
for i, kind, system, arch, compression, algorithm in turns:
    address = f"<{i}>" if i % 2 else f"<{i} 0x{i:x}0>"
    print(f'image-{i} {{ description = "i"; data = "{"x" * i}"; type = "{kind}"; os = "{system}"; arch = "{arch}"; ')
    print(f'compression = "{compression}"; load = {address}; entry = {address}; hash-1 {{ algo = "{algorithm}"; }}; }};')
print('};\nconfigurations { default = "b"; a { kernel = "image-1", "image-2"; ramdisk = "image-3"; };')
print('b { fdt = "image-4", "image-5", "image-6"; firmware = "image-7"; loadables = "image-8", "image-9"; compatible = "v,b"; }; }; };')
END
}

mkdir files keys
"$root/tests/conformance/run" --export vectors > /dev/null
rm vectors/runs.json
cp vectors/* files
# shellcheck disable=SC2086
cp $examples files
its_of_words > words.its
check "mkimage makes FITs with each name of a code" made words
sh "$root/examples/boards.sh" 60 > boards.its
check "mkimage makes FITs of 60 boards" made boards
openssl req -batch -newkey rsa:2048 -nodes -keyout keys/dev.key -x509 -out keys/dev.crt -subj / 2> log
cat > signed.its << 'END'
/dts-v1/;
/ { description = "signed"; #address-cells = <1>;
    images {
        kernel { description = "k"; data = "a kernel"; type = "kernel"; os = "linux"; arch = "arm64"; compression = "none"; load = <0>;
            entry = <0>; signature-1 { algo = "sha256,rsa2048"; key-name-hint = "dev"; }; hash-1 { algo = "sha256"; }; };
        fdt-a { description = "f"; data = "a tree"; type = "flat_dt"; arch = "arm64"; compression = "none"; hash-1 { algo = "crc32"; }; };
        fdt-b { description = "f"; data = "b tree"; type = "flat_dt"; arch = "arm64"; compression = "none"; load = <0x1000>; };
    };
    configurations { default = "a";
        a { kernel = "kernel"; fdt = "fdt-a";
            signature-1 { algo = "sha256,rsa2048"; key-name-hint = "dev"; sign-images = "kernel", "fdt"; }; };
        b { kernel = "kernel"; fdt = "fdt-a", "fdt-b"; };
    };
};
END
check "mkimage makes signed FITs" made signed -k keys

# With other bytes in the first payload, a verdict is `bad`.
for name in words words-external signed signed-external; do
    sed 's/a kernel/A kernel/; s/xxxxxxx/xxxxYxx/' "files/$name.itb" > "files/$name-changed.itb"
done

passes "$root/tests/conformance/run" --only 'pages: ' "$program"
# shellcheck disable=SC2086
passes python3 "$pages/suite.py" --outputs shown "$program" $examples files/words*.itb files/boards*.itb files/signed*.itb
check "there are pages of both kinds, with each table" sh -c '[ "$(grep -oE "^(kind *[a-z]+|[a-z]+)" shown | tr -s " " | grep -wE \
    "kind [a-z]+|part|reservation|image|configuration|signature|region|concerns" | sort -u | wc -l)" -ge 9 ]'
passes python3 "$pages/outside.py" "$program" files
grep '^compared' log > compared

# at_least COUNT WORDS: outside.py compared so many.
at_least() {
    [ "$(sed -n "s/.*[ ,]\([0-9]*\) of $2.*/\1/p" compared)" -ge "$1" ] || { cat compared; false; }
}
check "mkimage -l printed enough legacy images" at_least 300 "legacy image"
check "and enough FITs" at_least 40 "flattened image tree"
check "and enough values of hashes" at_least 200 verdict
check "and date enough dates" at_least 800 date

# saves ARGUMENT..: with -o the program writes the same page to a file, and so it does with the file as an argument.
saves() {
    "$program" show "$@" > wanted && [ -s wanted ] && "$program" show "$@" -o saved && cmp wanted saved
}
for image in $examples; do
    check "an output file has the page of ${image##*/}" saves --layout "$image"
    check "standard input has the page of ${image##*/}" sh -c '"$0" show < "$1" > got && "$0" show "$1" | cmp got -' "$program" "$image"
done

# faulty COMMAND..: makes the program `faulty`, which runs these commands after the program if its first argument is `show`. They may
# change the file $t/out, which has its output, and $status.
faulty() {
    {
        printf '#!/bin/sh\nt=$(mktemp -d)\n"%s" "$@" > $t/out 2> $t/errors\nstatus=$?\n' "$program"
        printf 'if [ "$1" = show ]; then\n'
        printf '%s\n' "$@"
        printf 'fi\ncat $t/out\ncat $t/errors >&2\nrm -r $t\nexit $status\n'
    } > faulty
    chmod +x faulty
}

# is_found TEXT SCRIPT REASON: of the runs with TEXT, not all pass with a program whose page is changed by this script of sed, and a
# reason is this one. It does not come from the comparison with the reference, which finds each change.
is_found() {
    faulty "sed -i -E '$2' \$t/out"
    python3 "$pages/suite.py" --only "$1" ./faulty > log
    [ $? = 1 ] && grep -v 'is not what the reference does' log | grep -q "^    .*$3" || { cat log; false; }
}

# is_found_outside NAME SCRIPT REASON: the same for the comparison with other tools, of a file of this name.
is_found_outside() {
    faulty "sed -i -E '$2' \$t/out"
    python3 "$pages/outside.py" --only "$1" ./faulty files > log
    [ $? = 1 ] && grep -q "^FAILED: .*$3" log || { cat log; false; }
}

check "a column that is too wide is found" is_found 'kernel: show' 's/^(part|0  )  /\1   /' 'as wide as its widest cell'
check "a space at the end is found" is_found 'kernel: show' 's/^part.*/& /' 'without spaces at its end'
check "a row that is out of line is found" is_found 'converted: show' 's/^kernel-1   /kernel-1    /' 'is wanted, not'
check "a missing empty line is found" is_found 'kernel: show' '/^data crc32/{N;s/\n//}' 'is wanted, not'
check "a table that is left out is found" is_found 'converted: show' '/^configuration/,/^$/d' 'the configurations on the page'
check "another order of tables is found" is_found 'kernel: show --layout' \
    '/^part  /,/^$/d; s/^no concerns/part  size  offset\n0     9     64\n\n&/' 'is wanted, not'
check "another name is found" is_found 'kernel: show' 's/^(name +)k/\1K/' 'the name on the page'
check "quotes too many are found" is_found 'kernel: show' 's/^(name +)k/\1"k"/' 'a word without quotes is wanted'
check "another size is found" is_found 'converted: show' 's/^(size +)824/\1825/' 'the size of the file on the page'
check "another offset is found" is_found 'converted: show' 's/188/189/' 'the offset of kernel-1 on the page'
check "another address is found" is_found 'converted: show' 's/0x00008000/0x00008001/' 'the load of kernel-1 on the page'
check "another verdict is found" is_found 'hash-short: show' 's/crc32:bad/crc32:good/' 'the hashes of a on the page'
check "another date is found" is_found 'mkimage-fit: show' 's/22:13:20/22:13:21/' 'the time on the page'
check "another image of a configuration is found" is_found 'converted: show' \
    's/^(conf-1 +kernel-1 +)ramdisk-1/\1ramdisk-2/' 'ramdisk of conf-1'
check "a signature that is left out is found" is_found 'signed: show' '/^signature/,/^$/d' 'the signatures on the page'
check "that a signature is verified is found" is_found 'signed: show' 's/not verified/verified/' 'is wanted, not'
check "a concern that is left out is found" is_found 'verdicts: show' '/^unhashed/d' 'the concerns on the page'
check "no concerns instead of some are found" is_found 'hash-short: show' '/^concerns/,$d' 'is wanted, not'
check "a region that is left out is found" is_found 'converted: show --layout' '/^strings/d' 'the end of the regions'
check "free space too much is found" is_found 'two: show --layout' \
    '/^free space/s/[0-9]+$/1&/' 'the end of the regions\|no region has\|where the free'
check "a layout that is not wanted is found" is_found 'kernel: show' \
    's/^no concerns/region  offset  size\nheader  0       64\n\n&/' 'whether there is a layout'
faulty 'status=1'
check "another status is found" sh -c \
    '! python3 "$1" --only "hash-short: show" ./faulty > log && grep -q "status 1 and" log' sh "$pages/suite.py"
faulty '[ $status = 2 ] && echo > $t/out'
check "output beside an error is found" sh -c \
    '! python3 "$1" --only "header-63: show" ./faulty > log && grep -q "status 2 and" log' sh "$pages/suite.py"

check "another name of a code is found" is_found_outside code-25 's/^(os +)arm-trusted-firmware/\1tee/' 'the fields'
check "a code without its name is found" is_found_outside code-12 's/^(arch +)m68k/\112/' 'the fields'
check "a name for another code is found" is_found_outside code-13 's/^(os +)13/\1linux/' 'the fields'
check "another date is found by mkimage" is_found_outside mkimage-fit 's/^(date +....-)11/\112/' 'the fields'
check "another size is found by mkimage" is_found_outside board.itb 's/^(kernel-1 .*) 468/\1 469/' 'the fields'
check "another list is found by mkimage" is_found_outside signed.itb 's/fdt-a fdt-b/fdt-b fdt-a/' 'the fields'
check "another key is found by mkimage" is_found_outside signed.itb '/^.images/s/ dev / -   /' 'the signatures'
check "a wrong verdict is found by dumpimage" is_found_outside signed-changed \
    's/sha256:bad$/sha256:good/' 'by dumpimage, mkimage -l and hashlib'
check "a day too many is found by date" is_found_outside time-4107542400 's/2100-03-01/2100-02-29/' 'and by date'
finish
