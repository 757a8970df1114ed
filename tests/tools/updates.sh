#!/bin/sh
# Compares updated images with those that mkimage makes. A source that dtc compiles, with its digests computed and its time set by
# update, means what mkimage makes of it: with payloads inside the blob and after it, with several configurations, and where the
# source has no values of hash nodes or wrong ones. A legacy image with another time is the one that mkimage makes at that time. Edits
# do what fdtput does, and a payload or a field that is replaced gives what mkimage makes with it in the first place. It needs Debian's
# u-boot-tools, device-tree-compiler and python3, and installs them if one is missing and it runs as root.
set -u

root=$(cd "$(dirname "$0")/../.." && pwd)
. "$root/tests/setup"
. "$root/tests/tools/sources"
need u-boot-tools mkimage
need device-tree-compiler dtc fdtget fdtput
need python3 python3
need_program
work_in_new_directory
export SOURCE_DATE_EPOCH=1700000000 PATH="$root:$PATH"

make_payloads
printf x > byte-1
cat > tree.its << END
/dts-v1/;
/memreserve/ 0x1000 0x20;
/ {
    description = "a tree";
    #address-cells = <1>;
    images {
$(kernel_node 'hash-1 { algo = "sha256"; };' 'hash-2 { algo = "crc32"; };' 'hash { algo = "sha384"; };')
$(ramdisk_node 'hash@1 { algo = "sha512"; };' 'hash@2 { algo = "sha1"; };')
        byte-1 { data = /incbin/("byte-1"); hash-1 { algo = "md5"; }; };
$(devicetree_node 'hash-1 { algo = "md5"; };')
    };
    configurations {
        default = "conf-2";
        conf-1 { kernel = "kernel-1"; ramdisk = "ramdisk-1"; fdt = "fdt-1"; };
        conf-2 { kernel = "kernel-1"; fdt = "fdt-1", "fdt-1"; };
        conf-3 { loadables = "byte-1"; hash-1 { algo = "crc32"; }; };
    };
};
END
# The same with a time, and with values that are zeros or too long.
sed 's/description = "a tree";/&  timestamp = <1>;/; s/algo = "sha256";/& value = <0 0 0 0 0 0 0 0>;/
    s/algo = "crc32"; };$/algo = "crc32"; value = <0>; };/
    s/algo = "md5";/& value = [00 01 02 03 04 05 06 07 08 09 0a 0b 0c 0d 0e 0f 10];/' tree.its |
    sed '/conf-3/s/ value = <0>;//' > zeros.its

# updates SOURCE OPTION..: the blob of the source, updated, means what mkimage makes of the source with these options, and is
# the normal form of that in either form.
updates() {
    source=$1
    shift
    mkimage -f "$source" "$@" made > log 2>&1 && dtc -q -I dts -O dtb -o blob "$source" || { cat log; return 1; }
    bootimg update --hashes --time 1700000000 blob > updated && bootimg compare updated made &&
        bootimg normalise made | cmp - updated &&
        bootimg update --external --hashes --time 1700000000 blob > updated &&
        bootimg normalise --external made | cmp - updated
}

for source in tree.its zeros.its; do
    check "$source" updates "$source"
    check "$source with payloads after the blob" updates "$source" -E
    check "$source with aligned payloads after the blob" updates "$source" -E -B 0x200
    check "$source with payloads at a position" updates "$source" -E -p 0x20000
done
check "the blob of a source alone means something else" sh -c 'dtc -q -I dts -O dtb -o blob tree.its && ! bootimg compare --quiet blob made'
check "its digests are not there" sh -c '! bootimg verify blob'
check "all digests are good after an update" sh -c 'bootimg update --hashes blob | bootimg verify | tail -n 1 |
    grep -Fx "summary good 7 bad 0 unknown-algorithm 0 no-payload 0 malformed 0"'
check "an image of mkimage keeps its digests" sh -c 'bootimg update --hashes made > updated && bootimg normalise made | cmp - updated'

# A payload that is exchanged, and then hashed again.
check "an image of mkimage with its payloads inside" sh -c 'mkimage -f tree.its made > log'
check "a payload is exchanged" fdtput -t s made /images/byte-1 data other
check "its digest is bad" sh -c 'bootimg verify made > report; [ $? = 1 ] && grep -F "byte-1 hash-1 md5 bad" report'
check "its digest is good after an update" sh -c 'bootimg update --hashes made | bootimg verify | grep -F "byte-1 hash-1 md5 good"'
for algo in md5 sha1 sha256 sha384 sha512; do
    sed "s/algo = \"md5\"/algo = \"$algo\"/" tree.its > algo.its
    check "mkimage with $algo" updates algo.its
done

# as_fdtput WORD FDTPUT..: the image of mkimage after the edit of this word, which begins with the name of an option, means what it does
# after fdtput with these arguments, where IMAGE is its name.
as_fdtput() {
    word=$1
    shift
    cp made IMAGE && fdtput "$@" && bootimg update "${word%%=*}" "${word#*=}" made > edited &&
        bootimg compare edited IMAGE && bootimg normalise IMAGE | cmp - edited && ! bootimg compare --quiet made edited
}
check "mkimage makes the image once more" sh -c 'mkimage -f tree.its made > log'
check "a number as by fdtput" as_fdtput '--set=/images/kernel-1 load 0x00009000' -t x IMAGE /images/kernel-1 load 9000
check "bytes as by fdtput" as_fdtput '--set=/images/kernel-1 load 0x00FF' -t bx IMAGE /images/kernel-1 load 0 ff
check "a text as by fdtput" as_fdtput '--set=/ description "say \"a\""' -t s IMAGE / description 'say "a"'
check "texts as by fdtput" as_fdtput '--set=/configurations/conf-2 fdt "fdt-1" "kernel-1"' \
    -t s IMAGE /configurations/conf-2 fdt fdt-1 kernel-1
check "a new property as by fdtput" as_fdtput '--set=/images/ramdisk-1 zstd-level 0x00000003' -t u IMAGE /images/ramdisk-1 zstd-level 3
check "a removed property as by fdtput" as_fdtput '--remove=/images/kernel-1 load' -d IMAGE /images/kernel-1 load
check "a removed node as by fdtput" as_fdtput '--remove=/images/kernel-1/hash-1' -r IMAGE /images/kernel-1/hash-1
check "a removed image as by fdtput" as_fdtput --remove=/images/byte-1 -r IMAGE /images/byte-1
# fdtput puts a new node before the others, so the order differs. That of single properties does not.
check "new nodes as by fdtput" sh -c 'cp made IMAGE && fdtput -p -t s IMAGE /images/byte-1/hash-2 algo sha256 &&
    bootimg update --set "/images/byte-1/hash-2 algo \"sha256\"" made > edited &&
    bootimg describe IMAGE | sort > one && bootimg describe edited | sort | cmp - one && bootimg get edited /images/byte-1/hash-2 algo |
    grep -Fx "\"sha256\""'

# Each property that describe prints can be set to what it prints, all at once.
check "what describe prints changes nothing" sh -c 'bootimg describe made | sed -n "s/^property //p" > words && test -s words &&
    sed "s/^/--set\n/" words | xargs -d "\n" sh -c "bootimg update \"\$@\" made" sh > same && bootimg normalise made | cmp - same'

# replaced OPTION..: a payload and its hashes that are replaced in an image of mkimage are what mkimage makes with the payload, in each
# form. With --keep-form payloads after the blob stay there, at multiples of what they were at.
replaced() {
    printf x > byte-1 && mkimage -f tree.its "$@" made > log && printf 'some other bytes' > byte-1 && cp byte-1 new &&
        mkimage -f tree.its "$@" wanted > log || return 1
    bootimg update --payload byte-1=@new --hashes made > edited 2> notes && bootimg normalise wanted | cmp - edited &&
        bootimg update --external --payload byte-1=@new --hashes made > edited 2>> notes &&
        bootimg normalise --external wanted | cmp - edited &&
        bootimg update --keep-form --payload byte-1=@new --hashes made > edited 2>> notes && bootimg compare wanted edited
}
check "a payload is replaced" replaced
check "it was inside the blob, and no note says otherwise" test ! -s notes
check "with --keep-form it still is" sh -c 'bootimg list edited | grep "^image byte-1 size 16 data at "'
check "a payload after the blob is replaced" replaced -E
check "the notes say that four are inside now" sh -c '
    head -n 1 notes | grep -Fx "bootimg: note: 4 payloads are inside the blob now, see --external"'
check "with --keep-form they are not" sh -c '[ "$(bootimg list edited | grep -c " data-offset at ")" = 4 ]'
check "a payload at a multiple of 512 is replaced" replaced -E -B 0x200
check "with --keep-form it is at one" sh -c 'bootimg list edited | sed -n "s/^image .* data-offset at //p" > places &&
    [ "$(wc -l < places)" = 4 ] && while read -r place; do [ $((place % 512)) = 0 ] || exit; done < places'
check "a payload at a position is replaced" replaced -E -p 0x20000
check "the positions are not kept" sh -c 'tail -n 1 notes | grep -Fx "bootimg: note: 4 fixed positions of payloads were not kept"'
printf x > byte-1

# fields_are_set WORD OPTION..: the first image with this new value is the one that mkimage makes with these options.
fields_are_set() {
    word=$1
    shift
    mkimage -A arm -O linux -T kernel -C none -a 0x8000 -e 0x8040 -n kernel "$@" -d kernel-1 wanted > log &&
        bootimg update --set "$word" first | cmp - wanted
}
mkimage -A arm -O linux -T kernel -C none -a 0x8000 -e 0x8040 -n kernel -d kernel-1 first > log
check "a load address" fields_are_set 'load 0x9000' -a 0x9000
check "an entry point" fields_are_set 'entry 0xffffffff' -e 0xffffffff
check "a name" fields_are_set 'name a%20name' -n 'a name'
check "an operating system" fields_are_set 'os netbsd' -O netbsd
check "an architecture" fields_are_set 'arch powerpc' -A powerpc
check "a compression" fields_are_set 'compression gzip' -C gzip
check "a part of a multi-file image" sh -c 'mkimage -A arm -O linux -T multi -C none -n parts -d kernel-1:byte-1 first > log &&
    mkimage -A arm -O linux -T multi -C none -n parts -d kernel-1:new wanted > log &&
    bootimg update --payload 1=@new first | cmp - wanted'

# time_is_set OPTION..: the image of mkimage with these options, with another time, is the one that it makes at that time.
time_is_set() {
    for time in 0 1 1700000000 4294967295; do
        SOURCE_DATE_EPOCH=$time mkimage "$@" wanted > log 2>&1 &&
            bootimg update --time "$time" first | cmp - wanted || { cat log; return 1; }
    done
}

mkimage -A arm -O linux -T kernel -C none -a 0x8000 -e 0x8040 -n kernel -d kernel-1 first > log
check "the time of a kernel" time_is_set -A arm -O linux -T kernel -C none -a 0x8000 -e 0x8040 -n kernel -d kernel-1
mkimage -A arm -O linux -T multi -C none -n parts -d kernel-1:byte-1 first > log
check "the time of a multi-file image" time_is_set -A arm -O linux -T multi -C none -n parts -d kernel-1:byte-1
check "a legacy image has no digests to update" sh -c 'bootimg update --hashes first | cmp - first'
check "its times are numbers below 2^32" sh -c 'bootimg update --time 4294967296 first > out 2> errors; [ $? = 2 ] &&
    echo "bootimg: usage: bad value" | cmp - errors'

# A tree that build-fit makes, and its time.
built() {
    printf helloabc | bootimg build-fit --description k "$@" kernel-1:kernel:arm:linux:none:0x8000:0x8000:5 \
        ramdisk-1:ramdisk:arm:linux:none:-:-:3
}
built > first
built --time 5 > wanted
check "the time of a tree that is built" sh -c 'bootimg update --time 5 first | cmp - wanted'
bootimg describe first > before
bootimg update --time 5 first | bootimg describe > after
check "is its only difference" sh -c 'diff before after | grep "^[<>]" | grep -v " property / timestamp 0x0000000[05]$"; [ $? = 1 ]'

# An image of the repository: its source, compiled and updated.
check "an example is its source" sh -c '
    for name in kernel ramdisk; do bootimg extract --image $name-1 "$1/board.itb" > "$name" || exit; done
    bootimg extract --config conf-2 --key fdt "$1/board.itb" > board.dtb && cp "$1/board.its" . &&
    dtc -q -I dts -O dtb board.its | bootimg update --hashes --time 1700000000 > updated &&
    [ "$(wc -c < updated)" = 1740 ] && bootimg normalise "$1/board.itb" | cmp - updated' sh "$root/examples"
finish
