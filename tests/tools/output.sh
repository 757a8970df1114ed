#!/bin/sh
# Runs the program with -o in a directory. The output file is written as a whole or is as it was, and no other file is left. With --all
# a new directory has all files or is not there.
set -u

root=$(cd "$(dirname "$0")/../.." && pwd)
. "$root/tests/setup"
need_program
work_in_new_directory
bootimg=$root/bootimg
kernel=$root/examples/kernel.uimage
padded=$root/examples/kernel-padded.uimage
"$bootimg" list "$kernel" > listing
mkdir here
cd here || exit

# ends STATUS LINE ARGUMENT..: the program ends with this status, writes this line, or nothing, to standard error, and nothing to
# standard output.
ends() {
    status=$1
    line=$2
    shift 2
    "$bootimg" "$@" > ../output 2> ../errors
    [ $? = "$status" ] && [ ! -s ../output ] && [ "$(cat ../errors)" = "$line" ]
}

# holds FILE NAME..: the first of these names has the same bytes as FILE, and nothing else but these names is in the directory.
holds() {
    file=$1
    shift
    cmp "$file" "$1" && [ "$(ls -A | LC_ALL=C sort | tr '\n' ' ')" = "$* " ]
}

check "a new file is written" ends 0 "" list -o out "$kernel"
check "it has the output" holds ../listing out
echo old > out
check "a file is replaced" ends 0 "" list "$kernel" --output out
check "it has the output then" holds ../listing out
cp "$padded" out
check "the image itself is replaced" ends 0 "" normalise out -o out
check "by its normal form" holds "$kernel" out
echo old > ../old
cp ../old out
check "a refusal comes first" ends 2 "bootimg: ../old: BadMagic at 0" list -o out ../old
check "the file is as it was" holds ../old out
check "a directory that is not there" ends 2 "bootimg: none/out: write failed" list -o none/out "$kernel"
check "an empty name" ends 2 "bootimg: -: write failed" list -o "" "$kernel"
# Root makes a device of its own, since a wrong program that runs as root would replace /dev/null.
device=../device
mknod "$device" c 1 3 2> ../errors || device=/dev/null
check "a device" ends 2 "bootimg: $device: write failed" list -o "$device" "$kernel"
mkdir ../directory
check "a directory" ends 2 "bootimg: ../directory: write failed" list -o ../directory "$kernel"
check "with a slash after it" ends 2 "bootimg: ../directory/: write failed" list -o ../directory/ "$kernel"
check "nothing is left in it" rmdir ../directory
ln -s ../here/out ../link
check "a link" ends 2 "bootimg: ../link: write failed" list -o ../link "$kernel"
mkfifo ../pipe
check "a pipe" ends 2 "bootimg: ../pipe: write failed" list -o ../pipe "$kernel"
check "all is as it was" holds ../old out
echo mine > .bootimg-0
check "a name that is taken" ends 0 "" list -o out "$kernel"
check "is left" sh -c 'cmp ../listing out && [ "$(cat .bootimg-0)" = mine ] && [ "$(ls -A | wc -l)" = 2 ]'
rm .bootimg-0
rm out
check "an output with a name of new files" ends 0 "" list -o .bootimg-0 "$kernel"
check "is the only file" holds ../listing .bootimg-0
rm .bootimg-0
# A file of more than one block is over the limit. The shell ignores the signal, so that the write fails.
cp ../old out
check "a write that fails" sh -c 'trap "" XFSZ; ulimit -f 0; "$1" list -o out "$2" > ../output 2> ../errors; [ $? = 2 ]' sh \
    "$bootimg" "$kernel"
check "leaves the file as it was" holds ../old out

# has_mode MODE: these are the permissions of the output file, in octal.
has_mode() {
    [ "$(stat -c %a out)" = "$1" ]
}

rm out
check "a new file is written again" sh -c 'umask 027; exec "$@"' sh "$bootimg" list -o out "$kernel"
check "it has the permissions of a new file" has_mode 640
for mode in 600 444 755; do
    chmod "$mode" out
    check "a file of the mode $mode is replaced" ends 0 "" list -o out "$kernel"
    check "it keeps its permissions" has_mode "$mode"
done

# Each call on the new file fails in turn, as if the disk were full. The last one is that which stores what was written.
need gcc gcc
gcc -shared -fPIC -o ../failing_call.so "$root/tests/tools/output/failing_call.c" -ldl || finish
program=$root/crates/bootimg/out/bootimg

# stops_at CALL: the program fails if this call does.
stops_at() {
    FAILING_CALL=$1 LD_PRELOAD=../failing_call.so "$program" list -o out "$kernel" > ../output 2> ../errors
    [ $? = 2 ] && [ ! -s ../output ] && [ "$(cat ../errors)" = "bootimg: out: write failed" ]
}

cp ../old out
chmod 600 out
for call in fchmod write fsync rename; do
    check "if $call fails, so does the program" stops_at "$call"
    check "the file is as it was if $call fails" holds ../old out
done
chmod 644 out

# is_killed_at CALL COUNT ARGUMENT..: the program is killed at this call, after so many that succeed.
is_killed_at() {
    call=$1
    count=$2
    shift 2
    (FAILING_CALL=$call SUCCEEDING_CALLS=$count KILLED=1 LD_PRELOAD=../failing_call.so "$program" "$@"; exit $?) > ../output 2> ../errors
    [ $? = 137 ] && [ ! -s ../output ]
}

for call in write fsync rename; do
    check "killed at $call" is_killed_at "$call" 0 list -o out "$kernel"
    check "it leaves the file as it was, and its new file" sh -c 'cmp ../old out && [ "$(ls -A)" = ".bootimg-0
out" ]'
    check "the next run succeeds" ends 0 "" list -o out "$kernel"
    check "it has the output, and leaves the other file" sh -c 'cmp ../listing out && rm .bootimg-0 && [ "$(ls -A)" = out ]'
    cp ../old out
done

# Small pieces share a write: on average a write has at least 4 KiB. A line on standard error is one write, so the lines of two processes
# do not mix.

# writes NUMBER: prints how many bytes each write to the file with this number was given, in the last run of `counted`.
writes() {
    sed -n "s/^$1 //p" ../writes
}

# counted ARGUMENT..: runs the program, and keeps what each write was given.
counted() {
    rm -f ../writes
    WRITES=../writes LD_PRELOAD=../failing_call.so "$program" "$@" > ../output 2> ../errors
}

# are_large: the writes to standard output have at least 4 KiB on average, but for the last one, and are those of the output.
are_large() {
    counted list ../parts && [ "$(writes 1 | awk '{ sum += $1 } END { print sum }')" = "$(wc -c < ../output)" ] &&
        writes 1 | awk '{ sum += $1 } END { exit !(NR > 5 && sum >= 4096 * (NR - 1)) }'
}

# is_one_write NAME: the line about the file of this name, which is not there, is one write.
is_one_write() {
    ! counted list "$1" && [ "$(wc -c < ../errors)" -gt 900 ] && [ "$(writes 2)" = "$(wc -c < ../errors)" ]
}

# shellcheck disable=SC2046
noise 7 3000 | "$bootimg" build-legacy --os linux --arch arm --type multi -o ../parts $(yes 1 | head -n 3000)
check "small pieces share a write" are_large
check "a long line on standard error is one write" is_one_write "$(head -c 950 /dev/zero | tr '\0' n)"

# With --all a new directory has all files, or is not there.
two_parts=$root/examples/two-parts.uimage
for part in 0 1; do
    "$bootimg" extract --part $part "$two_parts" > "../part-$part"
done
mkdir ../there
cd ../there || exit

# is_left NAME..: nothing else but these names is in the directory.
is_left() {
    [ "$(ls -A | LC_ALL=C sort | tr '\n' ' ')" = "$*${*:+ }" ]
}

# has_parts DIRECTORY: the directory has the two parts, and nothing else.
has_parts() {
    cmp ../part-0 "$1/part-0" && cmp ../part-1 "$1/part-1" && [ "$(ls -A "$1" | tr '\n' ' ')" = "part-0 part-1 " ]
}

check "all parts are written" ends 0 "" extract --all -o out "$two_parts"
check "each has its file" has_parts out
check "nothing else is there" is_left out
check "a directory that is there" ends 2 "bootimg: out: write failed" extract --all -o out "$two_parts"
check "with a slash after it" ends 2 "bootimg: out/: write failed" extract --all -o out/ "$two_parts"
check "it is as it was" has_parts out
ln -s nowhere link
check "a link that leads nowhere" ends 2 "bootimg: link: write failed" extract --all -o link "$two_parts"
check "the link is left" is_left link out
mkdir empty
check "an empty directory" ends 2 "bootimg: empty: write failed" extract --all -o empty "$two_parts"
check "it is empty then" rmdir empty
rm -r out link
check "slashes at the end do not count" ends 0 "" extract --all -o out// "$two_parts"
check "each part has its file there" has_parts out
rm -r out
check "a refusal makes nothing" ends 2 "bootimg: ../old: BadMagic at 0" extract --all -o out ../old
check "a directory in one that is not there" ends 2 "bootimg: none/out: write failed" extract --all -o none/out "$two_parts"
check "the root" ends 2 "bootimg: /: write failed" extract --all -o / "$two_parts"
check "no name" ends 2 "bootimg: -: write failed" extract --all -o "" "$two_parts"
check "no directory is named" ends 2 "bootimg: usage: bad value" extract --all "$two_parts"
check "nothing was made" is_left
mkdir .bootimg-0
check "a name of a new directory that is taken" ends 0 "" extract --all -o out "$two_parts"
check "is left, too" is_left .bootimg-0 out
rm -r .bootimg-0 out
check "a hyphen is a name" ends 0 "" extract --all -o - "$two_parts"
check "it has the parts" has_parts ./-
rm -r ./-
check "a full disk" sh -c 'trap "" XFSZ; ulimit -f 0; "$1" extract --all -o out "$2" > ../output 2> ../errors; [ $? = 2 ]' sh \
    "$bootimg" "$two_parts"
check "leaves nothing" is_left

# The files of a FIT have the names of its images, so that each is a plain name.
code=kernel:arm:linux:none:0:0
printf helloxpqrs | "$bootimg" build-fit -o ../fit -- a:$code:5 b:$code:0 c:$code:1 "x y:$code:1" -:$code:1 ..:$code:1 .a:$code:1
check "all payloads of a FIT are written" ends 0 "" extract --all -o out ../fit
(cd out && grep -r "" . || true) | LC_ALL=C sort > ../contents
printf '%s\n' ./%2D:q ./%2E.:r ./%2Ea:s ./a:hello ./c:x ./x%20y:p > ../wanted
check "each has the file of its name" cmp ../wanted ../contents
check "an empty payload has an empty file" sh -c '[ -f out/b ] && [ ! -s out/b ] && [ "$(ls -A out | wc -l)" = 7 ]'
rm -r out
"$bootimg" build-fit -o ../empty < /dev/null
check "a FIT without a payload" ends 0 "" extract --all -o out ../empty
check "has an empty directory" rmdir out
(printf before && cat "$two_parts") > ../inside
check "an image at an offset" ends 0 "" extract --all --offset 6 -o out ../inside
check "has its parts" has_parts out
rm -r out
name=$(head -c 300 /dev/zero | tr '\0' n)
printf xy | "$bootimg" build-fit -o ../long a:$code:1 "$name:$code:1"
check "a name that is too long for a file" ends 2 "bootimg: out: write failed" extract --all -o out ../long
# The third payload becomes the first one: the file is shorter than its payloads together.
noise 3 6000 | "$bootimg" build-fit a:$code:2000 b:$code:2000 c:$code:2000 | "$bootimg" normalise --external |
    python3 -c 'import sys; sys.stdout.buffer.write(sys.stdin.buffer.read().replace(b"\0\0\x0f\xa0", bytes(4))[:-2000])' > ../shared
check "payloads that are together over the limit" ends 2 "bootimg: ../shared: TooLarge at 5999" extract --all --limit 5999 -o out ../shared
check "two selections" ends 2 "bootimg: usage: give one of --part, --image, --config" extract --all --part 0 -o out "$two_parts"
check "a bad value of an option without effect" ends 2 "bootimg: usage: bad value" extract --all --key dtb -o out "$two_parts"
check "leave nothing" is_left
check "payloads that are just as long" ends 0 "" extract --all --limit 6000 -o out ../shared
check "have their files" sh -c 'cmp out/a out/c && [ "$(cat out/* | wc -c)" = 6000 ]'
rm -r out

# stops_unpacking CALL COUNT: the program fails if this call does after so many that succeed.
stops_unpacking() {
    FAILING_CALL=$1 SUCCEEDING_CALLS=$2 LD_PRELOAD=../failing_call.so "$program" extract --all -o out "$two_parts" > ../output 2> ../errors
    [ $? = 2 ] && [ ! -s ../output ] && [ "$(cat ../errors)" = "bootimg: out: write failed" ]
}

for failing in "mkdir 0" "mkdir 1" "write 0" "write 1" "fsync 0" "fsync 1" "rename 0"; do
    # shellcheck disable=SC2086
    check "if $failing fails, so does the program" stops_unpacking $failing
    check "nothing is left if $failing fails" is_left
done

# A program that is killed leaves a directory with all files, or none with its name. Its new directory can be left.
check "killed before anything is made" is_killed_at mkdir 0 extract --all -o out "$two_parts"
check "it leaves nothing" is_left
for killing in "write 0" "fsync 0" "write 1" "fsync 1" "mkdir 1"; do
    # shellcheck disable=SC2086
    check "killed at $killing" is_killed_at $killing extract --all -o out "$two_parts"
    check "it leaves its new directory" is_left .bootimg-0
    check "the next run succeeds" ends 0 "" extract --all -o out "$two_parts"
    check "it has the parts" has_parts out
    check "the other directory is left" is_left .bootimg-0 out
    rm -r out .bootimg-0
done
check "killed between the last two calls" is_killed_at rename 0 extract --all -o out "$two_parts"
check "it leaves an empty directory, too" rmdir out
check "its new directory has the parts" has_parts .bootimg-0
rm -r .bootimg-0

# The second file cannot be written whole: a file of more than some blocks is over the limit.
noise 3 100 > ../first
noise 4 5000 > ../second
"$bootimg" build-legacy --os linux --arch arm --type multi -o ../uneven @../first @../second
check "a disk that is full after a while" sh -c \
    'trap "" XFSZ; ulimit -f 2; "$1" extract --all -o out ../uneven > ../output 2> ../errors; [ $? = 2 ]' sh "$bootimg"
check "leaves nothing either" is_left

# An image with many parts takes a while. At random moments of it the program is killed.
parts=300
# shellcheck disable=SC2046
noise 5 $parts | "$bootimg" build-legacy --os linux --arch arm --type multi -o ../many $(yes 1 | head -n $parts)
start=$(date +%s%N)
check "many parts are written" "$program" extract --all -o out ../many
end=$(date +%s%N)
check "each part has one file" test "$(cat out/* | wc -c)" = $parts
rm -r out

# is_whole_or_missing: the directory has all files, or is empty for a moment, or is not there.
is_whole_or_missing() {
    [ ! -e out ] || [ -z "$(ls -A out)" ] || [ "$(cat out/* | wc -c)" = $parts ]
}

left=0
for moment in $(noise 6 20 | od -An -v -t u1); do
    timeout -s KILL "$(awk "BEGIN { print $moment / 256 * ($end - $start) / 1e9 + 0.0001 }")" "$program" extract --all -o out ../many
    check "killed after $moment of 256 parts of the time" is_whole_or_missing
    [ ! -e .bootimg-0 ] || left=$((left + 1))
    rm -rf out .bootimg-0
done 2> ../errors
check "some kills leave the new directory" test "$left" != 0
check "nothing else is left by a kill" is_left
cd ../here || exit

# A Makefile builds, checks, compares and installs an image. Neither a refusal nor a full disk changes a file.
need make make
mkdir ../made ../made/boot
cd ../made || exit
"$bootimg" extract --part 0 "$kernel" > kernel
noise 1 5000 > ramdisk
cat > Makefile << 'END'
image.itb: kernel ramdisk
	$(BOOTIMG) build-fit kernel-1:kernel:arm64:linux:none:0x80080000:0x80080000:@kernel ramdisk-1:ramdisk:arm64:linux:none:-:-:@ramdisk -o $@
check: image.itb
	$(BOOTIMG) check image.itb
compare: image.itb
	$(BOOTIMG) compare --quiet release.itb image.itb
install: check
	$(BOOTIMG) normalise --external image.itb -o boot/image.itb
END

# makes TARGET..: make succeeds with these targets.
makes() {
    make BOOTIMG="$bootimg" "$@"
}

# fails LINE TARGET..: make fails with these targets, and what it runs prints this line.
fails() {
    line=$1
    shift
    ! make BOOTIMG="$bootimg" "$@" > output 2>&1 && grep -Fqx "$line" output
}

# fails_on_full_disk LINE TARGET..: the same where no file can grow.
fails_on_full_disk() {
    line=$1
    shift
    ! lines=$(trap "" XFSZ && ulimit -f 0 && make BOOTIMG="$bootimg" "$@" 2>&1) && echo "$lines" | grep -Fqx "$line"
}

# is_installed FILE: what is installed has these bytes, and no other file is beside it.
is_installed() {
    cmp "$1" boot/image.itb && [ "$(ls -A boot)" = image.itb ]
}

check "an image is made" makes image.itb
cp image.itb release.itb
check "it is checked, compared and installed" makes check compare install
"$bootimg" normalise --external release.itb > external
check "its normal form is installed" is_installed external
noise 2 4000 > ramdisk
check "an image that differs stops a comparison" fails "make: *** [Makefile:6: compare] Error 1" compare
cp image.itb other.itb
printf damaged > image.itb
check "a refusal stops an installation" fails "bootimg: image.itb: BadMagic at 0" install
check "what is installed is as it was" is_installed external
cp other.itb image.itb
check "so does a full disk" fails_on_full_disk "bootimg: boot/image.itb: write failed" install
check "what is installed is as it was then" is_installed external
check "an image is not made on a full disk" fails_on_full_disk "bootimg: image.itb: write failed" -B image.itb
check "the one that was made is as it was" cmp other.itb image.itb
check "the other image is installed" makes install
"$bootimg" normalise --external other.itb > external
check "its normal form is installed then" is_installed external
finish
