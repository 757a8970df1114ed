#!/bin/sh
# Compares checksums and digests with those of python3's zlib and hashlib. The program accepts images whose checksums are
# zlib's, and writes the same checksums itself; it refuses them with one bit changed. The digests of hash nodes are compared
# by tests that the script writes, beside those of tests/calls/library/algo.rt.source. The data have all lengths around the steps and
# buffers, and some megabytes. The script needs python3, and installs Debian's if it is missing and the script runs as root.
set -u

root=$(cd "$(dirname "$0")/../.." && pwd)
. "$root/tests/kit"

need python3 python3
need_program
work_in_new_directory

# image SEED LENGTH: a kernel image with random data of this length, whose checksums are zlib's.
image() {
    python_with_blobs -c 'import random, sys
from blobs import legacy_image
seed, length = map(int, sys.argv[1:])
data = random.Random(seed).getrandbits(8 * length + 1).to_bytes(length + 1, "big")[:length]
sys.stdout.buffer.write(legacy_image(data, b"checksum", 2, 0x8000, 0x8000))' "$@"
}

# flip IMAGE OFFSET BIT: the image with this bit of the byte at this offset changed.
flip() {
    python3 -c 'import sys
image = bytearray(open(sys.argv[1], "rb").read())
image[int(sys.argv[2])] ^= 1 << int(sys.argv[3])
sys.stdout.buffer.write(image)' "$@"
}

# accepts IMAGE: the program lists the image, and its normal form is the image itself.
accepts() {
    "$root/bootimg" list < "$1" > output && "$root/bootimg" normalise < "$1" > output && cmp "$1" output
}

# both_refuse LINE IMAGE: list and normalise write nothing, print this line and end with status 2.
both_refuse() {
    refuses "$@" list && refuses "$@" normalise
}

# compare LENGTH: an image with data of this length, as it is and with one bit of the header and of the data changed.
compare() {
    image "$1" "$1" > image
    check "the checksums over $1 bytes are those of zlib" accepts image
    flip image 16 0 > flipped
    check "a changed bit of the header before $1 bytes is found" both_refuse "BadHeaderCrc at 4" flipped
    [ "$1" -gt 0 ] || return
    for offset in 0 $(($1 / 2)) $(($1 - 1)); do
        flip image $((64 + offset)) $((offset % 8)) > flipped
        check "a changed bit at $offset of $1 bytes is found" both_refuse "BadDataCrc at 24" flipped
    done
}

length=0
while [ "$length" -le 20 ]; do
    compare "$length"
    length=$((length + 1))
done
for length in 4095 4096 4097 65471 65472 65473 65535 65536 65537; do
    compare "$length"
done
compare 5000003

# digest_tests: a module with a test for each length, which compares the digest by each algorithm with that of zlib or hashlib. The test
# makes the same bytes as python3 does.
digest_tests() {
    python3 -c 'import hashlib, zlib
longest = 3000001
state, data = 1, bytearray()
for _ in range(longest):
    state = (state * 1664525 + 1013904223) % 2**32
    data.append(state >> 24)
print("""use crate::algo::hex_digest;
use bi_hash::Algo;
use std::alloc::Global;
use std::test::Fail;

/// The first bytes of a linear congruential generator.
fn generated(alloc: Global, length: usize) -> Result<Vec<u8>, Fail> {
    let mut bytes = Vec::with_capacity(alloc, length)?;
    let mut state = 1u32;
    for _ in 0..length {
        state = state.wrapping_mul(1664525).wrapping_add(1013904223);
        bytes.push((state >> 24) as u8)?;
    }
    Ok(bytes)
}""")
for length in 0, 1, 4095, 4096, 4097, 8191, 8192, 8193, 65537, longest:
    payload = bytes(data[:length])
    print("#[test] fn digests_of_%d_bytes(rt: HostRuntime) -> Result<(), Fail> {" % length)
    print("    let payload = generated(rt.alloc(), %d)?;" % length)
    digests = [("Crc32", "%08x" % zlib.crc32(payload))]
    for name in "md5", "sha1", "sha256", "sha384", "sha512":
        digests.append((name.capitalize(), hashlib.new(name, payload).hexdigest()))
    for algo, digest in digests:
        print("    let digest = hex_digest(rt.alloc(), Algo::%s, &payload)?;" % algo)
        print("    assert_eq!(rt; digest.as_str(), \"%s\", \"%s\");" % (digest, algo))
    print("    Ok(())\n}")'
}

test_crate digest_tests "bi_hash bi_base md5 sha1 sha2"
link_tests library algo
digest_tests > "$crate/src/digests.rt"
test_modules algo digests
try_crate --steps 20000000 --seconds 300 < /dev/null > log 2>&1
for length in 0 1 4095 4096 4097 8191 8192 8193 65537 3000001; do
    check "the digests of $length bytes are those of zlib and hashlib" \
        grep -Fqx "test digests::digests_of_${length}_bytes ... ok" log
done
[ "$failed" = 0 ] || cat log

finish
