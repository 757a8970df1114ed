"""Prints the listing of the image in standard input."""

import sys

import bootimg

file: bytes = sys.stdin.buffer.read()
text: str = bootimg.listing(file)
payload: memoryview = bootimg.extract_part(file)
assert bootimg.same_meaning(file, bootimg.normalise(memoryview(file))) and len(payload) > 0
print(text, end="")
