"""Tries the module for Python on files that are not `bytes`.

buffers.py LIBRARY IMAGE: over the shared LIBRARY, each call does with IMAGE, in each kind of buffer, what it does with its bytes. It
copies no file, and after a call that failed a buffer can be closed while the exception is at hand. The last line is
`N passed, M failed`.
"""

import array
import mmap
import os
import sys
import tempfile
import tracemalloc
from pathlib import Path

sys.dont_write_bytecode = True
os.environ["BOOTIMG_LIBRARY"] = str(Path(sys.argv[1]).resolve())
sys.path.insert(0, str(Path(__file__).resolve().parents[3] / "python"))
import bootimg

file = Path(sys.argv[2]).read_bytes()
passed = failed = 0


def check(name, holds):
    global passed, failed
    passed += bool(holds)
    failed += not holds
    if not holds:
        print(f"FAILED: {name}")


def outcome(call, *arguments):
    """What a call returns, or the exception that it raises."""
    try:
        result = call(*arguments)
    except (bootimg.BootimgError, ValueError, TypeError) as error:
        return type(error), str(error)
    return bytes(result) if isinstance(result, memoryview) else result


def mapped(data, access):
    """A file of the system with these bytes, mapped to memory."""
    with tempfile.TemporaryFile() as target:
        target.write(data)
        target.flush()
        return mmap.mmap(target.fileno(), 0, access=access)


def is_same(kind, buffer, data):
    """Each call does with the buffer what it does with its bytes."""
    calls = [bootimg.kind, bootimg.normalise, bootimg.listing, bootimg.describe, bootimg.show, bootimg.verify, bootimg.check, bootimg.convert]
    for call in calls:
        check(f"{kind}: {call.__name__}", outcome(call, buffer) == outcome(call, data))
    check(f"{kind}: update", outcome(bootimg.update, buffer, 5, True) == outcome(bootimg.update, data, 5, True))
    check(f"{kind}: notes", outcome(bootimg.notes, buffer, 5, True) == outcome(bootimg.notes, data, 5, True))
    check(f"{kind}: extract_part", outcome(bootimg.extract_part, buffer) == outcome(bootimg.extract_part, data))
    check(f"{kind}: extract_image", outcome(bootimg.extract_image, buffer, "kernel-1") == outcome(bootimg.extract_image, data, b"kernel-1"))
    check(f"{kind}: extract_config", outcome(bootimg.extract_config, buffer) == outcome(bootimg.extract_config, data))
    for one, other in (buffer, data), (data, buffer), (buffer, buffer):
        check(f"{kind}: compare", outcome(bootimg.compare, one, other) == outcome(bootimg.compare, data, data))
        check(f"{kind}: same_meaning", outcome(bootimg.same_meaning, one, other) == outcome(bootimg.same_meaning, data, data))


inside = memoryview(bytearray(b"before" + file + b"after"))[6 : 6 + len(file)]
is_same("bytearray", bytearray(file), file)
is_same("memoryview of bytes", memoryview(file), file)
is_same("memoryview inside a bytearray", inside, file)
is_same("memoryview that is read-only", inside.toreadonly(), file)
is_same("mmap", mapped(file, mmap.ACCESS_WRITE), file)
is_same("mmap that is read-only", mapped(file, mmap.ACCESS_READ), file)
is_same("empty bytearray", bytearray(), b"")
is_same("empty memoryview", memoryview(b""), b"")
whole = file + bytes(-len(file) % 4)
is_same("memoryview of numbers", memoryview(array.array("I", whole)), whole)

# A view whose bytes are not one after the other is copied, and nothing can be a view of it.
doubled = memoryview(bytes(byte for one in file for byte in (one, 0)))[::2]
check("every second byte: listing", bootimg.listing(doubled) == bootimg.listing(file))
check("every second byte: same_meaning", bootimg.same_meaning(doubled, file))

# Without a copy: 64 MiB, of which a call that only reads them takes some KiB.
large = mapped(file + bytes(1 << 26), mmap.ACCESS_READ)
tracemalloc.start()
for call in (bootimg.kind, bootimg.listing, bootimg.verify, bootimg.extract_part, bootimg.extract_config):
    tracemalloc.reset_peak()
    outcome(call, large)
    check(f"{call.__name__} copies nothing", tracemalloc.get_traced_memory()[1] < 1 << 20)
tracemalloc.stop()

# What is extracted is a view of the buffer itself.
if bootimg.kind(file) == "legacy":
    part = bootimg.extract_part(large)
    check("a part is a view of the map", part.obj is large and bytes(part) == bytes(bootimg.extract_part(file)))
    part.release()

# A buffer is held during a call, and not by the exception.
cut = mapped(file[:20], mmap.ACCESS_READ)
try:
    bootimg.listing(cut)
    check("a file that is cut off is refused", False)
except bootimg.Refused:
    cut.close()
    check("it can be closed while the exception is at hand", cut.closed)
grown = bytearray(file)
bootimg.listing(grown)
grown.append(0)
check("a bytearray can grow after a call", len(grown) == len(file) + 1)
for wrong in "text", 5, None, [1, 2]:
    check(f"{wrong!r} is no file", outcome(bootimg.kind, wrong)[0] is TypeError)

# What the module has.
check("the version is that of the library", bootimg.__version__ == bootimg.version())
check("each public name is there", all(hasattr(bootimg, name) for name in bootimg.__all__))
print(f"{passed} passed, {failed} failed")
sys.exit(failed != 0)
