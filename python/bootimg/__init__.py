# SPDX-License-Identifier: MIT
# Copyright (c) 2026 the bootimg authors
"""Boot images of U-Boot: legacy images and FITs (flattened image trees).

The functions take the bytes of a file and return bytes or text. They call the shared library of
bootimg, which is proved: two accepted images of the same kind have the same normal form if and only
if they mean the same thing. This module itself is tested and not proved. Functions may be called
from several threads.

A file is `bytes` or any other object with a contiguous buffer: a `bytearray`, a `memoryview`, an
`mmap`. It is not copied. Its bytes must not change during a call.

`limit` is the greatest number of bytes of a file, and of an image, payload or description that is
made: 64 to LIMIT. `depth` is the greatest depth of a FIT, including the root: 1 to DEPTH. A call
raises Refused if a file is refused: with TooLarge for a file that is longer than `limit`, or else
with the cause of the first check of its format that fails. It raises WrongArgument if a number is
out of its range or a name is unknown, NotFound if there is nothing to extract, and
OutOfMemory if an allocation fails.

`python3 -m bootimg COMMAND ..` writes what `bootimg COMMAND ..` writes, and ends with the same
status. It lacks `-o`, `--escaped`, `--offset`, `--all` and the options of `update` that edit, and
its message about wrong arguments is different. It also takes names that are not UTF-8. `python3 -m
bootimg --help` lists its commands.

The module loads the library that the environment variable BOOTIMG_LIBRARY names, if it is set, or
else libbootimg.so next to this file, if it is there, or else libbootimg.so.0 of the system.
"""

from __future__ import annotations

import argparse
import contextlib
import ctypes
import io
import mmap
import os
import re
import struct
import sys
from typing import Any, Iterable, Iterator, NamedTuple, TypeVar, overload

__version__ = "0.4.0"
__all__ = [
    "ALGORITHMS",
    "ARGUMENTS",
    "Buffer",
    "BuildConfiguration",
    "BuildImage",
    "BuildTexts",
    "BootimgError",
    "CODES",
    "CONCERNS",
    "Code",
    "Comparison",
    "Concern",
    "Configuration",
    "DEPTH",
    "EditNotes",
    "FitHeader",
    "FitImage",
    "Hash",
    "Image",
    "KEYS",
    "LIMIT",
    "LegacyHeader",
    "Node",
    "NotFound",
    "Notes",
    "OutOfMemory",
    "Part",
    "REASONS",
    "Refused",
    "Report",
    "Reservation",
    "VALUE_FORMS",
    "VERDICTS",
    "Value",
    "Verification",
    "WrongArgument",
    "build_fit",
    "build_legacy",
    "cause_name",
    "check",
    "check_json",
    "code_name",
    "code_number",
    "compare",
    "compare_json",
    "convert",
    "describe",
    "describe_json",
    "edit",
    "edit_notes",
    "explain",
    "extract_config",
    "extract_image",
    "extract_part",
    "get",
    "kind",
    "listing",
    "listing_json",
    "normalise",
    "normalise_and_count",
    "notes",
    "open",
    "same_meaning",
    "scan",
    "scan_json",
    "show",
    "show_json",
    "update",
    "update_and_count",
    "verify",
    "verify_json",
    "version",
]

# What a file may be.
Buffer = bytes | bytearray | memoryview | mmap.mmap

LIMIT = 0x7FFFFFFF
DEPTH = 64
CONCERNS = (
    "bad-hash",
    "unhashed",
    "weak-hash",
    "bad-list",
    "missing",
    "bad-default",
    "trailing",
    "skipped-hash",
    "unsigned",
    "no-nodes",
    "no-images",
    "uncovered",
    "foreign",
    "strings",
    "unit-address",
)
VERDICTS = ("good", "bad", "unknown-algorithm", "no-payload", "malformed")
KEYS = ("kernel", "fdt", "ramdisk", "firmware", "loadables", "script")
ALGORITHMS = ("crc32", "md5", "sha1", "sha256", "sha384", "sha512")
REASONS = (
    "the selection does not fit this kind of image",
    "no such part",
    "no such image",
    "no such configuration",
    "no such key",
    "bad list",
    "missing image",
    "no such entry",
    "no payload",
    "no such node",
    "no such property",
    "no text",
    "no number",
    "no name",
    "no code",
    "bad word",
    "bad edit",
    "nothing to remove",
)
ARGUMENTS = (
    "options",
    "limit",
    "depth",
    "form",
    "changes",
    "layout",
    "kinds",
    "key",
    "field",
    "code",
    "number",
    "place",
    "fields",
    "parts",
    "words",
    "edits",
    "images",
    "texts",
    "lists",
    "algorithms",
    "configurations",
)
_ARRAYS = ARGUMENTS[ARGUMENTS.index("parts") :]
VALUE_FORMS = ("shown", "text", "number", "raw")

_OK, _REFUSED, _OUT_OF_MEMORY, _NO_ROOM, _WRONG_ARGUMENT, _NOT_FOUND = range(6)
_MISSING = 7
_BAD_WORD = 16
_BAD_EDIT = 17
_FINDS_NOTHING = 18
_SIGNED = 32768


class BootimgError(Exception):
    """Why a call failed."""


class _Unread(BootimgError):
    """A file cannot be read."""


class _BadWord(BootimgError):
    """A word for what is left out names nothing. `index` is its index, counted from 0."""

    def __init__(self, index: int) -> None:
        super().__init__(f"bad word {index}")
        self.index = index


class _BadEdit(BootimgError):
    """The word of an edit is for none, or the edit finds nothing. `index` is its index, counted
    from 0."""

    def __init__(self, index: int, is_word: bool) -> None:
        super().__init__(f"bad edit {index}")
        self.index = index
        self.is_word = is_word


class Refused(BootimgError):
    """A file is refused. `cause` is the name of the cause, and `number` its number, 1 to 26.
    `offset` is its offset in the file in bytes, and for TooLarge the limit. `file` is the index of
    the file in the call, counted from 1."""

    def __init__(self, cause: str, number: int, offset: int, file: int) -> None:
        super().__init__(f"{cause} at {offset}")
        self.cause = cause
        self.number = number
        self.offset = offset
        self.file = file


class OutOfMemory(BootimgError, MemoryError):
    """An allocation failed."""


class WrongArgument(BootimgError, ValueError):
    """A number is out of the range of its argument, or a name is unknown. `argument` is the name of
    the argument: one of ARGUMENTS, or of another number or name that the module looks at itself.
    `index` is None, or, if the argument is several values, such as words, the index of the first
    wrong one, counted from 0. Of `edit` it is the index in its parameter."""

    def __init__(self, argument: str, shown: str | None = None, index: int | None = None) -> None:
        super().__init__(f"wrong argument: {argument if shown is None else shown}")
        self.argument = argument
        self.index = index


class NotFound(BootimgError, LookupError):
    """What a call looks for is not there. `reason` is one of REASONS. `index` is None, or counted
    from 0: for "missing image" the index of the first name that no image has, and of `edit` the
    index of the first edit that finds nothing, in its parameter."""

    def __init__(self, reason: str, index: int | None) -> None:
        super().__init__(reason if index is None else f"{reason} {index}")
        self.reason = reason
        self.index = index


class Report(NamedTuple):
    """The report on the checksums and digests of a file, and whether all verdicts in it are good,
    even if there is none."""

    text: str
    all_good: bool


class Notes(NamedTuple):
    """What a user should know about a normal form beyond what it means. `signatures` is the number
    of signature nodes, which are kept and not checked. The others are for a FIT in the external
    form, without an alignment: `lost_alignment` is the alignment in bytes that the payloads after
    the blob have in the file, if one of them loses it, or None, and `lost_positions` is the number
    of fixed positions of payloads that are not kept."""

    signatures: int
    lost_alignment: int | None
    lost_positions: int


class Comparison(NamedTuple):
    """Whether two files mean the same thing, and what differs."""

    same: bool
    differences: str


class _Answer(ctypes.Structure):
    _fields_ = [
        ("size", ctypes.c_size_t),
        ("value", ctypes.c_size_t),
        ("cause", ctypes.c_uint32),
        ("offset", ctypes.c_uint32),
        ("file", ctypes.c_uint32),
        ("reason", ctypes.c_uint32),
    ]


class _Region(ctypes.Structure):
    _fields_ = [("offset", ctypes.c_size_t), ("size", ctypes.c_size_t)]


class _LegacyFields(ctypes.Structure):
    _fields_ = [
        ("name", _Region),
        ("time", ctypes.c_uint32),
        ("load", ctypes.c_uint32),
        ("entry", ctypes.c_uint32),
        ("os", ctypes.c_uint8),
        ("arch", ctypes.c_uint8),
        ("image_type", ctypes.c_uint8),
        ("compression", ctypes.c_uint8),
    ]


class _NoteNumbers(ctypes.Structure):
    _fields_ = [
        ("signatures", ctypes.c_size_t),
        ("lost_positions", ctypes.c_size_t),
        ("lost_alignment", ctypes.c_uint32),
    ]


class _BuildElement(ctypes.Structure):
    _fields_ = [
        ("name", _Region),
        ("payload", _Region),
        ("load", ctypes.c_uint32),
        ("entry", ctypes.c_uint32),
        ("addresses", ctypes.c_uint32),
        ("os", ctypes.c_uint8),
        ("arch", ctypes.c_uint8),
        ("image_type", ctypes.c_uint8),
        ("compression", ctypes.c_uint8),
    ]


class _Range(ctypes.Structure):
    _fields_ = [("first", ctypes.c_size_t), ("count", ctypes.c_size_t)]


class _BuildTexts(ctypes.Structure):
    _fields_ = [
        ("description", _Region),
        ("image_type", _Region),
        ("arch", _Region),
        ("os", _Region),
        ("compression", _Region),
        ("given", ctypes.c_uint32),
    ]


class _BuildConfiguration(ctypes.Structure):
    _fields_ = [
        ("name", _Region),
        ("description", _Region),
        ("compatible", _Range),
        ("kernel", _Range),
        ("fdt", _Range),
        ("ramdisk", _Range),
        ("firmware", _Range),
        ("loadables", _Range),
        ("script", _Range),
        ("given", ctypes.c_uint32),
    ]


class _BuildOptions(ctypes.Structure):
    _fields_ = [
        ("size", ctypes.c_size_t),
        ("description", _Region),
        ("default_name", _Region),
        ("time", ctypes.c_uint32),
        ("form", ctypes.c_uint32),
        ("limit", ctypes.c_uint32),
        ("depth", ctypes.c_uint32),
        ("given", ctypes.c_uint32),
    ]


class _HashElement(ctypes.Structure):
    _fields_ = [
        ("image", _Region),
        ("node", _Region),
        ("algorithm", _Region),
        ("value", _Region),
        ("verdict", ctypes.c_uint32),
    ]


class _ConcernElement(ctypes.Structure):
    _fields_ = [
        ("name", _Region),
        ("node", _Region),
        ("algorithm", _Region),
        ("index", ctypes.c_size_t),
        ("size", ctypes.c_size_t),
        ("kind", ctypes.c_uint32),
        ("verdict", ctypes.c_uint32),
        ("key", ctypes.c_uint32),
    ]


class _TreeElement(ctypes.Structure):
    _fields_ = [
        ("name", _Region),
        ("value", _Region),
        ("depth", ctypes.c_uint32),
        ("kind", ctypes.c_uint32),
    ]


_Element = TypeVar("_Element", bound=ctypes.Structure)

_FILE = [ctypes.c_void_p, ctypes.c_size_t]
_NUMBER = [ctypes.c_uint32]
_BUFFER = [ctypes.c_void_p, ctypes.c_size_t]
_CALLS = {
    "kind": _FILE,
    "normalise": _FILE + _NUMBER * 3 + _BUFFER,
    "update": _FILE + _NUMBER * 5 + _BUFFER,
    "notes": _FILE + _NUMBER * 5 + [ctypes.c_void_p],
    "edit": _FILE * 3 + _NUMBER * 3 + _BUFFER,
    "edit_notes": _FILE * 3 + _NUMBER * 3 + [ctypes.c_void_p],
    "extract_part": _FILE + _NUMBER * 3,
    "extract_image": _FILE * 2 + _NUMBER * 2,
    "extract_config": _FILE * 2 + _NUMBER * 4,
    "extract_default": _FILE + _NUMBER * 4,
    "list": _FILE + _NUMBER * 2 + _BUFFER,
    "list_json": _FILE + _NUMBER * 2 + _BUFFER,
    "describe": _FILE + _NUMBER * 2 + _BUFFER,
    "describe_json": _FILE + _NUMBER * 2 + _BUFFER,
    "describe_deep": _FILE + _NUMBER * 2 + _BUFFER,
    "describe_deep_json": _FILE + _NUMBER * 2 + _BUFFER,
    "scan": _FILE + _NUMBER * 2 + _BUFFER,
    "scan_json": _FILE + _NUMBER * 2 + _BUFFER,
    "show": _FILE + _NUMBER * 3 + _BUFFER,
    "show_json": _FILE + _NUMBER * 2 + _BUFFER,
    "verdicts": _FILE + _NUMBER * 2 + _BUFFER,
    "concerns": _FILE + _NUMBER * 3 + _BUFFER,
    "nodes": _FILE + _NUMBER * 2 + _BUFFER,
    "get": _FILE * 3 + _NUMBER * 3 + _BUFFER,
    "verify": _FILE + _NUMBER * 2 + _BUFFER,
    "verify_json": _FILE + _NUMBER * 2 + _BUFFER,
    "check": _FILE + _NUMBER * 3 + _BUFFER,
    "check_json": _FILE + _NUMBER * 3 + _BUFFER,
    "convert": _FILE + _NUMBER * 2 + _BUFFER,
    "same_meaning": _FILE * 2 + _NUMBER * 2,
    "compare": _FILE * 2 + _NUMBER * 2 + _BUFFER,
    "compare_json": _FILE * 2 + _NUMBER * 2 + _BUFFER,
    "compare_ignoring": _FILE * 4 + _NUMBER * 2 + _BUFFER,
    "compare_ignoring_json": _FILE * 4 + _NUMBER * 2 + _BUFFER,
    "compare_deep": _FILE * 4 + _NUMBER * 2 + _BUFFER,
    "compare_deep_json": _FILE * 4 + _NUMBER * 2 + _BUFFER,
    "build_fit_as": _FILE + [ctypes.c_void_p] + _FILE * 5 + _BUFFER,
    "build_legacy": _FILE + [ctypes.c_void_p] + _FILE + _NUMBER * 2 + _BUFFER,
    "code_name": _NUMBER * 2 + _BUFFER,
    "code_number": _NUMBER + _FILE,
    "cause_name": _NUMBER + _BUFFER,
    "explain": _NUMBER + _BUFFER,
    "version": _BUFFER,
}


def _load() -> ctypes.CDLL:
    beside = os.path.join(os.path.dirname(os.path.abspath(__file__)), "libbootimg.so")
    found = beside if os.path.exists(beside) else "libbootimg.so.0"
    library = ctypes.CDLL(os.environ.get("BOOTIMG_LIBRARY") or found)
    for name, arguments in _CALLS.items():
        function = getattr(library, "bootimg_" + name)
        function.argtypes = [*arguments, ctypes.POINTER(_Answer)]
        function.restype = ctypes.c_uint32
    return library


_library = _load()


def _number(number: int, argument: str) -> int:
    """Returns a number that C can take. Raises WrongArgument for any other number."""
    if not 0 <= number <= 0xFFFFFFFF:
        raise WrongArgument(argument)
    return number


def _bounds(limit: int, depth: int) -> tuple[int, int]:
    """Returns the limits that C takes."""
    return _number(limit, "limit"), _number(depth, "depth")


def _index_of(name: str, names: tuple[str, ...], argument: str, index: int | None = None) -> int:
    """Returns the number of a name that C passes as a number. `index` is that of the name, if it is
    an element of its argument."""
    if name not in names:
        raise WrongArgument(argument, repr(name), index)
    return names.index(name)


def _raise(status: int, answer: _Answer) -> None:
    if status == _REFUSED:
        raise Refused(cause_name(answer.cause), answer.cause, answer.offset, answer.file)
    if status == _OUT_OF_MEMORY:
        raise OutOfMemory("out of memory")
    if status == _WRONG_ARGUMENT:
        argument = ARGUMENTS[answer.reason - 1]
        raise WrongArgument(argument, index=answer.value if argument in _ARRAYS else None)
    if status == _NOT_FOUND and answer.reason == _BAD_WORD:
        raise _BadWord(answer.value)
    if status == _NOT_FOUND and answer.reason in (_BAD_EDIT, _FINDS_NOTHING):
        raise _BadEdit(answer.value, answer.reason == _BAD_EDIT)
    if status == _NOT_FOUND:
        index = answer.value if answer.reason == _MISSING else None
        raise NotFound(REASONS[answer.reason - 1], index)


class _PyBuffer(ctypes.Structure):
    """`Py_buffer` of Python's interface for C."""

    _fields_ = [
        ("buf", ctypes.c_void_p),
        ("obj", ctypes.c_void_p),
        ("len", ctypes.c_ssize_t),
        ("itemsize", ctypes.c_ssize_t),
        ("readonly", ctypes.c_int),
        ("ndim", ctypes.c_int),
        ("format", ctypes.c_void_p),
        ("shape", ctypes.c_void_p),
        ("strides", ctypes.c_void_p),
        ("suboffsets", ctypes.c_void_p),
        ("internal", ctypes.c_void_p),
    ]


_get_buffer = ctypes.pythonapi.PyObject_GetBuffer
_get_buffer.argtypes = [ctypes.py_object, ctypes.POINTER(_PyBuffer), ctypes.c_int]
_release_buffer = ctypes.pythonapi.PyBuffer_Release
_release_buffer.argtypes = [ctypes.POINTER(_PyBuffer)]
_release_buffer.restype = None


@contextlib.contextmanager
def _arguments_for(files: tuple[Buffer, ...]) -> Iterator[list[Any]]:
    """The arguments for C that pass these files. The bytes of the files stay where they are until
    the context ends. Only a view that is not contiguous is copied."""
    arguments: list[Any] = []
    views: list[_PyBuffer] = []
    try:
        for file in files:
            if isinstance(file, memoryview) and not file.c_contiguous:
                file = bytes(file)
            if isinstance(file, bytes):
                arguments += [file, len(file)]
                continue
            view = _PyBuffer()
            _get_buffer(file, view, 0)
            views.append(view)
            arguments += [view.buf, view.len]
        yield arguments
    finally:
        for view in views:
            _release_buffer(view)


def _size_of(file: Buffer) -> int:
    """The number of bytes of a file."""
    with memoryview(file) as view:
        return view.nbytes


def _call(name: str, files: tuple[Buffer, ...], *numbers: int) -> _Answer:
    """Calls a function without a buffer, and returns the struct that it sets."""
    answer = _Answer()
    with _arguments_for(files) as arguments:
        status = getattr(_library, "bootimg_" + name)(*arguments, *numbers, ctypes.byref(answer))
    _raise(status, answer)
    return answer


def _fill(name: str, room: int, files: tuple[Buffer, ...], *numbers: Any) -> tuple[bytes, int]:
    """Calls a function with a buffer of `room` bytes, or of the size of the output if that is
    larger. Returns the output and `value`."""
    answer = _Answer()
    function = getattr(_library, "bootimg_" + name)
    with _arguments_for(files) as arguments:
        while True:
            buffer = ctypes.create_string_buffer(room)
            status = function(*arguments, *numbers, buffer, room, ctypes.byref(answer))
            if status != _NO_ROOM:
                break
            room = answer.size
    _raise(status, answer)
    return ctypes.string_at(buffer, answer.size), answer.value


def _array(
    name: str, room: int, element: type[_Element], files: tuple[Buffer, ...], *numbers: int
) -> tuple[ctypes.Array[_Element], int]:
    """Calls a function with an array of `room` elements, or of as many as there are if that is
    more. Returns the array, and the number of the elements."""
    answer = _Answer()
    function = getattr(_library, "bootimg_" + name)
    with _arguments_for(files) as arguments:
        while True:
            array = (element * room)()
            status = function(*arguments, *numbers, array, room, ctypes.byref(answer))
            if status != _NO_ROOM:
                break
            room = answer.size
    _raise(status, answer)
    return array, answer.size


def _elements(
    name: str, element: type[_Element], files: tuple[Buffer, ...], *numbers: int
) -> list[_Element]:
    """Calls a function with an array of elements. Returns the elements."""
    array, size = _array(name, 64, element, files, *numbers)
    return list(array[:size])


def _tree_elements(file: Buffer, limit: int, depth: int) -> Iterator[tuple[int, ...]]:
    """Returns the elements of the tree of a FIT. Each is the offset and the size of its name, those
    of its value, its depth and its kind."""
    array, size = _array("nodes", 1024, _TreeElement, (file,), limit, depth)
    taken = ctypes.string_at(array, size * ctypes.sizeof(_TreeElement))
    return struct.iter_unpack("NNNNII", taken)


def version() -> str:
    """Returns the version of the library."""
    return _fill("version", 64, ())[0].decode("ascii")


def cause_name(number: int) -> str:
    """Returns the name of the cause with the given number, 1 to 26."""
    return _fill("cause_name", 64, (), _number(number, "number"))[0].decode("ascii")


def explain(number: int) -> str:
    """Returns what the cause with the given number, 1 to 26, means, and what a user can do.

    >>> import bootimg
    >>> bootimg.explain(4)
    'The data checksum of a legacy image is wrong: fetch the image again.'
    """
    return _fill("explain", 512, (), _number(number, "number"))[0].decode("ascii")


def kind(file: Buffer) -> str:
    """Returns the kind of a file by its first four bytes: "legacy" or "fit". Raises Refused with
    Truncated for a file of fewer than four bytes, and with BadMagic for one without a magic
    number."""
    return ("legacy", "fit")[_call("kind", (file,)).value - 1]


def _form(external: bool, align: int | None) -> int:
    """Returns the number of a form. Raises WrongArgument for an alignment of embedded payloads, and
    for 0 and 1, which are the numbers of the forms without an alignment."""
    if align is None:
        return int(external)
    if not external or align in (0, 1):
        raise WrongArgument("form")
    return _number(align, "form")


def normalise(
    file: Buffer,
    external: bool = False,
    limit: int = LIMIT,
    depth: int = DEPTH,
    *,
    align: int | None = None,
) -> bytes:
    """Returns the normal form of a file. With `external`, the payloads of a FIT are after the blob,
    and each begins at a multiple of `align` bytes, a power of two from 4 to 1048576, or of 4 bytes.
    Raises Refused with TooLarge if the normal form is longer than `limit`."""
    return normalise_and_count(file, external, limit, depth, align=align)[0]


def normalise_and_count(
    file: Buffer,
    external: bool = False,
    limit: int = LIMIT,
    depth: int = DEPTH,
    *,
    align: int | None = None,
) -> tuple[bytes, int]:
    """Returns what `normalise` returns, and the number of signature nodes, which are kept and not
    checked."""
    numbers = (_form(external, align), *_bounds(limit, depth))
    return _fill("normalise", _size_of(file) + 4096, (file,), *numbers)


def update(
    file: Buffer,
    time: int | None = None,
    hashes: bool = False,
    external: bool = False,
    limit: int = LIMIT,
    depth: int = DEPTH,
    *,
    align: int | None = None,
) -> bytes:
    """Returns the normal form of a file with the time of creation `time`, in seconds since 1970, if
    it is given, and with new digests, if `hashes` is set. `external` and `align` are as for
    `normalise`. Raises Refused with TooLarge if the output is longer than `limit`, or, with
    `hashes`, if the payloads together are longer."""
    return update_and_count(file, time, hashes, external, limit, depth, align=align)[0]


def update_and_count(
    file: Buffer,
    time: int | None = None,
    hashes: bool = False,
    external: bool = False,
    limit: int = LIMIT,
    depth: int = DEPTH,
    *,
    align: int | None = None,
) -> tuple[bytes, int]:
    """Returns what `update` returns, and the number of signature nodes, which are kept and not
    checked."""
    numbers = _update_numbers(time, hashes, external, align, limit, depth)
    return _fill("update", _size_of(file) + 4096, (file,), *numbers)


def notes(
    file: Buffer,
    time: int | None = None,
    hashes: bool = False,
    external: bool = False,
    limit: int = LIMIT,
    depth: int = DEPTH,
    *,
    align: int | None = None,
) -> Notes:
    """Returns what a user should know about what `update` returns with these arguments, or
    `normalise` without `time` and `hashes`. How many payloads are inside the blob now is not among
    it: `edit_notes` has that, too. Raises what `update` raises.

    >>> import bootimg
    >>> codes = ("linux", "arm64", "kernel")
    >>> images = [bootimg.BuildImage(name, b"data", *codes) for name in ("a", "b")]
    >>> fit = bootimg.build_fit(images, external=True, align=512)
    >>> bootimg.notes(fit, external=True)
    Notes(signatures=0, lost_alignment=512, lost_positions=0)
    """
    answer, found = _Answer(), _NoteNumbers()
    numbers = _update_numbers(time, hashes, external, align, limit, depth)
    with _arguments_for((file,)) as arguments:
        status = _library.bootimg_notes(
            *arguments, *numbers, ctypes.byref(found), ctypes.byref(answer)
        )
    _raise(status, answer)
    return Notes(found.signatures, found.lost_alignment or None, found.lost_positions)


def _update_numbers(
    time: int | None, hashes: bool, external: bool, align: int | None, limit: int, depth: int
) -> tuple[int, ...]:
    """Returns the numbers of an update for C."""
    changes = int(time is not None) + 2 * int(hashes)
    form = _form(external, align)
    return (changes, _number(time or 0, "time"), form, *_bounds(limit, depth))


def _region(name: str, files: tuple[Buffer, ...], *numbers: int) -> memoryview:
    """Calls a function that extracts, and returns what it selects as a view of the first file."""
    answer = _call(name, files, *numbers)
    return memoryview(files[0]).cast("B")[answer.value : answer.value + answer.size]


def extract_part(
    file: Buffer, index: int = 0, limit: int = LIMIT, depth: int = DEPTH
) -> memoryview:
    """Returns the part with the given index, counted from 0, of a legacy image, as a view of the
    file."""
    return _region("extract_part", (file,), _number(index, "index"), *_bounds(limit, depth))


def extract_image(
    file: Buffer, name: bytes | str, limit: int = LIMIT, depth: int = DEPTH
) -> memoryview:
    """Returns the payload of the image with the given name in a FIT, as a view of the file."""
    return _region("extract_image", (file, _name_of(name)), *_bounds(limit, depth))


def extract_config(
    file: Buffer,
    name: bytes | str | None = None,
    key: str = "kernel",
    index: int = 0,
    limit: int = LIMIT,
    depth: int = DEPTH,
) -> memoryview:
    """Returns a payload that the configuration with the given name lists under a key, one of KEYS,
    as a view of the file. `index` is its index in the list, counted from 0. Without a name, the
    default configuration is used."""
    numbers = (_index_of(key, KEYS, "key"), _number(index, "index"), *_bounds(limit, depth))
    if name is None:
        return _region("extract_default", (file,), *numbers)
    return _region("extract_config", (file, _name_of(name)), *numbers)


def _name_of(name: bytes | str) -> bytes:
    return name.encode("utf-8", "surrogateescape") if isinstance(name, str) else name


def _text(name: str, files: tuple[Buffer, ...], *numbers: int) -> tuple[str, int]:
    text, value = _fill(name, 16384, files, *numbers)
    return text.decode("ascii"), value


def listing(file: Buffer, limit: int = LIMIT, depth: int = DEPTH) -> str:
    """Returns the listing of a file: what the image holds, and the sizes and offsets of parts or
    payloads."""
    return _text("list", (file,), *_bounds(limit, depth))[0]


def listing_json(file: Buffer, limit: int = LIMIT, depth: int = DEPTH) -> str:
    """Returns what `listing` says as one JSON text in ASCII and a newline."""
    return _text("list_json", (file,), *_bounds(limit, depth))[0]


def describe(file: Buffer, limit: int = LIMIT, depth: int = DEPTH, *, deep: bool = False) -> str:
    """Returns the description of what a file means. It does not depend on the layout of the file.
    With `deep`, the lines of each payload that is a devicetree follow its own line, as with the
    option `--deep` of the program. Raises Refused with TooLarge if the description, or the payloads
    together, are longer than `limit`."""
    return _text("describe_deep" if deep else "describe", (file,), *_bounds(limit, depth))[0]


def describe_json(
    file: Buffer, limit: int = LIMIT, depth: int = DEPTH, *, deep: bool = False
) -> str:
    """Returns what `describe` says as one JSON text in ASCII and a newline. Raises Refused with
    TooLarge if this text, or the payloads together, are longer than `limit`."""
    name = "describe_deep_json" if deep else "describe_json"
    return _text(name, (file,), *_bounds(limit, depth))[0]


def get(
    file: Buffer,
    place: bytes | str,
    name: bytes | str = "",
    form: str = "shown",
    limit: int = LIMIT,
    depth: int = DEPTH,
) -> bytes:
    """Returns a single value, as the command `get` prints it: the property with a name of the node
    at a path, both as `describe` prints them, or, without `name`, a field of a legacy image. `form`
    is one of VALUE_FORMS. Raises WrongArgument if the words do not name one value, and NotFound if
    it is not there, or not in the form."""
    files = (file, _name_of(place), _name_of(name))
    number = _index_of(form, VALUE_FORMS, "form")
    return _fill("get", 256, files, number, *_bounds(limit, depth))[0]


def show(
    file: Buffer, layout: bool = False, limit: int = LIMIT, depth: int = DEPTH
) -> str:
    """Returns the page of a file, for a person: tables of what it is, of its images or parts, with
    the verdicts on hash nodes, of its configurations, of its signature nodes with what they cover,
    and the lines of `check`. With `layout`, it shows the regions of the file by their offsets. Its
    form may change with the version. Raises Refused with TooLarge as `check` does."""
    return _text("show", (file,), int(layout), *_bounds(limit, depth))[0]


def show_json(file: Buffer, limit: int = LIMIT, depth: int = DEPTH) -> str:
    """Returns what `show` says, without regions of the file, as one JSON text in ASCII and a
    newline. Its form stays. Raises Refused as `show` does."""
    return _text("show_json", (file,), *_bounds(limit, depth))[0]


def scan(file: Buffer, limit: int = LIMIT, depth: int = DEPTH) -> str:
    """Returns a line for every boot image inside a file, in the order of their offsets: the offset,
    the kind, the size in bytes, and the name of a legacy image or the number of images of a FIT.
    The text is empty if there is no image. Raises Refused with TooLarge if the file, or what its
    images claim together, is longer than `limit`.

    >>> import bootimg
    >>> small = bootimg.build_legacy([b"x"], "Linux", os="linux", arch="arm", type="kernel")
    >>> print(bootimg.scan(bytes(100) + small), end="")
    100 legacy 65 Linux
    """
    return _text("scan", (file,), *_bounds(limit, depth))[0]


def scan_json(file: Buffer, limit: int = LIMIT, depth: int = DEPTH) -> str:
    """Returns what `scan` says as one JSON text in ASCII and a newline, even if there is no
    image."""
    return _text("scan_json", (file,), *_bounds(limit, depth))[0]


def verify(file: Buffer, limit: int = LIMIT, depth: int = DEPTH) -> Report:
    """Returns the report on the checksums and digests of a file."""
    text, value = _text("verify", (file,), *_bounds(limit, depth))
    return Report(text, value == 1)


def verify_json(file: Buffer, limit: int = LIMIT, depth: int = DEPTH) -> Report:
    """Returns what `verify` says, with the report as one JSON text in ASCII and a newline."""
    text, value = _text("verify_json", (file,), *_bounds(limit, depth))
    return Report(text, value == 1)


def check(
    file: Buffer,
    allow: Iterable[str] = (),
    limit: int = LIMIT,
    depth: int = DEPTH,
    *,
    signed: bool = False,
) -> str:
    """Returns a line for every concern about a file: everything in it that is not protected. The
    text is empty if there is no concern. Lines of the kinds in `allow`, of CONCERNS, are left out.
    With `signed`, configurations without a signature get a line. No signature is verified. Raises
    Refused with TooLarge if the payloads together, or the paths that signatures must cover, are
    longer than `limit`."""
    number = _policy_number(allow, signed)
    return _text("check", (file,), number, *_bounds(limit, depth))[0]


def check_json(
    file: Buffer,
    allow: Iterable[str] = (),
    limit: int = LIMIT,
    depth: int = DEPTH,
    *,
    signed: bool = False,
) -> str:
    """Returns what `check` says as one JSON text in ASCII and a newline, even if there is no
    concern."""
    number = _policy_number(allow, signed)
    return _text("check_json", (file,), number, *_bounds(limit, depth))[0]


def _policy_number(allow: Iterable[str], signed: bool) -> int:
    """Returns the number of a choice of kinds of concerns, and of whether signatures are asked
    for."""
    return sum(1 << _index_of(kind, CONCERNS, "kinds") for kind in set(allow)) + _SIGNED * signed


def convert(file: Buffer, limit: int = LIMIT, depth: int = DEPTH) -> bytes:
    """Returns the FIT that a legacy image is converted to. Raises Refused with BadMagic for a file
    that is not a legacy image, with NoCodeName, EmptyPart or TooManyParts for an image that cannot
    be converted, and with TooLarge if the output is longer than `limit`."""
    return _fill("convert", _size_of(file) + 4096, (file,), *_bounds(limit, depth))[0]


@overload
def build_legacy(
    parts: Iterable[Buffer | Part],
    name: bytes | str | None = None,
    *,
    os: Code,
    arch: Code,
    type: Code,
    compression: Code | None = None,
    time: int | None = None,
    load: int | None = None,
    entry: int | None = None,
    limit: int = LIMIT,
    depth: int = DEPTH,
) -> bytes: ...
@overload
def build_legacy(
    parts: Iterable[Buffer | Part],
    name: bytes | str | None = None,
    *,
    header: LegacyHeader | FitHeader,
    os: Code | None = None,
    arch: Code | None = None,
    type: Code | None = None,
    compression: Code | None = None,
    time: int | None = None,
    load: int | None = None,
    entry: int | None = None,
    limit: int = LIMIT,
    depth: int = DEPTH,
) -> bytes: ...
def build_legacy(
    parts: Iterable[Buffer | Part],
    name: bytes | str | None = None,
    *,
    header: LegacyHeader | FitHeader | None = None,
    os: Code | None = None,
    arch: Code | None = None,
    type: Code | None = None,
    compression: Code | None = None,
    time: int | None = None,
    load: int | None = None,
    entry: int | None = None,
    limit: int = LIMIT,
    depth: int = DEPTH,
) -> bytes:
    """Returns the legacy image with these fields and parts, which are copied. A field that is not
    given is that of `header`, the header of an image that `open` returned. Without `header`, `os`,
    `arch` and `type` must be given; the other fields are then empty, "none" or 0. A code of U-Boot
    is its name, one of CODES, or its number.

    Raises WrongArgument for an unknown code and for the header of a FIT. Raises Refused, with the
    offset in the image, with BadField for a name of more than 32 bytes or with a zero byte, and if
    there is not exactly one part and the type is neither multi nor script, with EmptyPart for an
    empty part of those, and with TooLarge if the image is longer than `limit`.

    >>> import bootimg
    >>> linux = {"os": "linux", "arch": "arm64", "type": "kernel"}
    >>> image = bootimg.open(bootimg.build_legacy([b"a kernel"], "Linux", **linux))
    >>> image.header.name, bytes(image.parts[0].payload)
    ('Linux', b'a kernel')
    >>> later = bootimg.build_legacy(image.parts, header=image.header, load=0x80080000)
    >>> hex(bootimg.open(later).header.load)
    '0x80080000'
    """
    if header is None:
        if os is None or arch is None or type is None:
            raise TypeError("build_legacy() needs header, or os, arch and type")
        header = LegacyHeader("", 0, 0, 0, os, arch, type, "none")
    if isinstance(header, FitHeader):
        raise WrongArgument("header", "the header of a FIT")
    pieces = [_name_of(header.name if name is None else name), *map(_bytes_of, parts)]
    regions, offset = [], 0
    for piece in pieces:
        regions.append(_Region(offset, len(piece)))
        offset += len(piece)
    codes = (
        code_number("os", header.os if os is None else os),
        code_number("arch", header.arch if arch is None else arch),
        code_number("type", header.type if type is None else type),
        code_number("compression", header.compression if compression is None else compression),
    )
    numbers = (
        _number(header.time if time is None else time, "time"),
        _number(header.load if load is None else load, "load"),
        _number(header.entry if entry is None else entry, "entry"),
    )
    fields = _LegacyFields(regions[0], *numbers, *codes)
    array = (_Region * len(regions[1:]))(*regions[1:])
    rest = (ctypes.byref(fields), array, len(array), *_bounds(limit, depth))
    return _fill("build_legacy", offset + 4096, (b"".join(pieces),), *rest)[0]


def _bytes_of(part: Buffer | Part) -> bytes:
    return bytes(part.payload if isinstance(part, Part) else part)


class BuildTexts(NamedTuple):
    """Texts in the node of an image of a FIT to be built, instead of the names of its codes."""

    type: bytes | str
    arch: bytes | str
    os: bytes | str
    compression: bytes | str = "none"


class BuildImage(NamedTuple):
    """An image of a FIT to be built. `os`, `arch`, `type` and `compression` are codes of U-Boot:
    names, which are in CODES, or numbers. With `texts`, the node contains these instead, and codes
    need not be given. `description` is by default the one of the tree."""

    name: bytes | str
    payload: Buffer
    os: Code | None = None
    arch: Code | None = None
    type: Code | None = None
    compression: Code = "none"
    load: int | None = None
    entry: int | None = None
    texts: BuildTexts | None = None
    description: bytes | str | None = None


class BuildConfiguration(NamedTuple):
    """A configuration of a FIT to be built: the names of the images that it lists under each key,
    and the boards that it is for. A single name or board needs no list. `description` is by default
    the one of the tree."""

    name: bytes | str
    kernel: bytes | str | Iterable[bytes | str] = ()
    fdt: bytes | str | Iterable[bytes | str] = ()
    ramdisk: bytes | str | Iterable[bytes | str] = ()
    firmware: bytes | str | Iterable[bytes | str] = ()
    loadables: bytes | str | Iterable[bytes | str] = ()
    script: bytes | str | Iterable[bytes | str] = ()
    compatible: bytes | str | Iterable[bytes | str] = ()
    description: bytes | str | None = None


class _Input:
    """The memory that the regions of a call are in."""

    def __init__(self) -> None:
        self.memory = bytearray()
        self.lists: list[_Region] = []

    def add(self, piece: bytes) -> _Region:
        """Adds a piece, and returns where it is."""
        region = _Region(len(self.memory), len(piece))
        self.memory += piece
        return region

    def add_text(self, text: bytes | str | None) -> _Region:
        """Adds a text, and returns where it is. That of no text is empty."""
        return self.add(b"" if text is None else _name_of(text))

    def add_list(self, texts: bytes | str | Iterable[bytes | str]) -> _Range:
        """Adds texts to the lists, and returns their range."""
        first = len(self.lists)
        for text in [texts] if isinstance(texts, (bytes, str)) else texts:
            self.lists.append(self.add_text(text))
        return _Range(first, len(self.lists) - first)

    def add_image(self, image: BuildImage) -> _BuildElement:
        regions = self.add_text(image.name), self.add(bytes(image.payload))
        codes = [0, 0, 0, 0] if image.texts else [*map(_code_of, CODES, [image] * 4)]
        addresses = int(image.load is not None) + 2 * int(image.entry is not None)
        load, entry = _number(image.load or 0, "load"), _number(image.entry or 0, "entry")
        return _BuildElement(*regions, load, entry, addresses, *codes)

    def add_texts(self, image: BuildImage) -> _BuildTexts:
        given = int(image.description is not None) + 2 * int(image.texts is not None)
        texts = image.texts or (None, None, None, None)
        return _BuildTexts(self.add_text(image.description), *map(self.add_text, texts), given)

    def add_configuration(self, made: BuildConfiguration) -> _BuildConfiguration:
        regions = self.add_text(made.name), self.add_text(made.description)
        ranges = [self.add_list(getattr(made, key)) for key in ("compatible", *KEYS)]
        return _BuildConfiguration(*regions, *ranges, int(made.description is not None))


def _code_of(field: str, image: BuildImage) -> int:
    """Returns the number of the code of an image in a field."""
    code: Code | None = getattr(image, field)
    if code is None:
        raise TypeError("BuildImage needs os, arch and type, or texts")
    return code_number(field, code)


def build_fit(
    images: Iterable[BuildImage],
    description: bytes | str = b"",
    time: int = 0,
    external: bool = False,
    limit: int = LIMIT,
    depth: int = DEPTH,
    *,
    align: int | None = None,
    configurations: Iterable[BuildConfiguration] = (),
    default: bytes | str | None = None,
    hashes: Iterable[str] = ("sha256",),
) -> bytes:
    """Returns a FIT with these images, configurations and hash nodes. Without a configuration,
    there is one, `conf-1`, which lists the images by their types. `default` is the name of the
    default configuration, or else the first one is. `hashes` are the algorithms of the hash nodes
    of each image, some of ALGORITHMS, in their order. `external` and `align` are as for
    `normalise`. The payloads are copied.

    Raises Refused with BadField, NoCodeName or DuplicateNode for what cannot be written, at the
    index of the image or of the configuration. A configuration that lists a name that no image has
    is refused with BadField, and a default that no configuration has at the number of
    configurations. The offset is 0 for the description. Raises Refused with TooLarge if the FIT is
    longer than `limit`, and WrongArgument for another algorithm.

    >>> import bootimg
    >>> codes = ("linux", "arm64", "kernel")
    >>> kernel = bootimg.BuildImage("kernel-1", b"a kernel", *codes, load=0x80000)
    >>> fit = bootimg.open(bootimg.build_fit([kernel], "board", time=1700000000))
    >>> [(one.name, bytes(one.payload), one.hashes[0].verdict) for one in fit.images]
    [('kernel-1', b'a kernel', 'good')]
    >>> fit.configuration().images("kernel") == fit.images
    True
    >>> board = bootimg.BuildConfiguration("board-a", "kernel-1", compatible="example,board-a")
    >>> fit = bootimg.open(bootimg.build_fit([kernel], configurations=[board], hashes=["sha512"]))
    >>> fit.configuration().name, fit.images[0].hashes[0].algorithm
    ('board-a', 'sha512')
    """
    made, planned, images = _Input(), list(configurations), list(images)
    options = _BuildOptions(
        ctypes.sizeof(_BuildOptions),
        made.add_text(description),
        made.add_text(default),
        _number(time, "time"),
        _form(external, align),
        *_bounds(limit, depth),
        int(default is not None),
    )
    arrays: list[ctypes.Array[Any]] = [
        (_BuildElement * len(images))(*map(made.add_image, images)),
        (_BuildTexts * len(images))(*map(made.add_texts, images)),
        (_BuildConfiguration * len(planned))(*map(made.add_configuration, planned)),
    ]
    algorithms = [
        _index_of(name, ALGORITHMS, "algorithms", index) for index, name in enumerate(hashes)
    ]
    arrays += [
        (_Region * len(made.lists))(*made.lists),
        (ctypes.c_uint32 * len(algorithms))(*algorithms),
    ]
    rest = [argument for array in arrays for argument in (array, len(array))]
    room = len(made.memory) + 4096
    return _fill("build_fit_as", room, (bytes(made.memory),), ctypes.byref(options), *rest)[0]


def same_meaning(one: Buffer, other: Buffer, limit: int = LIMIT, depth: int = DEPTH) -> bool:
    """Returns whether two files mean the same thing."""
    answer = _call("same_meaning", (one, other), *_bounds(limit, depth))
    return bool(answer.value == 1)


def compare(
    one: Buffer,
    other: Buffer,
    limit: int = LIMIT,
    depth: int = DEPTH,
    *,
    ignore: Iterable[bytes | str] = (),
    deep: bool = False,
) -> Comparison:
    """Returns whether two files mean the same thing, and the differences between what they mean.
    There are none if they mean the same thing. If they do not, raises Refused with TooLarge for the
    first file whose description, or payloads together, are longer than `limit`.

    Without what `ignore` names, if it is given: words as the option `--ignore` of the program takes
    them, such as "time", "signatures", the path of a node, or a path, a space and the name of a
    property. Nothing is left out of files of different kinds. With `deep` it is the deep
    descriptions that are compared, as with the option `--deep`, and a word such as
    "/images/fdt-1//chosen" leaves out something inside a payload. With `ignore` or `deep` a file
    that is too long to describe is always refused. Raises WrongArgument for a word that names
    nothing.

    >>> import bootimg
    >>> linux = {"os": "linux", "arch": "arm", "type": "kernel"}
    >>> one, other = (bootimg.build_legacy([b"x"], time=time, **linux) for time in (1, 2))
    >>> bootimg.compare(one, other).same, bootimg.compare(one, other, ignore=["time"]).same
    (False, True)
    """
    return _compared("", one, other, limit, depth, ignore, deep)


def compare_json(
    one: Buffer,
    other: Buffer,
    limit: int = LIMIT,
    depth: int = DEPTH,
    *,
    ignore: Iterable[bytes | str] = (),
    deep: bool = False,
) -> Comparison:
    """Returns what `compare` says, with the differences as one JSON text in ASCII and a newline,
    even if there are none."""
    return _compared("_json", one, other, limit, depth, ignore, deep)


def _compared(
    ending: str,
    one: Buffer,
    other: Buffer,
    limit: int,
    depth: int,
    ignore: Iterable[bytes | str],
    deep: bool,
) -> Comparison:
    words = tuple(ignore)
    numbers = _bounds(limit, depth)
    if not words and not deep:
        text, value = _text("compare" + ending, (one, other), *numbers)
        return Comparison(value == 1, text)
    pieces, regions, offset = [*map(_name_of, words)], [], 0
    for piece in pieces:
        regions.append(_Region(offset, len(piece)))
        offset += len(piece)
    array = (_Region * len(regions))(*regions)
    files = (one, other, b"".join(pieces))
    name = ("compare_deep" if deep else "compare_ignoring") + ending
    try:
        filled = _fill(name, 16384, files, array, len(array), *numbers)
    except _BadWord as bad:
        raise WrongArgument("words", repr(words[bad.index]), bad.index) from None
    return Comparison(filled[1] == 1, filled[0].decode("ascii"))


# These use what is above.
from bootimg.codes import CODES, Code, code_name, code_number  # noqa: E402
from bootimg.edits import EditNotes, edit, edit_notes  # noqa: E402
from bootimg.image import (  # noqa: E402
    Concern,
    Configuration,
    FitHeader,
    FitImage,
    Hash,
    Image,
    LegacyHeader,
    Node,
    Part,
    Reservation,
    Value,
    Verification,
    open,
)


def _whole_number(text: str) -> int:
    """Returns the number of an argument, as the program reads numbers."""
    if not re.fullmatch(r"[0-9]+|0x[0-9a-fA-F]+", text):
        raise ValueError(text)
    return int(text, 16 if text.startswith("0x") else 10)


def _shown(path: str) -> str:
    """Returns the name of a file as the program prints it."""
    name = os.fsencode(path)
    if name in (b"", b"-"):
        return "%2D" if name else "-"
    plain = set(range(0x21, 0x7F)) - {ord("%")}
    return "".join(chr(byte) if byte in plain else f"%{byte:02X}" for byte in name)


def _kinds(text: str) -> list[str]:
    """Returns the kinds of the argument of --allow."""
    return text.split(",")


def _parser() -> argparse.ArgumentParser:
    parser = argparse.ArgumentParser(
        prog="python3 -m bootimg", description="Boot images of U-Boot.", allow_abbrev=False
    )
    commands = parser.add_subparsers(dest="command", required=True, metavar="COMMAND")
    for name, help in (
        ("normalise", "write the normal form"),
        ("update", "write the normal form with a time or with digests"),
        ("extract", "write a part or a payload"),
        ("list", "write the listing"),
        ("scan", "write a line for each boot image inside a file"),
        ("describe", "write what the image means"),
        ("show", "write the page of the image, for a person"),
        ("compare", "write what differs between two images"),
        ("verify", "write the verdict on each checksum and digest"),
        ("check", "write a line for each thing that is not protected"),
        ("convert", "write the FIT of a legacy image"),
    ):
        command = commands.add_parser(name, help=help, allow_abbrev=False)
        command.add_argument("--limit", type=_whole_number, default=LIMIT, metavar="N")
        if name in ("normalise", "update"):
            command.add_argument("--external", action="store_true")
            command.add_argument("--align", type=_whole_number, metavar="N")
        if name == "update":
            command.add_argument("--time", type=_whole_number, metavar="SECONDS")
            command.add_argument("--hashes", action="store_true")
        if name == "extract":
            selection = command.add_mutually_exclusive_group(required=True)
            selection.add_argument("--part", type=_whole_number, metavar="N")
            selection.add_argument("--image", metavar="NAME")
            selection.add_argument("--config", metavar="NAME")
            selection.add_argument("--default", action="store_true")
            command.add_argument("--key", choices=KEYS, default=KEYS[0])
            command.add_argument("--index", type=_whole_number, default=0, metavar="N")
        if name == "show":
            form = command.add_mutually_exclusive_group()
            form.add_argument("--layout", action="store_true")
            form.add_argument("--json", action="store_true")
        if name in ("list", "scan", "describe", "verify", "check", "compare"):
            command.add_argument("--json", action="store_true")
        if name == "check":
            command.add_argument("--allow", type=_kinds, default=[], metavar="KINDS")
            command.add_argument("--signed", action="store_true")
        if name in ("describe", "compare"):
            command.add_argument("--deep", action="store_true")
        if name == "compare":
            command.add_argument("--quiet", action="store_true")
            command.add_argument("--ignore", action="append", default=[], metavar="WORD")
            command.add_argument("files", nargs=2, metavar="IMAGE")
        else:
            command.add_argument("files", nargs="?", default="-", metavar="IMAGE")
    return parser


def _read(path: str) -> bytes:
    """Reads a file, or standard input. Raises _Unread if that fails."""
    if path == "-":
        try:
            return sys.stdin.buffer.read()
        except OSError:
            raise _Unread("read failed") from None
    try:
        file = io.open(path, "rb")
    except IsADirectoryError:
        raise _Unread(f"{_shown(path)}: read failed") from None
    except OSError:
        raise _Unread(f"{_shown(path)}: cannot be opened") from None
    with file:
        try:
            return file.read()
        except OSError:
            raise _Unread(f"{_shown(path)}: read failed") from None


def _extracted(options: argparse.Namespace, file: bytes) -> memoryview:
    if options.part is not None:
        return extract_part(file, options.part, options.limit)
    if options.image is not None:
        return extract_image(file, os.fsencode(options.image), options.limit)
    name = None if options.default else os.fsencode(options.config)
    return extract_config(file, name, options.key, options.index, options.limit)


def _note(found: Notes | EditNotes) -> None:
    """Prints the notes of the program."""
    lines = []
    if found.signatures:
        lines.append(f"{found.signatures} signature nodes carried, not checked")
    if isinstance(found, EditNotes) and found.inside:
        lines.append(f"{found.inside} payloads are inside the blob now, see --external")
    if found.lost_alignment:
        lines.append(
            f"payloads are no longer aligned to {found.lost_alignment} bytes, see --align"
        )
    if found.lost_positions:
        lines.append(f"{found.lost_positions} fixed positions of payloads were not kept")
    for line in lines:
        print(f"bootimg: note: {line}", file=sys.stderr)


def _run(options: argparse.Namespace, files: list[bytes]) -> tuple[bytes, int]:
    """Returns the output of a command and the exit status."""
    limit = options.limit
    if options.command in ("normalise", "update"):
        external, align = options.external, options.align
        if options.command == "normalise":
            image = normalise(files[0], external, limit, align=align)
            _note(notes(files[0], external=external, limit=limit, align=align))
        else:
            time, hashes = options.time, options.hashes
            image = update(files[0], time, hashes, external, limit, align=align)
            form: dict[str, Any] = {"external": external, "align": align}
            _note(edit_notes(files[0], time=time, hashes=hashes, limit=limit, **form))
        return image, 0
    if options.command == "extract":
        return bytes(_extracted(options, files[0])), 0
    if options.command == "compare":
        deep = options.deep
        if not options.ignore and (options.quiet or deep):
            same = same_meaning(files[0], files[1], limit)
            if options.quiet:
                return b"", int(not same)
            deep = not same  # Files that mean the same thing are not described.
        words = map(os.fsencode, options.ignore)
        call = compare_json if options.json else compare
        compared = call(files[0], files[1], limit, ignore=words, deep=deep)
        text = "" if options.quiet else compared.differences
        return text.encode("ascii"), int(not compared.same)
    if options.command == "convert":
        return convert(files[0], limit), 0
    text, status = _printed(options, files[0])
    return text.encode("ascii"), status


def _printed(options: argparse.Namespace, file: bytes) -> tuple[str, int]:
    """Returns what a command prints about one file, and the exit status."""
    limit = options.limit
    if options.command == "verify":
        report = (verify_json if options.json else verify)(file, limit)
        return report.text, int(not report.all_good)
    if options.command == "check":
        call, none = (check_json, '{"concerns":[]}\n') if options.json else (check, "")
        concerns = call(file, options.allow, limit, signed=options.signed)
        return concerns, int(concerns != none)
    if options.command == "scan":
        text = (scan_json if options.json else scan)(file, limit)
        return text, int(text in ("", '{"images":[]}\n'))
    if options.command == "show":
        return show_json(file, limit) if options.json else show(file, options.layout, limit), 0
    if options.command == "list":
        return (listing_json if options.json else listing)(file, limit), 0
    return (describe_json if options.json else describe)(file, limit, deep=options.deep), 0


def main(arguments: list[str] | None = None) -> int:
    """Does what the program does with these arguments, and returns its exit status."""
    options = _parser().parse_args(arguments)
    if options.command == "update" and options.time is None and not options.hashes:
        return _fail("usage: give --time or --hashes")
    paths = options.files if isinstance(options.files, list) else [options.files]
    if paths == ["-", "-"]:
        return _fail("usage: bad value")
    try:
        output, status = _run(options, [_read(path) for path in paths])
    except (Refused, NotFound) as reason:
        path = paths[reason.file - 1 if isinstance(reason, Refused) else 0]
        return _fail(f"{_shown(path) + ': ' if path != '-' else ''}{reason}")
    except WrongArgument:
        return _fail("usage: bad value")
    except BootimgError as error:
        return _fail(str(error))
    try:
        sys.stdout.buffer.write(output)
        sys.stdout.buffer.flush()
    except OSError:
        return _fail("write failed")
    return status


def _fail(text: str) -> int:
    """Prints the line of a failure, and returns the exit status."""
    print(f"bootimg: {text}", file=sys.stderr)
    return 2
