# SPDX-License-Identifier: MIT
# Copyright (c) 2026 the bootimg authors
"""Edits of boot images."""

from __future__ import annotations

import ctypes
from typing import Any, Iterable, Mapping, NamedTuple

import bootimg

# The kinds of edits, by their numbers for C.
_REMOVE, _SET, _PAYLOAD, _TIME, _HASHES, _NAME, _LOAD, _ENTRY, _OS, _ARCH, _COMPRESSION = range(11)
_KEEP_FORM = 2

# The fields of a legacy image that can be set, by the kinds of their edits.
_FIELDS = {
    "name": _NAME,
    "load": _LOAD,
    "entry": _ENTRY,
    "os": _OS,
    "arch": _ARCH,
    "compression": _COMPRESSION,
}

# A value of a field: the name, an address, or a code of U-Boot.
Field = bytes | str | int


class EditNotes(NamedTuple):
    """What a user should know about a file after edits beyond what it means. `signatures` is the
    number of signature nodes, which are kept and not checked. The others are for a FIT:
    `lost_alignment` is the alignment in bytes that the payloads after the blob have in the file, if
    one of them loses it in the external form, or None; `lost_positions` is the number of fixed
    positions of payloads that are not kept in the external form or the form of the file; and
    `inside` is the number of payloads after the blob of the file that are inside it now."""

    signatures: int
    lost_alignment: int | None
    lost_positions: int
    inside: int


class _EditElement(ctypes.Structure):
    _fields_ = [
        ("word", bootimg._Region),
        ("payload", bootimg._Region),
        ("kind", ctypes.c_uint32),
        ("number", ctypes.c_uint32),
    ]


class _EditNoteNumbers(ctypes.Structure):
    _fields_ = [
        ("signatures", ctypes.c_size_t),
        ("lost_positions", ctypes.c_size_t),
        ("inside", ctypes.c_size_t),
        ("lost_alignment", ctypes.c_uint32),
    ]


class _Edits:
    """Edits for C: their words and payloads, one after the other, and an element for each edit."""

    def __init__(
        self,
        remove: Iterable[bytes | str],
        set: Iterable[bytes | str],
        payloads: Mapping[Any, bootimg.Buffer] | None,
        fields: Mapping[str, Field] | None,
        time: int | None,
        hashes: bool,
    ) -> None:
        self._pieces: list[bytes] = []
        self._offset = 0
        self._elements: list[_EditElement] = []
        # The word of each edit, and its index in its parameter.
        self._words: list[tuple[bytes | str, int]] = []
        for index, word in enumerate(remove):
            self._add(_REMOVE, word, index=index)
        for index, word in enumerate(set):
            self._add(_SET, word, index=index)
        for index, (name, payload) in enumerate((payloads or {}).items()):
            self._add(_PAYLOAD, name, payload, index=index)
        for field, value in (fields or {}).items():
            self._add_field(field, value)
        if time is not None:
            self._add(_TIME, number=bootimg._number(time, "time"))
        if hashes:
            self._add(_HASHES)

    def _add(
        self,
        kind: int,
        word: bytes | str = "",
        payload: bootimg.Buffer = b"",
        number: int = 0,
        index: int = 0,
    ) -> None:
        regions = self._region(bootimg._name_of(word)), self._region(bytes(payload))
        self._elements.append(_EditElement(*regions, kind, number))
        self._words.append((word, index))

    def _add_field(self, field: str, value: Field) -> None:
        kind = _FIELDS.get(field)
        if kind == _NAME and not isinstance(value, int):
            self._add(_NAME, value)
        elif kind in (_LOAD, _ENTRY) and isinstance(value, int):
            self._add(kind, number=bootimg._number(value, field))
        elif kind in (_OS, _ARCH, _COMPRESSION) and not isinstance(value, bytes):
            self._add(kind, number=bootimg.code_number(field, value))
        else:
            raise bootimg.WrongArgument(field, f"{field} {value!r}")

    def _region(self, piece: bytes) -> bootimg._Region:
        region = bootimg._Region(self._offset, len(piece))
        self._pieces.append(piece)
        self._offset += len(piece)
        return region

    def files(self, file: bootimg.Buffer) -> tuple[bootimg.Buffer, ...]:
        """The files of a call."""
        return file, b"".join(self._pieces)

    def numbers(self, form: int, limit: int, depth: int) -> tuple[Any, ...]:
        """The arguments of a call after its files."""
        array = (_EditElement * len(self._elements))(*self._elements)
        return array, len(array), form, *bootimg._bounds(limit, depth)

    def failure(self, file: bootimg.Buffer, failed: bootimg._BadEdit) -> bootimg.BootimgError:
        """The error for an edit that cannot be made."""
        word, index = self._words[failed.index]
        if failed.is_word:
            return bootimg.WrongArgument("edits", repr(word), index)
        if self._elements[failed.index].kind == _REMOVE:
            return bootimg.NotFound("nothing to remove", index)
        kind = bootimg.kind(file)
        return bootimg.NotFound("no such part" if kind == "legacy" else "no such image", index)


def _form(external: bool, align: int | None, keep_form: bool) -> int:
    """Returns the number of a form. Raises WrongArgument for two forms, and for an alignment that
    is the number of a form without one."""
    if not keep_form and align != _KEEP_FORM:
        return bootimg._form(external, align)
    if external or align is not None:
        raise bootimg.WrongArgument("form")
    return _KEEP_FORM


def edit(
    file: bootimg.Buffer,
    *,
    remove: Iterable[bytes | str] = (),
    set: Iterable[bytes | str] = (),
    payloads: Mapping[str, bootimg.Buffer] | Mapping[bytes, bootimg.Buffer] | None = None,
    fields: Mapping[str, Field] | None = None,
    time: int | None = None,
    hashes: bool = False,
    external: bool = False,
    align: int | None = None,
    keep_form: bool = False,
    limit: int = bootimg.LIMIT,
    depth: int = bootimg.DEPTH,
) -> bytes:
    """Returns the normal form of a file after edits. They are made in the order of these
    parameters, and edits of one parameter in its order. Whatever they do not name is as it was.

    `remove` has words as the option `--remove` of `bootimg update` takes them: the path of a node,
    or a path, a space and the name of a property. `set` has words as `--set` takes them for a FIT:
    the path of a node, a space, the name of a property, and, unless the value is empty, a space and
    the value as `describe` prints it, or "0x" and hexadecimal digits. Nodes of the path that are
    not there are added. `payloads` has the new payload of each image by its name, and of a legacy
    image the new part by its number, as `listing` prints them. `fields` has new values of fields of
    a legacy image: "name", "load", "entry", "os", "arch" and "compression". `time` and `hashes` are
    as for `update`. So are `external` and `align`; with `keep_form` the payloads are where the file
    has them.

    Raises WrongArgument for a word of another form, and for one of a node or a property that cannot
    be removed or set. Raises NotFound with "the selection does not fit this kind of image" for an
    edit of the other kind of image; and with "nothing to remove", "no such image" or "no such part"
    for the first edit that finds nothing, with its index in `remove` or `payloads`. Raises Refused
    with TooDeep if a path in `set` has `depth` names or more; with TooLarge if the output is longer
    than `limit`, or, with `hashes`, if the payloads together are longer; and for a legacy image as
    `build_legacy` does.

    >>> import bootimg
    >>> images = [bootimg.BuildImage("kernel-1", b"old", "linux", "arm64", "kernel")]
    >>> fit = bootimg.build_fit(images)
    >>> load = "/images/kernel-1 load 0x80080000"
    >>> new = bootimg.edit(fit, set=[load], payloads={"kernel-1": b"new"}, hashes=True)
    >>> bootimg.get(new, "/images/kernel-1", "load"), bytes(bootimg.extract_image(new, "kernel-1"))
    (b'0x80080000\\n', b'new')
    >>> bootimg.verify(new).all_good
    True
    """
    edits = _Edits(remove, set, payloads, fields, time, hashes)
    numbers = edits.numbers(_form(external, align, keep_form), limit, depth)
    files = edits.files(file)
    room = sum(map(bootimg._size_of, files)) + 4096
    try:
        return bootimg._fill("edit", room, files, *numbers)[0]
    except bootimg._BadEdit as failed:
        raise edits.failure(file, failed) from None


def edit_notes(
    file: bootimg.Buffer,
    *,
    remove: Iterable[bytes | str] = (),
    set: Iterable[bytes | str] = (),
    payloads: Mapping[str, bootimg.Buffer] | Mapping[bytes, bootimg.Buffer] | None = None,
    fields: Mapping[str, Field] | None = None,
    time: int | None = None,
    hashes: bool = False,
    external: bool = False,
    align: int | None = None,
    keep_form: bool = False,
    limit: int = bootimg.LIMIT,
    depth: int = bootimg.DEPTH,
) -> EditNotes:
    """Returns what a user should know about what `edit` returns with these arguments. Raises what
    `edit` raises."""
    edits = _Edits(remove, set, payloads, fields, time, hashes)
    numbers = edits.numbers(_form(external, align, keep_form), limit, depth)
    answer, found = bootimg._Answer(), _EditNoteNumbers()
    try:
        with bootimg._arguments_for(edits.files(file)) as arguments:
            status = bootimg._library.bootimg_edit_notes(
                *arguments, *numbers, ctypes.byref(found), ctypes.byref(answer)
            )
        bootimg._raise(status, answer)
    except bootimg._BadEdit as failed:
        raise edits.failure(file, failed) from None
    alignment = found.lost_alignment or None
    return EditNotes(found.signatures, alignment, found.lost_positions, found.inside)
