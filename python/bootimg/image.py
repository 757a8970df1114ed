# SPDX-License-Identifier: MIT
# Copyright (c) 2026 the bootimg authors
"""Boot images as objects: what `bootimg.open` returns, and what is in it.

A name is a string of its bytes in UTF-8. Bytes that are not UTF-8 become lone surrogates, as in the
names of files of `os.fsdecode`, and a call accepts every name that another returned.
"""

from __future__ import annotations

import contextlib
import functools
import io
import json
import os
import urllib.parse
import weakref
from dataclasses import dataclass, field, fields
from typing import Any, Container, Iterable, Mapping

import bootimg

# The properties that place the payload of an image.
_PLACING = ("data", "data-size", "data-offset", "data-position")

# The kind of an element of a tree that is a property.
_PROPERTY = 2


class Value(bytes):
    """The value of a property: its bytes, and what they mean if they are numbers or texts. Every
    member raises NotFound for a value of another form, with "no number" or "no text".

    >>> import bootimg
    >>> kernel = bootimg.open("examples/board.itb").image("kernel-1").properties
    >>> hex(kernel["load"].u32), kernel["type"].texts
    ('0x80080000', ('kernel',))
    >>> kernel["type"].number
    Traceback (most recent call last):
        ...
    bootimg.NotFound: no number
    """

    __slots__ = ()

    @property
    def u32(self) -> int:
        """The number of a value of four bytes, the highest byte first."""
        return self._number_of(4)

    @property
    def u64(self) -> int:
        """The number of a value of eight bytes, the highest byte first."""
        return self._number_of(8)

    @property
    def number(self) -> int:
        """The number of a value of four or eight bytes: what `bootimg.get` returns as "number"."""
        return self._number_of(4, 8)

    def _number_of(self, *sizes: int) -> int:
        if len(self) not in sizes:
            raise bootimg.NotFound("no number", None)
        return int.from_bytes(self, "big")

    @property
    def texts(self) -> tuple[str, ...]:
        """The texts of a value of one or more texts, which are not empty and are printable ASCII,
        with a zero byte after each of them: what `bootimg.get` returns as "text"."""
        *texts, rest = self.split(b"\0")
        if rest or not texts or not all(_is_printable(text) for text in texts):
            raise bootimg.NotFound("no text", None)
        return tuple(text.decode("ascii") for text in texts)


def _is_printable(text: bytes) -> bool:
    """Returns whether a text is not empty and printable ASCII."""
    return text != b"" and all(0x20 <= byte <= 0x7E for byte in text)


@dataclass(frozen=True, slots=True)
class LegacyHeader:
    """The fields of the header of a legacy image.

    `time` is in seconds since 1970, and `load` and `entry` are addresses. A code of U-Boot is its
    name, or else its number.
    """

    name: str
    time: int
    load: int
    entry: int
    os: bootimg.Code
    arch: bootimg.Code
    type: bootimg.Code
    compression: bootimg.Code


@dataclass(frozen=True, slots=True)
class Reservation:
    """A memory reservation of a FIT: an address, and a size in bytes."""

    address: int
    size: int


@dataclass(frozen=True, slots=True)
class FitHeader:
    """What a FIT contains besides its tree: the number of the boot processor, the size of its blob
    in bytes, and its memory reservations."""

    boot_cpu: int
    total_size: int
    reservations: tuple[Reservation, ...]


@dataclass(frozen=True, slots=True, eq=False)
class Part:
    """A part of a legacy image. `offset` and `size` are in bytes, and `payload` is a view of the
    file."""

    offset: int
    size: int
    payload: memoryview = field(repr=False)


@dataclass(frozen=True, slots=True)
class Hash:
    """The verdict on a hash node: the names of the image and of the node, the algorithm and the
    value, or None if the node lacks them, and the verdict, one of VERDICTS."""

    image: str
    node: str
    algorithm: str | None
    verdict: str
    value: bytes | None


@dataclass(frozen=True, eq=False)
class Node:
    """A node of the tree of a FIT: its name, which is empty for the root, and its path.

    The first use of `properties` or `children` of any node reads the whole tree, once.

    >>> import bootimg
    >>> root = bootimg.open("examples/board.itb").root
    >>> root.properties["description"], [node.name for node in root.children]
    (b'example board\\x00', ['images', 'configurations'])
    >>> for node in root.child("images").children:
    ...     print(node.path, node.properties["type"], [child.name for child in node.children])
    /images/kernel-1 b'kernel\\x00' ['hash-1']
    /images/ramdisk-1 b'ramdisk\\x00' ['hash-1']
    /images/fdt-1 b'flat_dt\\x00' ['hash-1']
    """

    name: str
    path: str
    _file: Image = field(repr=False)

    @functools.cached_property
    def properties(self) -> dict[str, Value]:
        """The values of all properties of the node by their names, in their order."""
        return self._file.properties(self.path)

    @functools.cached_property
    def children(self) -> tuple[Node, ...]:
        """The children of the node, in their order."""
        above = self.path.rstrip("/")
        names = self._file.children(self.path)
        return tuple(Node(name, f"{above}/{name}", self._file) for name in names)

    def child(self, name: str) -> Node:
        """Returns the child with the given name. Raises KeyError if there is none."""
        for child in self.children:
            if child.name == name:
                return child
        raise KeyError(name)


@dataclass(slots=True)
class _TreeNode:
    """What a tree has at a path: where the values of the properties are in the file, by their
    names, and the names of the children."""

    name: str
    values: dict[str, slice] = field(default_factory=dict)
    children: list[str] = field(default_factory=list)


@dataclass(frozen=True, slots=True, eq=False)
class FitImage:
    """An image of a FIT.

    `payload` is a view of the file, `offset` and `size` are where it is in the file, in bytes, and
    `source` is the property that places it: "data", "data-offset" or "data-position". All four are
    None for an image without a payload. (An empty payload is one.)
    """

    name: str
    source: str | None
    offset: int | None
    size: int | None
    payload: memoryview | None = field(repr=False)
    _file: Image = field(repr=False)

    @property
    def properties(self) -> dict[str, Value]:
        """The values of the properties of the image by their names, but for those that place the
        payload."""
        return self._file._values_at("/images/" + self.name, without=_PLACING)

    @property
    def hashes(self) -> tuple[Hash, ...]:
        """The verdicts on the hash nodes of the image, in order. The first use computes the digests
        of all images of the file."""
        return tuple(one for one in self._file.verify().hashes if one.image == self.name)


@dataclass(frozen=True, slots=True)
class Configuration:
    """A configuration of a FIT: its name, and which keys of KEYS it contains."""

    name: str
    keys: tuple[str, ...]
    _lists: dict[str, tuple[FitImage, ...] | bootimg.NotFound] = field(repr=False, compare=False)

    def images(self, key: str = "kernel") -> tuple[FitImage, ...]:
        """Returns the images that the configuration lists under a key. Raises NotFound with "no
        such key", "bad list" or "missing image"."""
        listed = self._lists.get(key, bootimg.NotFound("no such key", None))
        if isinstance(listed, bootimg.NotFound):
            raise bootimg.NotFound(listed.reason, listed.index)
        return listed


@dataclass(frozen=True, slots=True)
class Verification:
    """The verdicts on the hash nodes of a FIT, in order, and whether all of them are good. A legacy
    image contains no hash nodes: a file whose checksums are wrong is refused."""

    hashes: tuple[Hash, ...]
    all_good: bool


@dataclass(frozen=True, slots=True, repr=False)
class Concern:
    """A thing in a file that is not protected. `kind` is one of CONCERNS. The other members are
    None, unless this kind uses them."""

    kind: str
    image: str | None = None
    node: str | None = None
    algorithm: str | None = None
    verdict: str | None = None
    algorithms: tuple[str, ...] | None = None
    configuration: str | None = None
    key: str | None = None
    index: int | None = None
    default: str | None = None
    size: int | None = None
    signature: str | None = None
    path: str | None = None

    def __repr__(self) -> str:
        members = [(member.name, getattr(self, member.name)) for member in fields(self)]
        return f"Concern({', '.join(f'{name}={value!r}' for name, value in members if value)})"


class Image:
    """A boot image in memory, of either kind.

    - `file` is a view of its file, and `kind` is "legacy" or "fit"
    - `header` is a LegacyHeader or a FitHeader
    - `parts` are the parts of a legacy image, and `unused` is the number of bytes of the file after
      them. For a FIT, empty and 0
    - `images` and `configurations` are in a FIT, and `default` is the name of the default
      configuration, or None. For a legacy image, empty and None

    The file is read once. Its bytes must not change as long as the image is used.

    An image is a context manager: at the end of `with`, `close` is called.

    >>> import bootimg, io, mmap
    >>> with io.open("examples/board.itb", "rb") as file:
    ...     mapped = mmap.mmap(file.fileno(), 0, access=mmap.ACCESS_READ)
    >>> with mapped, bootimg.open(mapped) as board:
    ...     print(board.image("fdt-1").payload[:4].hex())
    d00dfeed
    """

    def __init__(
        self, file: bootimg.Buffer, limit: int = bootimg.LIMIT, depth: int = bootimg.DEPTH
    ) -> None:
        """Reads a file in memory, which is not copied unless it is a view that is not contiguous.
        Raises Refused as all calls do."""
        with memoryview(file) as view:
            self.file = view.cast("B") if view.c_contiguous else memoryview(view.tobytes())
        self._size = self.file.nbytes
        self._bounds = (limit, depth)
        self._values: weakref.WeakValueDictionary[int, memoryview] = weakref.WeakValueDictionary()
        try:
            listed = json.loads(bootimg.listing_json(self.file, limit, depth))
        except bootimg.BootimgError:
            self.file.release()
            raise
        self.kind: str = listed["kind"]
        self.header = _header_of(listed)
        self.parts = tuple(self._part(part) for part in listed.get("parts", ()))
        self.unused: int = listed.get("unused", 0)
        self.images = tuple(self._image(image) for image in listed.get("images", ()))
        self._images = {image.name: image for image in self.images}
        self.configurations = tuple(map(self._configuration, listed.get("configurations", ())))
        self.default = _optional_name(listed.get("default"))

    def __enter__(self) -> Image:
        return self

    def __exit__(self, *_: object) -> None:
        self.close()

    def close(self) -> None:
        """Releases all views of the file that the image returned: `file`, payloads and values. The
        buffer under them, such as an `mmap`, can then be closed. A released view raises ValueError
        when it is used, and so do most methods of the image. Views that a caller made of these,
        such as slices, stay valid and hold the buffer. Closing an image again does nothing."""
        parts = [part.payload for part in self.parts]
        payloads = [image.payload for image in self.images]
        for view in (*parts, *payloads, *self._values.values(), self.file):
            # A view is kept as long as another object, such as an array, uses it.
            with contextlib.suppress(BufferError):
                if view is not None:
                    view.release()

    @property
    def extent(self) -> int:
        """The length of the image in the file, in bytes, as `bootimg scan` prints it: a FIT ends
        with its blob, or with the payload that ends last."""
        if isinstance(self.header, LegacyHeader):
            return self._size - self.unused
        ends = ((one.offset or 0) + (one.size or 0) for one in self.images)
        return max(self.header.total_size, *ends) if self.images else self.header.total_size

    def _part(self, part: dict[str, int]) -> Part:
        offset, size = part["offset"], part["size"]
        return Part(offset, size, self.file[offset : offset + size])

    def _image(self, image: dict[str, Any]) -> FitImage:
        name, place = _name_of(image["name"]), image["payload"]
        if place is None:
            return FitImage(name, None, None, None, None, self)
        offset, size = place["offset"], place["size"]
        payload = self.file[offset : offset + size]
        return FitImage(name, place["property"], offset, size, payload, self)

    def _configuration(self, configuration: dict[str, Any]) -> Configuration:
        lists = {listed["key"]: self._listed(listed) for listed in configuration["keys"]}
        return Configuration(_name_of(configuration["name"]), tuple(lists), lists)

    def _listed(self, listed: dict[str, Any]) -> tuple[FitImage, ...] | bootimg.NotFound:
        if "missing" in listed:
            return bootimg.NotFound("missing image", listed["missing"])
        if "bad_list" in listed:
            return bootimg.NotFound("bad list", None)
        return tuple(self._images[_name_of(name)] for name in listed["images"])

    def image(self, name: bytes | str) -> FitImage:
        """Returns the image of a FIT with the given name. Raises NotFound if there is none."""
        decoded = name.decode("utf-8", "surrogateescape") if isinstance(name, bytes) else name
        if decoded not in self._images:
            raise bootimg.NotFound("no such image", None)
        return self._images[decoded]

    def configuration(self, name: bytes | str | None = None) -> Configuration:
        """Returns the configuration with the given name, or else the default one. Raises NotFound
        if there is none."""
        decoded = name.decode("utf-8", "surrogateescape") if isinstance(name, bytes) else name
        wanted = self.default if decoded is None else decoded
        for configuration in self.configurations:
            if configuration.name == wanted:
                return configuration
        raise bootimg.NotFound("no such configuration", None)

    @functools.cached_property
    def root(self) -> Node:
        """The root of the tree of a FIT. Raises NotFound for a legacy image."""
        self._require_fit()
        return Node("", "/", self)

    def nodes(self) -> tuple[Node, ...]:
        """Returns all nodes of a FIT, the root first and each node before those below it. Raises
        NotFound for a legacy image."""
        found = self._tree.items()
        return tuple(Node(node.name, _decoded(path), self) for path, node in found)

    def properties(self, path: bytes | str) -> dict[str, Value]:
        """Returns the values of all properties of the node of a FIT at a path, such as
        "/images/kernel-1", by their names. The path of the root is "/". Raises NotFound with "no
        such node" if there is none, and with the first of REASONS for a legacy image."""
        return self._values_at(path)

    def property_value(self, path: bytes | str, name: bytes | str) -> memoryview:
        """Returns the value of one property of the node of a FIT at a path, as a view of the file,
        which is not copied; `Value` makes a value of it. Raises NotFound as `properties` does, or
        with "no such property"."""
        place = self._node_at(path).values.get(_decoded(bootimg._name_of(name)))
        if place is None:
            raise bootimg.NotFound("no such property", None)
        value = self.file[place]
        self._values[id(value)] = value
        return value

    def children(self, path: bytes | str) -> tuple[str, ...]:
        """Returns the names of the children of the node of a FIT at a path, in their order. Raises
        NotFound as `properties` does."""
        return tuple(self._node_at(path).children)

    def _values_at(self, path: bytes | str, without: Container[str] = ()) -> dict[str, Value]:
        """The values of the node at a path by their names, but for these names."""
        places = self._node_at(path).values
        file = self.file
        return {name: Value(file[place]) for name, place in places.items() if name not in without}

    def _node_at(self, path: bytes | str) -> _TreeNode:
        found = self._tree.get(bootimg._name_of(path))
        if found is None:
            raise bootimg.NotFound("no such node", None)
        return found

    @functools.cached_property
    def _tree(self) -> dict[bytes, _TreeNode]:
        """All nodes of a FIT by their paths, the root first and each node before those below it.
        One call reads them all."""
        self._require_fit()
        tree: dict[bytes, _TreeNode] = {}
        # The nodes on the way to an element, and their paths, that of the root without its slash.
        way: list[tuple[_TreeNode, bytes]] = []
        elements = bootimg._tree_elements(self.file, *self._bounds)
        for offset, size, begin, length, depth, kind in elements:
            name = self.file[offset : offset + size].tobytes()
            if kind == _PROPERTY:
                way[-1][0].values[_decoded(name)] = slice(begin, begin + length)
                continue
            del way[depth:]
            node, path = _TreeNode(_decoded(name)), b""
            if way:
                above, path_above = way[-1]
                above.children.append(node.name)
                path = path_above + b"/" + name
            way.append((node, path))
            tree[path or b"/"] = node
        return tree

    def _require_fit(self) -> None:
        if self.kind != "fit":
            raise bootimg.NotFound(bootimg.REASONS[0], None)

    def verify(self) -> Verification:
        """Returns the verdicts on hash nodes. The digests are computed once."""
        return self._verification

    @functools.cached_property
    def _verification(self) -> Verification:
        if self.kind != "fit":
            return Verification((), True)
        elements = bootimg._elements("verdicts", bootimg._HashElement, (self.file,), *self._bounds)
        hashes = tuple(map(self._hash, elements))
        return Verification(hashes, all(one.verdict == "good" for one in hashes))

    def _hash(self, element: bootimg._HashElement) -> Hash:
        return Hash(
            _decoded(self._bytes(element.image)),
            _decoded(self._bytes(element.node)),
            self._optional_text(element.algorithm),
            bootimg.VERDICTS[element.verdict],
            self._optional_bytes(element.value),
        )

    def _view(self, region: bootimg._Region) -> memoryview:
        return self.file[region.offset : region.offset + region.size]

    def _bytes(self, region: bootimg._Region) -> bytes:
        return bytes(self._view(region))

    def _optional_bytes(self, region: bootimg._Region) -> bytes | None:
        return self._bytes(region) if region.offset else None

    def _optional_text(self, region: bootimg._Region) -> str | None:
        text = self._optional_bytes(region)
        return None if text is None else _decoded(text)

    def check(self, allow: Iterable[str] = (), *, signed: bool = False) -> tuple[Concern, ...]:
        """Returns the concerns about the file, except those of the kinds in `allow`, of CONCERNS.
        With `signed`, a configuration without a signature is one. Raises Refused with TooLarge as
        `bootimg.check` does."""
        kinds = tuple(allow)
        numbers = (bootimg._policy_number(kinds, signed), *self._bounds)
        elements = bootimg._elements("concerns", bootimg._ConcernElement, (self.file,), *numbers)
        if not any(_is_of_line(element) for element in elements):
            return tuple(map(self._concern, elements))
        lines = bootimg.check(self.file, kinds, *self._bounds, signed=signed).splitlines()
        return tuple(
            _concern_of_line(line) if _is_of_line(element) else self._concern(element)
            for element, line in zip(elements, lines)
        )

    def _concern(self, element: bootimg._ConcernElement) -> Concern:
        kind = bootimg.CONCERNS[element.kind.bit_length() - 1]
        name = self._optional_text(element.name)
        if kind == "bad-hash":
            node, algorithm = map(self._optional_text, (element.node, element.algorithm))
            return Concern(kind, name, node, algorithm, bootimg.VERDICTS[element.verdict])
        if kind == "skipped-hash":
            return Concern(kind, name, self._optional_text(element.node))
        if kind == "weak-hash":
            return Concern(kind, name, algorithms=tuple(self._good_algorithms[name]))
        if kind == "bad-list":
            return Concern(kind, configuration=name, key=bootimg.KEYS[element.key])
        if kind == "missing":
            key = bootimg.KEYS[element.key]
            return Concern(kind, configuration=name, key=key, index=element.index)
        if kind == "bad-default":
            return Concern(kind, default=name)
        return Concern(kind, size=element.size) if kind == "trailing" else Concern(kind, name)

    @functools.cached_property
    def _good_algorithms(self) -> dict[str | None, list[str]]:
        """The algorithms of the hash nodes whose verdict is good and that U-Boot does not skip, by
        the name of their image."""
        others = (kind for kind in bootimg.CONCERNS if kind != "skipped-hash")
        skipped = {(one.image, one.node) for one in self.check(others)}
        algorithms: dict[str | None, list[str]] = {}
        for one in self.verify().hashes:
            if one.verdict == "good" and (one.image, one.node) not in skipped:
                algorithms.setdefault(one.image, []).append(one.algorithm or "")
        return algorithms

    def normalise(self, external: bool = False, *, align: int | None = None) -> bytes:
        """Returns the normal form of the file, as `bootimg.normalise` does."""
        return bootimg.normalise(self.file, external, *self._bounds, align=align)

    def update(
        self,
        time: int | None = None,
        hashes: bool = False,
        external: bool = False,
        *,
        align: int | None = None,
    ) -> bytes:
        """Returns the normal form with a time or with new digests, as `bootimg.update` does."""
        return bootimg.update(self.file, time, hashes, external, *self._bounds, align=align)

    def notes(
        self,
        time: int | None = None,
        hashes: bool = False,
        external: bool = False,
        *,
        align: int | None = None,
    ) -> bootimg.Notes:
        """Returns what a user should know about what `normalise` or `update` returns, as
        `bootimg.notes` does."""
        return bootimg.notes(self.file, time, hashes, external, *self._bounds, align=align)

    def edit(
        self,
        *,
        remove: Iterable[bytes | str] = (),
        set: Iterable[bytes | str] = (),
        payloads: Mapping[str, bootimg.Buffer] | Mapping[bytes, bootimg.Buffer] | None = None,
        fields: Mapping[str, bytes | str | int] = {},
        time: int | None = None,
        hashes: bool = False,
        external: bool = False,
        align: int | None = None,
        keep_form: bool = False,
    ) -> bytes:
        """Returns the normal form of the file after edits, as `bootimg.edit` does."""
        limit, depth = self._bounds
        return bootimg.edit(
            self.file,
            remove=remove,
            set=set,
            payloads=payloads,
            fields=fields,
            time=time,
            hashes=hashes,
            external=external,
            align=align,
            keep_form=keep_form,
            limit=limit,
            depth=depth,
        )

    def convert(self) -> bytes:
        """Returns the FIT that a legacy image is converted to, as `bootimg.convert` does."""
        return bootimg.convert(self.file, *self._bounds)

    def listing(self) -> str:
        """Returns the listing of the file, as `bootimg.listing` does."""
        return bootimg.listing(self.file, *self._bounds)

    def describe(self, *, deep: bool = False) -> str:
        """Returns the description of what the file means, as `bootimg.describe` does."""
        return bootimg.describe(self.file, *self._bounds, deep=deep)

    def get(self, place: bytes | str, name: bytes | str = "", form: str = "shown") -> bytes:
        """Returns a single value, as `bootimg.get` does."""
        return bootimg.get(self.file, place, name, form, *self._bounds)

    def show(self, layout: bool = False) -> str:
        """Returns the page of the file, for a person, as `bootimg.show` does."""
        return bootimg.show(self.file, layout, *self._bounds)

    def show_json(self) -> str:
        """Returns what the page of the file says in JSON, as `bootimg.show_json` does."""
        return bootimg.show_json(self.file, *self._bounds)

    def compare(
        self,
        other: Image | bootimg.Buffer,
        *,
        ignore: Iterable[bytes | str] = (),
        deep: bool = False,
    ) -> bootimg.Comparison:
        """Returns what differs between what two files mean, without what `ignore` names, as
        `bootimg.compare` does. The limits of this image apply."""
        file = other.file if isinstance(other, Image) else other
        return bootimg.compare(self.file, file, *self._bounds, ignore=ignore, deep=deep)

    def __repr__(self) -> str:
        return f"<{self.kind} image of {self._size} bytes>"


def open(
    source: str | os.PathLike[str] | bootimg.Buffer,
    limit: int = bootimg.LIMIT,
    depth: int = bootimg.DEPTH,
) -> Image:
    """Returns the boot image in a file. `source` is the path of the file, which is read as a whole
    to memory, or its bytes, which are not copied. The image is a context manager, which releases
    its views.

    >>> import bootimg
    >>> board = bootimg.open("examples/board.itb")
    >>> for image in board.images:
    ...     print(f"{image.name:10} {image.size:5} bytes at {image.offset}")
    kernel-1     468 bytes at 184
    ramdisk-1     29 bytes at 896
    fdt-1        106 bytes at 1112
    >>> bytes(board.image("ramdisk-1").payload)
    b'a text in place of a ramdisk\\n'
    >>> board.image("fdt-1").properties["type"]
    b'flat_dt\\x00'
    >>> bytes(board.property_value("/configurations", "default"))
    b'conf-1\\x00'
    >>> board.get("/images/kernel-1", "load", "number")
    b'0x80080000\\n'
    >>> board.children("/images")
    ('kernel-1', 'ramdisk-1', 'fdt-1')
    >>> [(one.node, one.algorithm, one.verdict) for one in board.image("fdt-1").hashes]
    [('hash-1', 'sha256', 'good')]
    >>> print(board.show().splitlines()[-1])
    weak-hash ramdisk-1 crc32
    >>> [image.name for image in board.configuration("conf-2").images("fdt")]
    ['fdt-1']
    >>> board.check()
    (Concern(kind='weak-hash', image='ramdisk-1', algorithms=('crc32',)),)
    """
    if isinstance(source, (str, os.PathLike)):
        with io.open(source, "rb") as file:
            # One byte more than the limit is enough for the file to be refused.
            return Image(file.read(limit + 1), limit, depth)
    return Image(source, limit, depth)


def _is_of_line(element: bootimg._ConcernElement) -> bool:
    """Returns whether only the line of a concern gives its names."""
    return bool(element.kind > 1 << bootimg.CONCERNS.index("skipped-hash"))


def _concern_of_line(line: str) -> Concern:
    """Returns the concern of a line about signatures or unit addresses."""
    kind, *shown = line.split(" ")
    names = [_name_of(name) for name in shown]
    if kind == "unsigned":
        return Concern(kind, configuration=names[0] or None)
    if kind == "unit-address":
        return Concern(kind, path=names[0])
    configuration, signature, *paths = names
    path = paths[0] if paths else None
    return Concern(kind, configuration=configuration, signature=signature, path=path)


def _decoded(name: bytes) -> str:
    return name.decode("utf-8", "surrogateescape")


def _name_of(shown: str) -> str:
    """Returns the name that is shown so."""
    return _decoded(b"" if shown == "-" else urllib.parse.unquote_to_bytes(shown))


def _optional_name(shown: str | None) -> str | None:
    return None if shown is None else _name_of(shown)


def _header_of(listed: dict[str, Any]) -> LegacyHeader | FitHeader:
    if listed["kind"] == "legacy":
        numbers = [listed[name] for name in ("time", "load", "entry")]
        codes = [listed[name] for name in ("os", "arch", "type", "compression")]
        return LegacyHeader(_name_of(listed["name"]), *numbers, *codes)
    reservations = [
        Reservation(int(pair["address"], 16), int(pair["size"], 16))
        for pair in listed["reservations"]
    ]
    return FitHeader(listed["boot_cpu"], listed["total_size"], tuple(reservations))
