# SPDX-License-Identifier: MIT OR Apache-2.0
"""Descriptors of memory transactions (DEN0077A, 5.11 and 16): as values, as bytes, and as operations."""
from __future__ import annotations

import struct
from dataclasses import dataclass
from typing import Iterator, NamedTuple, Sequence

from .checks import Flaw
from .codes import PAGE_SIZE, Ffa, Form, Function, Kind
from .errors import MalformedDescriptor
from .hexadecimal import Named, by_fields, shown
from .misuse import check_each, check_member, check_member_or_number, check_numbers, refuse
from .outcomes import Call, Operation, Store

NORMAL_MEMORY = 0x2F
NON_SECURE = 1 << 6
MOST_RECEIVERS = 4
MOST_RANGES = 64
ENTRY_SIZE = 16
"""The size of a composite without its ranges, and of a range."""

_NAMES_ONE = 1 << 10
_HEADER = struct.Struct("<HHIQQII")
_REST = struct.Struct("<IIQ")
_ACCESS = struct.Struct("<HBBI")
_COMPOSITE = struct.Struct("<IIQ")
_RANGE = struct.Struct("<QII")
_RELINQUISH = struct.Struct("<QIIH")
_READ_BACK = struct.Struct("<8xQ")


class DataAccess(Named):
    """What a permission says of loads and stores."""

    UNSPECIFIED = 0
    RO = 1
    RW = 2


class InstructionAccess(Named):
    """What a permission says of fetches."""

    UNSPECIFIED = 0
    NX = 1
    X = 2


@dataclass(frozen=True, slots=True)
class Receiver:
    """An endpoint of a transaction, with what it is granted, asks for, or holds."""

    endpoint: int
    data: DataAccess = DataAccess.UNSPECIFIED
    instructions: InstructionAccess = InstructionAccess.UNSPECIFIED

    __repr__ = by_fields

    def __post_init__(self) -> None:
        check_numbers(self, "endpoint")
        check_member_or_number("data", self.data, DataAccess)
        check_member_or_number("instructions", self.instructions, InstructionAccess)

    @property
    def permissions(self) -> int:
        """The byte of an access descriptor that says this."""
        return self.data | self.instructions << 2


@dataclass(frozen=True, slots=True)
class PageRange:
    """Pages that stand side by side, by the address of the first."""

    address: int
    pages: int

    __repr__ = by_fields

    def __post_init__(self) -> None:
        check_numbers(self, "address", "pages")

    @property
    def end(self) -> int:
        """The address behind the last page."""
        return self.address + PAGE_SIZE * self.pages


@dataclass(frozen=True, slots=True)
class Offer:
    """What a sender offers by FFA_MEM_DONATE, FFA_MEM_LEND or FFA_MEM_SHARE."""

    kind: Kind
    sender: int
    receivers: tuple[Receiver, ...]
    ranges: tuple[PageRange, ...]
    zero: bool = False
    tag: int = 0

    __repr__ = by_fields

    def __post_init__(self) -> None:
        check_member("kind", self.kind, Kind)
        check_numbers(self, "sender", "tag")
        check_each("receivers", self.receivers, Receiver)
        check_each("ranges", self.ranges, PageRange)

    def to_bytes(self, form: Form = Form.FFA_1_1, *, checked: bool = True) -> bytes:
        """The descriptor. Where the machine would find it malformed, that is raised, unless it isn't to be checked."""
        composite = header_size(form) + access_size(form) * len(self.receivers)
        attributes = _attributes(self.kind, len(self.receivers))
        data = (
            _pack_header(form, self.sender, attributes, int(self.zero), 0, self.tag, len(self.receivers))
            + b"".join(_pack_access(form, it, composite) for it in self.receivers)
            + _pack_composite(self.ranges)
        )
        if checked:
            Offer.from_bytes(data, self.kind, form)
        return data

    @classmethod
    def from_bytes(cls, data: bytes, kind: Kind, form: Form = Form.FFA_1_1, ffa: Ffa | None = None) -> Offer:
        """What a descriptor of this kind says to a machine that serves this version of FF-A. The default is `Ffa.V1_2` with
        `Form.FFA_1_2`, and else `Ffa.V1_1`. A machine of FF-A 1.2 lets each lend leave the memory attributes to its
        receivers, and flags name the kind, in each form."""
        check_member("kind", kind, Kind)
        header = _read_header(data, form)
        served = _served(form, ffa)
        flags = _check_send(served, kind, header)
        composite = _u32(data, header.array + 4)
        receivers: list[Receiver] = []
        for index in range(header.entries):
            receivers.append(_read_receiver(data, kind, header, composite, index, receivers))
        count = _read_range_count(data, header, composite)
        ranges: list[PageRange] = []
        for index in range(count):
            ranges.append(_read_range(data, composite + ENTRY_SIZE * (1 + index), index, ranges))
        _require(sum(it.pages for it in ranges) == _u32(data, composite), Flaw.COMPOSITE_TOTAL)
        return cls(kind, header.sender, tuple(receivers), tuple(ranges), flags == 1, header.tag)

    def operations(self, tx: int, form: Form = Form.FFA_1_1, *, checked: bool = True) -> list[Operation]:
        """The stores that write it to TX, and its call."""
        return _stores_and_call(tx, self.to_bytes(form, checked=checked), self.kind.function)


@dataclass(frozen=True, slots=True)
class Retrieve:
    """What a receiver asks for by FFA_MEM_RETRIEVE_REQ. Without a kind any kind will do."""

    sender: int
    handle: int
    receiver: Receiver
    tag: int = 0
    kind: Kind | None = None

    __repr__ = by_fields

    def __post_init__(self) -> None:
        check_numbers(self, "sender", "handle", "tag")
        _check_receiver(self.receiver)
        if self.kind is not None:
            check_member_or_number("kind", self.kind, Kind)

    def to_bytes(self, form: Form = Form.FFA_1_1, *, checked: bool = True) -> bytes:
        """The descriptor, checked as that of an offer is."""
        flags = (self.kind or 0) << 3
        data = _pack_header(form, self.sender, 0, flags, self.handle, self.tag, 1) + _pack_access(form, self.receiver, 0)
        if checked:
            Retrieve.from_bytes(data, self.receiver.endpoint, form)
        return data

    @classmethod
    def from_bytes(cls, data: bytes, endpoint: int, form: Form = Form.FFA_1_1, ffa: Ffa | None = None) -> Retrieve:
        """What a retrieve descriptor of this endpoint says to a machine that serves this version of FF-A. The default is as
        of an offer. To a machine of FF-A 1.2 it may name the other receivers too, of which only the caller is told here."""
        header = _read_header(data, form)
        served = _served(form, ffa)
        flags = _check_retrieve(served, header)
        named = [_read_access(data, header, index) for index in range(header.entries)]
        own = next((index for index, it in enumerate(named) if it.endpoint == endpoint), 0)
        _check_asked(endpoint, named[own], own)
        if served is Ffa.V1_2:
            _check_names(named)
        return cls(header.sender, header.handle, named[own].receiver, header.tag, Kind(flags >> 3) if flags else None)

    def operations(self, tx: int, form: Form = Form.FFA_1_1, *, checked: bool = True) -> list[Operation]:
        """The stores that write it to TX, and its call."""
        return _stores_and_call(tx, self.to_bytes(form, checked=checked), Function.FFA_MEM_RETRIEVE_REQ)


@dataclass(frozen=True, slots=True)
class ReadBack:
    """What the normal world asks for by FFA_MEM_RETRIEVE_REQ as a hypervisor: to read back a transaction that it sent. Only a
    machine that serves FF-A 1.2 lets it."""

    handle: int

    __repr__ = by_fields

    def __post_init__(self) -> None:
        check_numbers(self, "handle")

    def to_bytes(self, form: Form = Form.FFA_1_1) -> bytes:
        """The descriptor: a header, in which only the handle is not 0."""
        return _pack(_READ_BACK, self.handle).ljust(header_size(form), b"\0")

    def operations(self, tx: int, form: Form = Form.FFA_1_1) -> list[Operation]:
        """The stores that write it to TX, and its call."""
        return _stores_and_call(tx, self.to_bytes(form), Function.FFA_MEM_RETRIEVE_REQ)


@dataclass(frozen=True, slots=True)
class RetrieveResponse:
    """What FFA_MEM_RETRIEVE_RESP leaves in RX: `receivers` is who has retrieved, with the right that it holds from now on. To a
    `ReadBack` it is each receiver, with the right that the sender granted. Only of a machine that serves FF-A 1.2 are
    pages told to be `non_secure`, and not in the compact form."""

    kind: Kind
    sender: int
    handle: int
    receivers: tuple[Receiver, ...]
    ranges: tuple[PageRange, ...]
    zeroed: bool = False
    tag: int = 0
    non_secure: bool = False

    __repr__ = by_fields

    def __post_init__(self) -> None:
        check_member_or_number("kind", self.kind, Kind)
        check_numbers(self, "sender", "handle", "tag")
        check_each("receivers", self.receivers, Receiver)
        check_each("ranges", self.ranges, PageRange)

    def to_bytes(self, form: Form = Form.FFA_1_1) -> bytes:
        """The response, as the machine writes it."""
        composite = header_size(form) + access_size(form) * len(self.receivers)
        attributes = NORMAL_MEMORY | (NON_SECURE if self.non_secure and form is not Form.COMPACT else 0)
        flags = self.kind << 3 | int(self.zeroed)
        return (
            _pack_header(form, self.sender, attributes, flags, self.handle, self.tag, len(self.receivers))
            + b"".join(_pack_access(form, it, composite) for it in self.receivers)
            + _pack_composite(self.ranges)
        )

    @classmethod
    def from_bytes(cls, data: bytes, form: Form = Form.FFA_1_1) -> RetrieveResponse:
        """What the bytes of RX say, of which those behind the response may be anything."""
        header = _read_header(data, form)
        _require(1 <= header.entries <= MOST_RECEIVERS, Flaw.RETRIEVE_ACCESS_COUNT)
        named = [_read_access(data, header, index) for index in range(header.entries)]
        for index, access in enumerate(named):
            _require(access.permissions & 3 != 3, Flaw.RETRIEVE_DATA_PERMISSION, index)
            _require(access.permissions >> 2 & 3 != 3, Flaw.RETRIEVE_INSTRUCTION_PERMISSION, index)
        _require(header.flags >> 3 & 3 != 0, Flaw.RETRIEVE_FLAGS)
        composite = named[0].composite
        count = _read_range_count(data, header, composite)
        ranges = tuple(
            PageRange(*_RANGE.unpack_from(data, composite + ENTRY_SIZE * (1 + index))[:2]) for index in range(count)
        )
        receivers = tuple(it.receiver for it in named)
        kind, zeroed = Kind(header.flags >> 3 & 3), bool(header.flags & 1)
        non_secure = form is not Form.COMPACT and bool(header.attributes & NON_SECURE)
        return cls(kind, header.sender, header.handle, receivers, ranges, zeroed, header.tag, non_secure)


@dataclass(frozen=True, slots=True)
class Relinquish:
    """What an endpoint gives up by FFA_MEM_RELINQUISH. It has one form."""

    handle: int
    endpoint: int
    zero: bool = False

    __repr__ = by_fields

    def __post_init__(self) -> None:
        check_numbers(self, "handle", "endpoint")

    def to_bytes(self) -> bytes:
        """The descriptor."""
        return _pack(_RELINQUISH, self.handle, int(self.zero), 1, self.endpoint)

    @classmethod
    def from_bytes(cls, data: bytes) -> Relinquish:
        """What TX begins with."""
        _require(len(data) >= _RELINQUISH.size, Flaw.RELINQUISH_SHORT)
        handle, flags, count, endpoint = _RELINQUISH.unpack_from(data)
        _require(flags <= 1, Flaw.RELINQUISH_FLAGS)
        _require(count == 1, Flaw.RELINQUISH_ENDPOINT_COUNT)
        return cls(handle, endpoint, flags == 1)

    def operations(self, tx: int, form: Form = Form.FFA_1_1) -> list[Operation]:
        """The stores that write it to TX, and its call."""
        return [*stores(tx, self.to_bytes()), Call((Function.FFA_MEM_RELINQUISH,))]


def header_size(form: Form) -> int:
    """How many bytes a transaction header has."""
    check_member("form", form, Form)
    return 32 if form is Form.COMPACT else 48


def access_size(form: Form) -> int:
    """How many bytes an access descriptor has."""
    check_member("form", form, Form)
    return 32 if form is Form.FFA_1_2 else 16


def stores(address: int, data: bytes) -> Iterator[Store]:
    """Stores that write these bytes, each as large as its address and what is left let it be."""
    at = 0
    while at < len(data):
        size = 8
        while (address + at) % size or at + size > len(data):
            size //= 2
        yield Store(address + at, size, int.from_bytes(data[at : at + size], "little"))
        at += size


def _check_receiver(given: object) -> None:
    if not isinstance(given, Receiver):
        meant = f"Receiver({shown(given)})" if isinstance(given, int) else None
        refuse("receiver", "a Receiver", given, meant)


class _Header(NamedTuple):
    sender: int
    attributes: int
    flags: int
    handle: int
    tag: int
    entries: int
    array: int
    entry_size: int

    @property
    def end(self) -> int:
        """Where the access descriptors end."""
        return self.array + self.entry_size * self.entries


class _Access(NamedTuple):
    endpoint: int
    permissions: int
    flags: int
    composite: int
    is_rest_zero: bool

    @property
    def receiver(self) -> Receiver:
        """What it says, where its permissions were checked."""
        data, instructions = DataAccess(self.permissions & 3), InstructionAccess(self.permissions >> 2 & 3)
        return Receiver(self.endpoint, data, instructions)


def _require(holds: bool, flaw: Flaw, index: int = 0) -> None:
    if not holds:
        raise MalformedDescriptor(flaw, index)


def _pack(form: struct.Struct, *fields: int) -> bytes:
    try:
        return form.pack(*fields)
    except struct.error as wrong:
        raise ValueError(f"a field of the descriptor doesn't hold its number: {wrong}") from None


def _pack_header(form: Form, sender: int, attributes: int, flags: int, handle: int, tag: int, count: int) -> bytes:
    front = _pack(_HEADER, sender, attributes, flags, handle, tag, _told_size(form), count)
    return front + (_pack(_REST, header_size(form), 0, 0) if form is not Form.COMPACT else b"")


def _told_size(form: Form) -> int:
    """What a header says of the size of an access descriptor."""
    return 0 if form is Form.COMPACT else access_size(form)


def _pack_access(form: Form, receiver: Receiver, composite: int) -> bytes:
    front = _pack(_ACCESS, receiver.endpoint, receiver.permissions, 0, composite)
    return front.ljust(access_size(form), b"\0")


def _pack_composite(ranges: Sequence[PageRange]) -> bytes:
    total = sum(it.pages for it in ranges)
    return _pack(_COMPOSITE, total, len(ranges), 0) + b"".join(_pack(_RANGE, it.address, it.pages, 0) for it in ranges)


def _stores_and_call(tx: int, data: bytes, function: Function) -> list[Operation]:
    return [*stores(tx, data), Call((function, len(data), len(data)))]


def _u32(data: bytes, at: int) -> int:
    return int.from_bytes(data[at : at + 4], "little")


def _attributes(kind: Kind, receivers: int) -> int:
    is_left_open = kind is Kind.DONATE or kind is Kind.LEND and receivers == 1
    return 0 if is_left_open else NORMAL_MEMORY


def _read_header(data: bytes, form: Form) -> _Header:
    size = header_size(form)
    _require(len(data) >= size, Flaw.HEADER_SHORT)
    sender, attributes, flags, handle, tag, told, count = _HEADER.unpack_from(data)
    array, low, high = _REST.unpack_from(data, _HEADER.size) if form is not Form.COMPACT else (size, 0, 0)
    header = _Header(sender, attributes, flags, handle, tag, count, array, access_size(form))
    _require(told == _told_size(form), Flaw.HEADER_ACCESS_SIZE)
    _require(array % 16 == 0, Flaw.HEADER_ARRAY_UNALIGNED)
    _require(array >= size, Flaw.HEADER_ARRAY_IN_HEADER)
    _require(header.end <= len(data), Flaw.HEADER_ARRAY_OUTSIDE)
    _require(low == high == 0, Flaw.HEADER_RESERVED)
    return header


def _read_access(data: bytes, header: _Header, index: int = 0) -> _Access:
    at = header.array + header.entry_size * index
    endpoint, permissions, flags, composite = _ACCESS.unpack_from(data, at)
    is_rest_zero = not any(data[at + _ACCESS.size : at + header.entry_size])
    return _Access(endpoint, permissions, flags, composite, is_rest_zero)


def _served(form: Form, ffa: Ffa | None) -> Ffa:
    """The version of FF-A of the machine that reads a descriptor of this form."""
    if ffa is None:
        return Ffa.V1_2 if form is Form.FFA_1_2 else Ffa.V1_1
    check_member("ffa", ffa, Ffa)
    if form is Form.FFA_1_2 and ffa is Ffa.V1_1:
        raise ValueError("a machine of Ffa.V1_1 has no endpoint of Form.FFA_1_2: give Ffa.V1_2")
    return ffa


def _check_send(ffa: Ffa, kind: Kind, header: _Header) -> int:
    """The flags of an offer, without its own kind where the machine lets them name that."""
    is_left_or_said = ffa is Ffa.V1_2 and kind is Kind.LEND and header.attributes in (0, NORMAL_MEMORY)
    _require(is_left_or_said or header.attributes == _attributes(kind, header.entries), Flaw.SEND_ATTRIBUTES)
    names_kind = ffa is Ffa.V1_2 and header.flags >> 3 & 3 == kind
    flags = header.flags - (kind << 3) if names_kind else header.flags
    _require(flags <= (0 if kind is Kind.SHARE else 1), Flaw.SEND_FLAGS)
    _require(header.handle == 0, Flaw.SEND_HANDLE)
    _require(header.entries >= 1, Flaw.SEND_NO_RECEIVER)
    _require(header.entries <= (1 if kind is Kind.DONATE else MOST_RECEIVERS), Flaw.SEND_MANY_RECEIVERS)
    return flags


def _check_retrieve(ffa: Ffa, header: _Header) -> int:
    """The flags of a retrieve, without the one that says to a machine of FF-A 1.2 that it names the caller alone."""
    names_one = ffa is Ffa.V1_1 or header.flags & _NAMES_ONE != 0
    flags = header.flags & ~_NAMES_ONE if ffa is Ffa.V1_2 else header.flags
    _require(header.attributes in (0, NORMAL_MEMORY), Flaw.RETRIEVE_ATTRIBUTES)
    _require(flags & ~0x18 == 0, Flaw.RETRIEVE_FLAGS)
    _require(1 <= header.entries <= (1 if names_one else MOST_RECEIVERS), Flaw.RETRIEVE_ACCESS_COUNT)
    return flags


def _check_asked(endpoint: int, access: _Access, index: int) -> None:
    _require(access.endpoint == endpoint, Flaw.RETRIEVE_RECEIVER_IS_ANOTHER, index)
    _require(access.permissions & 3 != 3, Flaw.RETRIEVE_DATA_PERMISSION, index)
    _require(access.permissions >> 2 & 3 != 3, Flaw.RETRIEVE_INSTRUCTION_PERMISSION, index)
    _require(access.permissions >> 4 == 0, Flaw.RETRIEVE_PERMISSIONS_RESERVED, index)
    _require(access.flags == 0, Flaw.RETRIEVE_ACCESS_FLAGS, index)
    _require(access.composite == 0, Flaw.RETRIEVE_COMPOSITE_TOLD, index)
    _require(access.is_rest_zero, Flaw.RETRIEVE_ACCESS_RESERVED, index)


def _check_names(named: Sequence[_Access]) -> None:
    for index, access in enumerate(named):
        _require(access.flags <= 1, Flaw.ACCESS_FLAGS, index)
        _require(access.composite == 0, Flaw.ACCESS_OTHER_COMPOSITE, index)
        _require(access.is_rest_zero, Flaw.ACCESS_RESERVED, index)
        _require(all(access.endpoint != it.endpoint for it in named[:index]), Flaw.ACCESS_RECEIVER_TWICE, index)


def _read_receiver(
    data: bytes, kind: Kind, header: _Header, composite: int, index: int, earlier: Sequence[Receiver]
) -> Receiver:
    access = _read_access(data, header, index)
    _require(access.permissions in ((0,) if kind is Kind.DONATE else (1, 2)), Flaw.ACCESS_PERMISSIONS, index)
    _require(access.flags == 0, Flaw.ACCESS_FLAGS, index)
    _require(access.composite == composite, Flaw.ACCESS_OTHER_COMPOSITE, index)
    _require(access.is_rest_zero, Flaw.ACCESS_RESERVED, index)
    _require(access.endpoint != header.sender, Flaw.ACCESS_RECEIVER_IS_SENDER, index)
    _require(all(access.endpoint != it.endpoint for it in earlier), Flaw.ACCESS_RECEIVER_TWICE, index)
    return access.receiver


def _read_range_count(data: bytes, header: _Header, composite: int) -> int:
    first = composite + ENTRY_SIZE
    _require(first <= len(data), Flaw.COMPOSITE_OUTSIDE)
    _require(composite % 16 == 0, Flaw.COMPOSITE_UNALIGNED)
    _require(header.end <= composite, Flaw.COMPOSITE_IN_ARRAY)
    _, count, reserved = _COMPOSITE.unpack_from(data, composite)
    _require(count >= 1, Flaw.COMPOSITE_NO_RANGE)
    _require(count <= MOST_RANGES, Flaw.COMPOSITE_MANY_RANGES)
    _require(reserved == 0, Flaw.COMPOSITE_RESERVED)
    _require(first + ENTRY_SIZE * count <= len(data), Flaw.COMPOSITE_RANGES_OUTSIDE)
    return int(count)


def _read_range(data: bytes, at: int, index: int, earlier: Sequence[PageRange]) -> PageRange:
    address, pages, reserved = _RANGE.unpack_from(data, at)
    found = PageRange(address, pages)
    _require(pages >= 1, Flaw.RANGE_EMPTY, index)
    _require(address % PAGE_SIZE == 0, Flaw.RANGE_UNALIGNED, index)
    _require(found.end <= 1 << 48, Flaw.RANGE_TOO_HIGH, index)
    _require(reserved == 0, Flaw.RANGE_RESERVED, index)
    _require(all(found.end <= it.address or it.end <= address for it in earlier), Flaw.RANGE_OVERLAP, index)
    return found
