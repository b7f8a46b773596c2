# SPDX-License-Identifier: MIT OR Apache-2.0
"""What else stands in TX and RX: indirect messages and partition information (DEN0077A, 6.2 and 7.1)."""
from __future__ import annotations

import struct
import uuid
from dataclasses import dataclass

from .codes import Form, Function, Properties
from .descriptors import stores
from .hexadecimal import by_fields
from .misuse import check_member, check_member_or_number, check_numbers, check_uuid, refuse
from .outcomes import Call, Operation

HEADER_SIZE = 20
"""How many bytes the header of a message has, but in the form of FF-A 1.2."""
HEADER_SIZE_1_2 = 40
"""How many it has there: a reserved word and a UUID follow."""
_HEADER = struct.Struct("<IIIHHI")
_UUID_AT = 24
_INFORMATION = struct.Struct("<HHI16s")
_COMPACT_INFORMATION = struct.Struct("<HHI")
_NIL = uuid.UUID(int=0)
AARCH64 = 1 << 8
"""The bit of a partition's information that says that it runs in AArch64."""
_PROPERTIES = {Form.FFA_1_1: 15, Form.COMPACT: 7, Form.FFA_1_2: 0x60F}
"""The properties that a caller of each form is told."""


@dataclass(frozen=True, slots=True)
class IndirectMessage:
    """A message of FFA_MSG_SEND2, as it stands in the sender's TX and in the receiver's RX, in the sender's form.

    The message begins at `offset`, or right behind the header where that is None. `uuid` names a service of the receiver.
    Only in the form of FF-A 1.2 has the header room for it; the manager doesn't read it."""

    sender: int
    receiver: int
    payload: bytes
    offset: int | None = None
    uuid: uuid.UUID | None = None

    __repr__ = by_fields

    def __post_init__(self) -> None:
        check_numbers(self, "sender", "receiver", *(["offset"] if self.offset is not None else []))
        if not isinstance(self.payload, (bytes, bytearray, memoryview)):
            refuse("payload", "bytes", self.payload, "its encode()" if isinstance(self.payload, str) else None)
        check_uuid(self.uuid)

    def to_bytes(self, form: Form = Form.FFA_1_1) -> bytes:
        """Header and message, with zeros between."""
        least = message_header_size(form)
        offset = least if self.offset is None else self.offset
        if offset < least:
            raise ValueError(f"the message begins inside its header, which has {least} bytes: offset {offset}")
        if self.uuid is not None and form is not Form.FFA_1_2:
            raise ValueError(f"the header of a message has no UUID in {form!r}: give Form.FFA_1_2")
        try:
            header = _HEADER.pack(0, 0, offset, self.receiver, self.sender, len(self.payload))
        except struct.error as wrong:
            raise ValueError(f"a field of the header doesn't hold its number: {wrong}") from None
        if self.uuid is not None:
            header = header.ljust(_UUID_AT, b"\0") + self.uuid.bytes
        return header.ljust(offset, b"\0") + self.payload

    @classmethod
    def from_bytes(cls, data: bytes, form: Form = Form.FFA_1_1) -> IndirectMessage:
        """The message at the start of a buffer, which a sender of this form wrote."""
        least = message_header_size(form)
        if len(data) < least:
            raise ValueError(f"a header has {least} bytes, and there are {len(data)}")
        flags, reserved, offset, receiver, sender, size = _HEADER.unpack_from(data)
        if flags or reserved:
            raise ValueError("a reserved field of the header is not 0")
        if offset < least or size < 1:
            raise ValueError("the message begins inside its header" if size else "the message is empty")
        if offset + size > len(data):
            raise ValueError("the message ends outside the buffer")
        named = uuid.UUID(bytes=bytes(data[_UUID_AT:least])) if form is Form.FFA_1_2 else _NIL
        return cls(sender, receiver, data[offset : offset + size], offset, named if named != _NIL else None)

    def operations(self, tx: int, form: Form = Form.FFA_1_1) -> list[Operation]:
        """The stores that write it to TX, and its call."""
        return [*stores(tx, self.to_bytes(form)), Call((Function.FFA_MSG_SEND2,))]


def message_header_size(form: Form) -> int:
    """How many bytes the header of a message has."""
    check_member("form", form, Form)
    return HEADER_SIZE_1_2 if form is Form.FFA_1_2 else HEADER_SIZE


@dataclass(frozen=True, slots=True)
class PartitionInfo:
    """What FFA_PARTITION_INFO_GET tells of a partition. Its UUID is told only to who asks for the Nil UUID."""

    identifier: int
    properties: Properties
    uuid: uuid.UUID | None = None
    contexts: int = 1

    __repr__ = by_fields

    def __post_init__(self) -> None:
        check_numbers(self, "identifier", "contexts")
        check_member_or_number("properties", self.properties, Properties)

    def to_bytes(self, form: Form = Form.FFA_1_1) -> bytes:
        """The descriptor, as the machine writes it."""
        check_member("form", form, Form)
        if form is Form.COMPACT:
            return _COMPACT_INFORMATION.pack(self.identifier, self.contexts, self.properties & _PROPERTIES[form])
        told = (self.uuid or _NIL).bytes
        return _INFORMATION.pack(self.identifier, self.contexts, self.properties & _PROPERTIES[form] | AARCH64, told)

    @classmethod
    def from_bytes(cls, data: bytes, form: Form = Form.FFA_1_1) -> PartitionInfo:
        """The descriptor at the start of some bytes."""
        if len(data) < information_size(form):
            raise ValueError(f"a partition's information has {information_size(form)} bytes, and there are {len(data)}")
        if form is Form.COMPACT:
            identifier, contexts, bits = _COMPACT_INFORMATION.unpack_from(data)
            return cls(identifier, Properties(bits & _PROPERTIES[form]), None, contexts)
        identifier, contexts, bits, told = _INFORMATION.unpack_from(data)
        named = uuid.UUID(bytes=told)
        return cls(identifier, Properties(bits & _PROPERTIES[form]), named if named != _NIL else None, contexts)


def information_size(form: Form) -> int:
    """How many bytes a partition's information has."""
    check_member("form", form, Form)
    return (_COMPACT_INFORMATION if form is Form.COMPACT else _INFORMATION).size


def read_partitions(rx: bytes, count: int, form: Form = Form.FFA_1_1) -> tuple[PartitionInfo, ...]:
    """The partitions of which RX tells, as many as w2 of the answer says."""
    size = information_size(form)
    return tuple(PartitionInfo.from_bytes(rx[size * place : size * (place + 1)], form) for place in range(count))
