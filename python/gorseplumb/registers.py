# SPDX-License-Identifier: MIT OR Apache-2.0
"""Registers by name: what each call takes and answers, read from eight registers or written to them."""
from __future__ import annotations

import re
from dataclasses import dataclass
from typing import Mapping, Union
from uuid import UUID

from .codes import ErrorCode, Function
from .hexadecimal import by_fields
from .misuse import check_member, check_member_or_number, check_number, check_registers, is_number, refuse

Argument = Union[int, str, UUID]
"""What stands for an argument: a number; of `uuid` a UUID, or its 32 digits, or the number that these write; and of
`feature` and `code` also the name that `str` has."""
Place = tuple[tuple[int, int, int], ...]
"""Where a number stands: pieces of a register each, as (register, lowest bit, bits), the lowest piece first."""


def _word(register: int) -> Place:
    return ((register, 0, 32),)


def _bits(register: int, highest: int, lowest: int) -> Place:
    return ((register, lowest, highest - lowest + 1),)


def _pair(register: int) -> Place:
    return ((register, 0, 32), (register + 1, 0, 32))


_PAIR_OF_ENDPOINTS = {"sender": _bits(1, 31, 16), "receiver": _bits(1, 15, 0)}
_TARGET = {"partition": _bits(1, 31, 16), "context": _bits(1, 15, 0)}
_DESCRIPTOR = {"length": _word(1), "fragment": _word(2), "address": _word(3), "pages": _word(4)}
_MESSAGE = {**_PAIR_OF_ENDPOINTS, "flags": _word(2), **{f"payload{i}": _word(3 + i) for i in range(5)}}
_UNSENT = frozenset(_MESSAGE) - _PAIR_OF_ENDPOINTS.keys()
_UNTOLD = frozenset(_DESCRIPTOR) - {"length"}
_BITS = {**_PAIR_OF_ENDPOINTS, "flags": _word(2), "bits": _pair(3)}

ARGUMENTS: Mapping[Function, Mapping[str, Place]] = {
    Function.FFA_ERROR: {"code": _word(2)},
    Function.FFA_SUCCESS: {},
    Function.FFA_INTERRUPT: _TARGET,
    Function.FFA_VERSION: {"major": _bits(1, 30, 16), "minor": _bits(1, 15, 0)},
    Function.FFA_FEATURES: {"feature": _word(1)},
    Function.FFA_RX_RELEASE: {},
    Function.FFA_RXTX_MAP: {"tx": _word(1), "rx": _word(2), "pages": _word(3)},
    Function.FFA_RXTX_UNMAP: {"endpoint": _word(1)},
    Function.FFA_PARTITION_INFO_GET: {
        "uuid": ((1, 0, 32), (2, 0, 32), (3, 0, 32), (4, 0, 32)),
        "count_only": _bits(5, 0, 0),
    },
    Function.FFA_ID_GET: {},
    Function.FFA_MSG_WAIT: {**_TARGET, "flags": _word(2)},
    Function.FFA_YIELD: _TARGET,
    Function.FFA_RUN: _TARGET,
    Function.FFA_MSG_SEND_DIRECT_REQ: _MESSAGE,
    Function.FFA_MSG_SEND_DIRECT_RESP: _MESSAGE,
    Function.FFA_MEM_DONATE: _DESCRIPTOR,
    Function.FFA_MEM_LEND: _DESCRIPTOR,
    Function.FFA_MEM_SHARE: _DESCRIPTOR,
    Function.FFA_MEM_RETRIEVE_REQ: _DESCRIPTOR,
    Function.FFA_MEM_RETRIEVE_RESP: {"length": _word(1), "fragment": _word(2)},
    Function.FFA_MEM_RELINQUISH: {},
    Function.FFA_MEM_RECLAIM: {"handle": _pair(1), "flags": _word(3)},
    Function.FFA_NOTIFICATION_BITMAP_CREATE: {"endpoint": _word(1), "contexts": _word(2)},
    Function.FFA_NOTIFICATION_BITMAP_DESTROY: {"endpoint": _word(1)},
    Function.FFA_NOTIFICATION_BIND: _BITS,
    Function.FFA_NOTIFICATION_UNBIND: _BITS,
    Function.FFA_NOTIFICATION_SET: _BITS,
    Function.FFA_NOTIFICATION_GET: {"receiver": _bits(1, 15, 0), "context": _bits(1, 31, 16), "flags": _word(2)},
    Function.FFA_NOTIFICATION_INFO_GET: {},
    Function.FFA_SPM_ID_GET: {},
    Function.FFA_MSG_SEND2: {},
}
"""What the registers of each call and answer hold, in the 32-bit form."""

OPTIONAL: Mapping[Function, frozenset[str]] = {
    Function.FFA_INTERRUPT: frozenset({"context"}),
    Function.FFA_RXTX_UNMAP: frozenset({"endpoint"}),
    Function.FFA_PARTITION_INFO_GET: frozenset({"uuid", "count_only"}),
    Function.FFA_MSG_WAIT: frozenset({"partition", "context", "flags"}),
    Function.FFA_YIELD: frozenset({"partition", "context"}),
    Function.FFA_RUN: frozenset({"context"}),
    Function.FFA_MSG_SEND_DIRECT_REQ: _UNSENT,
    Function.FFA_MSG_SEND_DIRECT_RESP: _UNSENT,
    Function.FFA_MEM_DONATE: _UNTOLD,
    Function.FFA_MEM_LEND: _UNTOLD,
    Function.FFA_MEM_SHARE: _UNTOLD,
    Function.FFA_MEM_RETRIEVE_REQ: _UNTOLD,
    Function.FFA_MEM_RETRIEVE_RESP: frozenset({"fragment"}),
    Function.FFA_MEM_RECLAIM: frozenset({"flags"}),
    Function.FFA_NOTIFICATION_BIND: frozenset({"flags"}),
    Function.FFA_NOTIFICATION_UNBIND: frozenset({"flags"}),
    Function.FFA_NOTIFICATION_SET: frozenset({"flags"}),
    Function.FFA_NOTIFICATION_GET: frozenset({"context"}),
}
"""Which of a call's arguments may be left out. They are 0 then, but for `fragment`, which is `length`."""

RESULTS: Mapping[Function, Mapping[str, Place]] = {
    Function.FFA_FEATURES: {"properties": _word(2)},
    Function.FFA_PARTITION_INFO_GET: {"count": _word(2), "size": _word(3)},
    Function.FFA_ID_GET: {"endpoint": _word(2)},
    Function.FFA_SPM_ID_GET: {"endpoint": _word(2)},
    Function.FFA_MEM_DONATE: {"handle": _pair(2)},
    Function.FFA_MEM_LEND: {"handle": _pair(2)},
    Function.FFA_MEM_SHARE: {"handle": _pair(2)},
    Function.FFA_NOTIFICATION_GET: {"partitions": _pair(2), "normal_world": _pair(4), "manager": _word(6)},
    Function.FFA_NOTIFICATION_INFO_GET: {
        "more": _bits(2, 0, 0),
        "lists": _bits(2, 11, 7),
        "counts": _bits(2, 31, 12),
        **{f"ids{i}": _word(3 + i) for i in range(5)},
    },
}
"""What an FFA_SUCCESS holds that answers a call. Of FFA_NOTIFICATION_INFO_GET: whether there is more to tell; how many
lists; two bits for each list, of how many identifiers it has behind its first; and the identifiers, in 16 bits each."""

TOLD_WHOLE: Mapping[Function, frozenset[int]] = {Function.FFA_NOTIFICATION_INFO_GET: frozenset({3, 4, 5, 6, 7})}
"""The registers of an FFA_SUCCESS that are whole where it answers the 64-bit form of a call."""

_READ_WHOLE: Mapping[Function, frozenset[int]] = {
    Function.FFA_RXTX_MAP_64: frozenset({1, 2}),
    Function.FFA_MSG_SEND_DIRECT_REQ_64: frozenset({3, 4, 5, 6, 7}),
    Function.FFA_MSG_SEND_DIRECT_RESP_64: frozenset({3, 4, 5, 6, 7}),
    Function.FFA_MEM_DONATE_64: frozenset({3}),
    Function.FFA_MEM_LEND_64: frozenset({3}),
    Function.FFA_MEM_SHARE_64: frozenset({3}),
    Function.FFA_MEM_RETRIEVE_REQ_64: frozenset({3}),
    Function.FFA_NOTIFICATION_INFO_GET_64: frozenset({2, 3, 4, 5, 6, 7}),
}


_UUID = re.compile(r"[0-9a-f]{8}(-?)[0-9a-f]{4}(?:\1[0-9a-f]{4}){2}\1[0-9a-f]{12}", re.IGNORECASE | re.ASCII)
_HYPHENATED = "00112233-4455-6677-8899-aabbccddeeff"


@dataclass(frozen=True)
class NamedRegisters:
    """The function of eight registers, and what they hold, by name. A UUID is the number that its 32 digits write, which
    `uuid.UUID(int=..)` takes. What `str` says `encode` reads, each argument as it stands behind the `=` in hexadecimal."""

    function: Function
    arguments: Mapping[str, int]

    __repr__ = by_fields

    def __str__(self) -> str:
        told = [f"{name}={_text(self.function, name, value)}" for name, value in self.arguments.items()]
        return " ".join([self.function.name, *told])


def is_read_whole(x0: int, register: int) -> bool:
    """Whether a call's 64-bit form reads all 64 bits of a register, or answers in all of them."""
    function = Function.of(x0)
    return function is not None and register in _READ_WHOLE.get(function, ())


def places(function: Function) -> Mapping[str, Place]:
    """Where the arguments of a call stand, in the form that it is."""
    return _widened(ARGUMENTS[Function[function.call_name]], _READ_WHOLE.get(function, frozenset()))


def signature(function: Function, value: str = "", between: str = ", ") -> str:
    """The arguments of a call, in order, those in brackets that may be left out: `partition, [context]`. Behind each
    name stands `value`."""
    optional = _optional(function)
    told = [(f"{name}{value}", name in optional) for name in places(function)]
    return between.join(f"[{text}]" if may_be_left_out else text for text, may_be_left_out in told)


def encode(function: Function, /, **arguments: Argument) -> tuple[int, ...]:
    """Eight registers that make a call, of which `help(Machine.do)` has the arguments. An argument that the call
    doesn't have, or that is missing, is a TypeError, as is a name or a number in a Function's place; one that may be
    left out is 0 then, but for `fragment`, which is `length`. To write registers as they are make a `Call`.

    A `uuid` is a `uuid.UUID`, or a str of 32 hexadecimal digits, with hyphens as a manifest has them or without. A number
    is the one that these digits write, as in `UUID.int`."""
    check_member("a call", function, Function)
    known, optional = places(function), _optional(function)
    unknown = [name for name in arguments if name not in known]
    if unknown:
        has = signature(function) or "no arguments"
        raise TypeError(f"{function.call_name} has no argument {unknown[0]!r}: it has {has}")
    missing = [name for name in known if name not in arguments and name not in optional]
    if missing:
        named = f"argument{'s' if len(missing) > 1 else ''} {', '.join(missing)}"
        raise TypeError(f"{function.call_name} lacks the {named}: it has {signature(function)}")
    x = [int(function), *(0,) * 7]
    for name, value in arguments.items():
        _write(x, known[name], _number(name, value), name)
    if "fragment" in known and "fragment" not in arguments:
        x[2] = x[1]
    return tuple(x)


def decode(x: tuple[int, ...], answers: int | None = None) -> NamedRegisters | None:
    """What registers hold, by name; none where w0 names nothing. `answers` is the w0 of the call that they answer."""
    try:
        function = Function.of(x[0])
    except TypeError:
        check_registers(x)
        raise
    if function is None:
        return None
    found = places(function)
    asked = Function.of(answers) if answers is not None else None
    if function.call_name == "FFA_SUCCESS" and asked is not None:
        found = _results(asked)
    return NamedRegisters(function, {name: _told(name, _read(x, place)) for name, place in found.items()})


def _results(asked: Function) -> Mapping[str, Place]:
    """Where what stands that answers a call, in the form that it is."""
    narrow = Function[asked.call_name]
    return _widened(RESULTS.get(narrow, {}), TOLD_WHOLE.get(narrow, frozenset()) if asked.is_wide else frozenset())


def _widened(places: Mapping[str, Place], whole: frozenset[int]) -> dict[str, Place]:
    return {
        name: tuple((register, low, 64 if register in whole else bits) for register, low, bits in place)
        for name, place in places.items()
    }


def _told(name: str, number: int) -> int:
    """A number as it is told. Of a UUID the first byte is the highest, and the lowest in the registers."""
    return int.from_bytes(number.to_bytes(16, "little"), "big") if name == "uuid" else number


def _number(name: str, given: Argument) -> int:
    """The number that the registers hold of what is given."""
    if name == "uuid":
        return _told(name, _uuid_number(given))
    if name == "feature" and isinstance(given, str):
        given = Function.__members__.get(given, given)
        check_member_or_number(name, given, Function)
    if name == "code" and isinstance(given, str):
        given = ErrorCode.__members__.get(given, given)
        check_member_or_number(name, given, ErrorCode)
    check_number(name, given)
    assert not isinstance(given, (str, UUID))
    return given & 0xFFFFFFFF if isinstance(given, ErrorCode) else given


def _uuid_number(given: Argument) -> int:
    """The number that the digits of a UUID write."""
    if isinstance(given, UUID):
        return given.int
    if isinstance(given, str):
        if _UUID.fullmatch(given) is None:
            raise ValueError(f"uuid is 32 hexadecimal digits, as {_HYPHENATED} with its hyphens or without, and not {given!r}")
        return int(given.replace("-", ""), 16)
    if not is_number(given):
        refuse("uuid", "a uuid.UUID, or a str of its 32 digits", given)
    if given >> 128:
        raise ValueError(f"uuid has 128 bits, and is {given:#x}")
    return given


def _optional(function: Function) -> frozenset[str]:
    return OPTIONAL.get(Function[function.call_name], frozenset())


def _read(x: tuple[int, ...], place: Place) -> int:
    value, at = 0, 0
    for register, low, bits in place:
        value |= (x[register] >> low & (1 << bits) - 1) << at
        at += bits
    return value


def _write(x: list[int], place: Place, value: int, name: str) -> None:
    room = sum(bits for _, _, bits in place)
    if value >> room:
        raise ValueError(f"{name} has {room} bits, and is {value:#x}")
    for register, low, bits in place:
        x[register] |= (value & (1 << bits) - 1) << low
        value >>= bits


def _text(function: Function, name: str, value: int) -> str:
    if function is Function.FFA_ERROR and name == "code":
        code = ErrorCode.of(value)
        return code.name if code is not None else f"{value:08X}"
    if name == "feature":
        feature = Function.of(value)
        return feature.name if feature is not None else f"{value:08X}"
    if name == "uuid":
        return f"{value:032x}"
    if name in ("sender", "receiver", "partition", "endpoint"):
        return f"{value:04X}"
    return f"{value:016X}" if name == "handle" else f"{value:X}"
