# SPDX-License-Identifier: MIT OR Apache-2.0
"""What to change so that an operation is not refused for its reason."""
from __future__ import annotations

from dataclasses import dataclass
from typing import Any, Callable

from . import _library as c
from .codes import Form, HintKind, Kind, Right
from .hexadecimal import address_text, by_fields, short_text


@dataclass(frozen=True, slots=True)
class Hint:
    """What to change so that an operation is not refused for its reason, or a fact of the machine that tells it. Only the
    fields that belong to `kind` have a meaning. `str` is the text of the program, which continues the text of the subject."""

    kind: HintKind
    endpoint: int = 0
    """TX_PAGE, RX_PAGE: whose buffer has the page; ACCESS: who has the right; CALLER, FORM: the caller; SENDER: the
    transaction's sender; HOLDER: the first receiver that holds it; REQUEST: whose direct request the caller is processing"""
    right: Right = Right.NONE
    """OWN_RIGHT, GRANTED: the owner's own right to the page; ACCESS: the right at the address; RIGHT: the right that is
    requested; HELD: the right with which the caller holds the transaction"""
    most: Right = Right.NONE
    """RIGHT: the most that is allowed"""
    found: int = 0
    """TAG, KIND: what the descriptor says; the kind is a Kind"""
    wanted: int = 0
    """TAG, KIND: what the transaction has; the kind is a Kind"""
    value: int = 0
    """VALUE: the one value that the register may have; WORD: the number in the word"""
    form: Form | None = None
    """FORM: the form that the caller uses"""
    offset: int = 0
    """WORD: the place of the word in the header; MESSAGE: where the message begins, by its header"""
    size: int = 0
    """MESSAGE: how many bytes the message has, by its header"""
    room: int = 0
    """ROOM, MESSAGE: how many bytes the buffer has"""
    address: int = 0
    """OUTSIDE: the address of the first page that is not in RAM"""
    bit: int = 0
    """PENDING: the lowest bit that is pending"""

    __repr__ = by_fields

    def __str__(self) -> str:
        return _TEXTS.get(self.kind) or _text_of_values(self)


_TEXTS = {
    HintKind.RUN: ": it is processing an FFA_RUN",
    HintKind.BUFFERS_MISSING: ": it has no RX and TX",
    HintKind.RX_NOT_FULL: ": its RX is not full",
    HintKind.BIT_PENDING: ", which is pending",
    HintKind.BIT_TAKEN: ", which is bound to another sender",
    HintKind.BIT_UNBOUND: ", which is not bound to the sender",
    HintKind.HANDLE_UNKNOWN: ", which no open transaction has",
    HintKind.NOT_RECEIVER: ", which is open, but not offered to the caller",
    HintKind.NOT_LENT: ", which is not a lend",
    HintKind.BITMAPS_UNCREATED: ": FFA_NOTIFICATION_BITMAP_CREATE creates them",
    HintKind.NOTIFICATIONS_UNRECEIVED: ": bit 3 of its properties is not set",
    HintKind.SECURE_TO_NORMAL: ", which is secure and is sent to the normal world",
    HintKind.PAGES_OF_BOTH_WORLDS: ", which is secure, but another page is not",
}
"""The texts without values."""


def _text_of_values(it: Hint) -> str:
    endpoint, right = f"{it.endpoint:04X}", it.right.text
    return {
        HintKind.TX_PAGE: f" is in TX of {endpoint}",
        HintKind.RX_PAGE: f" is in RX of {endpoint}",
        HintKind.OWN_RIGHT: f", and the owner's own right is {right}",
        HintKind.GRANTED: f", where rw- is granted, but the owner's own right is {right}",
        HintKind.ACCESS: f": {endpoint} has {right}",
        HintKind.CALLER: f", and the caller is {endpoint}",
        HintKind.SENDER: f", and the transaction's sender is {endpoint}",
        HintKind.TAG: f", whose tag is {it.wanted:016X}, but the descriptor says {it.found:016X}",
        HintKind.KIND: f", whose kind is {_kind_text(it.wanted)}, but the descriptor says {_kind_text(it.found)}",
        HintKind.RIGHT: f", where {right} is requested, and {it.most.text} is the most allowed",
        HintKind.HELD: f", which the caller holds with {right}",
        HintKind.ROOM: _room_text(it),
        HintKind.VALUE: f", and must be {it.value:08X}",
        HintKind.FORM: _form_text(it),
        HintKind.WORD: f": {_word_text(it.offset, it.value)}",
        HintKind.MESSAGE: f": {_word_text(8, it.offset)}, and {_word_text(16, it.size)}{_room_text(it)}",
        HintKind.OUTSIDE: f": {address_text(it.address)} is {'above FFFFFFFF' if it.address >> 32 else 'outside RAM'}",
        HintKind.HOLDER: f", which {endpoint} holds",
        HintKind.REQUEST: f": it is processing a direct request from {endpoint}",
        HintKind.PENDING: f": bit {short_text(it.bit)}",
    }[it.kind]


def _kind_text(kind: int) -> str:
    return kind.name.lower() if isinstance(kind, Kind) else ""


def _room_text(it: Hint) -> str:
    return f", and the buffer has {address_text(it.room)} bytes"


def _form_text(it: Hint) -> str:
    form = it.form or Form.FFA_1_1
    used = "the compact form" if form is Form.COMPACT else f"version {form.text}"
    return f", and must be {_SIZES[form]:08X}, because {it.endpoint:04X} uses {used}"


def _word_text(place: int, value: int) -> str:
    """The four bytes of a word of a header, and the number in them."""
    return f"bytes {short_text(place)} to {short_text(place + 3)} are {value:08X}"


def _kind(number: int) -> Kind:
    """A kind by its number in a hint, which counts from 0."""
    return Kind(number + 1)


_SIZES = {Form.COMPACT: 0, Form.FFA_1_1: 16, Form.FFA_1_2: 32}
"""The size of an access descriptor, as the header of each form has it."""


def _form(size: int) -> Form:
    """The form that has this size of an access descriptor in its header."""
    return next(form for form, told in _SIZES.items() if told == size)


_ENDPOINT = (("endpoint", int),)
_FIELDS: dict[HintKind, tuple[tuple[str, Callable[[int], object]], ...]] = {
    HintKind.OWN_RIGHT: (("right", Right),),
    HintKind.GRANTED: (("right", Right),),
    HintKind.ACCESS: (("endpoint", int), ("right", Right)),
    HintKind.TAG: (("found", int), ("wanted", int)),
    HintKind.KIND: (("found", _kind), ("wanted", _kind)),
    HintKind.RIGHT: (("right", Right), ("most", Right)),
    HintKind.HELD: (("right", Right),),
    HintKind.ROOM: (("room", int),),
    HintKind.VALUE: (("value", int),),
    HintKind.FORM: (("endpoint", int), ("form", _form)),
    HintKind.WORD: (("offset", int), ("value", int)),
    HintKind.MESSAGE: (("offset", int), ("size", int), ("room", int)),
    HintKind.OUTSIDE: (("address", int),),
    HintKind.PENDING: (("bit", int),),
}
"""What the numbers of a hint are. Each other kind has an endpoint, or no number."""


def hint_of_raw(raw: c.Hint) -> Hint | None:
    """A hint of the library's, if there is one."""
    if not raw.kind:
        return None
    kind = HintKind(raw.kind)
    told: Any = {name: made(number) for (name, made), number in zip(_FIELDS.get(kind, _ENDPOINT), raw.numbers)}
    return Hint(kind, **told)
