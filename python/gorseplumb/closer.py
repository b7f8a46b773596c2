# SPDX-License-Identifier: MIT OR Apache-2.0
"""What the registers of a refused call say about the subject of its check: why no buffer can begin at an address, which
part of a descriptor ends outside it, which UUID no partition has, or which call has no 64-bit form."""
from __future__ import annotations

from typing import TYPE_CHECKING

from .checks import Check, Flaw
from .codes import PAGE_SIZE, About, Function
from .hexadecimal import short_text
from .outcomes import Call

if TYPE_CHECKING:
    from .reasons import Subject

_WIDE = 0x40000000
"""The bit by which a 64-bit form differs."""
_ANSWERS = frozenset({Function.FFA_ERROR, Function.FFA_INTERRUPT, Function.FFA_MEM_RETRIEVE_RESP})
_DESCRIBED = frozenset(
    {
        *(Function.FFA_MEM_DONATE, Function.FFA_MEM_LEND, Function.FFA_MEM_SHARE, Function.FFA_MEM_RETRIEVE_REQ),
        *(Function.FFA_MEM_DONATE_64, Function.FFA_MEM_LEND_64, Function.FFA_MEM_SHARE_64),
        Function.FFA_MEM_RETRIEVE_REQ_64,
    }
)
"""The calls that say the size of their descriptor in w1."""
_PARTS = {
    Flaw.HEADER_SHORT: "header ends",
    Flaw.HEADER_ARRAY_OUTSIDE: "access descriptors end",
    Flaw.COMPOSITE_OUTSIDE: "composite ends",
    Flaw.COMPOSITE_RANGES_OUTSIDE: "ranges end",
}
"""What is not inside the descriptor."""


def closer_text(call: Call, check: Check | None, subject: Subject) -> str:
    """What the program prints after the subject of a check."""
    if subject.about is About.FIELD:
        return _end_text(call, subject)
    if subject.about is About.REGISTER:
        return _register_text(check, subject.value or 0)
    if subject.about is About.NOTHING and check is Check.UUID_UNKNOWN:
        return ": w1 to w4 hold " + "".join((it & 0xFFFFFFFF).to_bytes(4, "little").hex() for it in call.x[1:5])
    return ""


def _end_text(call: Call, it: Subject) -> str:
    end = _end_of(it)
    if it.flaw is None or end is None or Function.of(call.x[0]) not in _DESCRIBED:
        return ""
    size = short_text(call.x[1] & 0xFFFFFFFF)
    return f" (the {_PARTS[it.flaw]} at {short_text(end)}, but the descriptor has {size} bytes)"


def _end_of(it: Subject) -> int | None:
    """Where a part ends that is not inside the descriptor, by the field that tells it."""
    if it.flaw is Flaw.HEADER_SHORT:
        return it.first + it.size
    if it.value is None:
        return None
    if it.flaw is Flaw.HEADER_ARRAY_OUTSIDE:
        first, count = divmod(it.value, 1 << 32) if it.size == 8 else (32, it.value)
        return first + 16 * count
    if it.flaw is Flaw.COMPOSITE_OUTSIDE:
        return it.value + 16
    return it.first + 12 + 16 * it.value if it.flaw is Flaw.COMPOSITE_RANGES_OUTSIDE else None


def _register_text(check: Check | None, value: int) -> str:
    if check in (Check.TX_MISPLACED, Check.RX_MISPLACED):
        return ", which is not page-aligned" if value % PAGE_SIZE else ", and the buffer is not entirely in RAM"
    if check is Check.FUNCTION_UNKNOWN and _WIDE <= value < 1 << 32 and Function.of(value) is None:
        narrow = Function.of(value - _WIDE)
        return f", and {narrow.call_name} has no 64-bit form" if narrow is not None and narrow not in _ANSWERS else ""
    return ""
