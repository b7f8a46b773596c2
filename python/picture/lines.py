# SPDX-License-Identifier: MIT OR Apache-2.0
"""Lines of a trace, as far as a picture needs them."""
from __future__ import annotations

from .names import FFA_MEM_DONATE, FFA_MEM_LEND, FFA_MEM_RECLAIM, FFA_MEM_RELINQUISH, FFA_MEM_RETRIEVE_REQ, FFA_MEM_SHARE, Registers, narrow

SENDS = (FFA_MEM_DONATE, FFA_MEM_LEND, FFA_MEM_SHARE)
"""The calls that open a transaction."""
ON_MEMORY = (*SENDS, FFA_MEM_RETRIEVE_REQ, FFA_MEM_RELINQUISH, FFA_MEM_RECLAIM)
"""The calls that change who owns or reaches a page, unless they are refused. Nothing else does."""


def filled(words: list[str]) -> tuple[int, ...]:
    """The registers x0 to x7 of these words. Registers that have no word are 0."""
    x = [int(word, 16) for word in words]
    return tuple(x + [0] * (8 - len(x)))


def registers_of(line: bytes) -> tuple[int, ...] | None:
    """The registers of a line of a trace, if it is a call."""
    return filled(line.decode("ascii").split(" ")[1:]) if line.startswith(b"call ") else None


def reply_of(text: str) -> tuple[int, ...] | None:
    """The registers of a printed line, if it has registers."""
    return filled(text.split(" ")[2:]) if text.startswith("regs ") else None


def sends(x: Registers) -> bool:
    """Whether a call opens a transaction, unless it is refused."""
    return narrow(x) in SENDS


def is_on_memory(x: Registers) -> bool:
    """Whether a call changes who owns or reaches a page, unless it is refused."""
    return narrow(x) in ON_MEMORY
