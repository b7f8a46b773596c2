# SPDX-License-Identifier: MIT OR Apache-2.0
"""Who may still retrieve the pages of an open transaction, and the most that it may get (DEN0077A, 5.11 and 16)."""
from __future__ import annotations

from collections.abc import Mapping

from .certificates import NONE, Certificate, Run
from .names import FFA_MEM_DONATE, FFA_MEM_LEND

READ_WRITE = 2
COMPACT_HEADER = 32
"""The header of the compact form has this length, and 0 where the other forms have the size of an access descriptor."""

Ceilings = Mapping[str, str]
"""The most that each receiver of a transaction may get."""


def receivers(descriptor: bytes) -> list[tuple[str, int]]:
    """The receivers that a send descriptor names, each with its data permission."""
    def number(at: int, size: int) -> int:
        return int.from_bytes(descriptor[at : at + size], "little")

    size, count, first = number(24, 4), number(28, 4), number(32, 4)
    if size == 0:
        size, first = 16, COMPACT_HEADER
    places = (first + size * place for place in range(count))
    return [(f"{number(at, 2):04X}", number(at + 2, 1) & 3) for at in places]


def own_rights(before: Certificate, after: Certificate, handle: str) -> set[str]:
    """The owner's own rights to the pages of a transaction, which it had before it sent them."""
    sent = [run for run in after.runs if run.handle == handle]
    held = set()
    for run in sent:
        place = before.endpoints.index(run.owner)
        held |= {old.rights[place] for old in before.runs if old.first <= run.last and run.first <= old.last}
    return held


def ceilings(function: int, descriptor: bytes, own: set[str]) -> Ceilings:
    """The most that each receiver of a send may get: its grant, or for a donate the owner's right. Only a donate and a lend to one
    receiver can be executed, if the owner may execute each page."""
    named = receivers(descriptor)
    can_write = all(right[1] == "w" for right in own)
    is_executable = all(right[2] == "x" for right in own)
    if function != FFA_MEM_DONATE and not (function == FFA_MEM_LEND and len(named) == 1):
        is_executable = False
    most = {}
    for endpoint, permission in named:
        writes = can_write if function == FFA_MEM_DONATE else permission == READ_WRITE
        most[endpoint] = f"r{'w' if writes else '-'}{'x' if is_executable else '-'}"
    return most


def of_run(endpoints: tuple[str, ...], run: Run, opened: Mapping[str, Ceilings]) -> tuple[str, ...] | None:
    """What each endpoint may still get of a run, if one of them may retrieve it: a receiver that does not hold the transaction yet."""
    most = opened.get(run.handle, {})
    offers = tuple(most.get(it, NONE) if right == NONE else NONE for it, right in zip(endpoints, run.rights, strict=True))
    return offers if any(it != NONE for it in offers) else None
