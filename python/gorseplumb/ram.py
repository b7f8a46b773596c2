# SPDX-License-Identifier: MIT OR Apache-2.0
"""RAM of the caller's own, which a machine borrows and gives back when it ends."""
from __future__ import annotations

import ctypes
import mmap
from typing import TYPE_CHECKING, Iterable, NoReturn, SupportsIndex

from . import _library as c
from ._library import library
from .codes import BLOCK_SIZE, PAGES_OF_BLOCK, Answer
from .errors import LibraryError, OutOfMemory, RamLent
from .misuse import check_number

if TYPE_CHECKING:
    from .access import Run


class Ram:
    """RAM of so many blocks of 2 MiB, zeros at first. While a machine has it, its bytes are refused: copies of them are
    given out and no view, so none can outlive the loan."""

    def __init__(self, blocks: int) -> None:
        check_number("blocks", blocks)
        if not 1 <= blocks <= c.MOST_BLOCKS:
            raise ValueError(f"RAM has 1 to {c.MOST_BLOCKS} blocks, and not {blocks}")
        self.blocks = blocks
        self._memory = mmap.mmap(-1, blocks * BLOCK_SIZE)
        self._place = (ctypes.c_char * len(self._memory)).from_buffer(self._memory)
        self._list: c.Held | None = None

    def __len__(self) -> int:
        return self.blocks * BLOCK_SIZE

    def __reduce_ex__(self, protocol: SupportsIndex) -> NoReturn:
        raise TypeError("RAM isn't copied or pickled: make another, and write to it what `read` gives")

    def __repr__(self) -> str:
        return f"Ram({self.blocks})" + (", lent" if self.is_lent else "")

    @property
    def is_lent(self) -> bool:
        """Whether a machine has it."""
        return self._list is not None

    def read(self, offset: int, size: int) -> bytes:
        """A copy of these bytes, counted from RAM's first."""
        self._check(offset, size)
        return self._memory[offset : offset + size]

    def write(self, offset: int, data: bytes) -> None:
        """Puts bytes in their place, as the image of a partition before a boot that keeps it."""
        self._check(offset, len(data))
        self._memory[offset : offset + len(data)] = data

    def audit(self, base: int, roots: Iterable[int], runs: Iterable[Run]) -> bool:
        """Whether the tables in these bytes, from level 1 tables at `roots` on, give just the access that the runs say,
        where RAM begins at `base`. Both may be any iterable. The checker knows nothing of a machine."""
        from .access import raw_runs

        tables, named = tuple(roots), raw_runs(runs)  # read before the loan, since they may ask this RAM
        for number in (base, *tables):
            check_number("an address", number)
        if base >> 32 or any(root >> 32 for root in tables):
            raise ValueError("RAM and its tables stand below 4 GiB")
        lent = self.lend()
        try:
            told = (ctypes.c_uint32 * len(tables))(*tables)
            answer = library.audit_tables(lent, base, told, len(tables), named, len(named))
        finally:
            self.take_back()
        if answer == Answer.NO_MEMORY:
            raise OutOfMemory("an allocation was refused")
        return bool(answer == Answer.OK)

    @property
    def lent(self) -> c.Held:
        """The list that it is lent in."""
        if self._list is None:
            raise LibraryError("the RAM is lent to nobody")
        return self._list

    def lend(self) -> c.Held:
        """Puts all pages into a list for the library. Machine and audit do so; nobody else has to."""
        if self._list is not None:
            raise RamLent("the RAM is lent to a machine already")
        lent, pages = c.Held(), self.blocks * PAGES_OF_BLOCK
        answer = library.begin_lending(lent, pages)
        if answer == Answer.OK:
            self._list = lent
            answer = library.lend_span(lent, c.Span(ctypes.addressof(self._place), pages))
        if answer != Answer.OK:
            self.take_back()
            raise OutOfMemory("an allocation was refused") if answer == Answer.NO_MEMORY else _broken(answer)
        return lent

    def take_back(self) -> None:
        """Takes all pages back from the list, where it has them, and ends it."""
        lent, self._list = self._list, None
        if lent is None:
            return
        slot = c.Held()
        for _ in range(library.lent_pages(lent)):
            answer = library.take_back(lent, slot)
            if answer != Answer.OK:
                raise _broken(answer)
            slot.live, slot.at = False, None
        answer = library.end_lending(lent)
        if answer != Answer.OK:
            raise _broken(answer)

    def _check(self, offset: int, size: int) -> None:
        if self._list is not None:
            raise RamLent("the RAM is lent to a machine: close that first, or ask the machine")
        if offset < 0 or size < 0 or offset + size > len(self):
            raise IndexError(f"bytes {offset} to {offset + size} aren't all in RAM, which has {len(self)}")


def _broken(answer: int) -> LibraryError:
    return LibraryError(f"a list of pages answers {answer}")
