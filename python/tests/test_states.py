# SPDX-License-Identifier: MIT OR Apache-2.0
"""Hypothesis explores a machine's states: its rules do operations, keep copies, and go back to them."""
from __future__ import annotations

import pytest
from conftest import EXAMPLES

from gorseplumb import CallRefused, Data, DataAccess, Done, Function, Kind, Machine, Offer, PageRange, Receiver, Retrieve

pytest.importorskip("hypothesis")
from hypothesis import settings  # noqa: E402
from hypothesis.stateful import Bundle, RuleBasedStateMachine, invariant, rule  # noqa: E402
from hypothesis.strategies import booleans, integers, sampled_from  # noqa: E402

OWNER, BORROWER = 0x8001, 0x8002
TX = {OWNER: 0x4002E000, BORROWER: 0x40206000}
PLACES = sampled_from([0x40010000, 0x40028000, 0x40029000, 0x40200000])
SHARED = PageRange(0x40028000, 2)
Kept = tuple[Machine, dict[int, int]]


class Exploring(RuleBasedStateMachine):
    """A machine, beside the bytes that were stored to it: whoever may load one finds it."""

    kept = Bundle[Kept]("kept")

    def __init__(self) -> None:
        super().__init__()
        self.machine = Machine(EXAMPLES / "partitions.toml")
        self.stored: dict[int, int] = {}

    @rule(place=PLACES, value=integers(0, 255))
    def store(self, place: int, value: int) -> None:
        if self.machine.store(place, 1, value) == Done():
            self.stored[place] = value

    @rule(place=PLACES)
    def load(self, place: int) -> None:
        told = self.machine.load(place, 1)
        assert not isinstance(told, Data) or told.value == self.stored.get(place, 0)

    @rule(partition=sampled_from([OWNER, BORROWER]))
    def enter(self, partition: int) -> None:
        self.machine.call(Function.FFA_MSG_WAIT)
        self.machine.do(Function.FFA_RUN, partition=partition)
        self.machine.call(Function.FFA_RXTX_MAP, TX[partition], TX[partition] + 0x1000, 1)

    @rule(kind=sampled_from([Kind.SHARE, Kind.LEND]), zero=booleans())
    def send(self, kind: Kind, zero: bool) -> None:
        is_zeroed = zero and kind is Kind.LEND
        offer = Offer(kind, OWNER, (Receiver(BORROWER, DataAccess.RW),), (SHARED,), is_zeroed)
        self.enter(OWNER)
        try:
            self.machine.send(offer, TX[OWNER])
        except CallRefused:
            return
        if is_zeroed:
            self.stored |= {SHARED.address: 0, SHARED.address + 0x1000: 0}

    @rule(number=integers(1, 3))
    def retrieve(self, number: int) -> None:
        self.enter(BORROWER)
        self.machine.call(Function.FFA_RX_RELEASE)
        try:
            self.machine.send(Retrieve(OWNER, 0x800100000000 + number, Receiver(BORROWER)), TX[BORROWER])
        except CallRefused:
            pass

    @rule(number=integers(1, 3))
    def reclaim(self, number: int) -> None:
        self.enter(OWNER)
        self.machine.call(Function.FFA_MEM_RECLAIM, number, OWNER)

    @rule(target=kept)
    def keep(self) -> Kept:
        return self.machine.fork(), dict(self.stored)

    @rule(of=kept)
    def go_back(self, of: Kept) -> None:
        self.machine.close()
        self.machine, self.stored = of[0].fork(), dict(of[1])

    @invariant()
    def tables_give_what_the_certificate_says(self) -> None:
        assert self.machine.audit()

    def teardown(self) -> None:
        self.machine.close()


TestExploring = Exploring.TestCase
TestExploring.settings = settings(max_examples=60, stateful_step_count=40, deadline=None, derandomize=True, database=None)
