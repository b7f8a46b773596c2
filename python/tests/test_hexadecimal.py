# SPDX-License-Identifier: MIT OR Apache-2.0
"""Values show their numbers in hexadecimal, and what is shown makes the same value again."""
from __future__ import annotations

import copy
import pickle
import uuid
from dataclasses import replace
from enum import Enum
from typing import Callable

import pytest
from conftest import BUILT_IN

import gorseplumb
from gorseplumb import About, Call, Cell, Change, Check, Data, DataAccess, Done, Fault, Faulted, Fetch, Function
from gorseplumb import Grant, GrantKind, Hindrance, Hint, HintKind, IndirectMessage, InstructionAccess, Kind, Load, Machine
from gorseplumb import Manifest, NamedRegisters, Obstacle, Offer, PageRange, PartitionInfo, Properties, Reason, Receiver, Region
from gorseplumb import ReadBack, Registers, Relinquish, Retrieve, RetrieveResponse, Right, Run, Store, Subject, decode
from gorseplumb.hexadecimal import shown

HANDLE = 0x0000800100000001
RECEIVER = Receiver(0x8002, DataAccess.RW, InstructionAccess.NX)
RANGES = (PageRange(0x40028000, 16),)


@pytest.mark.parametrize(
    "value, told",
    [
        (
            Registers(0x8001, (0x8400006D, 10, *(0,) * 6)),
            "Registers(runner=0x8001, x=(0x8400006D, 0xA, 0, 0, 0, 0, 0, 0))",
        ),
        (Call((Function.FFA_RUN, 0x80010000)), "Call(x=(Function.FFA_RUN, 0x80010000, 0, 0, 0, 0, 0, 0))"),
        (Load(0x40010000, 8), "Load(address=0x40010000, size=8)"),
        (Store(0x40010000, 1, 0xFF), "Store(address=0x40010000, size=1, value=0xFF)"),
        (Fetch(0x40010000), "Fetch(address=0x40010000)"),
        (Data(0xCDEF, 2), "Data(value=0xCDEF, size=2)"),
        (Done(), "Done()"),
        (Faulted(Fault.PERMISSION), "Faulted(fault=Fault.PERMISSION)"),
        (
            Run(40, 42, 0x8001, HANDLE, (Right.NONE, Right.RW)),
            "Run(first=0x28, last=0x2A, owner=0x8001, handle=0x800100000001, rights=(Right.NONE, Right.RW))",
        ),
        (Run(0, 9, 0, None, (Right.RO,)), "Run(first=0, last=9, owner=0, handle=None, rights=(Right.RO,))"),
        (Cell(Right.RW, True), "Cell(right=Right.RW, owns=True)"),
        (Grant(GrantKind.HELD, HANDLE), "Grant(kind=GrantKind.HELD, handle=0x800100000001)"),
        (Change(0x8001, ((0x40028000, 0x2000),)), "Change(endpoint=0x8001, ranges=((0x40028000, 0x2000),))"),
        (Region(0x40010000, 16), "Region(base=0x40010000, pages=0x10, rights=Right.RW)"),
        (
            RECEIVER,
            "Receiver(endpoint=0x8002, data=DataAccess.RW, instructions=InstructionAccess.NX)",
        ),
        (
            IndirectMessage(0x8001, 0x8002, b"\xff"),
            "IndirectMessage(sender=0x8001, receiver=0x8002, payload=b'\\xff', offset=None, uuid=None)",
        ),
        (
            IndirectMessage(0x8001, 0x8002, b"\xff", 40),
            "IndirectMessage(sender=0x8001, receiver=0x8002, payload=b'\\xff', offset=0x28, uuid=None)",
        ),
        (
            Hint(HintKind.KIND, found=Kind.SHARE, wanted=Kind.LEND),
            "Hint(kind=HintKind.KIND, endpoint=0, right=Right.NONE, most=Right.NONE, found=Kind.SHARE, wanted=Kind.LEND, "
            "value=0, form=None, offset=0, size=0, room=0, address=0, bit=0)",
        ),
        (
            Hindrance(Obstacle.OWNED_BY, 0x8001),
            "Hindrance(obstacle=Obstacle.OWNED_BY, owner=0x8001, transaction=0)",
        ),
        (
            NamedRegisters(Function.FFA_RUN, {"partition": 0x8001}),
            "NamedRegisters(function=Function.FFA_RUN, arguments={'partition': 0x8001})",
        ),
    ],
)
def test_shows_numbers_in_hexadecimal(value: object, told: str) -> None:
    assert repr(value) == told
    assert eval(told, vars(gorseplumb)) == value


def test_what_is_shown_makes_the_same_value() -> None:
    values = [
        Offer(Kind.LEND, 0x8001, (RECEIVER,), RANGES, True, 1 << 63),
        Retrieve(0x8001, HANDLE, RECEIVER, 11),
        RetrieveResponse(Kind.SHARE, 0x8001, HANDLE, (RECEIVER,), RANGES),
        ReadBack(HANDLE),
        Relinquish(HANDLE, 0x8002),
        PartitionInfo(0x8001, Properties(1), uuid.UUID(int=7)),
        decode((0x8400006D, 0x80010000, 0, 0, 0, 0, 0, 0)),
        BUILT_IN,
    ]
    with Machine(BUILT_IN) as machine:
        values += [machine.access_map(), machine.why(Load(0x40020000, 1)), machine.why(Call(0x8400008F))]
    names = vars(gorseplumb) | {"UUID": uuid.UUID}
    for value in values:
        assert eval(repr(value), names) == value, repr(value)
    assert "0x40010000" in repr(BUILT_IN) and isinstance(BUILT_IN, Manifest)


def test_members_of_enumerations_show_their_names() -> None:
    kinds = [it for it in vars(gorseplumb).values() if isinstance(it, type) and issubclass(it, Enum)]
    assert {Function, Kind, Check, DataAccess, Properties, Right} <= {*kinds}
    for kind in kinds:
        for member in kind:
            assert eval(repr(member), vars(gorseplumb)) is member, repr(member)
    told = "Properties.RECEIVES_REQUESTS | Properties.NOTIFICATIONS"
    assert repr(Properties(9)) == told and eval(told, vars(gorseplumb)) == Properties(9)
    assert repr(Properties(0)) == "Properties(0)" and repr(Properties(17)) == "Properties(17)"
    assert f"{Function.FFA_RUN:08X}" == "8400006D" and str(Kind.LEND) == "2"


def test_a_call_takes_numbers_or_a_tuple_of_them() -> None:
    run = Call((0x8400006D, 0x80010000))
    assert Call(0x8400006D, 0x80010000) == run == Call([0x8400006D, 0x80010000]) == Call(x=(0x8400006D, 0x80010000))
    assert Call(Function.FFA_ID_GET) == Call((0x84000069,)) == Call(0x84000069)
    assert run.x == (0x8400006D, 0x80010000, 0, 0, 0, 0, 0, 0) and type(Call([1]).x) is tuple
    assert copy.copy(run) == pickle.loads(pickle.dumps(run)) == replace(run, x=run.x) == run
    with Machine(BUILT_IN) as machine:
        assert machine.perform(Call(0x84000069)) == machine.call(0x84000069)
    cases: list[tuple[Callable[[], object], type[Exception], str]] = [
        (lambda: Call(), ValueError, "a call has one to eight registers, and not 0"),
        (lambda: Call(*range(9)), ValueError, "a call has one to eight registers, and not 9"),
        (lambda: Call(1, 1 << 64), ValueError, "x1 has 64 bits, and is 0x10000000000000000"),
        (lambda: Call(1, (2,)), TypeError, "x1 is a number, and not the tuple (2,)"),  # type: ignore[call-overload]
        (lambda: Call("84000069"), TypeError, "x0 is a number, and not the str '84000069': give 0x84000069"),  # type: ignore[arg-type]
    ]
    for made, kind, told in cases:
        with pytest.raises(kind) as wrong:
            made()
        assert str(wrong.value) == told


def test_shows_the_number_of_a_check_as_the_manual_has_it() -> None:
    call = Call((Function.FFA_MEM_LEND,))
    subject = Subject(About.HANDLE, handle=HANDLE)
    reason = Reason(call, None, Check.PAGE_UNSENDABLE, 10, None, subject, Hindrance(Obstacle.NONE))
    assert "check=Check.PAGE_UNSENDABLE, check_number=10, " in repr(reason) and "handle=0x800100000001" in repr(reason)
    assert eval(repr(reason), vars(gorseplumb)) == reason


def test_shows_calls_and_lists_by_their_elements() -> None:
    assert repr(Function.FFA_RUN) == "Function.FFA_RUN"
    assert shown([10, -16, True, None, "a"]) == "[0xA, -0x10, True, None, 'a']"
    assert shown((1,)) == "(1,)" and shown(()) == "()" and shown({}) == "{}"
