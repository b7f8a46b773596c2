# SPDX-License-Identifier: MIT OR Apache-2.0
"""Descriptors: the bytes that the manual's traces store, each form, and the first condition that bytes break."""
from __future__ import annotations

import struct
from dataclasses import replace
from typing import Any, Callable

import pytest

from gorseplumb import DataAccess, Ffa, Flaw, Form, IndirectMessage, InstructionAccess, Kind, MalformedDescriptor, Offer
from gorseplumb import PageRange, PartitionInfo, Properties, ReadBack, Receiver, Relinquish, Retrieve, RetrieveResponse, Right
from gorseplumb import Store, read_partitions

FORMS = list(Form)
RW = DataAccess.RW
LEND = Offer(Kind.LEND, 0x8001, (Receiver(0x8002, RW),), (PageRange(0x40021000, 1),))
TO_TWO = Offer(
    Kind.SHARE,
    0x8001,
    (Receiver(0x8002, RW), Receiver(0x8003, DataAccess.RO)),
    (PageRange(0x40021000, 2), PageRange(0x40028000, 1)),
    tag=0x1122334455667788,
)


def test_writes_the_lend_that_the_manual_has() -> None:
    # docs/COMMANDS.md, "Descriptors from words"
    told = """store 4002E000 0000000000008001
store 4002E008 0000000000000000
store 4002E010 0000000000000000
store 4002E018 0000000100000010
store 4002E020 0000000000000030
store 4002E028 0000000000000000
store 4002E030 0000004000028002
store 4002E038 0000000000000000
store 4002E040 0000000100000001
store 4002E048 0000000000000000
store 4002E050 0000000040021000
store 4002E058 0000000000000001
call 84000072 60 60"""
    assert [str(it) for it in LEND.operations(0x4002E000)] == told.split("\n")


def test_writes_the_descriptors_of_the_shared_page() -> None:
    # examples/sharing.trace stores those of their words that aren't zeros
    share = Offer(Kind.SHARE, 0x8001, (Receiver(0x8002, DataAccess.RO),), (PageRange(0x40028000, 1),))
    assert words(share.to_bytes()) == {
        0x00: 0x00000000002F8001,
        0x18: 0x0000000100000010,
        0x20: 0x0000000000000030,
        0x30: 0x0000004000018002,
        0x40: 0x0000000100000001,
        0x50: 0x0000000040028000,
        0x58: 0x0000000000000001,
    }
    retrieve = Retrieve(0x8001, 0x0000800100000001, Receiver(0x8002))
    assert words(retrieve.to_bytes()) == {
        0x00: 0x8001,
        0x08: 0x0000800100000001,
        0x18: 0x0000000100000010,
        0x20: 0x30,
        0x30: 0x8002,
    }
    given_up = Relinquish(0x0000800100000001, 0x8002).operations(0x40206000)
    assert given_up[0] == Store(0x40206000, 8, 0x0000800100000001)
    assert [str(it) for it in given_up] == [
        "store 40206000 0000800100000001",
        "store 40206008 0000000100000000",
        "store 40206010 8002",
        "call 84000076",
    ]


def words(data: bytes) -> dict[int, int]:
    """The words of some bytes that aren't zero, by their place."""
    return {8 * place: word for place, (word,) in enumerate(struct.iter_unpack("<Q", data)) if word}


@pytest.mark.parametrize("form", FORMS)
@pytest.mark.parametrize("offer", [LEND, TO_TWO, Offer(Kind.DONATE, 1, (Receiver(2),), (PageRange(4096, 3),), True, 9)])
def test_reads_what_it_writes(offer: Offer, form: Form) -> None:
    assert Offer.from_bytes(offer.to_bytes(form), offer.kind, form) == offer
    for other in FORMS:
        if other is not form:
            with pytest.raises(MalformedDescriptor) as wrong:
                Offer.from_bytes(offer.to_bytes(form), offer.kind, other)
            assert wrong.value.flaw is Flaw.HEADER_ACCESS_SIZE


@pytest.mark.parametrize("form", FORMS)
def test_reads_retrieves_and_responses(form: Form) -> None:
    asked = Retrieve(1, 2, Receiver(3, RW, InstructionAccess.X), tag=4, kind=Kind.DONATE)
    assert Retrieve.from_bytes(asked.to_bytes(form), 3, form) == asked
    holds = Receiver(3, RW, InstructionAccess.NX)
    answered = RetrieveResponse(Kind.LEND, 1, 2, (holds,), (PageRange(4096, 1),), True, 4)
    data = answered.to_bytes(form)
    assert len(data) == {Form.FFA_1_1: 80, Form.COMPACT: 64, Form.FFA_1_2: 96}[form] + 16
    assert RetrieveResponse.from_bytes(data + b"rest", form) == answered and data[2] == 0x2F
    told, of_non_secure = replace(answered, non_secure=True).to_bytes(form), data[:2] + b"\x6F" + data[3:]
    is_told = form is not Form.COMPACT
    assert told == (of_non_secure if is_told else data)
    assert RetrieveResponse.from_bytes(of_non_secure, form).non_secure is is_told
    given_up = Relinquish(5, 6, zero=True)
    assert Relinquish.from_bytes(given_up.to_bytes() + b"rest") == given_up


def test_compact_header_is_that_of_the_manual() -> None:
    data = LEND.to_bytes(Form.COMPACT)
    assert struct.unpack_from("<HHIQQII", data) == (0x8001, 0, 0, 0, 0, 0, 1)
    assert struct.unpack_from("<HBBIQ", data, 32) == (0x8002, 2, 0, 48, 0)
    assert struct.unpack_from("<IIQ", data, 48) == (1, 1, 0)
    assert len(data) == 80


def test_the_form_of_ffa_1_2_has_access_descriptors_of_32_bytes() -> None:
    data = LEND.to_bytes(Form.FFA_1_2)
    assert struct.unpack_from("<HHIQQIIIIQ", data) == (0x8001, 0, 0, 0, 0, 32, 1, 48, 0, 0)
    assert struct.unpack_from("<HBBI24s", data, 48) == (0x8002, 2, 0, 80, bytes(24))
    assert struct.unpack_from("<IIQ", data, 80) == (1, 1, 0)
    assert len(data) == 112
    share = words(TO_TWO.to_bytes(Form.FFA_1_2))
    assert (share[0x18], share[0x30], share[0x50], share[0x70]) == (
        *(0x0000000200000020, 0x0000007000028002),
        *(0x0000007000018003, 0x0000000200000003),
    )
    assert words(Retrieve(1, 2, Receiver(3, RW)).to_bytes(Form.FFA_1_2)) == {
        **{0x00: 1, 0x08: 2},
        **{0x18: 0x0000000100000020, 0x20: 0x30, 0x30: 0x20003},
    }


@pytest.mark.parametrize("place", range(8, 32))
def test_the_rest_of_an_access_descriptor_of_ffa_1_2_is_zero(place: int) -> None:
    for index in (0, 1):
        data = bytearray(TO_TWO.to_bytes(Form.FFA_1_2))
        data[48 + 32 * index + place] = 1
        with pytest.raises(MalformedDescriptor) as wrong:
            Offer.from_bytes(bytes(data), Kind.SHARE, Form.FFA_1_2)
        assert (wrong.value.flaw, wrong.value.index) == (Flaw.ACCESS_RESERVED, index)
    data = bytearray(Retrieve(1, 2, Receiver(3, RW)).to_bytes(Form.FFA_1_2))
    data[48 + place] = 1
    with pytest.raises(MalformedDescriptor) as wrong:
        Retrieve.from_bytes(bytes(data), 3, Form.FFA_1_2)
    assert wrong.value.flaw is Flaw.RETRIEVE_ACCESS_RESERVED


@pytest.mark.parametrize("form", FORMS)
def test_ffa_1_2_lets_lends_say_the_memory_and_flags_the_kind(form: Form) -> None:
    lend_to_two = replace(TO_TWO, kind=Kind.LEND, zero=True)
    for offer, attributes in ((LEND, 0x2F), (lend_to_two, 0)):
        data = bytearray(offer.to_bytes(form))
        data[2] = attributes
        assert Offer.from_bytes(bytes(data), Kind.LEND, form, Ffa.V1_2) == offer
        is_refused(data, Kind.LEND, form, Flaw.SEND_ATTRIBUTES)
    for offer in (LEND, lend_to_two, TO_TWO, Offer(Kind.DONATE, 1, (Receiver(2),), (PageRange(4096, 3),), True)):
        data = bytearray(offer.to_bytes(form))
        data[4] |= offer.kind << 3
        assert Offer.from_bytes(bytes(data), offer.kind, form, Ffa.V1_2) == offer
        is_refused(data, offer.kind, form, Flaw.SEND_FLAGS)
        data[4] = data[4] & 7 | (offer.kind % 3 + 1) << 3
        with pytest.raises(MalformedDescriptor, match="a flag is set that this call does not allow"):
            Offer.from_bytes(bytes(data), offer.kind, form, Ffa.V1_2)


def is_refused(data: bytearray, kind: Kind, form: Form, flaw: Flaw) -> None:
    """A machine of FF-A 1.1 refuses it for this flaw; one of the form of FF-A 1.2 there is none."""
    if form is Form.FFA_1_2:
        with pytest.raises(ValueError, match=r"^a machine of Ffa.V1_1 has no endpoint of Form.FFA_1_2: give Ffa.V1_2$"):
            Offer.from_bytes(bytes(data), kind, form, Ffa.V1_1)
    else:
        for ffa in (None, Ffa.V1_1):
            with pytest.raises(MalformedDescriptor) as wrong:
                Offer.from_bytes(bytes(data), kind, form, ffa)
            assert wrong.value.flaw is flaw


# Each condition by a change of the share to two: places are those of the manual's tables, and the composite is at 80.
SENDS = [
    (0, 0, Flaw.HEADER_SHORT, 0),
    (24, 17, Flaw.HEADER_ACCESS_SIZE, 0),
    (32, 56, Flaw.HEADER_ARRAY_UNALIGNED, 0),
    (32, 32, Flaw.HEADER_ARRAY_IN_HEADER, 0),
    (28, 7, Flaw.HEADER_ARRAY_OUTSIDE, 0),
    (40, 1, Flaw.HEADER_RESERVED, 0),
    (2, 0, Flaw.SEND_ATTRIBUTES, 0),
    (4, 1, Flaw.SEND_FLAGS, 0),
    (8, 1, Flaw.SEND_HANDLE, 0),
    (28, 0, Flaw.SEND_NO_RECEIVER, 0),
    (28, 5, Flaw.SEND_MANY_RECEIVERS, 0),
    (66, 0x0F, Flaw.ACCESS_PERMISSIONS, 1),
    (67, 1, Flaw.ACCESS_FLAGS, 1),
    (68, 96, Flaw.ACCESS_OTHER_COMPOSITE, 1),
    (72, 1, Flaw.ACCESS_RESERVED, 1),
    (48, 0x8001, Flaw.ACCESS_RECEIVER_IS_SENDER, 0),
    (64, 0x8002, Flaw.ACCESS_RECEIVER_TWICE, 1),
    (84, 0, Flaw.COMPOSITE_NO_RANGE, 0),
    (84, 65, Flaw.COMPOSITE_MANY_RANGES, 0),
    (88, 1, Flaw.COMPOSITE_RESERVED, 0),
    (84, 3, Flaw.COMPOSITE_RANGES_OUTSIDE, 0),
    (80, 4, Flaw.COMPOSITE_TOTAL, 0),
    (104, 0, Flaw.RANGE_EMPTY, 0),
    (96, 0x21, Flaw.RANGE_UNALIGNED, 0),
    (102, 1, Flaw.RANGE_TOO_HIGH, 0),
    (108, 1, Flaw.RANGE_RESERVED, 0),
    (113, 0x20, Flaw.RANGE_OVERLAP, 1),
]


@pytest.mark.parametrize("at, value, flaw, index", SENDS)
def test_names_the_first_condition_that_a_send_breaks(at: int, value: int, flaw: Flaw, index: int) -> None:
    data = bytearray(TO_TWO.to_bytes())
    size = max(1, (value.bit_length() + 7) // 8)
    data[at : at + size] = b"" if flaw is Flaw.HEADER_SHORT else value.to_bytes(size, "little")
    if flaw is Flaw.HEADER_SHORT:
        del data[47:]
    with pytest.raises(MalformedDescriptor) as wrong:
        Offer.from_bytes(bytes(data), Kind.SHARE)
    assert (wrong.value.flaw, wrong.value.index) == (flaw, index)


@pytest.mark.parametrize("composite, flaw", [(0x1000, "OUTSIDE"), (0x48, "UNALIGNED"), (0x30, "IN_ARRAY")])
def test_names_what_is_wrong_with_a_composites_place(composite: int, flaw: str) -> None:
    data = bytearray(LEND.to_bytes())
    data[52:56] = composite.to_bytes(4, "little")
    with pytest.raises(MalformedDescriptor) as wrong:
        Offer.from_bytes(bytes(data), Kind.LEND)
    assert wrong.value.flaw is Flaw[f"COMPOSITE_{flaw}"]


RETRIEVES = [
    (2, 1, "ATTRIBUTES"),
    (4, 1, "FLAGS"),
    (28, 0, "ACCESS_COUNT"),
    (48, 0x03, "RECEIVER_IS_ANOTHER"),
    (50, 3, "DATA_PERMISSION"),
    (50, 0x0C, "INSTRUCTION_PERMISSION"),
    (50, 0x10, "PERMISSIONS_RESERVED"),
    (51, 1, "ACCESS_FLAGS"),
    (52, 1, "COMPOSITE_TOLD"),
    (56, 1, "ACCESS_RESERVED"),
]


@pytest.mark.parametrize("at, value, flaw", RETRIEVES)
def test_names_the_first_condition_that_a_retrieve_breaks(at: int, value: int, flaw: str) -> None:
    data = bytearray(Retrieve(0x8001, 1, Receiver(0x8002)).to_bytes())
    data[at] = value
    with pytest.raises(MalformedDescriptor) as wrong:
        Retrieve.from_bytes(bytes(data), 0x8002)
    assert wrong.value.flaw is Flaw[f"RETRIEVE_{flaw}"]


# A retrieve of 8002 that also names 8003, in the form of FF-A 1.1: an access descriptor of 16 bytes more.
TWO_NAMES = [
    (5, 0x04, Flaw.RETRIEVE_ACCESS_COUNT, 0),
    (28, 0x05, Flaw.HEADER_ARRAY_OUTSIDE, 0),
    (64, 0x04, Flaw.RETRIEVE_RECEIVER_IS_ANOTHER, 0),
    (67, 0x01, Flaw.RETRIEVE_ACCESS_FLAGS, 1),
    (51, 0x02, Flaw.ACCESS_FLAGS, 0),
    (52, 0x10, Flaw.ACCESS_OTHER_COMPOSITE, 0),
    (56, 0x01, Flaw.ACCESS_RESERVED, 0),
]


def test_a_retrieve_of_ffa_1_2_may_name_other_receivers() -> None:
    asked = Retrieve(0x8001, 1, Receiver(0x8002, RW))
    one = asked.to_bytes()
    data = bytearray(one[:48] + Retrieve(0x8001, 1, Receiver(0x8003)).to_bytes()[48:] + one[48:])
    data[28], data[51] = 2, 1
    assert Retrieve.from_bytes(bytes(data), 0x8002, ffa=Ffa.V1_2) == asked
    with pytest.raises(MalformedDescriptor) as wrong:
        Retrieve.from_bytes(bytes(data), 0x8002)
    assert wrong.value.flaw is Flaw.RETRIEVE_ACCESS_COUNT
    for at, value, flaw, index in TWO_NAMES:
        bad = bytearray(data)
        bad[at] = value
        with pytest.raises(MalformedDescriptor) as wrong:
            Retrieve.from_bytes(bytes(bad), 0x8002, ffa=Ffa.V1_2)
        assert (wrong.value.flaw, wrong.value.index) == (flaw, index)
    twice = bytearray(data)
    twice[48], twice[51] = 2, 0
    with pytest.raises(MalformedDescriptor) as wrong:
        Retrieve.from_bytes(bytes(twice), 0x8002, ffa=Ffa.V1_2)
    assert (wrong.value.flaw, wrong.value.index) == (Flaw.ACCESS_RECEIVER_TWICE, 1)
    alone = bytearray(one)
    alone[5] = 4
    assert Retrieve.from_bytes(bytes(alone), 0x8002, ffa=Ffa.V1_2) == asked


@pytest.mark.parametrize("form, access", [(Form.COMPACT, 32), (Form.FFA_1_1, 48), (Form.FFA_1_2, 48)])
def test_a_transaction_is_read_back_with_all_receivers(form: Form, access: int) -> None:
    asked = ReadBack(0x0000000000000001).to_bytes(form)
    assert len(asked) == access and words(asked) == {8: 1}
    held = TO_TWO.receivers
    answered = RetrieveResponse(Kind.SHARE, 0, 1, held, TO_TWO.ranges, tag=0x77, non_secure=form is not Form.COMPACT)
    data = answered.to_bytes(form)
    assert RetrieveResponse.from_bytes(data + b"rest", form) == answered
    for change, flaw, index in ((b"\3", Flaw.RETRIEVE_DATA_PERMISSION, 1), (b"\x0C", Flaw.RETRIEVE_INSTRUCTION_PERMISSION, 1)):
        at = access + (32 if form is Form.FFA_1_2 else 16) + 2
        with pytest.raises(MalformedDescriptor) as wrong:
            RetrieveResponse.from_bytes(data[:at] + change + data[at + 1 :], form)
        assert (wrong.value.flaw, wrong.value.index) == (flaw, index)
    for count in (0, 5):
        with pytest.raises(MalformedDescriptor) as wrong:
            RetrieveResponse.from_bytes(data[:28] + bytes([count]) + data[29:] + bytes(64), form)
        assert wrong.value.flaw is Flaw.RETRIEVE_ACCESS_COUNT


@pytest.mark.parametrize("data, flaw", [(b"\0" * 17, "SHORT"), (b"\2", "FLAGS"), (b"\1", "ENDPOINT_COUNT")])
def test_names_the_first_condition_that_a_relinquish_breaks(data: bytes, flaw: str) -> None:
    whole = data if len(data) == 17 else b"\0" * 8 + data + b"\0" * 3 + b"\2\0\0\0" + b"\2\x80"
    with pytest.raises(MalformedDescriptor) as wrong:
        Relinquish.from_bytes(whole)
    assert wrong.value.flaw is Flaw[f"RELINQUISH_{flaw}"]


def untyped(value: object) -> Any:
    """A value of which no type checker knows what it is."""
    return value


@pytest.mark.parametrize(
    "kind, form, told, other",
    [
        ("lend", "compact", "the str 'lend': give Kind.LEND", "the str 'compact': give Form.COMPACT"),
        (2, 1, "the int 2: give Kind.LEND", "the int 1: give Form.COMPACT"),
        (None, "1.1", "None: give Kind.SHARE or Kind.LEND or Kind.DONATE", "the str '1.1': give Form.FFA_1_1"),
        ("Share", "1.2", "the str 'Share': give Kind.SHARE", "the str '1.2': give Form.FFA_1_2"),
        (Right.RW, 1.2, "Right.RW: give Kind.", "the float 1.2: give Form.FFA_1_1 or Form.COMPACT or Form.FFA_1_2"),
    ],
)
def test_names_the_kind_and_the_form_that_are_meant(kind: Any, form: Any, told: str, other: str) -> None:
    of_kind: list[Callable[[], object]] = [
        lambda: Offer(kind, 0x8001, LEND.receivers, LEND.ranges),
        lambda: Offer.from_bytes(LEND.to_bytes(), kind),
    ]
    of_form: list[Callable[[], object]] = [
        lambda: LEND.to_bytes(form),
        lambda: Offer.from_bytes(LEND.to_bytes(), Kind.LEND, form),
        lambda: Retrieve(0x8001, 1, Receiver(0x8002)).to_bytes(form),
        lambda: PartitionInfo(0x8001, Properties(7)).to_bytes(form),
        lambda: IndirectMessage(0x8001, 0x8002, b"x").to_bytes(form),
        lambda: read_partitions(bytes(24), 1, form),
    ]
    for asked in of_kind:
        with pytest.raises(TypeError, match=f"^kind is a Kind, and not {told}"):
            asked()
    for asked in of_form:
        with pytest.raises(TypeError, match=f"^form is a Form, and not {other}$"):
            asked()


def test_refuses_what_is_no_part_of_a_descriptor() -> None:
    makes: list[tuple[Callable[[], object], str]] = [
        (lambda: Receiver(1, untyped("rw")), "data is a DataAccess, and not the str 'rw': give DataAccess.RW"),
        (lambda: Receiver(1, untyped(Right.RW)), "data is a DataAccess, and not Right.RW: give DataAccess.RW"),
        (
            lambda: Receiver(1, RW, untyped(Right.ROX)),
            "instructions is an InstructionAccess, and not Right.ROX: give InstructionAccess.UNSPECIFIED or "
            "InstructionAccess.NX or InstructionAccess.X",
        ),
        (
            lambda: Offer(Kind.LEND, 1, LEND.receivers, untyped(LEND.ranges[0])),
            "ranges is a tuple of PageRange, and not PageRange(address=0x40021000, pages=1): give (PageRange(..),)",
        ),
        (lambda: Offer(Kind.LEND, 1, untyped((2,)), LEND.ranges), "receivers[0] is a Receiver, and not the int 2"),
        (
            lambda: Offer(Kind.LEND, 1, LEND.receivers, untyped((LEND.ranges[0], (4096, 1)))),
            "ranges[1] is a PageRange, and not the tuple (0x1000, 1)",
        ),
        (
            lambda: Retrieve(1, 2, untyped(0x8002)),
            "receiver is a Receiver, and not the int 0x8002: give Receiver(0x8002)",
        ),
        (
            lambda: Retrieve(1, 2, Receiver(3), kind=untyped("lend")),
            "kind is a Kind, and not the str 'lend': give Kind.LEND",
        ),
        (lambda: RetrieveResponse(Kind.LEND, 1, 2, untyped((3,)), ()), "receivers[0] is a Receiver, and not the int 3"),
        (lambda: ReadBack(untyped("1")), "handle is a number, and not the str '1': give 0x1"),
        (lambda: Receiver(untyped("8002")), "endpoint is a number, and not the str '8002': give 0x8002"),
        (lambda: PageRange(untyped("40028000"), 1), "address is a number, and not the str '40028000': give 0x40028000"),
        (lambda: Offer(Kind.LEND, untyped(None), (), ()), "sender is a number, and not None"),
        (lambda: Retrieve(1, untyped(1.5), Receiver(3)), "handle is a number, and not the float 1.5"),
        (lambda: Relinquish(1, untyped("vm")), "endpoint is a number, and not the str 'vm'"),
        (lambda: IndirectMessage(1, 2, untyped("hi")), "payload is bytes, and not the str 'hi': give its encode()"),
        (lambda: IndirectMessage(1, untyped("8002"), b"hi"), "receiver is a number, and not the str '8002': give 0x8002"),
        (lambda: IndirectMessage(1, 2, b"hi", untyped("20")), "offset is a number, and not the str '20': give 0x20"),
        (lambda: IndirectMessage(1, 2, b"hi", uuid=untyped(5)), "uuid is a UUID, and not the int 5"),
        (
            lambda: Offer.from_bytes(LEND.to_bytes(), Kind.LEND, Form.FFA_1_1, untyped("1.2")),
            "ffa is a Ffa, and not the str '1.2': give Ffa.V1_1 or Ffa.V1_2",
        ),
        (
            lambda: PartitionInfo(0x8001, untyped("NOTIFICATIONS")),
            "properties is a Properties, and not the str 'NOTIFICATIONS': give Properties.NOTIFICATIONS",
        ),
    ]
    for make, told in makes:
        with pytest.raises(TypeError) as wrong:
            make()
        assert str(wrong.value) == told


def test_takes_plain_numbers_and_lists() -> None:
    odd = Offer(Kind.LEND, 1, (Receiver(2, untyped(3)),), LEND.ranges)
    assert odd.to_bytes(checked=False)[50] == 3
    lent = Retrieve(1, 2, Receiver(3), kind=Kind.LEND)
    assert Retrieve(1, 2, Receiver(3), kind=untyped(2)).to_bytes() == lent.to_bytes()
    assert Offer(Kind.LEND, 0x8001, untyped([*LEND.receivers]), LEND.ranges).to_bytes() == LEND.to_bytes()


def test_refuses_what_no_descriptor_can_say() -> None:
    with pytest.raises(MalformedDescriptor, match="a flag is set that this call does not allow"):
        Offer(Kind.SHARE, 1, (Receiver(2, RW),), (PageRange(4096, 1),), zero=True).to_bytes()
    with pytest.raises(MalformedDescriptor, match="access descriptor 00: the access descriptor names the sender"):
        Offer(Kind.LEND, 1, (Receiver(1, RW),), (PageRange(4096, 1),)).to_bytes()
    with pytest.raises(ValueError, match="doesn't hold its number"):
        Offer(Kind.LEND, 0x10000, (Receiver(1, RW),), (PageRange(4096, 1),)).to_bytes()
    malformed = Offer(Kind.LEND, 1, (Receiver(1, RW),), (PageRange(4096, 1),)).to_bytes(checked=False)
    assert len(malformed) == 96
