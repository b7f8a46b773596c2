# SPDX-License-Identifier: MIT OR Apache-2.0
"""FF-A 1.2, in which memory is secure or non-secure. Expected are the manual's rules: docs/MEMORY.md, "Worlds"."""
from __future__ import annotations

from dataclasses import replace

import pytest
from conftest import EXAMPLES

from gorseplumb import Busy, Check, DataAccess, Denied, Ffa, Flaw, Form, Function, IndirectMessage, InvalidParameters, Kind
from gorseplumb import Machine, Manifest, Offer, PageRange, ReadBack, Receiver, Reason, Relinquish, Retrieve, RetrieveResponse

FFA_1_1 = Manifest.read(EXAMPLES / "machine.toml")
FFA_1_2 = replace(FFA_1_1, ffa=Ffa.V1_2)
NORMAL, SECURE = PageRange(0x40010000, 1), PageRange(0x40020000, 1)
TX, TX_1 = 0x4001E000, 0x4002E000


def shares(sender: int, receiver: int, *ranges: PageRange) -> Offer:
    return Offer(Kind.SHARE, sender, (Receiver(receiver, DataAccess.RW),), ranges)


def maps(machine: Machine, tx: int) -> None:
    machine.do(Function.FFA_RXTX_MAP, tx=tx, rx=tx + 0x1000, pages=1)


def of_forms(world: Form, first: Form) -> Manifest:
    """The machine of FF-A 1.2 in which the normal world and 8001 have these forms."""
    forms = (world, first, Form.FFA_1_1)
    return replace(FFA_1_2, endpoints=[replace(it, form=form) for it, form in zip(FFA_1_2.endpoints, forms)])


@pytest.mark.parametrize("world", Form)
@pytest.mark.parametrize("first", Form)
def test_sends_and_retrieves_in_each_form(world: Form, first: Form) -> None:
    with Machine(of_forms(world, first)) as machine:
        maps(machine, TX)
        handle = machine.send(shares(0, 0x8001, NORMAL), TX).handle
        machine.do(Function.FFA_RUN, partition=0x8001)
        maps(machine, TX_1)
        told = machine.send(Retrieve(0, handle, Receiver(0x8001)), TX_1)
        data = machine.read(TX_1 + 0x1000, told.x[1])
        assert len(data) == {Form.FFA_1_1: 96, Form.COMPACT: 80, Form.FFA_1_2: 112}[first]
        response = RetrieveResponse.from_bytes(data, first)
        assert (response.handle, response.ranges) == (handle, (NORMAL,))
        assert response.non_secure is (first is not Form.COMPACT) and response.to_bytes(first) == data
        machine.do(Function.FFA_RX_RELEASE)
        machine.send(Relinquish(handle, 0x8001), TX_1)
        machine.do(Function.FFA_MSG_WAIT)
        machine.do(Function.FFA_MEM_RECLAIM, handle=handle)
        # A message, whose header has 40 bytes in the form of FF-A 1.2.
        machine.send(IndirectMessage(0, 0x8001, b"hello"), TX)
        machine.do(Function.FFA_RUN, partition=0x8001)
        offset = 40 if world is Form.FFA_1_2 else 20
        assert machine.read(TX_1 + 0x1000, offset + 5) == IndirectMessage(0, 0x8001, b"hello").to_bytes(world)


@pytest.mark.parametrize("form", Form)
def test_the_normal_world_reads_back_what_it_shared(form: Form) -> None:
    # tests/rows/ffa-1.2/a-hypervisor-*.trace
    receivers = (Receiver(0x8001, DataAccess.RW), Receiver(0x8002, DataAccess.RO))
    share = Offer(Kind.SHARE, 0, receivers, (NORMAL,), tag=0x77)
    with Machine(of_forms(form, Form.FFA_1_1)) as machine:
        maps(machine, TX)
        handle = machine.send(share, TX).handle
        told = machine.send(ReadBack(handle), TX)
        data = machine.read(TX + 0x1000, told.x[1])
        assert len(data) == {Form.FFA_1_1: 0x70, Form.COMPACT: 0x60, Form.FFA_1_2: 0x90}[form]
        response = RetrieveResponse.from_bytes(data, form)
        is_told = form is not Form.COMPACT
        assert response == RetrieveResponse(Kind.SHARE, 0, handle, receivers, (NORMAL,), tag=0x77, non_secure=is_told)
        with pytest.raises(Busy, match="the caller's RX is full$"):
            machine.send(ReadBack(handle), TX)
        machine.do(Function.FFA_RX_RELEASE)
        machine.do(Function.FFA_MEM_RECLAIM, handle=handle)
        with pytest.raises(InvalidParameters, match="check 16: no open transaction from the caller has the handle"):
            machine.send(ReadBack(handle), TX)


@pytest.mark.parametrize("form", Form)
def test_a_wait_leaves_the_rx_of_a_caller_of_1_2_full_by_its_flag(form: Form) -> None:
    with Machine(of_forms(Form.FFA_1_1, form)) as machine:
        machine.do(Function.FFA_RUN, partition=0x8001)
        maps(machine, TX_1)
        machine.do(Function.FFA_PARTITION_INFO_GET)
        machine.do(Function.FFA_MSG_WAIT, flags=1)
        machine.do(Function.FFA_RUN, partition=0x8001)
        if form is Form.FFA_1_2:
            machine.do(Function.FFA_RX_RELEASE)
        with pytest.raises(Denied) as refused:
            machine.do(Function.FFA_RX_RELEASE)
        assert refused.value.check is Check.RX_EMPTY


@pytest.mark.parametrize("minor, form", [(0, Form.COMPACT), (1, Form.FFA_1_1), (2, Form.FFA_1_2), (3, Form.FFA_1_2)])
def test_a_caller_has_the_form_of_the_version_that_it_asks_for(minor: int, form: Form) -> None:
    for before in Form:
        with Machine(of_forms(before, Form.FFA_1_1)) as machine:
            assert machine.do(Function.FFA_VERSION, major=1, minor=minor).x[0] == 0x10002
            assert machine.form(0) is before  # by the manifest
            maps(machine, TX)
            for other in Form:
                if other is not form:
                    assert flaw_of(machine, other) is Flaw.HEADER_ACCESS_SIZE
            assert machine.send(shares(0, 0x8001, NORMAL), TX, form).handle == 1


def flaw_of(machine: Machine, form: Form) -> Flaw | None:
    """The flaw for which a share in this form is refused."""
    with pytest.raises(InvalidParameters) as refused:
        machine.send(shares(0, 0x8001, NORMAL), TX, form)
    assert isinstance(refused.value.reason, Reason)
    return refused.value.reason.subject.flaw


def test_no_form_of_ffa_1_2_on_a_machine_of_ffa_1_1() -> None:
    with Machine(FFA_1_1) as machine:
        assert machine.do(Function.FFA_VERSION, major=1, minor=2).x[0] == 0x10001
        maps(machine, TX)
        assert flaw_of(machine, Form.FFA_1_2) is Flaw.HEADER_ACCESS_SIZE
        reason = machine.why(shares(0, 0x8001, NORMAL).operations(TX, Form.FFA_1_2)[-1])
        told = "bytes 18 to 1B are 00000020, and must be 00000010, because 0000 uses version 1.1"
        assert str(reason).endswith(told)
        with pytest.raises(TypeError, match="^form is a Form, and not the str '1.2': give Form.FFA_1_2$"):
            machine.send(shares(0, 0x8001, NORMAL), TX, "1.2")  # type: ignore[arg-type]


def run_first(manifest: Manifest) -> tuple[Machine, RetrieveResponse]:
    """A machine in which 8001 runs, and has retrieved what the normal world shared with it."""
    machine = Machine(manifest)
    maps(machine, TX)
    handle = machine.send(shares(0, 0x8001, NORMAL), TX).handle
    machine.do(Function.FFA_RUN, partition=0x8001)
    maps(machine, TX_1)
    told = machine.send(Retrieve(0, handle, Receiver(0x8001)), TX_1)
    response = machine.read(TX_1 + 0x1000, told.x[1])
    machine.do(Function.FFA_RX_RELEASE)
    return machine, RetrieveResponse.from_bytes(response)


def test_tells_worlds_apart() -> None:
    machine, response = run_first(FFA_1_2)
    with machine:
        assert response.non_secure and machine.manifest.ffa is Ffa.V1_2
        for function in (Function.FFA_MEM_RETRIEVE_REQ, Function.FFA_MEM_RETRIEVE_REQ_64):
            assert machine.call(Function.FFA_FEATURES, function).x[:3] == (Function.FFA_SUCCESS, 0, 2)
        with pytest.raises(Denied) as denied:
            machine.send(shares(0x8001, 0, SECURE), TX_1)
        reason = denied.value.reason
        assert reason is not None and reason.check is Check.WORLDS_MIXED and reason.check_number == 13
        assert machine.send(shares(0x8001, 0x8002, SECURE), TX_1).handle == 0x0000800100000001


def test_tells_nothing_unasked() -> None:
    machine, response = run_first(FFA_1_1)
    with machine:
        assert not response.non_secure and machine.manifest.ffa is Ffa.V1_1
        told = machine.call(Function.FFA_FEATURES, Function.FFA_MEM_RETRIEVE_REQ)
        assert told.x[:3] == (Function.FFA_SUCCESS, 0, 0)
        assert machine.send(shares(0x8001, 0, SECURE), TX_1).handle == 0x0000800100000001


def test_no_text_says_it() -> None:
    assert FFA_1_2.text() == FFA_1_1.text() and Manifest.read(FFA_1_2.text()).ffa is Ffa.V1_1
    assert FFA_1_2 != FFA_1_1 and repr(FFA_1_2).endswith("ffa=Ffa.V1_2, tables=0)")
