# SPDX-License-Identifier: MIT OR Apache-2.0
"""An example of a user's test bench: a service in a partition, and what its clients may do to it.

The service keeps one secret page. Who lends it a page gets that filled in, and the bench asks that nobody else ever
reads either. It is written as one would write it beside a firmware of one's own: the manifest as values, helpers for
what the partitions do, and a test for each promise."""
from __future__ import annotations

from typing import Iterator
from uuid import UUID

import pytest

from gorseplumb import DataAccess, Denied, Endpoint, Fault, Faulted, Function, InvalidParameters, Kind, Machine
from gorseplumb import Manifest, Offer, PageRange, Properties, Receiver, Region, Relinquish, Retrieve, Right
from gorseplumb import TranslationFault

RAM = 0x40000000
CLIENT, SERVICE, THIEF = 0x0000, 0x8001, 0x8002
PAGES = {CLIENT: RAM + 0x100000, SERVICE: RAM + 0x110000, THIEF: RAM + 0x120000}
SECRET = PAGES[SERVICE]


def tx(endpoint: int) -> int:
    return PAGES[endpoint] + 0xE000


def rx(endpoint: int) -> int:
    return PAGES[endpoint] + 0xF000


@pytest.fixture
def machine() -> Iterator[Machine]:
    """All three have buffers, and the service has its secret."""
    properties = {CLIENT: Properties.SENDS_REQUESTS, SERVICE: Properties(3), THIEF: Properties(3)}
    endpoints = [
        Endpoint([Region(base, 16, Right.RW)], properties[name], UUID(int=name) if name else None)
        for name, base in PAGES.items()
    ]
    with Machine(Manifest(RAM, 1, endpoints)) as machine:
        map_buffers(machine, CLIENT)
        for partition in (SERVICE, THIEF):
            machine.do(Function.FFA_RUN, partition=partition)
            map_buffers(machine, partition)
            if partition == SERVICE:
                machine.write(SECRET, b"the secret")
            machine.do(Function.FFA_MSG_WAIT)
        yield machine


def map_buffers(machine: Machine, endpoint: int) -> None:
    machine.do(Function.FFA_RXTX_MAP, tx=tx(endpoint), rx=rx(endpoint), pages=1)


def lend(machine: Machine, page: int) -> int:
    """The client lends a page to the service."""
    offer = Offer(Kind.LEND, CLIENT, (Receiver(SERVICE, DataAccess.RW),), (PageRange(page, 1),))
    return machine.send(offer, tx(CLIENT)).handle


def serve(machine: Machine, handle: int, page: int) -> None:
    """The service takes the page, writes into it, and gives it back."""
    machine.do(Function.FFA_MSG_SEND_DIRECT_REQ, sender=CLIENT, receiver=SERVICE, payload0=handle & 0xFFFFFFFF)
    machine.send(Retrieve(CLIENT, handle, Receiver(SERVICE)), tx(SERVICE))
    machine.do(Function.FFA_RX_RELEASE)
    machine.write(page, machine.read(SECRET, 10).upper())
    machine.send(Relinquish(handle, SERVICE), tx(SERVICE))
    machine.do(Function.FFA_MSG_SEND_DIRECT_RESP, sender=SERVICE, receiver=CLIENT)


def test_the_client_gets_its_page_filled_in(machine: Machine) -> None:
    page = PAGES[CLIENT]
    handle = lend(machine, page)
    assert machine.load(page, 1) == Faulted(Fault.TRANSLATION), "what is lent is out of the lender's reach"
    serve(machine, handle, page)
    machine.do(Function.FFA_MEM_RECLAIM, handle=handle)
    assert machine.read(page, 10) == b"THE SECRET"


def test_nobody_else_reaches_the_secret_at_any_moment(machine: Machine) -> None:
    page = PAGES[CLIENT]
    handle = lend(machine, page)
    serve(machine, handle, page)
    machine.do(Function.FFA_MEM_RECLAIM, handle=handle)
    for endpoint in (CLIENT, THIEF):
        if endpoint == THIEF:
            machine.do(Function.FFA_RUN, partition=THIEF)
        with pytest.raises(TranslationFault):
            machine.read(SECRET, 1)


def test_the_thief_cannot_take_what_is_lent_to_the_service(machine: Machine) -> None:
    page = PAGES[CLIENT]
    handle = lend(machine, page)
    machine.do(Function.FFA_RUN, partition=THIEF)
    with pytest.raises(InvalidParameters):
        machine.send(Retrieve(CLIENT, handle, Receiver(THIEF)), tx(THIEF))
    with pytest.raises(InvalidParameters):
        machine.do(Function.FFA_MEM_RECLAIM, handle=handle)
    assert machine.access(THIEF, (page - RAM) // 4096) is Right.NONE


def test_the_client_cannot_end_a_lend_that_the_service_holds(machine: Machine) -> None:
    page = PAGES[CLIENT]
    handle = lend(machine, page)
    machine.do(Function.FFA_MSG_SEND_DIRECT_REQ, sender=CLIENT, receiver=SERVICE)
    machine.send(Retrieve(CLIENT, handle, Receiver(SERVICE)), tx(SERVICE))
    machine.do(Function.FFA_MSG_SEND_DIRECT_RESP, sender=SERVICE, receiver=CLIENT)
    with pytest.raises(Denied):
        machine.do(Function.FFA_MEM_RECLAIM, handle=handle)
