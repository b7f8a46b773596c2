# SPDX-License-Identifier: MIT OR Apache-2.0
"""Exceptions: their messages, and that they are copied with all that they tell."""
from __future__ import annotations

import copy
import pickle

import pytest
from conftest import BUILT_IN

from gorseplumb import AccessFault, BadLine, CallRefused, Cause, Check, ErrorCode, Fault, Flaw, Function
from gorseplumb import GorseplumbError, GuardUnmet, Load, Machine, MachineEnded, MalformedDescriptor, ManifestRefused
from gorseplumb import NoSuchEndpoint, NoSuchPage, NoSuchProcessor
from gorseplumb.errors import access_fault, call_refused


@pytest.mark.parametrize(
    "wrong, told",
    [
        (call_refused(ErrorCode.BUSY), "BUSY"),
        (call_refused(ErrorCode.DENIED, 0x8400006D, 0x8001), "8001: FFA_RUN: DENIED"),
        (call_refused(100, 0x8400008F), "8400008F: error 100"),
        (access_fault(Fault.TRANSLATION, 1 << 32, 0), "translation fault of 0000 at 0000000100000000"),
        (ManifestRefused(Cause.RAM_BASE), "M6 RamBase"),
        (ManifestRefused(Cause.TOML, "a hint"), "M2 Toml: a hint"),
        (ManifestRefused(Cause.TOML, words="why", line=3, column=2), "M2 Toml: why"),
        (ManifestRefused(Cause.UUID, endpoint=0x8001), "M9 Uuid: endpoint 8001"),
        (ManifestRefused(Cause.REGION_OVERLAP, endpoint=0, region=2), "M13 RegionOverlap: endpoint 0000, region 2"),
        (NoSuchEndpoint(0x8005), "the machine has no endpoint 8005"),
        (NoSuchProcessor(8), "there is no processor 8: they are 0 to 7"),
        (NoSuchPage("no page"), "no page"),
        (BadLine("why", 2, 1), "line 1, column 2: why"),
        (BadLine("why", hint="a hint"), "why: a hint"),
        (GuardUnmet(1, "done", None), 'line 1: expected "done", found nothing'),
        (GuardUnmet(1, "done", "data 00"), 'line 1: expected "done", found "data 00"'),
        (MalformedDescriptor(Flaw.RANGE_EMPTY, 16), "range 10: the range has no pages"),
        (MachineEnded("the machine was closed"), "the machine was closed"),
    ],
)
def test_is_copied_with_all_that_it_tells(wrong: GorseplumbError, told: str) -> None:
    assert str(wrong) == told
    assert_is_copied(wrong)


def test_is_copied_with_its_reason() -> None:
    with Machine(BUILT_IN) as machine:
        with pytest.raises(CallRefused) as refused:
            machine.do(Function.FFA_RUN, partition=0x8009)
        with pytest.raises(AccessFault) as fault:
            machine.read(0x40020000, 1)
    assert refused.value.check is Check.TARGET_UNKNOWN and refused.value.check_number == 2
    assert call_refused(ErrorCode.BUSY).check is call_refused(ErrorCode.BUSY).check_number is None
    assert fault.value.reason is not None and fault.value.reason.operation == Load(0x40020000, 1)
    assert_is_copied(refused.value)
    assert_is_copied(fault.value)


def test_shows_its_numbers_in_hexadecimal() -> None:
    assert repr(call_refused(100, 0x8400008F)) == "CallRefused(0x64, 0x8400008F, None, None)"
    assert repr(NoSuchEndpoint(0x8005)) == "NoSuchEndpoint(0x8005)"
    assert repr(ManifestRefused(Cause.TOML)) == "ManifestRefused(Cause.TOML, '')"
    fault = access_fault(Fault.TRANSLATION, 0x40020000, 0x8001)
    assert repr(fault) == "TranslationFault(Fault.TRANSLATION, 0x40020000, 0x8001, None)"


def assert_is_copied(wrong: GorseplumbError) -> None:
    for other in (pickle.loads(pickle.dumps(wrong)), copy.copy(wrong), copy.deepcopy(wrong)):
        assert type(other) is type(wrong) and str(other) == str(wrong) and vars(other) == vars(wrong)
