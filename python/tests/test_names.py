# SPDX-License-Identifier: MIT OR Apache-2.0
"""Names, numbers and words against the manual, the core's lists and C's header. (tests/copies writes functions, checks and
flaws.)"""
from __future__ import annotations

import inspect
import re
import tomllib
from enum import IntEnum

from conftest import TOP

import gorseplumb
from gorseplumb import About, Cause, Check, ErrorCode, Fault, Ffa, Flaw, Form, Function, GrantKind, HintKind, Obstacle
from gorseplumb import Right, RunState
from gorseplumb import _library as c
from gorseplumb._library import library
from gorseplumb.codes import Answer

HEADER = (TOP / "c" / "gorseplumb.h").read_text()


def source(path: str) -> str:
    return (TOP / path).read_text()


def test_error_codes_are_those_of_the_core() -> None:
    told = re.findall(r'0x(FFFF_FFF\w) => "(\w+)"', source("crates/ffa_abi/src/names.rt"))
    assert {name: int(number.replace("_", ""), 16) - (1 << 32) for number, name in told} == {
        code.name: int(code) for code in ErrorCode
    }


def test_checks_and_flaws_are_printed_by_their_words() -> None:
    words = "the caller has no RX and TX"
    assert str(Check.BUFFERS_MISSING) == f"{Check.BUFFERS_MISSING}" == words
    assert f"{Check.BUFFERS_MISSING:>30}" == f"{Check.BUFFERS_MISSING:>30s}" == f"   {words}"
    assert f"{Check.BUFFERS_MISSING:d}" == f"{Check.BUFFERS_MISSING:X}" == "2" == str(int(Check.BUFFERS_MISSING))
    assert repr(Check.BUFFERS_MISSING) == "Check.BUFFERS_MISSING"
    assert all(str(it) == it.words for members in (Check, Flaw) for it in members)


def test_causes_are_those_of_the_manual() -> None:
    told = re.findall(r"^\| (M\d+ \w+) \|", (TOP / "docs" / "MANIFEST.md").read_text(), re.M)
    assert [cause.text for cause in Cause] == told[1:]
    assert told[0] == "M1 NoMemory"


def test_words_of_faults_rights_and_versions_are_those_of_the_manual() -> None:
    traces, manifest = (source(f"docs/{page}.md") for page in ("TRACES", "MANIFEST"))
    for fault in Fault:
        assert f"`fault {fault.text}`" in traces
    for right in Right:
        assert f"`{right.text}`" in traces
    assert all(f'`"{form.text}"`' in manifest for form in Form)


def test_numbers_are_those_of_the_header() -> None:
    told = {name: int(number) for name, number in re.findall(r"GORSEPLUMB_(\w+) = (\d+)", HEADER)}
    assert {it.name: told[it.name] for it in Answer} == {it.name: int(it) for it in Answer}
    assert told.pop("HINT_NONE") == 0  # for which Reason.hint is None
    groups: dict[str, type[IntEnum]] = {
        "MANIFEST_": Cause,
        "FAULT_": Fault,
        "ABOUT_": About,
        "STATE_": RunState,
        "OBSTACLE_": Obstacle,
        "GRANT_": GrantKind,
        "HINT_": HintKind,
    }
    for start, members in groups.items():
        of_header = {name: number for name, number in told.items() if name.startswith(start)}
        assert of_header == {f"{start}{it.name}": int(it) for it in members}, start
    versions = {name.replace("FFA_", "V"): number for name, number in told.items() if name.startswith("FFA_")}
    assert versions == {it.name: int(it) for it in Ffa}
    kinds = {name: number for name, number in told.items() if name.startswith(("KIND_", "OPERATION_"))}
    assert kinds == {name: getattr(c, name) for name in kinds} and kinds
    for name in ("MOST_REGIONS", "MOST_ENDPOINTS", "MOST_BLOCKS", "MOST_RANGES"):
        assert re.search(rf"#define GORSEPLUMB_{name} {getattr(c, name)}$", HEADER, re.M), name


def test_names_are_those_of_the_library() -> None:
    for function in Function:
        assert library.call_name(function).decode() == function.call_name
    for code in ErrorCode:
        assert library.error_name(code).decode() == code.name
    for fault in Fault:
        assert library.fault_name(fault).decode() == fault.text
    for check in Check:
        assert library.check_name(check).decode() == check.words
    for flaw in Flaw:
        assert library.flaw_name(flaw).decode() == flaw.words
    for cause in Cause:
        assert library.answer_name(cause).decode() == cause.text
    assert library.call_name(0) == library.error_name(0) == library.check_name(0) == library.fault_name(0) == b""


def test_numbers_of_checks_are_those_of_the_manual() -> None:
    # docs/MEMORY.md and docs/CALLS.md
    assert library.check_number(Function.FFA_MEM_LEND, Check.PAGE_UNSENDABLE) == 10
    assert library.check_number(Function.FFA_RXTX_MAP, Check.BUFFERS_MAPPED) == 1
    assert library.check_number(Function.FFA_MSG_SEND2, Check.RECEIVER_RX_SMALL) == 14
    assert library.check_number(Function.FFA_RUN, Check.RX_FULL) == 0


def test_each_public_name_says_what_it_is() -> None:
    kinds = [(name, it) for name, it in vars(gorseplumb).items() if name in gorseplumb.__all__]
    for name, it in kinds:
        if isinstance(it, type) or inspect.isfunction(it):
            assert it.__doc__ and not it.__doc__.startswith(f"{name}("), name
        if isinstance(it, type):
            for of, member in vars(it).items():
                function = member.fget if isinstance(member, property) else getattr(member, "__func__", member)
                is_told = not inspect.isfunction(function) or of.startswith("_") or function.__doc__
                assert is_told, f"{name}.{of}"


def test_the_version_is_the_programs() -> None:
    told = re.search(r'pub const VERSION: &str = "([^"]+)"', source("crates/play_arguments/src/program.rt"))
    project = tomllib.loads((TOP / "python" / "pyproject.toml").read_text())["project"]
    assert told is not None and told[1] == project["version"] == gorseplumb.__version__
