# SPDX-License-Identifier: MIT OR Apache-2.0
"""What docs/PYTHON.md shows is what the package gives, and what it names is there."""
from __future__ import annotations

import contextlib
import io
import re

import pytest
from conftest import EXAMPLES, TOP

import gorseplumb
from gorseplumb import GorseplumbError, Machine, jsonlines
from gorseplumb.log import play, read_ftrace, read_log
from gorseplumb.session import Session

PAGE = (TOP / "docs" / "PYTHON.md").read_text()


def block(heading: str, place: int = 0) -> str:
    """A block of code of a section, without its indent."""
    section = re.split(r"^## ", PAGE, flags=re.M)
    text = next(it for it in section if it.startswith(heading))
    blocks = re.findall(r"(?:^    .*\n|^\n(?=    ))+", text, re.M)
    return "\n".join(line[4:] for line in blocks[place].strip("\n").split("\n")) + "\n"


def test_the_first_example_prints_what_it_says(monkeypatch: pytest.MonkeyPatch) -> None:
    monkeypatch.chdir(TOP)
    code, printed = block("A first example"), io.StringIO()
    with contextlib.redirect_stdout(printed):
        exec(compile(code, "PYTHON.md", "exec"), {})
    told = re.findall(r"print\(.*\) +# (.*)$", code, re.M)
    assert printed.getvalue().splitlines() == told and len(told) == 2


def test_the_arguments_of_calls_are_those_of_help() -> None:
    told = dict(re.findall(r"^ +(FFA_\w+\*?) +(\S.*)$", Machine.do.__doc__ or "", re.M))
    page: dict[str, str] = {}
    for names, arguments in re.findall(r"^((?:FFA_\w+\*?,?\s+)+)(\S.*)$", block("Calls by name"), re.M):
        page |= {name: arguments for name in re.findall(r"[\w*]+", names)}
    assert page == {name: arguments for name, arguments in told.items() if arguments != "-"} and len(page) == 21


def test_the_session_answers_what_it_shows() -> None:
    session = Session(EXAMPLES / "partitions.toml")
    printed: list[str] = []
    for line in block("The session").splitlines():
        prompt = re.match(r"([0-9A-F]{4})> (.*)", line)
        if prompt is not None:
            assert not printed and f"{session.machine.runner:04X}" == prompt[1]
            printed = session.line(prompt[2])
        else:
            found = printed.pop(0)
            assert found.startswith(line[:-2]) if line.endswith(" ..") else found == line
    assert not printed


def test_the_lines_of_json_are_read() -> None:
    with Machine(EXAMPLES / "partitions.toml") as machine:
        for line in block("Recordings", 1).splitlines():
            entry = jsonlines.loads(line)
            assert jsonlines.dumps(*entry) == line
            machine.select(entry.processor)
            assert machine.perform(entry.operation) == entry.outcome


def test_the_logs_are_read() -> None:
    with Machine(EXAMPLES / "partitions.toml") as machine:
        assert play(machine, read_ftrace(block("Logs"))) is None
        assert play(machine, read_log("84000069\n0000: 84000069\n84000069 -> 0000: 84000061 0 0\n")) is None


def is_error(found: object) -> bool:
    return isinstance(found, type) and issubclass(found, GorseplumbError)


def test_names_are_there() -> None:
    section = re.search(r"^## What is there\n(.*?)^## ", PAGE, re.M | re.S)
    assert section is not None
    heads = re.findall(r"^- (`[^:]*`): ", section[1], re.M)
    names = [name for head in heads for name in re.findall(r"`([A-Za-z_]\w+)(?:\(|`)", head)]
    assert len(names) > 30
    for name in [*names, *re.findall(r"`([A-Z]\w+)(?:\(|`)", section[1])]:
        assert any(hasattr(it, name) for it in (gorseplumb, Machine)), name
    table = re.search(r"^## Errors\n(.*?)^## ", PAGE, re.M | re.S)
    assert table is not None
    told = set(re.findall(r"`([A-Z]\w+)`", table[1])) - {"ValueError", "Ram"}
    assert all(issubclass(getattr(gorseplumb, name), GorseplumbError) for name in told)
    rare = {"AccessFlagFault", "OutsideRamFault", "Interrupted", "Retry", "Aborted", "NoData"}
    of_package = {name for name in gorseplumb.__all__ if is_error(getattr(gorseplumb, name))}
    assert told == of_package - rare
