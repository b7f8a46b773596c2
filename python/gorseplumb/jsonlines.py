# SPDX-License-Identifier: MIT OR Apache-2.0
"""Operations and outcomes as lines of JSON. Numbers are hexadecimal texts, since many readers lose bits above 2^53."""
from __future__ import annotations

import json
from typing import Any, NamedTuple

from .codes import Fault
from .outcomes import DONE, FAULTED, INTERRUPT
from .outcomes import Act, Call, Data, Done, Fetch, Interrupt, Load, Outcome, Registers, Resumed, Store


class Entry(NamedTuple):
    """An operation or an interrupt, what came of it, and the processor that did it."""

    operation: Act
    outcome: Outcome
    processor: int = 0


def dumps(operation: Act, outcome: Outcome, processor: int = 0) -> str:
    """The line, without its end. It names each processor but 0."""
    told: dict[str, Any] = {"on": processor} if processor else {}
    return json.dumps({**told, **_operation(operation), "outcome": _outcome(outcome)})


def loads(line: str) -> Entry:
    """What a line says."""
    try:
        told = json.loads(line)
        return Entry(_read_operation(told), _read_outcome(told["outcome"]), int(told.get("on", 0)))
    except (KeyError, TypeError, AttributeError, ValueError) as wrong:
        raise ValueError(f"no operation with its outcome: {line.strip()[:80]!r}: {wrong!r}") from None


def _operation(operation: Act) -> dict[str, Any]:
    if isinstance(operation, Interrupt):
        return {"interrupt": True}
    if isinstance(operation, Call):
        return {"call": [f"{register:X}" for register in operation.x]}
    address = f"{operation.address:08X}"
    if isinstance(operation, Load):
        return {"load": address, "size": operation.size}
    if isinstance(operation, Store):
        return {"store": address, "size": operation.size, "value": f"{operation.value:0{2 * operation.size}X}"}
    return {"fetch": address}


def _outcome(outcome: Outcome) -> dict[str, Any]:
    if isinstance(outcome, Resumed):
        return {"resumed": f"{outcome.runner:04X}"}
    if isinstance(outcome, Registers):
        return {"runner": f"{outcome.runner:04X}", "regs": [f"{register:X}" for register in outcome.x]}
    if isinstance(outcome, Data):
        return {"data": f"{outcome.value:0{2 * outcome.size}X}"}
    return {"done": True} if isinstance(outcome, Done) else {"fault": outcome.fault.text}


def _read_operation(told: dict[str, Any]) -> Act:
    if "interrupt" in told:
        return INTERRUPT
    if "call" in told:
        return Call(tuple(int(word, 16) for word in told["call"]))
    if "load" in told:
        return Load(int(told["load"], 16), int(told["size"]))
    if "store" in told:
        return Store(int(told["store"], 16), int(told["size"]), int(told["value"], 16))
    return Fetch(int(told["fetch"], 16))


def _read_outcome(told: dict[str, Any]) -> Outcome:
    if "resumed" in told:
        return Resumed(int(told["resumed"], 16))
    if "regs" in told:
        return Registers(int(told["runner"], 16), tuple(int(word, 16) for word in told["regs"]))
    if "data" in told:
        return Data(int(told["data"], 16), len(told["data"]) // 2)
    if "done" in told:
        return DONE
    return FAULTED[Fault[told["fault"].upper().replace("-", "_")]]
