# SPDX-License-Identifier: MIT OR Apache-2.0
"""How values show themselves: by their fields, with numbers in hexadecimal, as the standard and traces have them."""
from __future__ import annotations

from dataclasses import fields
from enum import Enum, IntEnum, IntFlag
from typing import Any, Mapping


DECIMAL = {"decimal": True}
"""The metadata of a field whose number the manual has in decimal."""


def by_fields(value: Any) -> str:
    """The `repr` of a dataclass, in whose body it is assigned to `__repr__`: as the language makes it, but for numbers,
    which are hexadecimal from ten on, and members of enumerations, which are shown by their names."""
    told = []
    for it in fields(value):
        held = getattr(value, it.name)
        told.append(f"{it.name}={repr(held) if it.metadata.get('decimal') else shown(held)}")
    return f"{type(value).__qualname__}({', '.join(told)})"


class Named(IntEnum):
    """Numbers by their names. `repr` of each is as a program names it."""

    def __repr__(self) -> str:
        return by_name(self)


def by_name(member: Enum) -> str:
    """A member of an enumeration as a program names it. Flags are named one by one, and are a number where none is set, or
    one that has no name."""
    kind = type(member)
    if not isinstance(member, IntFlag):
        return f"{kind.__qualname__}.{member.name}"
    named = [it for it in type(member) if it in member]
    if not named or sum(named) != member:
        return f"{kind.__qualname__}({int(member)})"
    return " | ".join(f"{kind.__qualname__}.{it.name}" for it in named)


def address_text(address: int) -> str:
    """An address or a register, as the program prints it: in 16 digits where 8 are too few."""
    return f"{address:08X}" if address >> 32 == 0 else f"{address:016X}"


def short_text(number: int) -> str:
    """A bit, an index or a place in a descriptor, as the program prints it: in two digits where they are enough."""
    if number >> 16:
        return address_text(number)
    return f"{number:04X}" if number >> 8 else f"{number:02X}"


def shown(value: object) -> str:
    """A field's value, and what is in it where it is a tuple, a list or a mapping of the language's own."""
    if isinstance(value, Enum):
        return by_name(value)
    if type(value) is int:
        return str(value) if abs(value) < 10 else f"{'-' if value < 0 else ''}0x{abs(value):X}"
    if type(value) is tuple:
        return f"({', '.join(map(shown, value))}{',' if len(value) == 1 else ''})"
    if type(value) is list:
        return f"[{', '.join(map(shown, value))}]"
    if isinstance(value, Mapping):
        return f"{{{', '.join(f'{key!r}: {shown(it)}' for key, it in value.items())}}}"
    return repr(value)
