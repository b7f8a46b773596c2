# SPDX-License-Identifier: MIT OR Apache-2.0
"""What is given in another's place, by who has no type checker: a TypeError that says what to give; and of a file's
name, which no type tells from a text, a hint."""
from __future__ import annotations

import difflib
import reprlib
from collections.abc import Iterable, Sequence
from enum import Enum
from pathlib import Path
from typing import NoReturn, TypeVar
from uuid import UUID

from .hexadecimal import shown

_T = TypeVar("_T")
_MOST_LISTED = 8
_MOST_SHOWN = 200
_MOST_OF_VALUE = 60
_brief = reprlib.Repr()
_brief.maxstring = _brief.maxother = _MOST_OF_VALUE


def is_number(given: object) -> bool:
    """Whether it is a whole number."""
    return hasattr(type(given), "__index__")


def check_number(what: str, given: object) -> None:
    """Refuses what is no number. A text of hexadecimal digits is told as the number that it may mean."""
    if is_number(given):
        return
    meant = _number_of(given)
    refuse(what, "a number", given, f"0x{meant:X}" if meant is not None else None)


def check_numbers(of: object, *names: str) -> None:
    """Refuses a value of which one of these fields is no number."""
    for name in names:
        check_number(name, getattr(of, name))


def check_registers(given: object) -> None:
    """Refuses what are no registers, and names the first that is no number."""
    if isinstance(given, str) or not isinstance(given, Sequence):
        number = f"({shown(given)},)" if is_number(given) else None
        refuse("x", "a tuple of registers", given, "its x" if hasattr(given, "x") else number)
    for place, register in enumerate(given):
        check_number(f"x{place}", register)


def check_member(what: str, given: object, members: type[Enum]) -> None:
    """Refuses what is no member of an enumeration, and names the member that may be meant, or else all where they are
    few."""
    if isinstance(given, members):
        return
    meant = _member_of(given, members)
    listed = [meant] if meant is not None else list(members)
    named = " or ".join(map(_name_of, listed)) if len(listed) <= _MOST_LISTED else None
    refuse(what, _with_article(members.__name__), given, named)


def check_member_or_number(what: str, given: object, members: type[Enum]) -> None:
    """The same, where a plain number is taken as it is."""
    if not is_number(given) or isinstance(given, Enum):
        check_member(what, given, members)


def check_uuid(given: object) -> None:
    """Refuses what is neither None nor a UUID."""
    if given is not None and not isinstance(given, UUID):
        refuse("uuid", "a UUID", given, f"UUID({given!r})" if isinstance(given, str) else None)


def check_each(what: str, given: object, kind: type) -> None:
    """Refuses what is no tuple, or list, of values of a type."""
    if not isinstance(given, Sequence):
        instead = f"({kind.__name__}(..),)" if isinstance(given, kind) else None
        refuse(what, f"a tuple of {kind.__name__}", given, instead)
    for place, it in enumerate(given):
        if not isinstance(it, kind):
            refuse(f"{what}[{place}]", _with_article(kind.__name__), it)


def each_of(what: str, given: Iterable[_T], kind: type[_T]) -> tuple[_T, ...]:
    """What an iterable has, as a tuple; refused is what is none, and what it has of another type."""
    if not isinstance(given, Iterable):
        has_it = hasattr(given, what)
        instead = f"[{kind.__name__}(..)]" if isinstance(given, kind) else f"its {what}" if has_it else None
        refuse(what, f"an iterable of {kind.__name__}", given, instead)
    told = tuple(given)
    check_each(what, told, kind)
    return told


def refuse(what: str, wanted: str, given: object, instead: str | None = None) -> NoReturn:
    """Raises it."""
    hint = f": give {instead}" if instead is not None else ""
    raise TypeError(f"{what} is {wanted}, and not {_described(given)}{hint}")


def file_hint(given: str, what: str, looks_like_name: bool) -> str:
    """What is said of a str in a text's place that is the name of a file, or looks like one; else nothing."""
    is_name = _is_file(given)
    if not is_name and not looks_like_name:
        return ""
    told = given if len(given) <= _MOST_SHOWN else f"{given[:_MOST_SHOWN]}.."
    verb = "is" if is_name else "looks like"
    return f"{told!r} {verb} the name of a file, and a str is {what}: give a pathlib.Path, or what it holds"


def _is_file(name: str) -> bool:
    try:
        return Path(name).is_file()
    except (OSError, ValueError):  # a name that is too long, or has a NUL
        return False


def _described(given: object) -> str:
    if isinstance(given, Enum):
        return _name_of(given)
    if given is None:
        return "None"
    is_plain = type(given) in (int, tuple, list)
    text = _cut(shown(given)) if is_plain else _brief.repr(given)
    return text if text.startswith(type(given).__name__) else f"the {type(given).__name__} {text}"


def _cut(text: str) -> str:
    return text if len(text) <= _MOST_OF_VALUE else f"{text[: _MOST_OF_VALUE - 3]}..."


def _name_of(member: Enum) -> str:
    return f"{type(member).__name__}.{member.name}"


def _with_article(name: str) -> str:
    return f"an {name}" if name[0] in "AEIOU" else f"a {name}"


def _number_of(given: object) -> int | None:
    try:
        return int(given, 16) if isinstance(given, str) and given.isalnum() else None
    except ValueError:
        return None


def _member_of(given: object, members: type[Enum]) -> Enum | None:
    """The member that may be meant: by its name or its text, in a whole name or without `FFA_`, or nearly so; by its
    number; or by the name of another enumeration's member."""
    if isinstance(given, Enum):
        return members.__members__.get(given.name)
    if not isinstance(given, str):
        return next((it for it in members if it.value == given), None)
    name = given.strip().rpartition(".")[2].upper().replace("-", "_")
    for it in members:
        if name in (it.name, it.name.removeprefix("FFA_")) or given == getattr(it, "text", None):
            return it
    near = difflib.get_close_matches(name, members.__members__, 1, 0.8)
    return members[near[0]] if near else None
