# SPDX-License-Identifier: MIT OR Apache-2.0
"""A manifest as values, from which a machine boots without a text."""
from __future__ import annotations

import ctypes
import os
import uuid as uuids
from dataclasses import dataclass
from pathlib import Path
from typing import Sequence

from . import _library as c
from ._library import library
from .codes import MANAGER, NORMAL_WORLD, Answer, Cause, Ffa, Form, Properties, Right
from .errors import LibraryError, ManifestRefused, OutOfMemory, WrongRamSize
from .hexadecimal import by_fields
from .misuse import check_each, check_member_or_number, check_number, check_numbers, check_uuid, file_hint, refuse

_NIL = uuids.UUID(int=0)
_RIGHTS = {Right.RO: "ro", Right.RW: "rw", Right.ROX: "rox", Right.RWX: "rwx"}


@dataclass(frozen=True, slots=True)
class Region:
    """Pages in a row that an endpoint owns from the start, by the address of the first."""

    base: int
    pages: int
    rights: Right = Right.RW

    __repr__ = by_fields

    def __post_init__(self) -> None:
        check_numbers(self, "base", "pages")
        check_member_or_number("rights", self.rights, Right)


@dataclass(frozen=True)
class Endpoint:
    """An endpoint. The first of a manifest is the normal world, which has no UUID. `Form.FFA_1_2` needs a manifest with
    `Ffa.V1_2`."""

    regions: Sequence[Region]
    properties: Properties = Properties(0)
    uuid: uuids.UUID | None = None
    form: Form = Form.FFA_1_1

    __repr__ = by_fields

    def __post_init__(self) -> None:
        check_each("regions", self.regions, Region)
        check_member_or_number("properties", self.properties, Properties)
        check_member_or_number("form", self.form, Form)
        check_uuid(self.uuid)


@dataclass(frozen=True)
class Manifest:
    """RAM, from `ram_base` on in blocks of 2 MiB, and the endpoints in their order. `ffa` is the version of FF-A that the
    machine serves. The endpoints' tables stand in a row from the page `tables` of RAM on, 2 pages and one for each block
    for each endpoint, and regions before them or behind. No text says either."""

    ram_base: int
    ram_blocks: int
    endpoints: Sequence[Endpoint]
    ffa: Ffa = Ffa.V1_1
    tables: int = 0

    __repr__ = by_fields

    def __post_init__(self) -> None:
        check_numbers(self, "ram_base", "ram_blocks", "tables")
        check_each("endpoints", self.endpoints, Endpoint)
        check_member_or_number("ffa", self.ffa, Ffa)

    @classmethod
    def read(cls, text: str | bytes | os.PathLike[str]) -> Manifest:
        """What a manifest's text says, or that of a file, by its path (a str is a text, so give a `pathlib.Path`). A
        text that can't be read is refused by its cause, as a boot does."""
        data = text_of(text)
        raw = c.Manifest()
        checked_boot(library.read_manifest(data, len(data), raw), text, data)
        endpoints = [_endpoint(it, place) for place, it in enumerate(raw.endpoints[: raw.endpoint_count])]
        return cls(raw.ram_base, raw.ram_blocks, endpoints, Ffa(raw.ffa), raw.tables)

    def text(self) -> str:
        """The same as the text of a manifest, but for `ffa` and `tables`. A text with `Form.FFA_1_2` is one for the program
        with `--ffa 1.2`: `read` refuses it, as it does each text that is none of a machine of FF-A 1.1."""
        lines = [f"ram_base = 0x{self.ram_base:08X}", f"ram_blocks = {self.ram_blocks}"]
        for endpoint in self.endpoints:
            lines += ["", "[[endpoint]]", f'version = "{endpoint.form.text}"']
            lines += [f'uuid = "{endpoint.uuid}"'] if endpoint.uuid is not None else []
            lines += [f"properties = {int(endpoint.properties)}", "regions = ["]
            lines += [
                f'    {{ base = 0x{it.base:08X}, pages = {it.pages}, rights = "{_RIGHTS.get(it.rights, "none")}" }},'
                for it in endpoint.regions
            ]
            lines.append("]")
        return "\n".join(lines) + "\n"

    def raw(self) -> c.Manifest:
        """The same for the library. What has no room there is refused by the cause that it has."""
        if len(self.endpoints) > c.MOST_ENDPOINTS:
            raise ManifestRefused(Cause.ENDPOINT_COUNT)
        raw = c.Manifest(
            _fit("ram_base", self.ram_base, Cause.RAM_BASE),
            _fit("ram_blocks", self.ram_blocks, Cause.RAM_BLOCKS),
            len(self.endpoints),
        )
        for number, (place, endpoint) in enumerate(zip(raw.endpoints, self.endpoints)):
            _put_endpoint(place, endpoint, MANAGER + number if number else NORMAL_WORLD)
        raw.ffa = _fit("ffa", int(self.ffa), Cause.WRONG_KIND)
        raw.tables = _fit("tables", self.tables, Cause.TABLES_OUTSIDE)
        return raw


def text_of(given: str | bytes | os.PathLike[str], wanted: str = "a text or a path") -> bytes:
    """The text of a manifest: as it is given, or that of a file."""
    if isinstance(given, os.PathLike):
        return Path(given).read_bytes()
    if isinstance(given, str):
        return given.encode()
    if not isinstance(given, (bytes, bytearray, memoryview)):
        refuse("a manifest", wanted, given)
    return bytes(given)


def checked_boot(answer: int, given: object = None, told: object = None) -> None:
    """Raises what a boot of what was given answers, where it isn't that it is done. What the library was told of it is the
    bytes of a text, or numbers."""
    if answer == Answer.OK:
        return
    if answer == Answer.NO_MEMORY:
        raise OutOfMemory("an allocation was refused")
    if answer == Answer.WRONG_COUNT:
        raise WrongRamSize("the RAM has another size than the manifest says")
    try:
        cause = Cause(answer)
    except ValueError:
        raise LibraryError(f"a boot answers {answer}") from None
    raise _refused(cause, _hint(given, cause), told)


_WORDS = 1024
"""How many bytes of words are taken; none of the program's are more."""


def _refused(cause: Cause, hint: str, told: object) -> ManifestRefused:
    """The exception for this cause, with the place for which the library is asked once more."""
    raw, words, answer = c.Refusal(), ctypes.create_string_buffer(_WORDS), None
    if isinstance(told, c.Manifest):
        answer = library.why_manifest(told, raw)
    elif isinstance(told, bytes):
        answer = library.why_text(told, len(told), raw, words, _WORDS)
    if answer != cause:  # (there is no memory to say where)
        return ManifestRefused(cause, hint)
    return ManifestRefused(
        cause,
        hint,
        words=words.value.decode(errors="replace"),
        endpoint=None if raw.endpoint == c.NOTHING else raw.endpoint,
        region=raw.region or None,
        line=raw.line or None,
        column=raw.column or None,
    )


def _hint(given: object, cause: Cause) -> str:
    """What is said of a Manifest with a form that its machine hasn't; and of a str that is the name of a file, or may be
    meant for one: it has one line, and nothing that a manifest consists of, which are keys with `=`, tables in brackets,
    and comments."""
    if isinstance(given, Manifest) and cause is Cause.VERSION and given.ffa == Ffa.V1_1:
        newer = [place for place, it in enumerate(given.endpoints) if it.form == Form.FFA_1_2]
        named = f"{MANAGER + newer[0] if newer[0] else NORMAL_WORLD:04X}" if newer else ""
        return f"endpoint {named} has Form.FFA_1_2, which needs ffa=Ffa.V1_2" if newer else ""
    if not isinstance(given, str) or not given.strip():
        return ""
    return file_hint(given, "a manifest's text", not any(it in given for it in "=[#\n"))


def _fit(what: str, number: int, cause: Cause, endpoint: int | None = None, region: int | None = None) -> int:
    check_number(what, number)
    if number >> 32:
        raise ManifestRefused(cause, endpoint=endpoint, region=region)
    return number


def _put_endpoint(place: c.Endpoint, endpoint: Endpoint, named: int) -> None:
    if len(endpoint.regions) > c.MOST_REGIONS:
        raise ManifestRefused(Cause.REGION_COUNT, endpoint=named)
    place.version = int(endpoint.form)
    place.properties = _fit("properties", int(endpoint.properties), Cause.PROPERTY, named)
    place.uuid[:] = (endpoint.uuid or _NIL).bytes
    place.region_count = len(endpoint.regions)
    for number, (slot, region) in enumerate(zip(place.regions, endpoint.regions), 1):
        slot.base = _fit("base", region.base, Cause.REGION_OUTSIDE, named, number)
        slot.pages = _fit("pages", region.pages, Cause.REGION_OUTSIDE, named, number)
        slot.rights = int(region.rights)


def _endpoint(raw: c.Endpoint, place: int) -> Endpoint:
    regions = [Region(it.base, it.pages, Right(it.rights)) for it in raw.regions[: raw.region_count]]
    named = uuids.UUID(bytes=bytes(raw.uuid)) if place else None
    return Endpoint(regions, Properties(raw.properties), named, Form(raw.version))
