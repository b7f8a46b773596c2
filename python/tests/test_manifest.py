# SPDX-License-Identifier: MIT OR Apache-2.0
"""Manifests: what a text says, and a text of what values say."""
from __future__ import annotations

from dataclasses import replace
from pathlib import Path
from typing import Any, Callable
from uuid import UUID

import pytest
from conftest import EXAMPLES, Program

from gorseplumb import Cause, Endpoint, Ffa, Form, Machine, Manifest, ManifestRefused, Properties, Ram, Region, Right

PARTITIONS = Manifest(
    0x40000000,
    2,
    [
        Endpoint([Region(0x40010000, 16, Right.RW)], Properties(6)),
        Endpoint(
            [Region(0x40020000, 8, Right.ROX), Region(0x40028000, 8, Right.RW)],
            Properties(7),
            UUID("00112233-4455-6677-8899-aabbccddeeff"),
        ),
        Endpoint(
            [Region(0x40200000, 8, Right.RWX), Region(0x40208000, 8, Right.RO)],
            Properties(5),
            UUID("10112233-4455-6677-8899-aabbccddeeff"),
        ),
    ],
)
COMPACT = Manifest(0x40000000, 1, [Endpoint([Region(0x40010000, 1)], form=Form.COMPACT)])
NEWER = Manifest(0x40000000, 1, [Endpoint([Region(0x40010000, 1)], form=Form.FFA_1_2)], Ffa.V1_2)


def test_writes_its_text() -> None:
    assert COMPACT.text() == (
        'ram_base = 0x40000000\nram_blocks = 1\n\n[[endpoint]]\nversion = "compact"\nproperties = 0\nregions = [\n'
        '    { base = 0x40010000, pages = 1, rights = "rw" },\n]\n'
    )


def test_reads_what_a_text_says() -> None:
    path = EXAMPLES / "partitions.toml"
    texts: list[str | bytes | Path] = [path, path.read_text(), path.read_bytes(), bytearray(path.read_bytes())]
    for text in texts:
        assert Manifest.read(text) == PARTITIONS
    for manifest in (PARTITIONS, COMPACT):
        assert Manifest.read(manifest.text()) == manifest


def test_a_form_of_ffa_1_2_needs_ffa_1_2() -> None:
    with Machine(NEWER) as machine:
        assert machine.form(0) is Form.FFA_1_2
    world, partition, _ = PARTITIONS.endpoints
    newer = replace(partition, form=Form.FFA_1_2)
    refusals = [
        (replace(NEWER, ffa=Ffa.V1_1), 0, "0000"),
        (replace(PARTITIONS, endpoints=[world, newer]), 0x8001, "8001"),
    ]
    for manifest, endpoint, named in refusals:
        boots: list[Callable[[], object]] = [lambda: Machine(manifest), lambda: Machine(manifest, Ram(manifest.ram_blocks))]
        for boot in boots:
            with pytest.raises(ManifestRefused) as refused:
                boot()
            assert (refused.value.cause, refused.value.endpoint) == (Cause.VERSION, endpoint)
            told = f"M14 Version: endpoint {named} has Form.FFA_1_2, which needs ffa=Ffa.V1_2"
            assert str(refused.value) == told
    with Machine(replace(PARTITIONS, endpoints=[world, newer], ffa=Ffa.V1_2)) as machine:
        assert machine.form(0x8001) is Form.FFA_1_2


def test_a_text_of_ffa_1_2_is_for_the_program() -> None:
    assert NEWER.text() == COMPACT.text().replace("compact", "1.2")
    with pytest.raises(ManifestRefused) as refused:
        Manifest.read(NEWER.text())
    told = 'version = "1.2": must be "1.1" or "compact"; "1.2" needs a machine of FF-A 1.2'
    assert str(refused.value) == f"M14 Version: endpoint 0000 (the 1st [[endpoint]]): {told}"
    odd: Any = 3
    with pytest.raises(ManifestRefused) as refused:
        Machine(Manifest(0x40000000, 1, [Endpoint([Region(0x40010000, 1)], form=odd)], Ffa.V1_2))
    assert str(refused.value) == "M14 Version: endpoint 0000"


def test_names_the_member_that_is_meant() -> None:
    # a type checker refuses these
    odd: list[Any] = ["rw", "rw-", "compact", "sends_requests", "all", "00112233-4455-6677-8899-aabbccddeeff"]
    odd += ["40010000", (0x40010000, 16), "1.2"]
    region = Region(0x40010000, 1)
    makes: list[tuple[Callable[[], object], str]] = [
        (lambda: Region(0, 1, odd[0]), "rights is a Right, and not the str 'rw': give Right.RW"),
        (lambda: Region(0, 1, odd[1]), "rights is a Right, and not the str 'rw-': give Right.RW"),
        (lambda: Endpoint([region], form=odd[2]), "form is a Form, and not the str 'compact': give Form.COMPACT"),
        (lambda: Endpoint([region], form=odd[8]), "form is a Form, and not the str '1.2': give Form.FFA_1_2"),
        (
            lambda: Endpoint([region], odd[3]),
            "properties is a Properties, and not the str 'sends_requests': give Properties.SENDS_REQUESTS",
        ),
        (
            lambda: Endpoint([region], odd[4]),
            "properties is a Properties, and not the str 'all': give Properties.RECEIVES_REQUESTS or "
            "Properties.SENDS_REQUESTS or Properties.INDIRECT_MESSAGES or Properties.NOTIFICATIONS or "
            "Properties.RECEIVES_SECOND_REQUESTS or Properties.SENDS_SECOND_REQUESTS",
        ),
        (lambda: Endpoint([region], uuid=odd[5]), f"uuid is a UUID, and not the str '{odd[5]}': give UUID('{odd[5]}')"),
        (lambda: Region(odd[6], 16), "base is a number, and not the str '40010000': give 0x40010000"),
        (lambda: Manifest(0x40000000, 1, [], odd[4]), "ffa is a Ffa, and not the str 'all': give Ffa.V1_1 or Ffa.V1_2"),
        (lambda: Manifest(odd[6], 1, []), "ram_base is a number, and not the str '40010000': give 0x40010000"),
        (lambda: Endpoint([odd[7]]), "regions[0] is a Region, and not the tuple (0x40010000, 0x10)"),
        (lambda: Manifest(0x40000000, 1, [odd[7]]), "endpoints[0] is an Endpoint, and not the tuple (0x40010000, 0x10)"),
    ]
    for make, told in makes:
        with pytest.raises(TypeError) as wrong:
            make()
        assert str(wrong.value) == told


def test_says_what_is_no_manifest() -> None:
    # a type checker refuses these
    given: list[Any] = [5, None, {"ram_base": 0x40000000}]
    blocks: Any = 2
    told = ["the int 5", "None", "the dict {'ram_base': 1073741824}"]
    for odd, words in zip(given, told):
        with pytest.raises(TypeError) as wrong:
            Machine(odd)
        assert str(wrong.value) == f"a manifest is a text, a path or a Manifest, and not {words}"
        with pytest.raises(TypeError) as wrong:
            Manifest.read(odd)
        assert str(wrong.value) == f"a manifest is a text or a path, and not {words}"
    with pytest.raises(TypeError, match=r"^ram is a Ram, and not the int 2: give Ram\(2\)$"):
        Machine(PARTITIONS, blocks)
    with pytest.raises(FileNotFoundError):
        Manifest.read(EXAMPLES / "nothing.toml")


def test_says_why_a_text_is_refused() -> None:
    for text, cause in [("ram", Cause.TOML), ("", Cause.MISSING_KEY), ("ram_base = 1", Cause.RAM_BASE)]:
        with pytest.raises(ManifestRefused) as refused:
            Manifest.read(text)
        assert refused.value.cause is cause


def test_says_where_a_text_is_refused(program: Program) -> None:
    path = EXAMPLES / "partitions.toml"
    changes = [
        ("ram_blocks = 2", "ram_blocks = 2 2", (None, None, 3, 14)),
        ("ram_blocks", "ram_block", (None, None, None, None)),
        ("[[endpoint]]", "# \udcff\n[[endpoint]]", (None, None, 5, 3)),
        ('uuid = "0011', 'uuid = "00', (0x8001, None, None, None)),
        ("base = 0x40028000", "base = 0x40027000", (0x8001, 2, None, None)),
    ]
    for old, new, place in changes:
        text = path.read_text().replace(old, new, 1).encode(errors="surrogateescape")
        readers: list[Callable[[bytes], object]] = [Manifest.read, Machine]
        for asked in readers:
            with pytest.raises(ManifestRefused) as refused:
                asked(text)
            it = refused.value
            assert (it.endpoint, it.region, it.line, it.column) == place
            # and the words are the program's
            said = program("check", "--verbose", "-", text=text).stderr.decode().splitlines()
            assert said[:2] == [f"ffaplay: manifest: {it.cause.text}", f"ffaplay: {it.words}"]


def test_says_where_values_are_refused() -> None:
    first, second = PARTITIONS.endpoints[:2]
    many = Endpoint([Region(0x40010000 + 4096 * place, 1) for place in range(17)])
    odd: list[Any] = [2, 1 << 32]  # a type checker refuses these
    for manifest, cause, endpoint, region in [
        (Manifest(0, 2, [first]), Cause.RAM_BASE, None, None),
        (Manifest(0x40000000, 2, [first, first]), Cause.UUID, 0x8001, None),
        (Manifest(0x40000000, 2, [first, second, second]), Cause.REGION_OVERLAP, 0x8002, 1),
        (Manifest(0x40000000, 2, [first, many]), Cause.REGION_COUNT, 0x8001, None),
        (Manifest(0x40000000, 2, [Endpoint([Region(0x40010000, 1), Region(1 << 32, 1)])]), Cause.REGION_OUTSIDE, 0, 2),
        (Manifest(0x40000000, 2, [Endpoint([Region(0x40010000, 1, Right.NONE)])]), Cause.WRONG_KIND, 0, 1),
        (Manifest(0x40000000, 2, [first], odd[0]), Cause.WRONG_KIND, None, None),
        (Manifest(0x40000000, 2, [first], odd[1]), Cause.WRONG_KIND, None, None),
    ]:
        with pytest.raises(ManifestRefused) as refused:
            Machine(manifest)
        it = refused.value
        assert (it.cause, it.endpoint, it.region, it.line, it.column) == (cause, endpoint, region, None, None)
