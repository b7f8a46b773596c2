# SPDX-License-Identifier: MIT OR Apache-2.0
"""The words of `ffaplay picture`."""
from __future__ import annotations

import re
import sys
from collections.abc import Sequence
from dataclasses import dataclass

NAME = "picture"
ABOUT = "Draw each endpoint's access along a trace, as SVG"
USAGE = "Usage: ffaplay picture [OPTIONS] <manifest> <trace>"
ANY_COMMAND = "Usage: ffaplay <COMMAND>"
MORE = "For more information, try '--help'."
MOST = 1 << 64
MOST_PROCESSORS = 8
LEAST_LIKENESS = 0.7
NUMBER = re.compile(r"0|[1-9][0-9]*|0x[0-9A-Fa-f]+")


@dataclass(frozen=True, slots=True)
class Word:
    """A path, a flag or an option: its name, what the help says of it, whether a value follows it, and its default."""

    name: str
    about: str
    has_value: bool = False
    usual: str | None = None

    @property
    def form(self) -> str:
        """The option as messages have it."""
        return f"--{self.name} <{self.name}>" if self.has_value else f"--{self.name}"


PATHS = (
    Word("manifest", "Manifest of the machine (TOML), or - for standard input"),
    Word("trace", "Trace, one operation on each line, or - for standard input"),
)
OPTIONS = (
    Word("every", "Draw a row every N lines; 0 draws each change", True, "0"),
    Word("width", "Narrow columns to fit N pixels; 0 keeps their width", True, "0"),
    Word("refused", "Also draw a row for each refused call"),
    Word("page", "Print an HTML page to step through instead of SVG"),
    Word("processors", "Simulate 1 to 8 processors; allow `on N` and `interrupt`", True),
    Word("ffa", "Serve FF-A 1.1, the default, or 1.2", True),
    Word("words", "Read calls and arguments by name; numbers may have 0x"),
    Word("verbose", "Print details of errors on standard error"),
)
HELP = Word("help", "Print help")


class Misuse(Exception):
    """The command line is wrong."""


class Help(Exception):
    """The help is asked for."""


@dataclass(frozen=True, slots=True)
class Options:
    """What a command line asks for."""

    manifest: str
    trace: str
    every: int
    width: int
    refused: bool
    page: bool
    processors: str | None
    ffa: str | None
    words: bool
    verbose: bool

    @property
    def told(self) -> list[str]:
        """The flag by which the program says more of what is wrong. Who reads that at a terminal is told more."""
        return ["--verbose"] if self.verbose or sys.stderr.isatty() else []


def misuse(what: str, usage: str = USAGE) -> Misuse:
    """The error of a command line, with how it is to be."""
    return Misuse(f"{what}\n\n{usage}\n\n{MORE}" if usage else f"{what}\n\n{MORE}")


def usage_with(options: Sequence[Word]) -> str:
    """How a command line is to be that has these options."""
    return USAGE.replace("[OPTIONS] ", "".join(f"{option.form} " for option in options))


def number(name: str, text: str) -> int:
    """The number of an option."""
    value = int(text, 16 if text.startswith("0x") else 10) if NUMBER.fullmatch(text) else MOST
    if value >= MOST:
        wanted = "a number below 2^64: decimal without a sign or leading zeros, such as 1000, or hexadecimal after 0x, such as 0x3E8"
        raise misuse(f"'--{name}' must be {wanted}", ANY_COMMAND)
    return value


def similar(word: str) -> Word | None:
    """The option whose name is most like a word."""
    likeness, _, option = max((jaro(word, option.name), place, option) for place, option in enumerate((*OPTIONS, HELP)))
    return option if likeness > LEAST_LIKENESS else None


def jaro(one: str, other: str) -> float:
    """How alike two words are, by Jaro's measure."""
    window = max(0, max(len(one), len(other)) // 2 - 1)
    taken = [False] * len(other)
    places = []
    for place, letter in enumerate(one):
        for near in range(max(0, place - window), min(len(other), place + window + 1)):
            if not taken[near] and other[near] == letter:
                taken[near] = True
                places.append((letter, near))
                break
    if not places:
        return 0.0
    ordered = [other[near] for near, is_taken in enumerate(taken) if is_taken]
    moved = sum(letter != its for (letter, _), its in zip(places, ordered, strict=True)) // 2
    return (len(places) / len(one) + len(places) / len(other) + (len(places) - moved) / len(places)) / 3


class Parser:
    """Reads a command line, word by word."""

    def __init__(self, words: Sequence[str]) -> None:
        self.words = list(words)
        self.paths: list[str] = []
        self.given: dict[str, str] = {}

    def read(self) -> None:
        """Reads all words."""
        while self.words:
            word = self.words.pop(0)
            if word == "--":
                for path in self.words:
                    self.add_path(path)
                return
            if word.startswith("-") and word != "-":
                self.read_option(word)
            else:
                self.add_path(word)

    def add_path(self, path: str) -> None:
        """Adds a path."""
        if len(self.paths) == len(PATHS):
            raise misuse(f"unexpected argument '{path}' found")
        self.paths.append(path)

    def used(self) -> list[Word]:
        """The options that were given, in their order."""
        return [option for name in self.given for option in OPTIONS if option.name == name]

    def unknown(self, word: str) -> Misuse:
        """The error of a word that is no option, and stands for no path."""
        text = word.partition("=")[0]
        option = similar(text.removeprefix("--")) if word.startswith("--") else None
        tip = f"a similar argument exists: '--{option.name}'" if option else f"to pass '{text}' as a value, use '-- {text}'"
        used = [*self.used(), *([option] if option else [])]
        is_plain = not word.startswith("--") or not (used or self.paths)
        return misuse(f"unexpected argument '{text}' found\n\n  tip: {tip}", USAGE if is_plain else usage_with(used))

    def read_option(self, word: str) -> None:
        """Reads a word that begins with a hyphen, and its value, if it has one."""
        option = option_of(word)
        if option is None:
            raise self.unknown(word)
        if option is HELP:
            raise Help
        if option.name in self.given:
            raise misuse(f"the argument '{option.form}' cannot be used multiple times")
        _, equals, value = word.partition("=")
        if not option.has_value and equals:
            used = [*self.used(), option]
            raise misuse(f"unexpected value '{value}' for '{option.form}' found; no more were expected", usage_with(used))
        self.given[option.name] = value if equals or not option.has_value else self.value_of(option)

    def value_of(self, option: Word) -> str:
        """The word that is the value of an option."""
        following = self.words[0] if self.words else "--"
        if following == "-" or not following.startswith("-"):
            return self.words.pop(0)
        if following != "--" and option_of(following) is None:
            raise self.unknown(following)
        raise misuse(f"a value is required for '{option.form}' but none was supplied", "")


def option_of(word: str) -> Word | None:
    """The option that a word names."""
    if word in ("-h", "--help"):
        return HELP
    return next((it for it in OPTIONS if f"--{it.name}" == word.partition("=")[0]), None)


def read(words: Sequence[str]) -> Options:
    """What the words of a command line ask for. Raises Misuse, or Help."""
    parser = Parser(words)
    parser.read()
    missing = "".join(f"\n  <{path.name}>" for path in PATHS[len(parser.paths):])
    if missing:
        raise misuse(f"the following required arguments were not provided:{missing}", usage_with(parser.used()))
    given = parser.given
    manifest, trace = parser.paths
    options = Options(
        manifest=manifest,
        trace=trace,
        every=number("every", given.get("every", "0")),
        width=number("width", given.get("width", "0")),
        refused="refused" in given,
        page="page" in given,
        processors=given.get("processors"),
        ffa=given.get("ffa"),
        words="words" in given,
        verbose="verbose" in given,
    )
    check(options)
    return options


def check(options: Options) -> None:
    """Raises Misuse for a value that no machine has."""
    if options.processors is not None:
        count = int(options.processors, 0) if NUMBER.fullmatch(options.processors) else 0
        if not 1 <= count <= MOST_PROCESSORS:
            raise misuse(f"'--processors' must be a number from 1 to {MOST_PROCESSORS}, without a sign or leading zeros", ANY_COMMAND)
    if options.ffa not in (None, "1.1", "1.2"):
        raise misuse("'--ffa' must be 1.1 or 1.2", ANY_COMMAND)
    if options.manifest == options.trace == "-":
        raise misuse("'-' is standard input, which can be given only once", ANY_COMMAND)


def help_text() -> str:
    """The help of the command."""
    paths = [(f"<{it.name}>", it.about) for it in PATHS]
    options = [(f"    {it.form}", it.about + (f" [default: {it.usual}]" if it.usual else "")) for it in OPTIONS]
    options.append(("-h, --help", HELP.about))
    return f"{ABOUT}\n\n{USAGE}\n\nArguments:\n{table(paths)}\n\nOptions:\n{table(options)}\n"


def table(rows: Sequence[tuple[str, str]]) -> str:
    """Words with what the help says of them, below each other."""
    width = max(len(name) for name, _ in rows)
    return "\n".join(f"  {name:{width}}  {about}" for name, about in rows)
