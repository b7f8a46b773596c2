# SPDX-License-Identifier: MIT OR Apache-2.0
"""`ffaplay picture`: draws a trace. The script `ffaplay`, at the top of the repository, runs this."""
from __future__ import annotations

import sys
import tempfile
from collections.abc import Iterable, Sequence
from pathlib import Path

from .certificates import TooLarge, check_size, columns, most_rows
from .command_line import Help, Misuse, Options, help_text, read
from .page import write as write_page
from .play import Followed, follow
from .program import Failed, Machine
from .svg import draw

UNWRITTEN = 3
WRONG = 64
CLOSED = 141
"""The statuses of the program: for output that cannot be written, for a wrong command line or too large a picture, and for output that
nobody reads."""


def write(parts: Iterable[str]) -> int:
    """Writes a text to standard output, and returns the status."""
    try:
        with open(1, "wb", closefd=False) as out:
            for part in parts:
                out.write(part.encode())
    except BrokenPipeError:
        return CLOSED
    except OSError:
        return tell("cannot write", UNWRITTEN)
    return 0


def tell(what: str, status: int) -> int:
    """Says on standard error why a command is not done."""
    print(f"ffaplay: {what}", file=sys.stderr)
    return status


def picture(followed: Followed, options: Options) -> Iterable[str]:
    """The text of a picture. Raises TooLarge."""
    rows = list(followed.rows(options.every, options.refused))
    check_size(rows)
    across = columns(rows)
    if len(rows) > most_rows(len(across)):
        raise TooLarge(most_rows(len(across)))
    return draw(rows, across, options.width)


def run(words: Sequence[str]) -> int:
    """Does what the words ask for, and returns the status."""
    options = read(words)
    with tempfile.TemporaryDirectory(prefix="ffaplay-") as room:
        followed = follow(Machine(options, Path(room)), options)
    return write(write_page(followed) if options.page else picture(followed, options))


def main() -> int:
    """Runs the command, and returns its status."""
    try:
        return run(sys.argv[1:])
    except Help:
        return write([help_text()])
    except Misuse as wrong:
        print(f"error: {wrong}", file=sys.stderr)
        return WRONG
    except TooLarge as wrong:
        return tell(f"the picture would have more than {wrong.most} rows; use --every with a larger number, or --page", WRONG)
    except Failed as wrong:
        return wrong.status


if __name__ == "__main__":
    sys.exit(main())
