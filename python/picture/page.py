# SPDX-License-Identifier: MIT OR Apache-2.0
"""A played trace as one HTML page. The page is made of `page.html`, `page.css` and `page.js`, and has the trace as JSON."""
from __future__ import annotations

from collections.abc import Iterator, Sequence
from pathlib import Path

from .certificates import Row, Run
from .names import error_of, name_of, written
from .offers import of_run
from .play import Followed, Line

PARTS = Path(__file__).parent / "page"
STYLE = '<link rel="stylesheet" href="page.css">\n'
DATA = '<script type="application/json" id="trace"></script>\n'
SCRIPT = '<script src="page.js"></script>\n'

HAVE_MEANING = b"\"&'<>"
"""What has a meaning in HTML, or ends a text of JSON."""


def part(name: str) -> str:
    """The text of a file that the page is made of, without its first line, which names the licence."""
    return (PARTS / name).read_text(encoding="utf-8").partition("\n")[2]


def write(followed: Followed) -> Iterator[str]:
    """The text of the page, which asks for nothing from elsewhere."""
    before_style, behind_style = part("page.html").split(STYLE)
    before_data, behind_data = behind_style.split(DATA)
    end = behind_data.split(SCRIPT)[1]
    yield f"{before_style}<style>\n{part('page.css')}</style>\n{before_data}"
    yield '<script type="application/json" id="trace">\n'
    yield from data(followed)
    yield f"</script>\n<script>\n{part('page.js')}</script>\n{end}"


def quoted(text: bytes) -> str:
    """Bytes as a text of JSON that stands in HTML. No bytes end the element in which the JSON stands. A byte that is not a printed
    character of ASCII becomes the characters `\\xNN`."""
    def of(byte: int) -> str:
        if byte == ord("\\"):
            return "\\\\"
        if byte in HAVE_MEANING:
            return f"\\u00{byte:02X}"
        return chr(byte) if 0x20 <= byte <= 0x7E else f"\\\\x{byte:02X}"

    return "".join(map(of, text))


def data(followed: Followed) -> Iterator[str]:
    """The endpoints, who runs at the beginning, the changes and the lines, as JSON.

    A change is the number of a line, and the runs that its certificate has and the one before it had not. The first change has number 0
    and all runs of the beginning. Behind a run that somebody may still retrieve stands the most that each endpoint may get. A line is who
    runs behind it, what it says, what it answers, and why it is refused, with tabs between them."""
    rows = list(followed.rows(0, False))
    names = ",".join(f'"{it}"' for it in rows[0].certificate.endpoints)
    yield f'{{"endpoints":[{names}],"runner":"{rows[0].runner}",\n"changes":['
    yield ",".join(change(followed, rows[place - 1] if place else None, row) for place, row in enumerate(rows))
    yield '],\n"lines":['
    yield ",".join(map(line_text, followed.lines))
    yield "]}\n"


def change(followed: Followed, before: Row | None, row: Row) -> str:
    """The runs of a row that are not among those of the row before it."""
    stood = set(before.certificate.runs) if before else set()
    made = "".join(f',"{run_text(followed, row, run)}"' for run in row.certificate.runs if run not in stood)
    return f"\n[{row.number}{made}]"


def run_text(followed: Followed, row: Row, run: Run) -> str:
    """A run as `audit` prints it, and behind it what may still be retrieved."""
    offers = of_run(row.certificate.endpoints, run, followed.opened)
    return " ".join((run.words, *(offers or ())))


def line_text(line: Line) -> str:
    """Who runs behind a line, what it says, what it answers, and why it is refused."""
    answer = f"\\t{answer_text(line)}" if line.printed.text else ""
    reason = f"\\t{quoted(line.printed.reason.encode())}" if line.printed.reason else ""
    return f'\n"{line.runner}\\t{said(line)}{answer}{reason}"'


def said(line: Line) -> str:
    """What a line says. For a call these are its name and its registers."""
    if line.call is None:
        return quoted(line.text)
    return (name_of(line.call) or "call") + written(line.call)


def answer_text(line: Line) -> str:
    """What a line answers: registers with the names of call and error, whether a certificate agrees, or the first line of other text."""
    if line.reply is not None:
        error = error_of(line.reply)
        return (name_of(line.reply) or "registers") + (f" {error}" if error else "") + written(line.reply)
    return quoted((line.printed.text[-1] if is_certificate(line.printed.text) else line.printed.text[0]).encode())


def is_certificate(text: Sequence[str]) -> bool:
    """Whether a text is a certificate that agrees."""
    return len(text) > 1 and text[-1] == "agrees"
