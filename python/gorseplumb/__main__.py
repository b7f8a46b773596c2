# SPDX-License-Identifier: MIT OR Apache-2.0
"""A session with the machine of a manifest, or a log that is played on it.

usage: python3 -m gorseplumb [--log FILE | --ftrace FILE] [--explain] MANIFEST

Lines are read from the terminal with completion and history, or from standard input. Status 0: done; 1: the manifest is
refused; 2: a line was a mistake, or a log has none; 3: a file can't be read; 4: the log differs, and where is told.
"""
from __future__ import annotations

import argparse
import sys
from pathlib import Path

from .errors import BadLine, GorseplumbError, ManifestRefused
from .log import play, read_ftrace, read_log
from .machine import Machine
from .session import Session, interact, read_all


def main() -> int:
    words = _words()
    try:
        return _play_log(words) if words.log or words.ftrace else _hold(Session(words.manifest))
    except ManifestRefused as wrong:
        return _fail(f"manifest: {wrong}", 1)
    except BadLine as wrong:
        return _fail(str(wrong), 2)
    except (OSError, GorseplumbError) as wrong:
        return _fail(str(wrong), 3)


def _words() -> argparse.Namespace:
    description = (__doc__ or "").partition("\n")[0]
    parser = argparse.ArgumentParser(prog="gorseplumb", description=description)
    kinds = parser.add_mutually_exclusive_group()
    kinds.add_argument("--log", type=Path, metavar="FILE", help="plays a log of calls, and tells the first difference")
    kinds.add_argument("--ftrace", type=Path, metavar="FILE", help="the same of ftrace's lines of calls")
    parser.add_argument("--explain", action="store_true", help="says why, where what differs is refused")
    parser.add_argument("manifest", type=Path)
    return parser.parse_args()


def _play_log(words: argparse.Namespace) -> int:
    entries = list(read_log(words.log) if words.log else read_ftrace(words.ftrace))
    if not entries:
        return _fail(f"no call is in {words.log or words.ftrace}", 2)
    with Machine(words.manifest) as machine:
        difference = play(machine, entries, explain=words.explain)
    if difference is not None:
        print(difference)
    return 4 if difference is not None else 0


def _hold(session: Session) -> int:
    if sys.stdin.isatty():
        interact(session)
        return 0
    return 0 if read_all(session, sys.stdin) else 2


def _fail(why: str, status: int) -> int:
    print(f"gorseplumb: {why}", file=sys.stderr)
    return status


if __name__ == "__main__":
    sys.exit(main())
