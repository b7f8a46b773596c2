# SPDX-License-Identifier: MIT OR Apache-2.0
"""What the gate's tasks take: seconds of processor time, as the gate wrote them into the file bench/seconds.

A line of that file is `WHAT WHOSE SECONDS`; tools/watch has the kinds. One that begins with # says which machine it was. What has no line
yet is reckoned from what is like it.
"""
import functools
import glob
import os
import re
import statistics
import sys

sys.dont_write_bytecode = True
TOP = os.path.dirname(os.path.dirname(os.path.realpath(__file__)))
sys.path.insert(0, f"{TOP}/tools")
import listed  # noqa: E402

FILE = f"{TOP}/bench/seconds"
# Where a crate has no line yet: what reading its libraries takes, and each line of code and proofs; and a wrong body of any crate.
OF_A_CRATE, OF_A_LINE, OF_A_BODY = 10, 0.2, 15
# The kinds whose lines name a crate.
CRATES = ("proof", "tests", "begin", "same", "body")


def read(path=FILE):
    """The seconds of each task of a file, by what it is and whose."""
    if not os.path.exists(path):
        return {}
    with open(path, encoding="utf-8") as file:
        rows = [line.rsplit(" ", 1) for line in file.read().splitlines() if line and not line.startswith("#")]
    return {tuple(task.split(" ", 1)): float(seconds) for task, seconds in rows}


def write(rows, head, path=FILE):
    """Writes rows below a line that says where they come from."""
    lines = [f"{what} {whose} {seconds:.1f}" for (what, whose), seconds in sorted(rows.items())]
    with open(f"{path}.part", "w", encoding="utf-8") as file:
        print(f"# {head}", *lines, sep="\n", file=file)
    os.replace(f"{path}.part", path)


@functools.cache
def rows():
    return read()


@functools.cache
def lines(crate):
    """How many lines of code and proofs a crate has."""
    found = glob.glob(f"{TOP}/{listed.crates()[crate].folder}/*/**", recursive=True)
    files = [it for it in found if it.endswith((".rt", ".antt")) and f"/{crate}/out/" not in it]
    return sum(open(it, "rb").read().count(b"\n") for it in files)


def proof(crate):
    """The seconds of a crate's proof from nothing."""
    return rows().get(("proof", crate)) or OF_A_CRATE + OF_A_LINE * lines(crate)


def tests(crate):
    """The seconds of the proof of a crate with its tests."""
    return rows().get(("tests", crate)) or proof(crate)


def begin(crate):
    """The seconds of the proof that the wrong bodies of a crate begin with."""
    return rows().get(("begin", crate)) or proof(crate)


@functools.cache
def of_bodies(crate):
    """The seconds of a wrong body of a crate, where it has none of its own: the mean of its others, or what a check takes that changes nothing."""
    found = [it for (what, whose), it in rows().items() if what == "body" and whose.startswith(f"{crate}/")]
    return statistics.mean(found) if found else rows().get(("same", crate), OF_A_BODY)


def body(crate, name):
    """The seconds of a wrong body of a crate over kept work."""
    return rows().get(("body", f"{crate}/{name}")) or of_bodies(crate)


def bodies(crate, names):
    """The seconds of some wrong bodies of a crate: a single one is tried from nothing; else the crate is proved once more before the first, and
    is checked behind the last."""
    if len(names) < 2:
        return begin(crate) if names else 0
    return begin(crate) + sum(body(crate, it) for it in names) + rows().get(("same", crate), of_bodies(crate))


def of_jobs(kind, path):
    """The seconds of each job of tests/all, as its log tells them."""
    if not os.path.exists(path):
        return {}
    with open(path, encoding="utf-8", errors="replace") as log:
        found = re.findall(r"(?m)^all: ends: (.+?): \d+ s, (\d+) of processor time", log.read())
    return {(kind, name.replace(" ", "-")): float(seconds) for name, seconds in found}


def keep(seen, head):
    """Puts what the gate has seen into the file: all of it, where it proved every crate from nothing; else only what has no line there."""
    is_whole = all(("proof", it) in seen for it in listed.crates())
    had = read()
    merged = {**had, **seen} if is_whole else {**seen, **had}
    names = {*listed.crates()}
    merged = {task: it for task, it in merged.items() if task[0] not in CRATES or task[1].split("/")[0] in names}
    with open(FILE, encoding="utf-8") as file:
        first = file.readline()[2:].strip()
    write(merged, head if is_whole else first)


def rest_of(seen, path):
    """What `rt ci` took beside its tasks, by the times that the shell printed when it had ended."""
    if not os.path.exists(path):
        return {}
    with open(path, encoding="ascii") as file:
        whole = sum(60 * float(it[0]) + float(it[1]) for it in re.findall(r"(\d+)m([0-9.]+)s", file.read()))
    return {("rest", "rt-ci"): max(0, whole - sum(seconds for (what, _), seconds in seen.items() if what in CRATES))}


def main():
    """Keeps what stands in a folder of the gate's: what tools/watch wrote, the logs of tests/all, and the times of `rt ci`."""
    room, head = sys.argv[1:]
    seen = read(f"{room}/watched")
    keep({**seen, **rest_of(seen, f"{room}/processor"), **of_jobs("unproved", f"{room}/tests"), **of_jobs("on-proved", f"{room}/programs")}, head)


if __name__ == "__main__":
    main()
