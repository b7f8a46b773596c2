# SPDX-License-Identifier: MIT OR Apache-2.0
"""Writes a trace that fills the limits of limits/long-running.edit, and says whether what is printed of it is as it has to be.

usage: trace.py write PROGRAM    writes the trace; PROGRAM is the one whose `descriptor` writes descriptors
       trace.py judge FILE       reads what was printed

The normal world shares 244 ranges of a page each with 8001, which retrieves and relinquishes them, and offers 245, which is refused. Then
it has 64 transactions open at a time, and a 65th is refused; and then it shares a page and reclaims it 100,000 times.

Status: 0 where all is so, else 1, and a line says what isn't.
"""
import subprocess
import sys

RANGES, OPEN, ROUNDS = 244, 64, 100_000
TX, RX, TX_8001, RX_8001, PAGES = 0x40018000, 0x4001A000, 0x4002E000, 0x4002F000, 0x40200000
# Where the composite of such a descriptor stands, and its first range.
COMPOSITE, FIRST = 0x40, 0x50
INVALID_PARAMETERS, NO_MEMORY = 0xFFFFFFFE, 0xFFFFFFFD


def descriptor(program, *words):
    told = subprocess.run([program, "descriptor", *words], stdout=subprocess.PIPE, check=True, text=True)
    return told.stdout.splitlines()


def share(program, pages):
    return descriptor(program, "share", "--tx", f"{TX:X}", "--from", "0000", "--to", "8001:rw", "--pages", pages)


def page(number):
    """The address of every second page, so that no two stand side by side."""
    return PAGES + 0x2000 * number


def store(address, value):
    return f"store {address:X} {value:016X}"


def write(program):
    run, wait = "call 8400006D 80010000", "call 8400006B"
    whole = share(program, ",".join(f"{page(number):X}+1" for number in range(RANGES)))
    size = FIRST + 16 * (RANGES + 1)
    one_more = [
        store(TX + COMPOSITE, RANGES + 1 << 32 | RANGES + 1),
        store(TX + FIRST + 16 * RANGES, page(RANGES)),
        store(TX + FIRST + 16 * RANGES + 8, 1),
        f"call 84000073 {size:X} {size:X}",
    ]
    ask = descriptor(program, "retrieve", "--tx", f"{TX_8001:X}", "--from", "0000", "--to", "8001:rw", "--handle", "1")
    leave = descriptor(program, "relinquish", "--tx", f"{TX_8001:X}", "--to", "8001", "--handle", "1")
    lines = [f"call 84000066 {TX:X} {RX:X} 2", run, f"call 84000066 {TX_8001:X} {RX_8001:X} 1", wait]
    lines += [*whole, run, *ask, f"load {RX_8001 + FIRST + 16 * (RANGES - 1):X} 8", *leave, wait, "call 84000077 1", *one_more]
    *stores, call = share(program, f"{page(0):X}+1")
    lines += stores
    for number in range(OPEN + 1):
        lines += [store(TX + FIRST, page(number)), call]
    for handle in range(2, OPEN + 2):
        lines.append(f"call 84000077 {handle:X}")
    for handle in range(OPEN + 2, OPEN + 2 + ROUNDS):
        lines += [call, f"call 84000077 {handle:X}"]
    print(*lines, "audit", sep="\n")


def judge(path):
    with open(path, encoding="utf-8") as file:
        lines = file.read().splitlines()
    answers = [[int(word, 16) for word in line.split()[2:]] for line in lines if line.startswith("regs ")]
    refused = [it[2] for it in answers if it[0] == 0x84000060]
    handles = [it[2] for it in answers if it[0] == 0x84000061 and it[2]]
    wanted = list(range(1, OPEN + 2 + ROUNDS))
    for what, told, want in [
        ("the codes of what is refused", refused, [INVALID_PARAMETERS, NO_MEMORY]),
        ("how many handles there are, from 1 on", (len(handles), handles == wanted), (len(wanted), True)),
        ("the last range in the response", f"data {page(RANGES - 1):016X}" in lines, True),
        ("the end", lines[-1:], ["agrees"]),
    ]:
        if told != want:
            sys.exit(f"trace: {what}: {told}, and not {want}")


if sys.argv[1:2] == ["write"] and len(sys.argv) == 3:
    write(sys.argv[2])
elif sys.argv[1:2] == ["judge"] and len(sys.argv) == 3:
    judge(sys.argv[2])
else:
    sys.exit(__doc__)
