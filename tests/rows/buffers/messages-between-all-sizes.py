# SPDX-License-Identifier: MIT OR Apache-2.0
"""Prints a row: messages between buffers of one to four pages, which end at each end of a page and one byte after it.

The bytes of RX after a message stay.
"""
from itertools import product

from steps import INVALID, NO_MEMORY, SUCCESS

PAGE = 4096
TX, RX = 0x40024000, 0x40038000  # of the sender, and of the receiver
# The last byte of each page and the first two of the next one. At these places TX has the bytes 10, 11 and so on.
BORDERS = [page * PAGE + more for page in range(1, 5) for more in (-1, 0, 1)][:10]


def answer_to(end, tx, rx):
    """The sender's answer to a message that ends there, for buffers of these lengths."""
    if end > tx:
        return INVALID
    return NO_MEMORY if end > rx else SUCCESS


def print_message(end, sender, receiver):
    """Prints a message that ends there, for buffers of these numbers of pages."""
    answer = answer_to(end, sender * PAGE, receiver * PAGE)
    print(f"""\
store 40024010 {end - 20:08X}
#= done
call 84000066 40024000 40028000 {sender}
#= regs 8001 84000061
# then to-second
call 84000066 40034000 40038000 {receiver}
#= regs 8002 84000061""")
    for at in BORDERS:
        print(f"""\
store {RX + at:X} 5A
#= done""")
    print(f"""\
# then to-first
call 84000086
#= regs 8001 {answer}
call 84000067
#= regs 8001 84000061
# then to-second""")
    for byte, at in enumerate(BORDERS, 0x10):
        print(f"""\
load {RX + at:X} 1
#= data {byte if answer == SUCCESS and at < end else 0x5A:X}""")
    print("""\
call 84000067
#= regs 8002 84000061
# then to-first""")


print("""\
# on machine.toml
# after first-runs
store 40024008 8001800200000014
#= done""")
for byte, at in enumerate(BORDERS, 0x10):
    print(f"""\
store {TX + at:X} {byte:X}
#= done""")
for sender, receiver, pages, more in product(range(1, 5), range(1, 5), range(1, 5), range(2)):
    print_message(pages * PAGE + more, sender, receiver)
