# SPDX-License-Identifier: MIT OR Apache-2.0
"""Prints a row: the range of a lend begins at each of the last 15 bytes of a page, and at the next page.

Only in the last case the composite is where one may be: at a multiple of 16.
"""
import struct

from steps import INVALID

# The composite of a descriptor with one range, and the range: the page at 40021000.
COMPOSITE = struct.pack("<IIQQII", 1, 1, 0, 0x40021000, 1, 0)

print("""\
# on machine.toml
# after two-pages lend
call 84000077 1 8001
#= regs 8001 84000061
# A lend that is said to have a byte more than a page.
call 84000072 1001 1001
#= regs 8001 84000061 0 2 8001
call 84000077 2 8001
#= regs 8001 84000061""")
for place in range(0xFE1, 0xFF1):
    print(f"""\
store 4002E034 {place:08X}
#= done""")
    for at, byte in enumerate(COMPOSITE, 0x4002E000 + place):
        print(f"""\
store {at:X} {byte:02X}
#= done""")
    length = place + len(COMPOSITE)
    print(f"""\
call 84000072 {length:X} {length:X}
#= regs 8001 {INVALID if place % 16 else "84000061 0 3 8001"}""")
