# SPDX-License-Identifier: MIT OR Apache-2.0
"""Prints a row: a lend of 64 ranges, which are pages in no order, and the longest response. One range more is too many."""

# The place of each range in TX and in RX, and the address of its page.
RANGES = [(0x50 + 16 * index, 0x40040000 + 4096 * (27 * index % 65)) for index in range(65)]

print("""\
# on 65-pages-more.toml
# after two-pages""")
for at, page in RANGES:
    print(f"""\
store {0x4002E000 + at:X} {page:016X}
#= done
store {0x4002E008 + at:X} 0000000000000001
#= done""")
print("""\
# A lend of one range too many, of a byte too few, and of 64 ranges.
store 4002E000 0000000000008001
#= done
store 4002E018 0000000100000010
#= done
store 4002E020 0000000000000030
#= done
store 4002E030 0000004000028002
#= done
store 4002E040 0000004100000041
#= done
call 84000072 460 460
#= regs 8001 84000060 0 FFFFFFFE
store 4002E040 0000004000000040
#= done
call 84000072 44F 44F
#= regs 8001 84000060 0 FFFFFFFE
call 84000072 450 450
#= regs 8001 84000061 0 1 8001
# then to-second retrieve
# The longest response, and what is after it in RX.
store 4003C450 5A5A5A5A5A5A5A5A
#= done
store 4003D000 5A5A5A5A5A5A5A5A
#= done
call 84000074 40 40
#= regs 8002 84000075 450 450
load 4003C000 8
#= data 00000010002F8001
load 4003C040 8
#= data 0000004000000040
load 4003C450 8
#= data 5A5A5A5A5A5A5A5A
load 4003D000 8
#= data 5A5A5A5A5A5A5A5A""")
for at, page in RANGES[:64]:
    print(f"""\
load {0x4003C000 + at:X} 8
#= data {page:016X}
load {0x4003C008 + at:X} 8
#= data 0000000000000001""")
