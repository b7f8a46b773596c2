# SPDX-License-Identifier: MIT OR Apache-2.0
"""Prints a row: two buffers of one of four lengths, at one of five distances and in either order.

Where they overlap they are not mapped, and so not unmapped.
"""
from itertools import product

from steps import INVALID, SUCCESS

print("""\
# on machine.toml
# after first-runs""")
for pages, second in product(range(1, 5), range(4, 9)):
    answer = INVALID if second < 4 + pages else SUCCESS
    print(f"""\
call 84000066 40024000 4002{second}000 {pages}
#= regs 8001 {answer}
call 84000067
#= regs 8001 {answer}
call 84000066 4002{second}000 40024000 {pages}
#= regs 8001 {answer}
call 84000067
#= regs 8001 {answer}""")
print("""\
# Counts and addresses that no buffer has, and runs of which only the first page is in RAM, or the caller's.
call 84000066 40024000 40028000 0
#= regs 8001 84000060 0 FFFFFFFE
call 84000066 40024000 40028000 100000000
#= regs 8001 84000060 0 FFFFFFFE
call 84000066 40024800 40028000 2
#= regs 8001 84000060 0 FFFFFFFE
call 84000066 40024000 40028800 2
#= regs 8001 84000060 0 FFFFFFFE
call 84000066 401FF000 40028000 2
#= regs 8001 84000060 0 FFFFFFFE
call 84000066 40028000 401FF000 2
#= regs 8001 84000060 0 FFFFFFFE
call 84000066 401FF000 40028000 1
#= regs 8001 84000060 0 FFFFFFFA
call 84000066 4002D000 40028000 4
#= regs 8001 84000060 0 FFFFFFFA
call 84000066 40028000 4002D000 4
#= regs 8001 84000060 0 FFFFFFFA
call 84000066 4002C000 40028000 4
#= regs 8001 84000061""")
