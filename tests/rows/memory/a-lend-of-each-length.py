# SPDX-License-Identifier: MIT OR Apache-2.0
"""Prints a row: a lend with each length in its registers, from 0 to 4097.

A length may be from its 96 bytes to the page's 4096. Each lend that succeeds is reclaimed.
"""
from steps import INVALID

print("""\
# on machine.toml
# after mapped lend
call 84000077 1 8001
#= regs 8001 84000061""")
for length in range(4098):
    call = f"call 84000072 {length:X} {length:X}"
    if 96 <= length <= 4096:
        number = length - 94
        print(f"""\
{call}
#= regs 8001 84000061 0 {number:X} 8001
call 84000077 {number:X} 8001
#= regs 8001 84000061""")
    else:
        print(f"""\
{call}
#= regs 8001 {INVALID}""")
print(f"""\
call 84000072 60 5F
#= regs 8001 {INVALID}""")
