# SPDX-License-Identifier: MIT OR Apache-2.0
"""Prints a row: FFA_FEATURES of the identifiers from 84000060 to 8400008F, and of their 64-bit forms.

They are the calls, in the forms that they have, and nothing else.
"""
from steps import NOT_SUPPORTED, SUCCESS

# The numbers of the calls, in the 32-bit form and in the other.
NARROW = [*range(0x63, 0x6A), *range(0x6B, 0x6E), *range(0x6F, 0x75), 0x76, 0x77, *range(0x7D, 0x83), 0x85, 0x86]
WIDE = [0x66, *range(0x6F, 0x75)]

print("# on machine.toml")
for number in range(0x60, 0x90):
    for form, calls in (("84", NARROW), ("C4", WIDE)):
        print(f"""\
call 84000064 {form}0000{number:X}
#= regs 0 {SUCCESS if number in calls else NOT_SUPPORTED}""")
