# SPDX-License-Identifier: MIT OR Apache-2.0
"""Prints a row: sixteen transactions of a sender are open, and a seventeenth has no room."""
from steps import print_share

print("""\
# on 16-pages-more.toml
# after mapped""")
print_share(0x4002E)
for page in range(16):
    print(f"""\
store 4002E050 000000004004{page:X}000
#= done
call 84000073 60 60
#= regs 8001 84000061 0 {page + 1:X} 8001""")
print("""\
# After sixteen shares the last page is not shared again. Another page has no room, though the second partition has.
# A lend that has no room writes no zeros.
call 84000073 60 60
#= regs 8001 84000060 0 FFFFFFFA
store 4002E050 0000000040021000
#= done
call 84000073 60 60
#= regs 8001 84000060 0 FFFFFFFD
store 40021000 5A
#= done
store 4002E000 0000000100008001
#= done
call 84000072 60 60
#= regs 8001 84000060 0 FFFFFFFD
load 40021000 1
#= data 5A
store 4002E000 00000000002F8001
#= done
# then to-second
store 4003E000 00000000002F8002
#= done
store 4003E018 0000000100000010
#= done
store 4003E020 0000000000000030
#= done
store 4003E030 0000004000018001
#= done
store 4003E040 0000000100000001
#= done
store 4003E050 0000000040031000
#= done
store 4003E058 0000000000000001
#= done
call 84000073 60 60
#= regs 8002 84000061 0 1 8002
# then to-first
call 84000073 60 60
#= regs 8001 84000060 0 FFFFFFFD
call 84000077 3 8001
#= regs 8001 84000061
call 84000073 60 60
#= regs 8001 84000061 0 11 8001
store 4002E050 0000000040042000
#= done
call 84000073 60 60
#= regs 8001 84000060 0 FFFFFFFD""")
