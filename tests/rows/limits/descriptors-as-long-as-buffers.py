# SPDX-License-Identifier: MIT OR Apache-2.0
"""Prints a row: a lend whose range ends TX, and a retrieve whose access descriptor does, for a TX of each number of pages."""

print("""\
# on machine.toml
# after first-runs""")
for pages in range(1, 5):
    last = pages - 1
    print(f"""\
call 84000066 40020000 40024000 {pages}
#= regs 8001 84000061
store 40020FF0 FFFFFFFFFFFFFFFF
#= done
store 40020000 0000000000008001
#= done
store 40020018 0000000100000010
#= done
store 40020020 0000000000000030
#= done
store 40020030 0000{last}FE000028002
#= done
store 4002{last}FE0 0000000100000001
#= done
store 4002{last}FF0 0000000040028000
#= done
store 4002{last}FF8 0000000000000001
#= done
call 84000072 {last}FFF {last}FFF
#= regs 8001 84000060 0 FFFFFFFE
call 84000072 {pages}001 {pages}001
#= regs 8001 84000060 0 FFFFFFFE
call 84000072 {pages}000 {pages}000
#= regs 8001 84000061 0 {pages} 8001
# then to-second
call 84000066 40030000 40034000 {pages}
#= regs 8002 84000061
store 40030000 0000000000008001
#= done
store 40030008 000080010000000{pages}
#= done
store 40030010 0000000000000000
#= done
store 40030018 0000000100000010
#= done
store 40030020 000000000000{last}FF0
#= done
store 4003{last}FF0 0000000000028002
#= done
call 84000074 {last}FFF {last}FFF
#= regs 8002 84000060 0 FFFFFFFE
call 84000074 {pages}001 {pages}001
#= regs 8002 84000060 0 FFFFFFFE
call 84000074 {pages}000 {pages}000
#= regs 8002 84000075 60 60
load 40034050 8
#= data 0000000040028000
store 40030000 000080010000000{pages}
#= done
store 40030008 0000000100000000
#= done
store 40030010 0000000000008002
#= done
call 84000076
#= regs 8002 84000061
call 84000067
#= regs 8002 84000061
# then to-first
call 84000077 {pages} 8001
#= regs 8001 84000061
call 84000067
#= regs 8001 84000061""")
