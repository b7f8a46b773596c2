# SPDX-License-Identifier: MIT OR Apache-2.0
"""Answers, and lines of traces, that several row scripts print."""

SUCCESS = "84000061"
INVALID = "84000060 0 FFFFFFFE"
NO_MEMORY = "84000060 0 FFFFFFFD"
NOT_SUPPORTED = "84000060 0 FFFFFFFF"


def print_share(tx):
    """Prints how the first partition writes a share with the second to TX, whose page has this number.

    The share is of one page, whose address is stored later, at 50 in TX.
    """
    print(f"""\
store {tx:X}000 00000000002F8001
#= done
store {tx:X}018 0000000100000010
#= done
store {tx:X}020 0000000000000030
#= done
store {tx:X}030 0000004000018002
#= done
store {tx:X}040 0000000100000001
#= done
store {tx:X}058 0000000000000001
#= done""")


def print_unmapped_buffers(pages):
    """Prints a row of two buffers that have this number of pages each: a page of theirs is shared only after they are unmapped."""
    print(f"""\
# on machine.toml
# after first-runs
call 84000066 40020000 40024000 {pages}
#= regs 8001 84000061""")
    print_share(0x40020)
    for page in range(8):
        if page % 4 < pages:
            print(f"""\
store 40020050 000000004002{page}000
#= done
call 84000073 60 60
#= regs 8001 84000060 0 FFFFFFFA""")
    print("# then used-buffers")
    print_share(0x40028)
    for page in range(8):
        print(f"""\
store 40028050 000000004002{page}000
#= done
call 84000073 60 60
#= regs 8001 84000061 0 {page + 1} 8001""")
    print("# then a-run-in-part-shared")
