# SPDX-License-Identifier: MIT OR Apache-2.0
"""Prints a row: pages of buffers that have one page each are shared only after the buffers are unmapped."""
from steps import print_unmapped_buffers

print_unmapped_buffers(1)
