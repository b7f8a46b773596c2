# SPDX-License-Identifier: MIT OR Apache-2.0
"""The crates as crates.txt lists them, for scripts that need no toolchain."""
import collections
import functools
import os
import re

TOP = os.path.dirname(os.path.dirname(os.path.realpath(__file__)))

# A crate's folder from the top of the repository, its floor, with which the heading of its lines begins, and the names of what it uses.
Crate = collections.namedtuple("Crate", "folder floor uses")


@functools.cache
def crates():
    """The crates by their names, in the order of crates.txt."""
    with open(f"{TOP}/crates.txt", encoding="utf-8") as file:
        rows = re.findall(r"(?m)^(# )?(\w+)[^:#\n]*:([^#\n]*)", file.read())
    found, floor = {}, None
    for is_heading, name, rest in rows:
        if is_heading:
            floor = name
        else:
            found[name] = Crate(f"crates/{name}", floor, rest.split())
    return found
