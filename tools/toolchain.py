# SPDX-License-Identifier: MIT OR Apache-2.0
"""The commands of `rt` as a module, for scripts that ask more of them than `rt` does."""
import argparse
import importlib.machinery
import importlib.util
import os
import shutil
import sys


def commands():
    """The module, whose own `rtlib` holds what a crate is, how it is checked and where its library lies."""
    path = os.path.realpath(shutil.which("rt") or sys.exit(f"{os.path.basename(sys.argv[0])}: there is no rt on the path; README.md says what is needed"))
    return loaded("rt_main", path)


def loaded(name, path):
    """A script as a module of this name."""
    loader = importlib.machinery.SourceFileLoader(name, path)
    made = importlib.util.module_from_spec(importlib.util.spec_from_loader(name, loader))
    sys.modules[name] = made
    loader.exec_module(made)
    return made


def share_work(rt, is_alone):
    """Has what other clones on this machine proved taken up, in the releases of the toolchain that keep it: rattle-kit-13b doesn't."""
    if hasattr(rt, "share_work"):
        rt.share_work(is_alone=is_alone)


def at_least_one(word):
    """A number of processes that a command line gives."""
    number = int(word) if word.isdecimal() else 0
    if number < 1:
        raise argparse.ArgumentTypeError(f"{word} is no number from 1 on")
    return number
