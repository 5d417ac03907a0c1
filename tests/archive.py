#!/usr/bin/env python3
"""Makes the archive of a static library over the libraries that a whole `rt ci` left in crates/*/out.

    tests/archive.py NAME       in the repository's top folder; the archive is crates/NAME/out/libNAME.a

`rt lib` makes the same, but first proves all crates below again, because `rt ci` doesn't record there that they are proved. So this
is for `.ci/run`, after a gate that passed. It uses internals of the kit's `rt`.
"""
import os
import shutil
import sys

sys.path.insert(0, os.path.dirname(os.path.realpath(shutil.which("rt"))))
import rtlib

below = rtlib.Crate.below


def below_once(crate):
    """What `below` gives, which asks each crate once for each way that leads to it."""
    if "asked_below" not in crate.__dict__:
        crate.asked_below = below(crate)
    return list(crate.asked_below)


rtlib.Crate.below = below_once
rtlib.Crate.is_built = lambda crate: os.path.isdir(crate.rlib)
found = [crate for crate in rtlib.crates_below(os.getcwd()) if crate.name == sys.argv[1]]
lacking = [below.name for crate in found for below in crate.below() if not below.is_built()]
if not found or lacking:
    sys.exit(f"no library of {' '.join(lacking) or sys.argv[1]} in out/: run rt ci first")
os.chdir(found[0].folder)
os.makedirs("out", exist_ok=True)
sys.exit(found[0].build_static([]))
