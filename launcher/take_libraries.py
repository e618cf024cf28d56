#!/usr/bin/env python3
"""Marks the libraries that `rt ci` has just built in crates/*/out/ as built of the sources that are there, so that they are not built again.

`rt ci` leaves no mark on them, since a library of statements fits those alone that it was built over; here all come of one run. It is
called right behind an `rt ci` that has passed.
"""

import os
import sys

sys.dont_write_bytecode = True
import quick_rt  # noqa: E402

TOP = os.path.dirname(os.path.dirname(os.path.abspath(__file__)))


def main():
    rt = quick_rt.load()
    for crate in rt.rtlib.crates_below(f"{TOP}/crates"):
        if os.path.isdir(crate.rlib):
            with open(f"{crate.folder}/out/rlib/stamp", "w", encoding="utf-8") as stamp:
                stamp.write(crate.stamp())


if __name__ == "__main__":
    main()
