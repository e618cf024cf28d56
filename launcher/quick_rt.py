#!/usr/bin/env python3
"""Runs `rt` with the words given, and makes the sum of each crate's sources once.

`rt` compares sums to see what is built already. It makes the sum of a crate anew for each way that leads down to the crate: there are
some 61,000 ways down from the program, so that most of a proof's time went there. After each call of the prover or the compiler all
sums are made anew, so that a source that was changed meanwhile is seen. What a crate stands on is found once for each crate, and not
again for each way down to it.

A crate of whose proof no earlier parts are kept is proved by one process, and keeps none; a program where memory allows it. A library is
built with its statements alone, so that a crate above reads none of its proofs. Nothing else is changed. An `rt` that is another program
than this one knows is run as it is.
"""

import functools
import importlib.machinery
import importlib.util
import os
import shutil
import signal
import sys

sys.dont_write_bytecode = True
# That of `iol_plays` took 6.4 GB, and another proof may run beside it.
ROOM_FOR_ONE_PROCESS = 12_000_000_000


def load():
    """The module of the command `rt`, with the sum of a crate kept until a build."""
    rt = module_of_rt()
    keep_sums(rt)
    prove_at_once(rt)
    return rt


def module_of_rt():
    """The module of the command `rt`, in which what a crate stands on is found once."""
    loader = importlib.machinery.SourceFileLoader("rt", os.path.realpath(shutil.which("rt")))
    rt = importlib.util.module_from_spec(importlib.util.spec_from_loader("rt", loader))
    loader.exec_module(rt)
    keep_crates_below(rt)
    return rt


def keep_crates_below(rt):
    """Has the crates below a crate found once: they are those of its line in crates.txt."""
    crate, find = rt.rtlib.Crate, rt.rtlib.Crate.below

    def below(self):
        found = self.__dict__.get("found_below")
        if found is None or found[0] != len(self.deps):
            # (a crate that is being made may ask before it has all)
            found = self.found_below = (len(self.deps), find(self))
        return [*found[1]]

    crate.below = below


def keep_sums(rt):
    """Has the sum of a crate made once until the next call of the prover or the compiler."""
    crate, sums = rt.rtlib.Crate, {}
    make_sum = crate.stamp

    def stamp(self):
        made = sums.get(self.folder)
        if made is None:
            made = sums[self.folder] = make_sum(self)
        return made

    def forgetting(call):
        @functools.wraps(call)
        def run(*words, **named):
            try:
                return call(*words, **named)
            finally:
                sums.clear()

        return run

    crate.stamp = stamp
    for name in ("call", "prove"):
        setattr(crate, name, forgetting(getattr(crate, name)))


def prove_at_once(rt):
    """Has one process build a crate of whose proof no earlier parts are there, and a library with its statements alone.

    Where the parts are kept, the prover proves a long crate in copies of itself, some functions in each, and each copy reads all that is
    known of the crates below anew. Of a library that was built over such parts a crate above reads the proofs too.
    """
    crate, call = rt.rtlib.Crate, rt.rtlib.Crate.call
    statements = ["--statements"] if "--statements" in rt.rtlib.help_of("build") else []

    @functools.wraps(call)
    def at_once(self, *words):
        without = without_parts(rt.rtlib.KEPT, words)
        if words[1:2] != ("build",) or without == words or self.has_kept():
            return call(self, *words)
        if is_library(self, words):
            return call(self, *without, *statements)
        if not rt.rtlib.fits(ROOM_FOR_ONE_PROCESS):
            return call(self, *words)
        status = call(self, *without)
        # It was most likely killed for memory, of which the copies take less.
        return call(self, *words) if status == -signal.SIGKILL else status

    crate.call = at_once


def is_library(crate, words):
    """Whether these words build a library for the crates above it."""
    return not crate.is_program and not crate.is_static and "--test" not in words


def without_parts(kept, words):
    """The words for the prover without those that have it keep the parts of a proof."""
    at = words.index(kept[0]) if kept[0] in words else len(words)
    return words[:at] + words[at + len(kept) :]


def main(words):
    try:
        rt = load()
    except (AttributeError, ImportError, OSError, SyntaxError):
        os.execvp("rt", ["rt", *words])
    return rt.main(words)


if __name__ == "__main__":
    sys.exit(main(sys.argv[1:]))
