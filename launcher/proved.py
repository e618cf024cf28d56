#!/usr/bin/env python3
"""Keeps what was proved on this machine, so that the same is not proved again.

launcher/proved.py sum CRATE       prints the sum of all that a crate is made from, the toolchain among it.
launcher/proved.py take CRATE      puts what was built of these very texts into the crate's folder, and prints the prover's last line.
                                   The status is 1 where nothing is kept of them.
launcher/proved.py put CRATE SUM   keeps what was just built, if the crate still has this sum; its last line is read from standard input.

It lies in ~/.cache/iolmaster/proved, or in the folder that $IOLMASTER_PROVED names; nothing is kept or taken where that is `none`. What no
start has asked for in two weeks goes.
"""

import contextlib
import hashlib
import os
import shutil
import subprocess
import sys
import tempfile
import time

TOP = os.path.dirname(os.path.dirname(os.path.abspath(__file__)))
LONGEST_UNUSED = 14 * 24 * 3600
sys.dont_write_bytecode = True
sys.path.insert(0, f"{TOP}/launcher")
import quick_rt  # noqa: E402


def folder():
    """The folder of all that is kept, or none where nothing is to be."""
    cache = os.environ.get("XDG_CACHE_HOME") or os.path.expanduser("~/.cache")
    named = os.environ.get("IOLMASTER_PROVED") or f"{cache}/iolmaster/proved"
    return None if named == "none" else named


def crate_named(rt, name):
    return next(crate for crate in rt.rtlib.crates_below(f"{TOP}/crates") if crate.name == name)


def sum_of(rt, crate, *more):
    """The sum of a crate's texts and of those of all that it stands on, of the toolchain, and of more words."""
    toolchain = subprocess.run(["rt", "version"], capture_output=True, check=True).stdout
    return hashlib.sha256(repr([crate.name, crate.stamp(), toolchain, *more]).encode()).hexdigest()


def is_result(crate, name):
    """Whether a file or folder of out/ is what was built, and not what serves the next check of the crate alone."""
    return name in ("rlib", crate.name, f"{crate.name}.stamp", f"lib{crate.name}.a")


def verdict_of(texts):
    """What was found of texts with this sum; none where nothing is kept of them."""
    if not folder():
        return None
    try:
        with open(f"{folder()}/{texts}/verdict", encoding="utf-8") as file:
            verdict = file.read()
        os.utime(f"{folder()}/{texts}")
        return verdict
    except OSError:
        return None


def keep(texts, verdict, out=None):
    """Keeps what was found of texts with this sum, and the files of a folder that were built of them."""
    if not folder():
        return
    os.makedirs(folder(), exist_ok=True)
    drop_unused()
    with tempfile.TemporaryDirectory(dir=folder(), prefix="new.") as room:
        os.mkdir(f"{room}/all")
        if out:
            os.rename(out, f"{room}/all/out")
        with open(f"{room}/all/verdict", "w", encoding="utf-8") as file:
            file.write(verdict)
        remove(f"{folder()}/{texts}")
        os.rename(f"{room}/all", f"{folder()}/{texts}")


def take(rt, crate):
    """Puts what is kept into the crate's folder, and returns the prover's last line; none where nothing is kept."""
    texts = sum_of(rt, crate)
    verdict, kept, out = verdict_of(texts), f"{folder()}/{texts}", f"{crate.folder}/out"
    if verdict is None:
        return None
    os.makedirs(out, exist_ok=True)
    # (the program comes before the stamp that speaks of it)
    for name in sorted(os.listdir(f"{kept}/out")):
        remove(f"{out}/{name}")
        copy(f"{kept}/out/{name}", f"{out}/{name}")
    return verdict


def put(rt, crate, texts, verdict):
    """Keeps what was built. A library that was built over the parts of an earlier check may have its proofs in it, so it is not kept."""
    if not folder() or sum_of(rt, crate) != texts or (crate.has_kept() and os.path.isdir(crate.rlib)):
        return
    os.makedirs(folder(), exist_ok=True)
    with tempfile.TemporaryDirectory(dir=folder(), prefix="built.") as room:
        os.mkdir(f"{room}/out")
        for name in filter(lambda it: is_result(crate, it), os.listdir(f"{crate.folder}/out")):
            copy(f"{crate.folder}/out/{name}", f"{room}/out/{name}")
        keep(texts, verdict, f"{room}/out")


def drop_unused():
    for name in os.listdir(folder()):
        with contextlib.suppress(OSError):
            if os.path.getmtime(f"{folder()}/{name}") < time.time() - LONGEST_UNUSED:
                remove(f"{folder()}/{name}")


def copy(source, target):
    if os.path.isdir(source):
        shutil.copytree(source, target)
    else:
        shutil.copy2(source, target)


def remove(path):
    if os.path.isdir(path):
        shutil.rmtree(path)
    elif os.path.lexists(path):
        os.remove(path)


def main(words):
    try:
        rt = quick_rt.module_of_rt()
        quick_rt.keep_sums(rt)
    except (AttributeError, ImportError, OSError, SyntaxError):
        # Of another `rt` than this one knows nothing is kept.
        return words[0] == "take"
    crate = crate_named(rt, words[1])
    if words[0] == "sum":
        print(sum_of(rt, crate))
    elif words[0] == "put":
        put(rt, crate, words[2], sys.stdin.read())
    else:
        verdict = take(rt, crate)
        print(verdict or "", end="")
        return verdict is None
    return 0


if __name__ == "__main__":
    sys.exit(main(sys.argv[1:]))
