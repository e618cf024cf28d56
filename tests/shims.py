"""Compiles the libraries that are loaded before the program (LD_PRELOAD)."""

import os
import shutil
import subprocess

HERE = os.path.dirname(os.path.abspath(__file__))


def compiled(folder, name):
    """The library of tests/NAME.c, compiled into a folder by `cc`, or else by the compiler of the toolchain."""
    shim = f"{folder}/{name}.so"
    kit = os.path.dirname(os.path.dirname(os.path.realpath(shutil.which("rt") or "rt")))
    words = ["-O1", "-fPIC", "-shared", "-nostdlib", "-o", shim, f"{HERE}/{name}.c"]
    for compiler in (["cc"], [f"{kit}/toolchain/bin/clang", "-fuse-ld=lld"]):
        if shutil.which(compiler[0]) and subprocess.run([*compiler, *words], stderr=subprocess.DEVNULL).returncode == 0:
            return shim
    return None
