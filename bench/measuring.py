"""What the measurements of a running master share: the program, what is made of C files, slower syncs, and processors that are taken."""

import argparse
import contextlib
import os
import subprocess
import sys

HERE = os.path.dirname(os.path.abspath(__file__))
TOP = os.path.dirname(HERE)
IOLMASTER = f"{TOP}/out/iolmaster"


def stop(line):
    sys.exit(f"bench: {line}")


def words_of(description, rounds):
    """The parser of the words that these measurements have in common."""
    parser = argparse.ArgumentParser(description=description)
    parser.add_argument("folder", nargs="?", default=HERE, help="a folder on the disk that is asked about")
    parser.add_argument("--sync-ms", type=float, default=0, metavar="N", help="makes each sync so many milliseconds longer")
    parser.add_argument("--rounds", type=int, default=rounds, metavar="N", help=f"how many rounds there are, {rounds} if not said")
    parser.add_argument("--taken", action="store_true", help="has other programs take all processors")
    parser.add_argument("--beside", metavar="PROGRAM", help="another build of the program, which is measured in turn with this one")
    return parser


def programs(beside):
    """The programs that are measured, each with its name in the table. The proved program is measured itself: the launcher would look
    first whether a source has changed."""
    if subprocess.run([f"{TOP}/iolmaster", "prove"]).returncode:
        stop("the program could not be proved and built")
    return {"": IOLMASTER, **({"beside: ": os.path.abspath(beside)} if beside else {})}


def compiled(folder, source, *words):
    """What is made of a C file of this folder."""
    made = f"{folder}/{source}.made"
    if subprocess.run(["cc", "-O2", *words, "-o", made, f"{HERE}/{source}"]).returncode:
        stop(f"{source} cannot be compiled")
    return made


def environment(folder, sync_ms):
    """The environment of what is measured, in which each sync takes so many milliseconds longer."""
    if not sync_ms:
        return dict(os.environ)
    shim = compiled(folder, "slow_sync.c", "-fPIC", "-shared")
    return {**os.environ, "LD_PRELOAD": shim, "SYNC_MICROSECONDS": str(round(sync_ms * 1000))}


def formatted(folder, ports, slots):
    """The octets of an image with an empty journal."""
    words = [IOLMASTER, "format", "formatted.img", "--ports", str(ports), "--slots", str(slots)]
    subprocess.run(words, cwd=folder, stdout=subprocess.DEVNULL, check=True)
    with open(f"{folder}/formatted.img", "rb") as file:
        return file.read()


def write_image(path, octets):
    """Writes an image, all of which is on the disk then, so that no sync has to bring it there."""
    with open(path, "wb") as file:
        file.write(octets)
        file.flush()
        os.fsync(file.fileno())


@contextlib.contextmanager
def processors(are_taken):
    """Where they are to be taken, has one program for each processor keep it busy."""
    count = len(os.sched_getaffinity(0)) if are_taken else 0
    busy = [subprocess.Popen([sys.executable, "-c", "while True: pass"]) for _ in range(count)]
    try:
        yield
    finally:
        for it in busy:
            it.kill()
            it.wait()
