"""Drivers that run, and exchanges with them that a trace of `iolmaster run` has."""

import contextlib
import glob
import importlib.machinery
import importlib.util
import json
import os
import re
import subprocess
import sys
import time

HERE = os.path.dirname(os.path.abspath(__file__))
TOP = os.path.dirname(HERE)
CHECK = f"{HERE}/driver_check"
SIMULATED = f"{TOP}/examples/drivers/simulated_device.py"
INDEPENDENT = f"{HERE}/independent_device.py"
# How long a driver may take to start or to answer.
SECONDS = 60


def loaded(path):
    """A program as a module."""
    loader = importlib.machinery.SourceFileLoader(f"{os.path.basename(path)}_as_a_module", path)
    module = importlib.util.module_from_spec(importlib.util.spec_from_loader(loader.name, loader))
    # A dataclass looks for the module that it is of.
    sys.modules[loader.name] = module
    loader.exec_module(module)
    return module


check = loaded(CHECK)
run = loaded(f"{HERE}/run")


class Different(Exception):
    """What is not as it should be."""


def devices_of(script, port):
    """The devices of a script at a port, each a dictionary of its keys, where each key of a device is a line of its own."""
    devices = []
    for table in re.findall(r"(?m)^\[\[device\]\]\n((?:\w.*\n)*)", script):
        lines = [line.partition("#")[0].partition("=") for line in table.splitlines()]
        devices.append({name.strip(): json.loads(value) for name, _, value in lines})
    return [device for device in devices if device["port"] == port]


def trace_of(said, port):
    """The exchanges at a port in what a run says: a kind, the octets of a request and those of its answer, or `lost`."""
    found = re.findall(rf"(?m)^port {port} (?:page (.+)|> (.+)\nport {port} (?:< (.+)|lost)|lost)$", said)
    return [("isdu", request, answer or "lost") if request else ("page", "", page or "lost") for page, request, answer in found]


def examples():
    """The name of each example with exchanges at port 1, its devices there, and its trace."""
    for path in sorted(glob.glob(f"{TOP}/examples/*.out")):
        with open(path, encoding="utf-8") as said, open(f"{path[: -len('.out')]}.toml", encoding="utf-8") as script:
            trace = trace_of(said.read(), 1)
            if trace:
                yield os.path.basename(path)[: -len(".out")], devices_of(script.read(), 1), trace


def runs():
    """The same of the cases of tests/ that run a script, for each port. Left out are scripts that are not written line by line."""
    for path in sorted(glob.glob(f"{HERE}/*.cases")):
        for case in run.read(path):
            said = "\n".join(case.commands[0].out)
            if case.commands[0].line != "iolmaster run script.toml":
                continue
            for port in (1, 2):
                with contextlib.suppress(json.JSONDecodeError):
                    devices, trace = devices_of(case.files.get("script.toml", ""), port), trace_of(said, port)
                    if devices and trace:
                        yield f"port {port} of {os.path.basename(path)}, {case.title}", devices, trace


def words_of(program, device):
    """The words that make a program play a device."""
    keys = [f"{index:04X}.{subindex:02X}" for index, subindex in device.get("keys", [])]
    parameters = dict(zip(keys, device.get("values", [])))
    if program == INDEPENDENT:
        return ["--device", json.dumps({**device, "parameters": parameters})]
    flags = [f"--{name}" for name in ("flag", "locked") if device.get(name)]
    numbers = ["--vendor", str(device["vendor"]), "--device", str(device["device"])]
    return numbers + flags + [f"{key}={value}" for key, value in parameters.items()]


def deeds_of(devices, trace):
    """The words that make one independent device play several, which are replaced at the losses of a trace."""
    words, place, before = [], 0, 0
    for count, (_, _, answer) in enumerate(trace, 1):
        if answer == "lost":
            words += ["--at", str(count), "replace"]
            place, before = place + 1, count
        elif devices[place].get("event") == count - before - 1:
            words += ["--at", str(count), "raise"]
    return words


def await_reader(path):
    """Waits until a driver has opened the file that it reads."""
    end = time.monotonic() + SECONDS
    while time.monotonic() < end:
        with contextlib.suppress(OSError):
            os.close(os.open(path, os.O_WRONLY | os.O_NONBLOCK | os.O_NOCTTY))
            return
        time.sleep(0.05)
    raise Different(f"nothing reads {path}")


class Started:
    """A driver that runs, over FIFOs or a pseudo-terminal in a folder."""

    def __init__(self, folder, files, program, words):
        """Starts a program."""
        self.link = f"{folder}/line" if files == "pty" else None
        self.port = self.link or f"{folder}/to_master,{folder}/from_master"
        self.process = subprocess.Popen([sys.executable, program, f"--{files}", self.link or folder, *words])
        try:
            await_reader(self.link or f"{folder}/from_master")
        except Different:
            self.end()
            raise

    def __enter__(self):
        return self

    def __exit__(self, *_):
        self.end()

    def end(self):
        """Kills it, and removes its link first: another case may get the same pseudo-terminal."""
        if self.link and os.path.lexists(self.link):
            os.unlink(self.link)
        self.process.kill()
        self.process.wait()


def exchange(master, kind, request):
    """What answers a request: octets, `lost`, or `ended` if the driver has closed its file."""
    try:
        master.request(kind, request)
        octets = master.answer(kind)
    except check.Ended:
        return "ended"
    return "lost" if octets is None else octets.hex(" ").upper()


def follow(port, exchanges, lose):
    """Makes the exchanges of a trace, and calls `lose` before each loss."""
    master, before = check.Master(port, SECONDS), None
    for kind, request, wanted in exchanges:
        if wanted == "lost":
            lose()
        answer = exchange(master, kind, request)
        # A driver that was started anew answers so, also if the end of its file has said it already.
        if (before, answer) == ("ended", "lost"):
            answer = exchange(master, kind, request)
        if answer != wanted and (answer, wanted) != ("ended", "lost"):
            raise Different(f"`{kind} {request}` is answered {answer}, and in the trace {wanted}")
        before = answer
    master.close()
