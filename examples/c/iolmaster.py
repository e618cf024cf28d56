"""The library for C from Python, by ctypes: `make -C examples/c libiolmaster.so` builds what it loads.

A `Master` serves a flash, which is any object with `read(sector)`, `write(sector, octets)` and `sync()`; each may raise OSError.
docs/C.md and include/iolmaster.h say what the calls mean. A result other than those that a method is for is raised as `Refused`.
"""

import ctypes
import os
import re

FOLDER = os.path.dirname(os.path.abspath(__file__))
SECTOR, PAGE, ISDU, ENTRY, LABEL = 512, 16, 238, 232, 32


def names_of_header():
    """The constants of iolmaster.h by their names, without IOLM_."""
    with open(f"{FOLDER}/../../include/iolmaster.h", encoding="utf-8") as file:
        text = re.sub(r"/\*.*?\*/", "", file.read(), flags=re.S)
    names = {}
    for body in re.findall(r"enum \w+ \{(.*?)\}", text, re.S):
        number = 0
        for word in filter(None, (part.strip() for part in body.split(","))):
            name, _, value = word.partition("=")
            number = int(value) if value else number
            names[name.strip().removeprefix("IOLM_")] = number
            number += 1
    return names


NAMES = names_of_header()
RESULTS = {number: name for name, number in list(NAMES.items())[: list(NAMES).index("DEACTIVATED")]}


class Refused(Exception):
    """A call answered so."""


class Handle(ctypes.Structure):
    _fields_ = [("at", ctypes.c_void_p), ("is_open", ctypes.c_bool)]


class DiskCall(ctypes.Structure):
    _fields_ = [("sector", ctypes.c_uint64), ("octets", ctypes.c_uint8 * SECTOR)]


class Request(ctypes.Structure):
    _fields_ = [("count", ctypes.c_uint32), ("octets", ctypes.c_uint8 * ISDU)]


class Config(ctypes.Structure):
    _fields_ = [("mode", ctypes.c_uint8), ("validation", ctypes.c_uint8), ("vendor", ctypes.c_uint16), ("device", ctypes.c_uint32),
                ("label_count", ctypes.c_uint8), ("label", ctypes.c_uint8 * LABEL)]


class Status(ctypes.Structure):
    _fields_ = [(name, ctypes.c_uint8) for name in ("status", "detail", "error", "additional")]


class Library:
    """The calls of the library, each of which returns the name of its result."""

    def __init__(self, path=f"{FOLDER}/libiolmaster.so"):
        self.calls = ctypes.CDLL(path)

    def __getattr__(self, name):
        call = getattr(self.calls, f"iolm_{name}")
        call.restype = ctypes.c_uint32
        return lambda *words: RESULTS[call(*words)]


def octets_of(count, octets):
    """So many octets of an array of C."""
    return bytes(octets[:count])


class Master:
    """A master over a flash."""

    def __init__(self, library, flash, sectors):
        self.library, self.flash, self.handle, self.call = library, flash, Handle(), DiskCall()
        self.wants("OK", library.open(ctypes.byref(self.handle), ctypes.c_size_t(sectors)))
        while self.disk_step() != "OPENED":
            pass

    @staticmethod
    def wants(expected, result):
        if result != expected:
            raise Refused(result)

    def close(self):
        self.library.calls.iolm_close(ctypes.byref(self.handle))

    def ask(self, name, *words):
        return getattr(self.library, name)(ctypes.byref(self.handle), *words)

    def disk_step(self):
        """Makes the call of the flash that is wanted, if one is, and returns what was wanted."""
        wanted = self.ask("disk_next", ctypes.byref(self.call))
        if wanted == "READ":
            self.wants("OK", self.ask("disk_read", self.flash.read(self.call.sector)))
        elif wanted in ("WRITE", "SYNC"):
            try:
                self.flash.sync() if wanted == "SYNC" else self.flash.write(self.call.sector, bytes(self.call.octets))
                made = True
            except OSError:
                made = False
            self.ask("disk_done", ctypes.c_bool(made))
        elif wanted not in ("OPENED", "AGAIN", "NOTHING", "STOPPED"):
            raise Refused(wanted)
        return wanted

    def number(self, name):
        """The number of the last `durable` or of the last `accepted` change."""
        number = ctypes.c_uint64()
        self.wants("OK", self.ask(name, ctypes.byref(number)))
        return number.value

    def change(self, name, port, *words):
        """Asks for a change, and returns its number."""
        number = ctypes.c_uint64()
        self.wants("OK", self.ask(name, ctypes.c_uint8(port), *words, ctypes.byref(number)))
        return number.value

    def configure(self, port, mode, validation, vendor, device, label=b""):
        config = Config(mode, validation, vendor, device, len(label))
        config.label[: len(label)] = label
        return self.change("configure", port, ctypes.byref(config))

    def status(self, port):
        status = Status()
        self.wants("OK", self.ask("port_status", ctypes.c_uint8(port), ctypes.byref(status)))
        return status

    def port_step(self, port, device):
        """Makes a step of a port with its device, which has `page()` and `respond(octets)`; each may return None, which is a loss. Returns
        what was wanted, what was sent and what was answered."""
        request, number = Request(), ctypes.c_uint8(port)
        wanted, sent, answered = self.ask("port_next", number, ctypes.byref(request)), None, None
        if wanted == "PAGE":
            answered = device.page()
        elif wanted == "REQUEST":
            sent = octets_of(request.count, request.octets)
            answered = device.respond(sent)
        else:
            return wanted, sent, answered
        if answered is None:
            self.wants("AGAIN", self.ask("port_lost", number))
        elif wanted == "PAGE":
            self.wants("AGAIN", self.ask("port_page", number, answered))
        else:
            self.wants("AGAIN", self.ask("port_answer", number, answered, ctypes.c_size_t(len(answered))))
        return wanted, sent, answered
