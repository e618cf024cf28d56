"""Plays ports through the library for C: a flash, its master, and the ports' links. tests/device_answers plays its devices so.

Each step is told as a record: `Configured`, `Raised`, `Stepped` or `Written`, which tests/device_judge.py judges.
"""

import ctypes
import os
import sys
from collections import namedtuple

TOP = os.path.dirname(os.path.dirname(os.path.abspath(__file__)))
sys.path.append(f"{TOP}/examples/c")
import iolmaster  # noqa: E402
import reader  # noqa: E402

# A port was asked to be configured with this validation, under this number, or None where that was refused.
Configured = namedtuple("Configured", "port configuration number")
# The device of a port has raised an event.
Raised = namedtuple("Raised", "port code")
# A port has made a step: what it sent (`PAGE`, a request, or None), what was answered (None where nothing was sent, or the device is
# lost), its status behind that, and the number of the last accepted change.
Stepped = namedtuple("Stepped", "port sent answered status accepted")
# The disk has made a step: the number of the last durable change.
Written = namedtuple("Written", "durable")
# What the library shows of a port, and of each of its sets: its checksum, the octets that it counts, and its entries.
Shown = namedtuple("Shown", "configuration revision present previous")
ShownSet = namedtuple("ShownSet", "checksum octets entries")
PAGE = "page"
# Each disk call of a batch is wanted within so many steps.
MOST_STEPS = 1_000_000


class Set(ctypes.Structure):
    _fields_ = [("is_there", ctypes.c_bool), ("checksum", ctypes.c_uint32), ("entries", ctypes.c_uint64), ("octets", ctypes.c_uint64)]


class View(ctypes.Structure):
    _fields_ = [("config", iolmaster.Config), ("revision", ctypes.c_uint64), ("present", Set), ("previous", Set)]


class Entry(ctypes.Structure):
    _fields_ = [("index", ctypes.c_uint16), ("subindex", ctypes.c_uint8), ("count", ctypes.c_uint8),
                ("octets", ctypes.c_uint8 * iolmaster.ENTRY)]


def names_of(enum):
    """The words of an enum of iolmaster.h from this name on, by their numbers."""
    names = list(iolmaster.NAMES)
    words = []
    for name in names[names.index(enum) :]:
        if iolmaster.NAMES[name] != len(words):
            break
        words.append(name.removeprefix("FAILED_").lower().replace("_", " "))
    return words


STATUSES, MISMATCHES, FAILURES = names_of("OFF"), names_of("OTHER_VENDOR"), names_of("FAILED_REFUSED")


def words_of(status):
    """A status in words, with the codes of a refusal."""
    word = STATUSES[status.status]
    if word == "mismatch":
        return f"{word} {MISMATCHES[status.detail]}"
    if word != "failed":
        return word
    codes = f" {status.error:02X} {status.additional:02X}" if status.detail == 0 else ""
    return f"{word} {FAILURES[status.detail]}{codes}"


class Flash:
    """A flash in memory, of which a power stop may leave what was written since the last sync as it was, or torn."""

    def __init__(self, sectors):
        self.sectors, self.durable, self.pending = sectors, {}, {}

    def read(self, sector):
        return self.pending.get(sector, self.durable.get(sector, bytes(iolmaster.SECTOR)))

    def write(self, sector, octets):
        self.pending[sector] = octets

    def sync(self):
        self.durable.update(self.pending)
        self.pending = {}

    def stop(self, is_torn):
        """The flash that a power stop leaves."""
        left = Flash(self.sectors)
        left.durable = dict(self.durable)
        if is_torn:
            left.durable.update(dict.fromkeys(self.pending, b"\xa5\x5a" * (iolmaster.SECTOR // 2)))
        return left

    def image(self):
        return b"".join(self.read(sector) for sector in range(self.sectors))


def formatted(library, ports, slots):
    """A flash of this geometry, with an empty journal."""
    sectors, call, number = ctypes.c_uint64(), iolmaster.DiskCall(), 0
    library.format_sectors(ports, slots, ctypes.byref(sectors))
    flash = Flash(sectors.value)
    while (wanted := library.format_next(ports, slots, number, ctypes.byref(call))) != "NOTHING":
        flash.sync() if wanted == "SYNC" else flash.write(call.sector, bytes(call.octets))
        number += 1
    return flash


class Player:
    """A master over a flash, and the links of its ports, by their numbers. Each step is told to `hear`."""

    def __init__(self, library, flash, links, hear):
        self.master = iolmaster.Master(library, flash, flash.sectors)
        self.links, self.hear = links, hear

    def configure(self, port, configuration):
        """Asks for a configuration. Where that is refused 64 changes wait."""
        try:
            number = self.master.configure(port, *configuration)
        except iolmaster.Refused as refused:
            if str(refused) != "QUEUE_FULL":
                raise
            number = None
        self.hear(Configured(port, configuration, number))

    def steps(self, port, times):
        """So many steps of a port, each with the event that its device then raises, if one is."""
        link, number = self.links[port], ctypes.c_uint8(port)
        for _ in range(times):
            code = link.event()
            if code is not None:
                self.master.wants("OK", self.master.ask("port_event", number, ctypes.c_uint16(code)))
                self.hear(Raised(port, code))
            self.master.wants("OK", self.master.ask("port_wake", number))
            wanted, sent, answered = self.master.port_step(port, link)
            if wanted not in ("PAGE", "REQUEST", "AGAIN", "NOTHING"):
                raise iolmaster.Refused(wanted)
            status = words_of(self.master.status(port))
            self.hear(Stepped(port, PAGE if wanted == "PAGE" else sent, answered, status, self.master.number("accepted")))

    def write(self, times=MOST_STEPS):
        """Makes so many steps of the disk, or fewer where nothing more is to be written."""
        for _ in range(times):
            wanted = self.master.disk_step()
            if wanted not in ("WRITE", "SYNC", "AGAIN", "NOTHING"):
                raise iolmaster.Refused(wanted)
            self.hear(Written(self.master.number("durable")))
            if wanted == "NOTHING":
                return

    def shown(self, port):
        """The durable state of a port."""
        view = View()
        self.master.wants("OK", self.master.ask("port_view", ctypes.c_uint8(port), ctypes.byref(view)))
        config = view.config
        label = bytes(config.label[: config.label_count])
        configuration = reader.Configuration(config.mode, config.validation, config.vendor, config.device, label)
        sets = [self.shown_set(port, which, each) for which, each in enumerate((view.present, view.previous))]
        return Shown(configuration, view.revision, *sets)

    def shown_set(self, port, which, its):
        """A set of a port, of which there may be none: then there is no entry of it."""
        entries, entry = [], Entry()
        while (result := self.master.ask("entry", ctypes.c_uint8(port), ctypes.c_uint8(which), ctypes.c_size_t(len(entries)),
                                         ctypes.byref(entry))) == "OK":
            entries.append(((entry.index, entry.subindex), bytes(entry.octets[: entry.count])))
        self.master.wants("NOTHING", result)
        if len(entries) != its.entries or not its.is_there and (entries or its.checksum or its.octets):
            raise iolmaster.Refused(f"{its.entries} entries of port {port}, and not {len(entries)}")
        return ShownSet(its.checksum, its.octets, tuple(entries)) if its.is_there else None
