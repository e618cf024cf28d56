"""Reads an image file as docs/FORMATS.md says, and prints what `iolmaster show` has to print of it.

python3 tests/reader.py IMAGE

It is a second specification, written from docs/FORMATS.md alone: it shares no code with the program or with another test, and
each part names the sections that it follows. It notes each field that it reads with its place, so that tests/mutants can change
what a recovery reads.
"""

import sys
from collections import namedtuple

SECTOR = 512
# By the octet of a header that names a version: the sectors of a port's record, and how far an epoch may be over its base.
FIRST_VERSION, WRITTEN_VERSION = 0, 2
PORT_SECTORS = {FIRST_VERSION: 9, WRITTEN_VERSION: 17}
EPOCHS_AHEAD = {FIRST_VERSION: 1, WRITTEN_VERSION: 2}
BODY_SECTORS = 16
SLOT_OCTETS = BODY_SECTORS * SECTOR
HEAD_OCTETS = 22
SET_OCTETS = 4096
MARK = bytes.fromhex("49 4F 4C 53 01")
OPEN = bytes.fromhex("A5 5A A5 5A A5 5A A5 5A")
IOL_MANUAL = 1
BACKUP_AND_RESTORE, RESTORE = 3, 4
RESERVED_INDICES = (0x0000, 0x0002, 0x0003)
LAST_REVISION = 2**64 - 1
LAST_NUMBER = 2**62

# (Records)
Configuration = namedtuple("Configuration", "mode validation vendor device label")
ParameterSet = namedtuple("ParameterSet", "vendor device checksum entries")
StoredSet = namedtuple("StoredSet", "recorded parameters")
Port = namedtuple("Port", "configuration revision stored previous", defaults=(None, None))
# What is printed on standard output and on standard error, and the status (Texts).
Answer = namedtuple("Answer", "out err status")


class Cause(Exception):
    """Why nothing is recovered, and what is said of it: the sector that is damaged, where one is (Recovery)."""

    def __init__(self, why, sector=None, told="the disk is not formatted"):
        super().__init__(why)
        self.told = told if sector is None else f"damaged at sector {sector}"


class Wrong(Exception):
    """Why octets are not what has to stand there (Records; Slots)."""


class Field(namedtuple("Field", "name sectors at count")):
    """A field that was read: the sectors that it was read from, its first octet in them, and how many it has."""

    def places(self):
        """Where each of its octets is in the file."""
        return [self.sectors[at // SECTOR] * SECTOR + at % SECTOR for at in range(self.at, self.at + self.count)]


class Fields:
    """The fields in some sectors from left to right, numbers with the most significant octet first (Formats; Records)."""

    def __init__(self, reader, sectors, at=0, end=None):
        self.sectors, self.at, self.seen = tuple(sectors), at, reader.seen
        self.octets = b"".join(reader.sector(sector) for sector in sectors)[:end]

    def take(self, name, count):
        if len(self.octets) - self.at < count:
            raise Wrong(f"{name} is not whole")
        self.seen.append(Field(name, self.sectors, self.at, count))
        self.at += count
        return self.octets[self.at - count : self.at]

    def number(self, name, count, allowed=range(2**64)):
        number = int.from_bytes(self.take(name, count), "big")
        if number not in allowed:
            raise Wrong(f"{name} is out of its range")
        return number


class Reader:
    """A recovery of the octets of an image file."""

    def __init__(self, octets):
        self.octets, self.seen, self.why = octets, [], None
        # (Image files: what follows the last whole sector is not read.)
        self.count = len(octets) // SECTOR

    def sector(self, number):
        """(Image files)"""
        return bytes(self.octets[number * SECTOR : (number + 1) * SECTOR])

    def gate(self, sector):
        """Whether the gate in this sector is open (Gates)."""
        self.seen.append(Field("gate", (sector,), 0, len(OPEN)))
        return self.sector(sector)[: len(OPEN)] == OPEN

    def read(self):
        """The number of commands and the ports, or the first cause in the order of reading (Orders of disk calls; Recovery)."""
        if self.count < 2 or not self.gate(1):
            raise Cause("no open gate of the disk")
        self.geometry()
        first = self.area()
        self.port_sectors = PORT_SECTORS[self.version]
        self.ports = [self.port(first + 2 + self.port_sectors * place) for place in range(self.port_count)]
        self.slots(first + 2 + self.port_sectors * self.port_count)
        return self.number, self.ports

    def geometry(self):
        """Sector 0 (Disk layout)."""
        fields = Fields(self, [0])
        try:
            if fields.take("mark", len(MARK)) != MARK:
                raise Wrong("the mark is another")
            self.port_count = fields.number("ports", 1, range(1, 33))
            self.slot_count = fields.number("slots", 2, range(1, 257))
            fields.number("body sectors", 2, [BODY_SECTORS])
            self.area_sectors = 2 + PORT_SECTORS[FIRST_VERSION] * self.port_count + (1 + BODY_SECTORS) * self.slot_count
            if self.count < 2 + 2 * self.area_sectors:
                raise Wrong("the disk is smaller than its geometry asks for")
        except Wrong as wrong:
            raise Cause(f"geometry: {wrong}", 0) from wrong
        self.given_up = (8 * self.port_count + 16) // 17
        if self.slot_count <= self.given_up:
            raise Cause("an area has no slot in the version that is written", told="the disk is too small")

    def area(self):
        """The first sector of the area in use, the open one with the greatest epoch (Disk layout; Headers; Recovery)."""
        firsts = [2, 2 + self.area_sectors]
        opened = [first for first in firsts if self.gate(first)]
        if not opened:
            raise Cause("no area is open", 2)
        headers = {first: self.header(first + 1) for first in opened}
        if len(opened) == 2 and headers[firsts[0]][0] == headers[firsts[1]][0]:
            raise Cause("both areas are open under one epoch", firsts[1] + 1)
        first = self.in_use(headers)
        self.epoch, self.number, self.version = headers[first]
        if not self.is_in_bounds(self.epoch, self.number, self.version):
            raise Cause("the header is out of its bounds", first + 1)
        if self.version == WRITTEN_VERSION:
            self.slot_count -= self.given_up
        return first

    def header(self, sector):
        """The epoch and the base of an area, and the octet that names its version (Headers)."""
        fields = Fields(self, [sector])
        return fields.number("epoch of an area", 8), fields.number("base", 8), fields.number("version", 1)

    def in_use(self, headers):
        """(Headers)"""
        return max(headers, key=lambda first: headers[first][0])

    def is_in_bounds(self, epoch, base, version):
        """(Headers)"""
        return version in PORT_SECTORS and 1 <= epoch <= base + EPOCHS_AHEAD[version] and base <= LAST_NUMBER

    def port(self, first):
        """The port whose record begins at this sector (Records)."""
        fields = Fields(self, range(first, first + self.port_sectors))
        try:
            port = Port(self.configuration(fields), fields.number("revision of a port", 8))
            port = port._replace(stored=self.stored_set(fields, "flag"))
            if self.version == WRITTEN_VERSION:
                port = port._replace(previous=self.stored_set(fields, "flag of a previous set"))
            self.check_sets_of(port)
        except Wrong as wrong:
            raise Cause(f"port: {wrong}", first) from wrong
        return port

    def configuration(self, fields):
        """(Records, `config`)"""
        mode, validation = fields.number("mode", 1, range(5)), fields.number("validation", 1, range(5))
        vendor, device = fields.number("vendor", 2), fields.number("device", 4, range(0x01000000))
        return Configuration(mode, validation, vendor, device, self.label(fields))

    def label(self, fields):
        """(Records, `label`)"""
        if self.version == FIRST_VERSION:
            return b""
        label = fields.take("label", fields.number("length of a label", 1, range(33)))
        if any(not 0x20 <= octet <= 0x7E or octet == 0x22 for octet in label):
            raise Wrong("a label has an octet that may not stand in it")
        return label

    def stored_set(self, fields, flag):
        """A set of a port, if it has one (Records, `sets`)"""
        return StoredSet(self.configuration(fields), self.parameters(fields)) if fields.number(flag, 1, (0, 1)) else None

    def parameters(self, fields):
        """(Records, `set` and `entry`)"""
        vendor, device = fields.number("vendor of a set", 2), fields.number("device of a set", 4, range(0x01000000))
        checksum, count = fields.number("checksum", 4), fields.number("count of entries", 2)
        entries, total = {}, 0
        for _ in range(count):
            key = fields.number("Index", 2), fields.number("Subindex", 1)
            if key[0] in RESERVED_INDICES:
                raise Wrong("an Index is reserved")
            if key in entries:
                raise Wrong("a key stands twice")
            length = fields.number("length", 1, range(233))
            total += 4 + length
            if total > SET_OCTETS:
                raise Wrong("the set is too large")
            entries[key] = fields.take("octets of an entry", length)
        return ParameterSet(vendor, device, checksum, tuple(entries.items()))

    def check_sets_of(self, port):
        """Whether a port may have its sets, at the end of its record (Records, `BadField`)."""
        if port.previous and not port.stored:
            raise Wrong("a previous set stands alone")
        for recorded, parameters in filter(None, (port.stored, port.previous)):
            if parameters[:2] != recorded[2:4]:
                raise Wrong("the numbers of the set are not those of its configuration")
            if recorded[:2] != (IOL_MANUAL, BACKUP_AND_RESTORE):
                raise Wrong("the set was taken under another configuration")
            if not self.stays(recorded, port.configuration):
                raise Wrong("the set does not stay")

    def stays(self, old, new):
        """Whether a set stays where a port is configured (What is done with a device's parameters)."""
        kept = [its.mode == IOL_MANUAL and its.validation in (BACKUP_AND_RESTORE, RESTORE) for its in (old, new)]
        return all(kept) and old[2:4] == new[2:4]

    def slots(self, first):
        """The batches at head places up to the first closed gate, from the gate of slot 1 on (Slots; Recovery)."""
        slot = 0
        while slot < self.slot_count and self.gate(first + (1 + BODY_SECTORS) * slot):
            slot += self.batch(first + (1 + BODY_SECTORS) * slot, self.slot_count - slot)

    def batch(self, gate, left):
        """Applies the batch behind this gate, and tells how many of the slots that are left it takes (Slots)."""
        try:
            head = Fields(self, [gate + 1])
            head.number("epoch of a batch", 8, [self.epoch])
            head.number("first", 8, [self.number + 1])
            count, octets = head.number("count", 2, range(1, 65)), head.number("octets", 4)
            if not self.has_numbers(count):
                raise Wrong("a number is over the last one")
            end = HEAD_OCTETS + octets
            slots = -(-end // SLOT_OCTETS)
            if slots > left:
                raise Wrong("the batch takes more slots than are left")
            self.records(Fields(self, self.body(gate, -(-end // SECTOR)), HEAD_OCTETS, end), count)
        except Wrong as wrong:
            raise Cause(f"batch: {wrong}", gate + 1) from wrong
        self.number += count
        return slots

    def has_numbers(self, count):
        """Whether so many commands more have numbers, 2^62 at most (Slots)."""
        return self.number + count <= LAST_NUMBER

    def body(self, gate, count):
        """The first sectors of a body, without the gates of further slots (Slots)."""
        return [gate + 1 + place + place // BODY_SECTORS for place in range(count)]

    def records(self, fields, count):
        """Applies so many commands in order, whose records fill their octets exactly (Slots)."""
        for _ in range(count):
            self.record(fields)
        if fields.at < len(fields.octets):
            raise Wrong("octets follow the records")

    def record(self, fields):
        """Applies the command of one record, where it passes its check (Records; Texts, `refused`)."""
        tag = fields.number("tag", 1, (1, 2, 3) if self.version == FIRST_VERSION else (1, 2, 3, 4))
        place = fields.number("port", 1, range(1, 33)) - 1
        if place >= self.port_count:
            raise Wrong("the port is unknown")
        port = self.ports[place]
        if tag == 1:
            port = self.configured(port, self.configuration(fields))
        elif tag == 2:
            port = port._replace(stored=None, previous=None)
        elif tag == 3:
            port = self.stored(port, fields.number("revision of a set", 8), self.parameters(fields))
        else:
            port = self.rolled_back(port)
        self.ports[place] = port

    def configured(self, port, configuration):
        """A port behind a Configure (What is done with a device's parameters; Texts, `RevisionSpent`)."""
        if port.revision == LAST_REVISION:
            raise Wrong("the revision is spent")
        kept = port if self.stays(port.configuration, configuration) else Port(None, None)
        return Port(configuration, port.revision + 1, kept.stored, kept.previous)

    def rolled_back(self, port):
        """A port behind a Rollback (What is done with a device's parameters; Texts, `NoPrevious`)."""
        if not port.previous:
            raise Wrong("there is no previous set")
        return port._replace(stored=port.previous, previous=port.stored)

    def stored(self, port, revision, parameters):
        """A port behind a Store (What is done with a device's parameters; Explained runs, `refused`)."""
        if port.configuration[:2] != (IOL_MANUAL, BACKUP_AND_RESTORE):
            raise Wrong("a set is not allowed")
        if port.revision != revision:
            raise Wrong("the revision is stale")
        if port.configuration[2:4] != parameters[:2]:
            raise Wrong("the set is of another device")
        return port._replace(stored=StoredSet(port.configuration, parameters), previous=port.stored)

    def answer(self):
        """What is printed (Texts)."""
        try:
            number, ports = self.read()
        except Cause as cause:
            self.why = str(cause)
            return Answer(b"", f"error: {cause.told}\n".encode(), 1)
        lines = [f"recovered {number}"]
        for place, port in enumerate(ports, 1):
            lines += lines_of(place, port)
        return Answer("".join(f"{line}\n" for line in lines).encode(), b"", 0)


def lines_of(place, port):
    """The lines of a port (Texts)."""
    mode, validation, vendor, device, label = port.configuration
    line = f"port {place} revision {port.revision} mode {mode} validation {validation} vendor {vendor:04X} device {device:06X} "
    line += f'label "{label.decode()}" set' if label else "set"
    lines = lines_of_set(line, port.stored) if port.stored else [f"{line} none"]
    return lines + (lines_of_set("previous", port.previous) if port.previous else [])


def lines_of_set(line, stored):
    """The lines of a set of a port, of which the first begins so (Texts)."""
    mode, validation, vendor, device, _ = stored.recorded
    entries = stored.parameters.entries
    counted = sum(4 + len(octets) for _, octets in entries)
    line += f" {len(entries)} entries {counted} octets checksum {stored.parameters.checksum:08X}"
    line += f" under {mode} {validation} {vendor:04X} {device:06X}"
    return [line, *(f"entry {index:04X}.{subindex:02X} {octets.hex().upper()}".rstrip() for (index, subindex), octets in entries)]


def main(words):
    if len(words) != 1:
        print(__doc__, file=sys.stderr)
        return 2
    with open(words[0], "rb") as file:
        answer = Reader(file.read()).answer()
    sys.stdout.buffer.write(answer.out)
    sys.stderr.buffer.write(answer.err)
    return answer.status


if __name__ == "__main__":
    sys.exit(main(sys.argv[1:]))
