"""The lines of a map, by another reading of an image file than the program's."""

from __future__ import annotations

import dataclasses
import struct

from map_images import BODY_SECTORS, FIRST, MARK, OPEN, PORT_SECTORS, SECTOR, WRITTEN, area_sectors, kept_slots

LAST_NUMBER = 2**62
EPOCHS_AHEAD = {FIRST: 1, WRITTEN: 2}
VERSIONS = {FIRST: "version 1", WRITTEN: "version 2"}


@dataclasses.dataclass
class Line:
    name: str
    numbers: tuple
    first: int
    last: int
    gate: bool | None
    used: int
    unused: int
    text: str
    damaged: bool = False

    def is_like(self, other):
        same = ("name", "gate", "used", "unused", "text")
        return not self.damaged and not other.damaged and all(getattr(self, f) == getattr(other, f) for f in same)


def span(word, first, last):
    return f"{word} {first}" if first == last else f"{word}s {first} to {last}"


class Reading:
    """The lines of an image, of which a recovery finds this sector damaged."""

    def __init__(self, octets, damaged):
        self.octets, self.damaged, self.lines = octets, damaged, []
        self.sectors = len(octets) // SECTOR
        self.read()

    def at(self, sector, count=1):
        return bytes(self.octets[sector * SECTOR : (sector + count) * SECTOR])

    def is_open(self, sector):
        return self.at(sector)[:8] == OPEN

    def add(self, name, number, first, count, gate, used, unused, text, slots=1):
        line = Line(name, (number, number + slots - 1), first, first + count - 1, gate, used, unused, text)
        line.damaged = self.damaged is not None and line.first <= self.damaged <= line.last
        before = self.lines[-1] if self.lines else None
        if before and before.is_like(line):
            before.numbers, before.last = (before.numbers[0], line.numbers[1]), line.last
        else:
            self.lines.append(line)

    def read(self):
        mapped = 2
        if self.sectors:
            self.geometry()
        if self.sectors > 1:
            is_open = self.is_open(1)
            self.add("", 0, 1, 1, is_open, 0, 0, "gate of the disk, " + ("open" if is_open else "closed"))
        if self.sectors and self.ports and self.needed <= self.sectors:
            self.areas()
            mapped = self.needed
        if mapped < self.sectors:
            self.add("", 0, mapped, self.sectors - mapped, None, 0, 1, "not read")

    def geometry(self):
        octets = self.at(0)
        ports, slots, body = struct.unpack(">BHH", octets[5:10])
        self.ports, self.slots = 0, 0
        text = "no geometry: " + octets[:10].hex(" ").upper()
        if octets[:5] == MARK and body == BODY_SECTORS and 1 <= ports <= 32 and 1 <= slots <= 256:
            self.ports, self.slots = ports, slots
            self.needed = 2 + 2 * area_sectors(ports, slots)
            lack = ", more than there are" if self.sectors < self.needed else ""
            text = f"geometry, ports {ports}, slots {slots}, sectors {self.needed}{lack}"
        self.add("", 0, 0, 1, None, 1, 0, text)

    def areas(self):
        firsts = {"A": 2, "B": 2 + area_sectors(self.ports, self.slots)}
        headers = {area: struct.unpack(">QQB", self.at(first + 1)[:17]) for area, first in firsts.items()}
        opened = [area for area in "AB" if self.is_open(firsts[area])]
        best = max(opened, key=lambda area: headers[area][0], default=None)
        if len(opened) == 2 and headers["A"][0] == headers["B"][0]:
            best = None
        if best:
            epoch, base, version = headers[best]
            if version not in VERSIONS or not (1 <= epoch <= base + EPOCHS_AHEAD[version] and base <= LAST_NUMBER):
                best = None
        for area in "AB":
            self.area(area, firsts[area], headers[area], area in opened, best)

    def area(self, area, first, header, is_open, best):
        why = "not in use: closed"
        if is_open:
            why = "not in use: older" if best else "not in use: no area is"
            why = "in use: open, greatest epoch" if area == best else why
        gate = "open" if is_open else "closed"
        text = f"gate {gate}, epoch {header[0]}, base {header[1]}, {VERSIONS.get(header[2], 'no version')}, {why}"
        self.add(f"area {area}, ", 0, first, 2, is_open, 1, 0, text)
        # An area whose header names no version is mapped in the one that is written, as is one of a disk that has room for it.
        version = FIRST if header[2] == FIRST or not kept_slots(self.ports, self.slots, WRITTEN) else WRITTEN
        for place in range(self.ports):
            self.port(place + 1, first + 2 + PORT_SECTORS[version] * place, version)
        slots = first + 2 + PORT_SECTORS[version] * self.ports
        kept = kept_slots(self.ports, self.slots, version)
        reach = "next" if area == best else "idle"
        place = 0
        while place < kept:
            gate = slots + (1 + BODY_SECTORS) * place
            taken, reach = self.slot(place + 1, gate, header[0], reach, kept - place)
            place += taken
        behind = slots + (1 + BODY_SECTORS) * kept
        spare = first + area_sectors(self.ports, self.slots) - behind
        if spare:
            self.add("  ", 0, behind, spare, None, 0, spare, "not used")

    def port(self, number, first, version):
        read, said, most = 0, None, PORT_SECTORS[version]
        while said is None and read < most:
            read += 1
            said = read_port(self.at(first, read), version)
        text = f"{read} of {most} sectors, {said}" if said else "no record of a port"
        self.add("port", number, first, most, None, read, most - read, text)

    def slot(self, number, gate, epoch, reach, left):
        """Adds the line of a slot, or of those of a batch, and tells how many these are, and how far a recovery comes."""
        is_open = self.is_open(gate)
        taken, used, text, behind = 1, 0, "gate closed", reach
        if is_open:
            its_epoch, first, count, octets = struct.unpack(">QQHI", self.at(gate + 1)[:22])
            used = min(BODY_SECTORS, (22 + octets + SECTOR - 1) // SECTOR)
            wanted = -(-(22 + octets) // (SECTOR * BODY_SECTORS))
            taken = wanted if wanted <= left else 1
            text = f"first command {first}, count {count}"
            if count and first <= LAST_NUMBER:
                text = span("command", first, first + count - 1)
            text += f", {octets} octets" + ("" if its_epoch == epoch else f", epoch {its_epoch}")
            if reach == "behind":
                text = "gate open behind a closed one: not read"
        elif reach == "next":
            text, behind = "gate closed, the first: slots behind it are not read", "behind"
        self.add("slot", number, gate, (1 + BODY_SECTORS) * taken, is_open, used, BODY_SECTORS - used, text, taken)
        return taken, behind

    def texts(self):
        for line in self.lines:
            name = f"  {span(line.name, *line.numbers)}, " if line.name in ("port", "slot") else line.name
            damage = ", damaged: a recovery ends here" if line.damaged else ""
            yield f"{name}{span('sector', line.first, line.last)}: {line.text}{damage}"


class Short(Exception):
    pass


class Fields:
    def __init__(self, octets, version):
        self.octets, self.version = octets, version

    def take(self, count):
        if len(self.octets) < count:
            raise Short
        taken, self.octets = self.octets[:count], self.octets[count:]
        return taken

    def number(self, count, most=2**64):
        number = int.from_bytes(self.take(count), "big")
        if number > most:
            raise ValueError
        return number

    def config(self):
        return self.number(1, 4), self.number(1, 4), self.number(2), self.number(4, 0xFFFFFF), self.label()

    def label(self):
        if self.version == FIRST:
            return ""
        octets = self.take(self.number(1, 32))
        if not all(0x20 <= octet <= 0x7E and octet != 0x22 for octet in octets):
            raise ValueError
        return octets.decode()

    def stored(self):
        """A set with the configuration that it was taken under, if there is one."""
        return (self.config(), self.set()) if self.number(1, 1) else None

    def previous(self):
        return None if self.version == FIRST else self.stored()

    def set(self):
        vendor, device, checksum, count = self.number(2), self.number(4, 0xFFFFFF), self.number(4), self.number(2)
        keys, total = set(), 0
        for _ in range(count):
            index = self.number(2)
            if index in (0, 2, 3):
                raise ValueError
            key = index, self.number(1)
            if key in keys:
                raise ValueError
            keys.add(key)
            length = self.number(1, 232)
            total += 4 + length
            if total > 4096:
                raise ValueError
            self.take(length)
        return vendor, device, checksum, count, total


def keeps(old, new):
    return all(its[0] == 1 and its[1] in (3, 4) for its in (old, new)) and old[2:4] == new[2:4]


def may_have(its, stored):
    recorded, its_set = stored
    return recorded[:2] == (1, 3) and recorded[2:4] == its_set[:2] and keeps(recorded, its)


def said_of(stored):
    _, _, checksum, count, total = stored[1]
    return f"set of {count} entries, {total} octets, checksum {checksum:08X}"


def read_port(octets, version):
    """What a record says, '' where it is none, and None where it is not whole."""
    fields = Fields(octets, version)
    try:
        its = fields.config()
        revision, stored, previous = fields.number(8), fields.stored(), fields.previous()
        if previous and not stored or not all(may_have(its, kept) for kept in (stored, previous) if kept):
            return ""
        said = said_of(stored) if stored else "no set"
        said += f", previous {said_of(previous)}" if previous else ""
    except Short:
        return None
    except ValueError:
        return ""
    mode, validation, vendor, device, label = its
    called = f'label "{label}", ' if label else ""
    return f"revision {revision}, mode {mode}, validation {validation}, vendor {vendor:04X}, device {device:06X}, {called}{said}"
