"""Image files that are made octet by octet, as docs/FORMATS.md has it, and damaged."""

import struct

SECTOR = 512
# The versions of an area, by the octet of its header.
FIRST, WRITTEN = 0, 2
PORT_SECTORS = {FIRST: 9, WRITTEN: 17}
BODY_SECTORS = 16
MARK = bytes.fromhex("494F4C5301")
OPEN = bytes.fromhex("A55A" * 4)


def sector_of(octets):
    return octets + bytes(-len(octets) % SECTOR)


def area_sectors(ports, slots):
    return 2 + PORT_SECTORS[FIRST] * ports + (1 + BODY_SECTORS) * slots


def kept_slots(ports, slots, version):
    return slots if version == FIRST else max(0, slots - (8 * ports + 16) // 17)


def config(mode, validation, vendor, device):
    return struct.pack(">BBHI", mode, validation, vendor, device)


def entry(index, subindex, octets):
    return struct.pack(">HBB", index, subindex, len(octets)) + octets


def set_of(vendor, device, checksum, entries):
    return struct.pack(">HIIH", vendor, device, checksum, len(entries)) + b"".join(entries)


def blank_port(version=WRITTEN):
    return port(config(0, 0, 0, 0), 0, version=version)


def label_of(label, version):
    return bytes([len(label)]) + label if version == WRITTEN else b""


def stored(recorded, its_set, version, label=b""):
    """A set of a port with the configuration that it was taken under, if that is given, behind its flag."""
    return b"\0" if recorded is None else b"\1" + recorded + label_of(label, version) + its_set


def port(its_config, revision, recorded=None, its_set=b"", version=WRITTEN, label=b"", recorded_label=b"", previous=b"\0"):
    sets = stored(recorded, its_set, version, recorded_label) + (previous if version == WRITTEN else b"")
    return its_config + label_of(label, version) + struct.pack(">Q", revision) + sets


def configure(number, its_config, version=WRITTEN, label=b""):
    return bytes([1, number]) + its_config + label_of(label, version)


def store(number, revision, its_set):
    return bytes([3, number]) + struct.pack(">Q", revision) + its_set


def rollback(number):
    return bytes([4, number])


class Image:
    """An image of a geometry, as a format in a version leaves it."""

    def __init__(self, ports, slots, more=0, version=WRITTEN):
        self.ports, self.slots = ports, slots
        self.octets = bytearray((2 + 2 * area_sectors(ports, slots)) * SECTOR + more)
        self.put(0, MARK + struct.pack(">BHH", ports, slots, BODY_SECTORS))
        self.put(1, OPEN)
        self.header("B", 0, 0, version)
        self.area("A", True, 1, 0, [blank_port(version)] * ports, version)

    def put(self, sector, octets):
        octets = sector_of(octets)
        self.octets[sector * SECTOR : sector * SECTOR + len(octets)] = octets

    def first(self, area):
        return 2 + (area_sectors(self.ports, self.slots) if area == "B" else 0)

    def version(self, area):
        """The version that the header of an area names, or the one that is written."""
        named = self.octets[(self.first(area) + 1) * SECTOR + 16 :][:1]
        return named[0] if named and named[0] in PORT_SECTORS else WRITTEN

    def port(self, area, place):
        return self.first(area) + 2 + PORT_SECTORS[self.version(area)] * place

    def slot(self, area, place):
        return self.port(area, self.ports) + (1 + BODY_SECTORS) * place

    def kept(self, area):
        return kept_slots(self.ports, self.slots, self.version(area))

    def header(self, area, epoch, base, version=WRITTEN):
        self.put(self.first(area) + 1, struct.pack(">QQB", epoch, base, version))

    def area(self, area, is_open, epoch, base, ports, version=WRITTEN):
        self.put(self.first(area), OPEN if is_open else b"\0")
        self.header(area, epoch, base, version)
        for place, octets in enumerate(ports):
            self.put(self.port(area, place), octets)

    def batch(self, area, place, epoch, number, records):
        octets = b"".join(records)
        gate = self.slot(area, place)
        self.put(gate, OPEN)
        body = struct.pack(">QQHI", epoch, number, len(records), len(octets)) + octets
        # The gates of further slots are left out.
        for sector, at in enumerate(range(0, len(body), SECTOR)):
            self.put(gate + 1 + sector + sector // BODY_SECTORS, body[at : at + SECTOR])


IN_USE = config(1, 3, 500, 43981)
SMALL_SET = set_of(500, 43981, 591, [entry(64, 0, b"\x0A\x64"), entry(65, 1, b"\x7F")])
# The largest set: its entries count 4,096.
LARGE_SET = set_of(500, 43981, 7, [entry(64 + i, 0, bytes([i]) * 232) for i in range(17)] + [entry(99, 9, bytes(80))])


def with_batches(version=WRITTEN):
    image = Image(2, 5, version=version)
    image.batch("A", 0, 1, 1, [configure(1, IN_USE, version)])
    image.batch("A", 1, 1, 2, [bytes([2, 1]), configure(2, config(0, 0, 0, 0), version), bytes([2, 2])])
    image.batch("A", 2, 1, 5, [store(1, 1, SMALL_SET)])
    return image


def with_a_checkpoint(version=WRITTEN, older=WRITTEN):
    image = with_batches(older)
    image.batch("A", 3, 1, 6, [bytes([2, 2])])
    ports = [port(IN_USE, 1, IN_USE, SMALL_SET, version), port(config(0, 0, 0, 0), 1, version=version)]
    image.area("B", True, 2, 6, ports, version)
    image.batch("B", 0, 2, 7, [store(1, 1, LARGE_SET)])
    return image


def with_long_batches(version=WRITTEN):
    image = Image(2, 5, version=version)
    image.batch("A", 0, 1, 1, [configure(1, IN_USE, version), configure(2, IN_USE, version)])
    image.batch("A", 1, 1, 3, [store(1, 1, LARGE_SET), store(2, 1, LARGE_SET)])
    image.batch("A", 3, 1, 5, [bytes([2, 1])])
    return image


def over_all_slots():
    image = Image(2, 3)
    image.area("B", True, 2, 2, [port(IN_USE, 1), port(IN_USE, 1)])
    image.batch("B", 0, 2, 3, [store(1, 1, LARGE_SET), store(2, 1, LARGE_SET)])
    return image


def over_17_slots():
    image = Image(32, 34)
    image.area("B", True, 2, 32, [port(IN_USE, 1)] * 32)
    image.batch("B", 0, 2, 33, [store(1 + place, 1, LARGE_SET) for place in range(32)])
    image.batch("B", 17, 2, 65, [bytes([2, 32])])
    return image


def with_large_sets(version=WRITTEN):
    image = Image(32, 19, version=version)
    ports = [port(IN_USE, n, *((IN_USE, LARGE_SET) if n % 2 else ()), version=version) for n in range(1, 33)]
    image.area("A", True, 3, 40, ports, version)
    image.area("B", True, 2, 20, [blank_port(version)] * 32, version)
    image.batch("A", 0, 3, 41, [store(2, 2, LARGE_SET)])
    image.batch("B", 0, 2, 21, [bytes([2, 1])] * 64)
    return image


def with_labels():
    image = Image(3, 5)
    ports = [port(IN_USE, 1, label=b"A\\B & <C> D"), port(IN_USE, 2, IN_USE, SMALL_SET, label=b"Pump 4", recorded_label=b"Pump 3")]
    image.area("A", True, 1, 0, [*ports, blank_port()])
    image.batch("A", 0, 1, 1, [configure(3, IN_USE, label=b"~" * 32)])
    return image


def with_previous_sets():
    """A small previous set, the largest record of a port, and a port without sets; Rollbacks of them, of which two are one behind
    the other, and one is behind the Store that makes it pass."""
    image = Image(3, 6)
    ports = [port(IN_USE, 1, IN_USE, LARGE_SET, previous=stored(IN_USE, SMALL_SET, WRITTEN, b"Pump 3"))]
    ports += [port(IN_USE, 2, IN_USE, LARGE_SET, WRITTEN, b"~" * 32, b"~" * 32, stored(IN_USE, LARGE_SET, WRITTEN, b"~" * 32))]
    image.area("A", True, 1, 0, [*ports, port(IN_USE, 1)])
    image.batch("A", 0, 1, 1, [rollback(1), rollback(2), rollback(2)])
    image.batch("A", 1, 1, 4, [store(3, 1, SMALL_SET), store(3, 1, LARGE_SET), rollback(3)])
    return image


def largest():
    image = Image(32, 256, 3 * SECTOR + 100)
    for place in range(image.kept("A")):
        image.batch("A", place, 1, 1 + 2 * place, [bytes([2, 1 + place % 32])] * 2)
    return image


IMAGES = {
    "empty": lambda: Image(2, 4),
    "the smallest": lambda: Image(1, 2),
    "batches": with_batches,
    "labels": with_labels,
    "a checkpoint": with_a_checkpoint,
    "long batches": with_long_batches,
    "all slots": over_all_slots,
    "17 slots": over_17_slots,
    "large sets": with_large_sets,
    "previous sets": with_previous_sets,
    "the largest": largest,
    "empty, of version 1": lambda: Image(2, 4, version=FIRST),
    "batches of version 1": lambda: with_batches(FIRST),
    "a checkpoint of version 1": lambda: with_a_checkpoint(FIRST, FIRST),
    "long batches of version 1": lambda: with_long_batches(FIRST),
    "large sets of version 1": lambda: with_large_sets(FIRST),
    "a checkpoint over version 1": lambda: with_a_checkpoint(WRITTEN, FIRST),
    "no slot in version 2": lambda: Image(2, 1, version=FIRST),
}


def damaged_images(image, chance):
    """The image, and copies of it that are damaged, each with a title."""
    yield "whole", bytes(image.octets)
    sectors = len(image.octets) // SECTOR
    places = {0: "geometry", 1: "gate of the disk"}
    for area in "AB":
        first = image.first(area)
        places |= {first: f"gate {area}", first + 1: f"header {area}", first + 2: f"port 1 {area}"}
        for place in range(min(3, image.kept(area))):
            places[image.slot(area, place)] = f"gate {place + 1} {area}"
            places[image.slot(area, place) + 1] = f"body {place + 1} {area}"
    for sector, name in places.items():
        for kind in ("zeros", "open gate", "another", "noise", "octet", "octet"):
            octets = bytearray(image.octets)
            at = slice(sector * SECTOR, (sector + 1) * SECTOR)
            if kind == "zeros":
                octets[at] = bytes(SECTOR)
            elif kind == "open gate":
                octets[at] = sector_of(OPEN)
            elif kind == "another":
                other = chance.randrange(sectors)
                octets[at] = octets[other * SECTOR : (other + 1) * SECTOR]
            elif kind == "noise":
                octets[at] = chance.randbytes(SECTOR)
            else:
                octets[sector * SECTOR + chance.randrange(48)] ^= 1 << chance.randrange(8)
            yield f"{name}: {kind}", bytes(octets)
    for count in (0, 1, 511, 512, 1023, 1024, 1536, sectors * SECTOR // 2, sectors * SECTOR - 1):
        yield f"cut to {count}", bytes(image.octets[:count])
