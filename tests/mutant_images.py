"""Images from which tests/mutants begins, and the changes that it makes in them, each of which says in words what it did."""

import glob
import importlib.machinery
import importlib.util
import os
import random
import re
import subprocess
import sys
from typing import NamedTuple

sys.dont_write_bytecode = True
import map_images as made  # noqa: E402
from reader import Reader  # noqa: E402

HERE = os.path.dirname(os.path.abspath(__file__))
TOP = os.path.dirname(HERE)
SECTOR = made.SECTOR
SLOT_SECTORS = 1 + made.BODY_SECTORS
LARGE = 2_000_000
SECONDS = 30

# The fields of sector 0, which a change takes less often: nearly every other number there is damage, and nothing more is read.
GEOMETRY = ("mark", "ports", "slots", "body sectors")
# Numbers about the bounds of fields, by the names that the reader gives them.
BOUNDS = {
    "ports": (2, 31, 32, 33), "slots": (2, 4, 256, 257), "body sectors": (15, 17), "base": (2**62, 2**62 + 1),
    "mode": (3, 4, 5), "validation": (3, 4, 5), "vendor": (500,),
    "device": (43981, 0x00FFFFFF, 0x01000000), "device of a set": (43981, 0x00FFFFFF, 0x01000000),
    "count": (2, 64, 65), "octets": (10, 8170, 8171, 16362, 16363, 2**32 - 22), "tag": (2, 3, 4, 5), "port": (2, 32, 33),
    "version": (0, 1, 2, 3), "flag of a previous set": (1, 2), "length of a label": (1, 32, 33), "count of entries": (2, 1024, 1025),
    "Index": (2, 3, 4, 64), "length": (231, 232, 233),
}  # fmt: skip
# The kinds of sectors, and how often one is taken beside the others.
KINDS = {"geometry": 1, "gate of the disk": 1, "gate of an area": 3, "header": 4, "record": 4, "gate of a slot": 4, "body": 6}


class Base(NamedTuple):
    """An image to begin with, its numbers of ports and slots, and how often it is taken beside others."""

    octets: bytes
    ports: int
    slots: int
    weight: int


def base_of(octets, weight):
    """A base of an image, which is rarely taken where it is large."""
    return Base(bytes(octets), octets[5], int.from_bytes(octets[6:8], "big"), 1 if len(octets) > LARGE else weight)


def earlier_images():
    """The images that earlier releases wrote (tests/earlier)."""
    loader = importlib.machinery.SourceFileLoader("sparse", f"{HERE}/sparse")
    sparse = importlib.util.module_from_spec(importlib.util.spec_from_loader("sparse", loader))
    loader.exec_module(sparse)
    for path in sorted(glob.glob(f"{HERE}/earlier/*.image")):
        with open(path, encoding="ascii") as file:
            yield f"earlier {os.path.basename(path).removesuffix('.image')}", sparse.image_of(file.read())


def clients_of(name):
    """A script of examples/ for `live`: its devices, and those of its steps that are a client's."""
    with open(f"{TOP}/examples/{name}.toml", encoding="utf-8") as file:
        head, *steps = file.read().split("[[step]]")
    return "[[step]]".join([head, *(step for step in steps if re.search(r'^do = "(configure|clear|rollback)"', step, re.M))])


def take_one_processor():
    """On one processor the threads of `live` mostly take the same turns, so that a seed makes the same mutants again."""
    os.sched_setaffinity(0, {min(os.sched_getaffinity(0))})


def program_image(iolmaster, room, names, ports=2, slots=4):
    """An image that the program formats, and on which it runs a master for each of these scripts."""
    path = f"{room}/made.img"
    words = [[iolmaster, "format", "--force", path, "--ports", str(ports), "--slots", str(slots)]]
    for name in names:
        with open(f"{room}/{name}.toml", "w", encoding="utf-8") as file:
            file.write(clients_of(name))
        words.append([iolmaster, "live", path, f"{room}/{name}.toml"])
    if os.path.exists(path):
        os.remove(path)
    for each in words:
        subprocess.run(each, stdout=subprocess.DEVNULL, check=True, timeout=SECONDS, preexec_fn=take_one_processor)
    with open(path, "rb") as file:
        return file.read()


def program_images(iolmaster, room):
    """Images that this program makes."""
    replaced = ["sensor_replaced", "locked_device", "live"]
    for names in (["first"], ["live"], ["first", "live"], 4 * ["first"], ["wrong_device"], replaced):
        yield f"of {' and '.join(names)}", program_image(iolmaster, room, names)
    for ports, slots in ((2, 2), (2, 3), (3, 9)):
        yield f"of {ports} ports and {slots} slots", program_image(iolmaster, room, 2 * ["live"], ports, slots)
    yield "of five commands", program_image(iolmaster, room, ["checkpoints"], 1, 16)


def with_last_revisions():
    """A port that has had its last revision, and one that has one left."""
    image = made.Image(2, 4)
    image.area("A", True, 1, 9, [made.port(made.IN_USE, 2**64 - 1), made.port(made.IN_USE, 2**64 - 2)])
    image.batch("A", 0, 1, 10, [made.configure(2, made.IN_USE), bytes([2, 1])])
    return image


def with_many_entries():
    """As many entries as a set may have, in a port's record and in a Store; and a set without any, under validation 04."""
    image = made.Image(2, 4)
    most = made.set_of(500, 43981, 0, [made.entry(64 + at, at % 256, b"") for at in range(1024)])
    kept = made.port(made.config(1, 4, 500, 43981), 7, made.IN_USE, made.set_of(500, 43981, 0, []))
    image.area("B", True, 3, 40, [made.port(made.IN_USE, 2, made.IN_USE, most), kept])
    image.batch("B", 0, 3, 41, [made.store(1, 2, most)])
    return image


def with_configurations():
    """Sets that stay and sets that are deleted, and as many commands as a batch may have."""
    image = made.Image(2, 5)
    image.batch("A", 0, 1, 1, [made.configure(1, made.IN_USE), made.store(1, 1, made.SMALL_SET)])
    image.batch("A", 1, 1, 3, [made.configure(1, made.config(1, 4, 500, 43981)), made.configure(2, made.IN_USE)] * 32)
    image.batch("A", 2, 1, 67, [made.configure(1, made.config(1, 2, 500, 43981)), made.store(2, 32, made.SMALL_SET)])
    return image


def with_the_last_number():
    """A batch of the last number that there is."""
    image = made.Image(1, 3)
    image.area("A", True, 2**62, 2**62 - 1, [made.blank_port()])
    image.batch("A", 0, 2**62, 2**62, [bytes([2, 1])])
    return image


def bases(iolmaster, room):
    """Every image to begin with, by its name."""
    # Of the images of stops many are alike.
    found = {name: base_of(octets, 1 if re.search("torn|begun|paused", name) else 8) for name, octets in earlier_images()}
    found |= {name: base_of(octets, 20) for name, octets in program_images(iolmaster, room)}
    own = (with_last_revisions, with_many_entries, with_configurations, with_the_last_number)
    makers = {**made.IMAGES, **{make.__name__.replace("_", " "): make for make in own}}
    return found | {name: base_of(make().octets, 12) for name, make in makers.items()}


class Mutant(made.Image):
    """An image that is changed in one to four ways, which stand as words in `changes`."""

    def __init__(self, found, seed, number):
        self.found, self.chance = found, random.Random(f"{seed} {number}")
        self.name = self.any_base(found)
        base = found[self.name]
        self.octets, self.ports, self.slots = bytearray(base.octets), base.ports, base.slots
        self.changes = []
        # A change that finds nothing to do says nothing, and another is made.
        wanted = self.chance.choice((1, 1, 2, 2, 3, 4))
        while len(self.changes) < wanted:
            told = self.chance.choices(list(CHANGES), CHANGES.values())[0](self)
            self.changes += [told] if told else []

    def any_base(self, found):
        return self.chance.choices(list(found), [base.weight for base in found.values()])[0]

    def put(self, sector, octets):
        """Writes sectors, and of an image that is cut those that are left."""
        at = sector * SECTOR
        octets = made.sector_of(octets)[: max(0, len(self.octets) - at)]
        self.octets[at : at + len(octets)] = octets

    def sectors(self, first, count=1):
        return bytes(self.octets[first * SECTOR : (first + count) * SECTOR])

    def reading(self):
        """A recovery of the image as it now is."""
        reader = Reader(self.octets)
        reader.answer()
        return reader

    def a_slot(self):
        """A place of a slot, mostly a low one."""
        return self.chance.randrange(self.chance.choice((1, min(3, self.slots), self.slots)))

    def a_sector(self, kind, image=None):
        """A sector of a kind, in this image or in another."""
        its, area = image or self, self.chance.choice("AB")
        return {
            "geometry": lambda: 0,
            "gate of the disk": lambda: 1,
            "gate of an area": lambda: its.first(area),
            "header": lambda: its.first(area) + 1,
            "record": lambda: its.port(area, self.chance.randrange(its.ports)) + self.chance.choice((0, 0, 1)),
            "gate of a slot": lambda: its.slot(area, min(its.slots - 1, self.a_slot())),
            "body": lambda: its.slot(area, min(its.slots - 1, self.a_slot())) + 1 + self.chance.choice((0, 0, 0, 1, 2)),
        }[kind]()

    def a_kind(self):
        return self.chance.choices(list(KINDS), KINDS.values())[0]

    def other(self, name, was, likewise):
        """Other octets for a field: about a bound, about what stood there, of another field of the name, or any."""
        most = 256 ** len(was) - 1
        if name == "gate":
            near = made.OPEN[:7] + b"\0", b"\0" + made.OPEN[1:], self.chance.randbytes(8), bytes(8), made.OPEN
            return self.chance.choice(near)
        if self.chance.random() < 0.2:
            place = self.chance.randrange(len(was))
            return was[:place] + self.chance.randbytes(1) + was[place + 1 :]
        number = int.from_bytes(was, "big")
        near = [0, 1, most, number - 1, number + 1, *BOUNDS.get(name, ()), *likewise]
        return (self.chance.choice(near) % (most + 1)).to_bytes(len(was), "big")

    def field(self):
        """A field that a recovery reads."""
        named = {}
        for field in self.reading().seen:
            if field.count:
                named.setdefault(field.name, []).append(field)
        if not named:
            return None
        names = sorted(named)
        name = self.chance.choices(names, [1 if name in GEOMETRY else 5 for name in names])[0]
        places = self.chance.choice(named[name]).places()
        if len(places) > 8:
            # (one of the octets of an entry)
            places = [self.chance.choice(places)]
        was = bytes(self.octets[place] for place in places)
        others = self.chance.choice(named[name]).places()[:8]
        becomes = self.other(name, was, [int.from_bytes(bytes(self.octets[place] for place in others), "big")])
        for place, octet in zip(places, becomes):
            self.octets[place] = octet
        at = f"sector {places[0] // SECTOR} octet {places[0] % SECTOR}"
        return None if was == becomes else f"{at}, {name}: {was.hex().upper()} becomes {becomes.hex().upper()}"

    def gate(self):
        sector = self.a_sector(self.chance.choice(("gate of an area", "gate of a slot")))
        octets = self.chance.choice((made.OPEN, made.OPEN, b"\0", made.OPEN + b"\xff" * 504, made.OPEN[:7] + b"\xa5"))
        self.put(sector, octets)
        return f"the gate in sector {sector} becomes {octets[:9].hex().upper()}"

    def header(self):
        """A header of numbers about those of both areas, and often an open gate before it."""
        near = [int.from_bytes(self.sectors(self.first(area) + 1)[at : at + 8], "big") for area in "AB" for at in (0, 8)]
        near = [0, 1, 2, *near, *(number + 1 for number in near)]
        area, epoch, base = self.chance.choice("AB"), self.chance.choice(near), self.chance.choice(near)
        version = self.chance.choice((made.FIRST, made.WRITTEN, made.WRITTEN, made.WRITTEN, 1, self.chance.randrange(256)))
        octets = b"".join((number % 2**64).to_bytes(8, "big") for number in (epoch, base)) + bytes([version])
        self.put(self.first(area) + 1, octets)
        if self.chance.random() < 0.6:
            self.put(self.first(area), made.OPEN)
        return f"the header of area {area} becomes {octets.hex().upper()}, its gate {self.sectors(self.first(area))[:8].hex().upper()}"

    def head(self):
        """A recovery of the image, and the area and the place where it finds the next batch missing; or None."""
        reader = self.reading()
        if reader.why or reader.seen[-1].name != "gate":
            return None
        sector = reader.seen[-1].sectors[0]
        area = "A" if sector < self.first("B") else "B"
        return reader, area, (sector - self.slot(area, 0)) // SLOT_SECTORS

    def a_configuration(self):
        mode, validation = self.chance.choice((0, 1, 1, 1, 4)), self.chance.choice((0, 2, 3, 3, 3, 4))
        vendor, device = self.chance.choice(((500, 43981), (500, 43982), (self.chance.randrange(2**16), self.chance.randrange(2**24))))
        return made.config(mode, validation, vendor, device)

    def a_label(self):
        """Mostly one that is a label: of 0 to 33 octets, now and then with one that may not stand in it."""
        octets = bytes(self.chance.choice(b" ABz~&<\\!#") for _ in range(self.chance.choice((0, 0, 0, 1, 6, 31, 32, 33))))
        return octets if self.chance.random() < 0.9 else octets + bytes([self.chance.choice((0x1F, 0x22, 0x7F, 0xFF))])

    def a_set(self, vendor, device):
        """A set of a few entries, or one of the largest or of an octet more; a key may be reserved or stand twice."""
        lengths = [self.chance.choice((0, 1, 2, 4, 231, 232)) for _ in range(self.chance.choice((0, 1, 2, 2, 3, 5)))]
        if self.chance.random() < 0.1:
            lengths = 17 * [232] + [self.chance.choice((80, 81))]
        indices = [64 + at if self.chance.random() < 0.95 else self.chance.choice((0, 1, 2, 3, 4, 64)) for at in range(len(lengths))]
        entries = [made.entry(index, 0, self.chance.randbytes(length)) for index, length in zip(indices, lengths)]
        return made.set_of(vendor, device, self.chance.randrange(2**32), entries)

    def a_record(self, reader):
        """A record of a command that mostly passes its check."""
        place = self.chance.randrange(len(reader.ports))
        port = reader.ports[place]
        kind = self.chance.choice(("configure", "clear", "rollback", "store", "store", "store"))
        if kind == "rollback" and (port.previous or self.chance.random() < 0.1):
            return made.rollback(place + 1)
        if kind == "clear":
            return bytes([2, place + 1 + self.chance.choice((0, 0, 0, len(reader.ports)))])
        if kind == "store" and (port.configuration[:2] == (1, 3) or self.chance.random() < 0.1):
            return made.store(place + 1, port.revision, self.a_set(*port.configuration[2:4]))
        return made.configure(place + 1, self.a_configuration(), reader.version, self.a_label())

    def batch_after(self):
        """A batch behind the last one."""
        head = self.head()
        if not head:
            return None
        reader, area, place = head
        records = [self.a_record(reader) for _ in range(self.chance.choice((1, 1, 1, 2, 4, self.chance.randrange(1, 66))))]
        self.batch(area, place, reader.epoch, reader.number + 1, records)
        return f"a batch in slot {place + 1} of area {area}, commands: {len(records)}"

    def slot_moved(self):
        """A slot in another place, mostly with the numbers that it has to have there."""
        head = self.head()
        if not head:
            return None
        reader, area, place = head
        source, of = self.slot(self.chance.choice("AB"), self.a_slot()), self.slot(area, place)
        octets = bytearray(self.sectors(source, SLOT_SECTORS))
        told = f"sectors {source} to {source + 16} again from sector {of} on"
        if self.chance.random() < 0.8:
            octets[:8] = made.OPEN
            octets[SECTOR : SECTOR + 16] = reader.epoch.to_bytes(8, "big") + (reader.number + 1).to_bytes(8, "big")
            told += f", with epoch {reader.epoch}, first {reader.number + 1}"
        self.put(of, octets)
        return told

    def record_of_port(self):
        """Another record of a port, mostly one that may stand there."""
        area, place = self.chance.choice("AB"), self.chance.randrange(self.ports)
        its = self.a_configuration()
        recorded = self.chance.choice((None, made.IN_USE, its[:1] + b"\3" + its[2:]))
        numbers = (recorded or its)[2:]
        parameters = self.a_set(int.from_bytes(numbers[:2], "big"), int.from_bytes(numbers[2:], "big"))
        previous = b"\0"
        if recorded and self.chance.random() < 0.5 or self.chance.random() < 0.05:
            before = self.a_set(int.from_bytes(numbers[:2], "big"), int.from_bytes(numbers[2:], "big"))
            previous = made.stored(recorded or made.IN_USE, before, self.version(area), self.a_label())
        labels = self.a_label(), self.a_label()
        octets = made.port(its, self.chance.choice((0, 1, 7, 2**64 - 1)), recorded, parameters, self.version(area), *labels, previous)
        self.put(self.port(area, place), octets)
        return f"the record of port {place + 1} of area {area} becomes {octets[:48].hex().upper()} .. of {len(octets)} octets"

    def swapped(self):
        kind = self.a_kind()
        one, two = self.a_sector(kind), self.a_sector(kind if self.chance.random() < 0.7 else self.a_kind())
        octets, others = self.sectors(one), self.sectors(two)
        self.put(one, others)
        self.put(two, octets)
        return None if octets == others else f"sectors {one} and {two} are swapped"

    def foreign_sector(self):
        """A sector of a kind from another image."""
        name, kind = self.any_base(self.found), self.a_kind()
        base = self.found[name]
        image = made.Image.__new__(made.Image)
        image.octets, image.ports, image.slots = base.octets, base.ports, base.slots
        sector, source = self.a_sector(kind), self.a_sector(kind, image)
        octets = base.octets[source * SECTOR : (source + 1) * SECTOR]
        same = octets == self.sectors(sector)
        self.put(sector, octets)
        return None if same else f"sector {sector} becomes sector {source} of the image {name}"

    def areas(self):
        """The areas swapped, or one of them or a part of it copied over the other."""
        one, two = self.chance.sample("AB", 2)
        whole = made.area_sectors(self.ports, self.slots)
        count = self.chance.choice((whole, whole, 1, 2, self.port(one, self.ports) - self.first(one), whole - SLOT_SECTORS))
        octets, others = self.sectors(self.first(one), count), self.sectors(self.first(two), count)
        self.put(self.first(two), octets)
        if self.chance.random() < 0.3:
            return f"area {two} begins as area {one}, sectors: {count}"
        self.put(self.first(one), others)
        return f"the areas are swapped, sectors of each: {count}"

    def foreign_area(self):
        """An area of another image that has as many ports and slots."""
        own = (self.ports, self.slots)
        alike = {name: base for name, base in self.found.items() if (base.ports, base.slots) == own and name != self.name}
        if not alike:
            return None
        name, source, area = self.any_base(alike), self.chance.choice("AB"), self.chance.choice("AB")
        at, whole = self.first(source), made.area_sectors(*own)
        self.put(self.first(area), alike[name].octets[at * SECTOR : (at + whole) * SECTOR])
        return f"area {area} becomes area {source} of the image {name}"

    def octet(self):
        sector, at, octet = self.a_sector(self.a_kind()), self.chance.randrange(SECTOR), self.chance.randrange(256)
        if sector * SECTOR + at >= len(self.octets):
            return None
        self.octets[sector * SECTOR + at] = octet
        return f"sector {sector} octet {at} becomes {octet:02X}"

    def noise(self):
        sector, octet = self.a_sector(self.a_kind()), self.chance.randrange(256)
        octets, word = self.chance.choice(((bytes(SECTOR), "zeros"), (bytes([octet]) * SECTOR, f"{octet:02X} repeated")))
        self.put(sector, octets)
        return f"sector {sector} becomes {word}"

    def cut(self):
        needed = (2 + 2 * made.area_sectors(self.ports, self.slots)) * SECTOR
        near = 0, 511, 1023, 1024, 1535, needed - SECTOR, needed - 1, needed, needed // 2, self.chance.randrange(needed)
        count = self.chance.choice(near)
        if count >= len(self.octets):
            return None
        del self.octets[count:]
        return f"cut to {count} octets"

    def lengthened(self):
        octets = self.chance.choice((bytes(1), bytes(SECTOR), self.chance.randbytes(SECTOR - 1), self.chance.randbytes(3 * SECTOR)))
        self.octets += octets
        return f"{len(octets)} octets more"


# The changes, and how often each is made beside the others.
CHANGES = {
    Mutant.field: 40, Mutant.gate: 6, Mutant.header: 6, Mutant.batch_after: 20, Mutant.slot_moved: 8, Mutant.record_of_port: 10,
    Mutant.swapped: 4, Mutant.foreign_sector: 6, Mutant.areas: 4, Mutant.foreign_area: 6, Mutant.octet: 3, Mutant.noise: 3,
    Mutant.cut: 2, Mutant.lengthened: 3,
}  # fmt: skip
