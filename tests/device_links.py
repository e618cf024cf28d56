"""Devices that answer what no simulated device answers: by a list of answers, or at random from a seed. tests/device_answers plays them.

A link has `event()`, which a port asks at each step, and `page()` and `respond(octets)`, which are None where the device is lost.
"""

from independent_device import pack

INDEX_DATA_STORAGE = 3
EVENT_UPLOAD, OTHER_EVENT = 0xFF91, 0xFF90
PAGE = bytes.fromhex("00 00 17 01 11 00 00 01 F4 00 AB CD 00 00 00 00")
BUSY = b"\x01"
MOST_DATA, MOST_OCTETS = 232, 238
LISTS = range(0x1200, 0x1300)
READ_OK, READ_FAULT, WRITE_OK, WRITE_FAULT = 0xD, 0xC, 0x5, 0x4
# One octet of Index, the same with one of Subindex, or two of Index with one of Subindex.
READS = {0x9: (1, 0), 0xA: (1, 1), 0xB: (2, 1)}
WORD = 2**64


class ScriptLink:
    """A device that raises an event at each step which asks for nothing, answers these octets one after another, and is then lost."""

    def __init__(self, answers):
        self.answers, self.requests, self.is_there = list(answers), [], True

    def event(self):
        return OTHER_EVENT if self.is_there else None

    def page(self):
        return PAGE if self.is_there else None

    def respond(self, octets):
        if len(self.requests) == len(self.answers):
            self.is_there = False
            return None
        self.requests.append(octets)
        return self.answers[len(self.requests) - 1]


class Chance:
    """Numbers that a seed determines: a linear congruential generator, of which the upper half is taken."""

    def __init__(self, seed, stream):
        self.state = (seed * 0x9E3779B97F4A7C15 + stream * 0xD1B54A32D192ED03) % WORD

    def number(self):
        self.state = (self.state * 6_364_136_223_846_793_005 + 1_442_695_040_888_963_407) % WORD
        return self.state >> 32

    def below(self, bound):
        return self.number() % bound

    def octets(self, count):
        """Up to four octets of one number."""
        return self.number().to_bytes(4, "big")[:count]

    def octet(self):
        return self.number() >> 24

    def fill(self, count):
        """So many octets, each of a number of its own."""
        return bytes(self.octet() for _ in range(count))


def with_octet(page, place, octet):
    return page[:place] + bytes([octet]) + page[place + 1 :]


class RandomLink:
    """Devices that answer random octets, which differ for each port and each seed, and mostly have this page. Most answers have the form
    that is asked for. Now and then the device is lost, and now and then it raises an event, mostly DS_UPLOAD_REQ."""

    def __init__(self, seed, port, page):
        self.chance, self.raising = Chance(seed, 2 * port), Chance(seed, 2 * port + 1)
        self.own_page = page
        # It is busy for `busy` more requests, and names `lists` more lists.
        self.busy = self.lists = 0
        self.value = self.short_value

    def event(self):
        if self.raising.below(24):
            return None
        octets = self.raising.octets(3)
        return int.from_bytes(octets[:2], "big") if octets[2] < 64 else EVENT_UPLOAD

    def page(self):
        """Its page. Mostly only octets differ that are not read; else one of the others differs, or all of them."""
        if self.chance.below(64) == 0:
            return None
        page = with_octet(self.own_page, 15, self.chance.octet())
        kind = self.chance.below(128)
        if kind == 0:
            return self.chance.fill(16)
        if kind in (1, 2):
            return with_octet(page, *((3, 0x00) if kind == 1 else (4, 0x10)))
        if kind <= 12:
            return with_octet(page, {3: 8, 4: 11}.get(kind, 2), self.chance.octet())
        return page

    def respond(self, octets):
        """Its answer to a request: mostly one of the kind that is asked for."""
        if self.chance.below(400) == 0:
            return None
        if self.busy:
            self.busy -= 1
            return BUSY
        others = [self.any_octets, self.begin_busy, self.refused, lambda: self.spoiled(self.fitting(octets)), self.any_data,
                  lambda: pack(WRITE_OK)]
        kind = self.chance.below(160)
        return others[kind]() if kind < len(others) else self.fitting(octets)

    def any_octets(self):
        """Octets of any number that a link takes, and more often none."""
        return b"" if self.chance.below(6) == 0 else self.chance.fill(self.chance.below(MOST_OCTETS + 1))

    def begin_busy(self):
        self.busy = self.chance.below(24)
        return BUSY

    def refused(self):
        """A refusal of a read or of a write, whatever was asked."""
        codes = self.chance.octets(2)
        return pack(READ_FAULT if self.chance.below(2) == 0 else WRITE_FAULT, codes)

    def any_data(self):
        return pack(READ_OK, self.chance.fill(self.chance.below(MOST_DATA + 1)))

    def spoiled(self, octets):
        """These octets, some of them changed, and often without the last one."""
        spoiled = bytes(octet ^ (self.chance.octet() if self.chance.below(4) == 0 else 0) for octet in octets)
        return spoiled[:-1] if self.chance.below(2) == 0 else spoiled

    def fitting(self, octets):
        """An answer of the kind that is asked for."""
        service = octets[0] >> 4
        if service not in READS:
            return pack(WRITE_OK)
        wide, narrow = READS[service]
        body = octets[1:]
        return pack(READ_OK, self.object(int.from_bytes(body[:wide], "big"), body[wide] if narrow else 0))

    def object(self, index, subindex):
        """What is read of an object. Further lists are at 1200 to 12FF."""
        if index == INDEX_DATA_STORAGE:
            parts = {2: self.state_property, 3: self.size, 4: lambda: self.chance.below(4).to_bytes(4, "big"), 5: self.list}
            return parts.get(subindex, self.value)()
        return self.list() if index in LISTS and subindex == 0 else self.value()

    def state_property(self):
        """State_Property: mostly inactive, with DS_UPLOAD_FLAG set or clear; or locked, or any octet."""
        kind = self.chance.below(16)
        if kind == 0:
            return self.chance.octets(1)
        return b"\x06" if kind == 1 else b"\x00" if kind <= 8 else b"\x80"

    def size(self):
        """Data_Storage_Size: mostly one that is allowed."""
        if self.chance.below(40) == 0:
            return self.chance.octets(4)
        return self.chance.below(4097).to_bytes(4, "big")

    def list(self):
        """An Index_List: keys, and then its end or the Index of the next list. Few lists end in another way."""
        self.value = self.long_value if self.chance.below(8) == 0 else self.short_value
        kind = self.chance.below(16)
        keys = b""
        for _ in range(self.chance.below(77 if kind == 0 else 20 if kind <= 4 else 6)):
            low, subindex = self.chance.octets(2)
            keys += bytes([0x01, low, subindex % 4])
        return keys + self.end_of_list()

    def end_of_list(self):
        """Mostly 0000, the next list if several are named, and else any octets or a reserved Index."""
        if self.lists:
            self.lists -= 1
            return b"\x12" + self.chance.octets(1)
        kind = self.chance.below(32)
        if kind == 0:
            self.lists = self.chance.below(20)
            return b"\x12" + self.chance.octets(1)
        if kind == 1:
            return self.chance.fill(self.chance.below(5))
        return {2: b"\x00\x03", 3: b""}.get(kind, b"\x00\x00")

    def long_value(self):
        return self.chance.fill(MOST_DATA)

    def short_value(self):
        """The value of a parameter: mostly one octet or four."""
        kind = self.chance.below(16)
        if kind == 0:
            return self.chance.fill(self.chance.below(MOST_DATA + 1))
        return self.chance.fill(1 if kind <= 7 else 4 if kind <= 12 else self.chance.below(17))
