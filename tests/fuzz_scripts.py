"""Makes scripts for tests/fuzz from a seed: most are valid and do much, some are near the limits, and a few are not valid.

A script is a table as TOML has it: `ports`, `slots`, `fail`, and the arrays `device` and `step` (docs/FORMATS.md, "Scripts").
"""

import json
import random

from fuzz_words import given_up

KEEPS = ("old", "new", "zero", "pattern")
VENDORS, DEVICES = (500, 501, 1, 65535), (43981, 43982, 0, 16777215)
INDEXES = (64, 65, 66, 1, 4, 255, 256, 257, 4660, 65535)
SUBINDEXES = (0, 0, 0, 1, 2, 255)
LARGEST = 65_536
NEVER = 2**63 - 1


def toml_value(value):
    """A number, a truth value, a text or an array as TOML has it."""
    if isinstance(value, bool):
        return str(value).lower()
    if isinstance(value, list):
        return "[" + ", ".join(map(toml_value, value)) + "]"
    return str(value) if isinstance(value, int) else json.dumps(value)


def toml_text(script):
    """The text of a script: its numbers, then a table for each device and each step."""
    lines = [f"{key} = {toml_value(value)}" for key, value in script.items() if key not in ("device", "step")]
    for kind in ("device", "step"):
        for table in script.get(kind, []):
            lines += ["", f"[[{kind}]]", *(f"{key} = {toml_value(value)}" for key, value in table.items())]
    return "".join(f"{line}\n" for line in lines)


class Maker:
    """Makes one script by the numbers that its seed draws."""

    def __init__(self, seed, number):
        self.random = random.Random(f"{seed} {number}")
        self.script, self.steps, self.devices, self.names = {}, [], [], {}

    def draw(self, *weighted):
        """One of these values, each of which stands behind its weight."""
        return self.random.choices(weighted[1::2], weighted[::2])[0]

    def is_so(self, percent):
        return self.random.randrange(100) < percent

    def number(self, least, most):
        return self.random.randint(least, most)

    def make(self):
        """A script of one of the kinds."""
        kinds = {
            self.make_plant: 22,
            self.make_replacements: 34,
            self.make_long: 4,
            self.make_between: 10,
            self.make_queue: 8,
            self.make_largest: 8,
            self.make_checkpoints: 7,
            self.make_many: 7,
        }
        self.random.choices(list(kinds), list(kinds.values()))[0]()
        if self.is_so(40):
            self.end_in_a_batch()
        if self.is_so(25):
            most = self.draw(6, 4, 6, 12, 3, 40)
            self.script["fail"] = f"{self.draw(1, 'read', 5, 'write', 5, 'sync')} {self.number(1, most) + self.draw(3, 0, 1, 9)}"
        if self.is_so(85):
            self.steps.append({"do": "stop", "keep": self.random.choice(KEEPS)})
        self.script.update(device=self.devices, step=self.steps)
        if self.is_so(4):
            self.make_mistake()
        return self.cut()

    def end_in_a_batch(self):
        """Ends the steps in the midst of a batch or of a checkpoint, mostly of one that has nothing before it."""
        self.draw(3, self.drain, 1, self.flush)()
        for _ in range(self.draw(4, 1, 1, 0, 1, 3)):
            self.configure(self.random.choice(self.ports))
        self.flush(self.draw(6, self.number(1, 7), 3, self.number(8, 40)))

    def cut(self):
        """The script, with fewer devices where its text would be too long."""
        while len(toml_text(self.script)) > LARGEST and self.devices:
            self.devices.pop()
        return self.script

    # What a script is about.

    def set_geometry(self, ports, slots):
        """Sets a geometry whose areas keep so many slots, or as many as there may be."""
        self.script.update(ports=ports, slots=min(256, slots + given_up(ports)))
        self.ports = list(range(1, ports + 1))

    def make_plant(self):
        """A few ports, whose devices are backed up, lost and replaced while clients configure them."""
        self.set_geometry(self.draw(4, 1, 4, 2, 2, 3, 1, self.number(4, 8)), self.draw(8, self.number(1, 6), 2, self.number(7, 20)))
        for port in self.ports:
            self.put_devices(port)
        self.begin(self.ports)
        for _ in range(self.draw(1, 0, 3, self.number(1, 8), 3, self.number(8, 24))):
            self.do_something()

    def make_replacements(self):
        """Devices that are backed up and replaced, with as many steps as each wants, and something between at times."""
        self.set_geometry(self.draw(3, 1, 2, 2), self.number(1, 8))
        for port in self.ports:
            self.put_devices(port, self.draw(5, 2, 4, 3, 1, 4))
            first = next(device for device in self.devices if device["port"] == port)
            if self.is_so(85):
                first["answers"] = 8 + len(first["keys"]) + self.draw(4, 0, 1, 1, 1, 2)
            self.configure(port, usual=97)
        self.drain()
        for place in range(self.number(3, 5)):
            for port in self.ports:
                count = max(len(device["keys"]) for device in self.devices if device["port"] == port)
                self.step_port(port, count + self.draw(6, 13, 1, self.number(9, 13)))
                self.draw(6, self.drain, 1, self.flush, 1, self.do_something)()
                self.step_port(port, self.draw(7, self.number(4, 9), 1, self.number(1, 3)))
            if place and self.is_so(30):
                self.do_something()

    def make_long(self):
        """Many steps in any order, and many devices."""
        self.set_geometry(self.number(1, 4), self.number(1, 12))
        for port in self.ports:
            self.put_devices(port, self.number(1, 9))
        for _ in range(self.number(60, 160)):
            self.do_something()

    def make_between(self):
        """A client's command where a port knows what to do with the device in its first one's place, and has no permit yet."""
        self.set_geometry(self.draw(3, 1, 1, 2), self.number(2, 8))
        self.put_devices(1, self.number(2, 3))
        first, count = self.devices[0], len(self.devices[0]["keys"])
        for key in ("event", "locked", "revision", "isdu"):
            first.pop(key, None)
        first["answers"] = 8 + count
        self.configure(1, usual=100)
        self.drain()
        if self.is_so(60):
            # (the first one is backed up and lost)
            for times in (13 + count, 4):
                self.step_port(1, times)
                self.drain()
        for _ in range(self.number(1, 3)):
            self.go_between(1)
            self.draw(1, self.drain, 1, self.flush, 1, self.do_something)()

    def make_queue(self):
        """Up to 70 commands that wait, with a set among them, which is mostly handed in where the queue is full."""
        self.set_geometry(self.number(1, 3), self.number(1, 5))
        self.put_devices(1)
        self.configure(1, usual=95)
        self.drain()
        self.step_port(1, self.number(1, 14))
        for _ in range(self.number(60, 72)):
            # (mostly of another port than 1, whose upload goes on beside the queue)
            port = self.random.choice(self.ports[1:] or self.ports) if self.is_so(95) else 1
            self.draw(10, self.configure, 2, self.clear, 1, self.rollback)(port)
        self.step_port(1, self.number(1, 20))
        for _ in range(self.number(2, 10)):
            self.do_something()

    def make_largest(self):
        """Sets near the greatest size, which take several sectors and slots."""
        self.set_geometry(self.number(1, 4), self.number(1, 4))
        for port in self.ports:
            self.put_large(port)
        self.begin(self.ports, 32)
        for _ in range(self.number(2, 10)):
            self.do_something(longest=40)

    def make_checkpoints(self):
        """Few slots and many batches, and so one checkpoint behind another, with batches beside them."""
        slots = self.draw(5, self.number(1, 4), 1, self.number(5, 40))
        self.set_geometry(self.number(1, 3), slots)
        self.put_devices(1)
        self.begin([1])
        for _ in range(self.number(4, 12) + slots // 2):
            self.draw(8, self.configure, 2, self.clear, 1, self.rollback)(self.number(1, self.ports[-1]))
            self.draw(2, self.drain, 3, self.flush)()
            if self.is_so(30):
                self.step_port(1)

    def make_many(self):
        """Many ports or slots, and numbers at their ends."""
        self.set_geometry(self.draw(1, 32, 1, self.number(9, 31), 1, 1), self.draw(1, 256, 1, self.number(1, 255), 2, 2))
        active = self.random.sample(self.ports, min(len(self.ports), self.draw(4, self.number(1, 4), 1, 32)))
        for port in active:
            self.put_devices(port, self.draw(1, 1, 1, None))
        self.begin(active)
        if self.is_so(20):
            self.flush(10_000)
        for _ in range(self.number(2, 10)):
            self.do_something(active)

    # Devices.

    def parameters(self, count, most):
        """So many keys, no two the same, and octets for them."""
        keys = [[index, subindex] for index in INDEXES for subindex in sorted(set(SUBINDEXES))]
        keys = self.random.sample(keys, min(count, len(keys))) + [[1000 + place, 0] for place in range(max(0, count - len(keys)))]
        return keys, [self.octets(self.number(0, most)) for _ in keys]

    def octets(self, count):
        """Octets as digits; zeros often, of which the checksum is that of others too."""
        digits = self.draw(3, "00", 12, None)
        octets = "".join(digits or f"{self.number(0, 255):02X}" for _ in range(count))
        return octets.lower() if self.is_so(10) else octets

    def put_devices(self, port, count=None):
        """A device at a port, and those that come in its place."""
        keys, values = self.parameters(self.draw(1, 0, 15, self.number(1, 4), 2, self.number(5, 12)), self.draw(6, 3, 1, 20))
        # (vendor and device)
        name = self.names[port] = [self.draw(6, VENDORS[0], 1, self.random.choice(VENDORS)), self.random.choice(DEVICES)]
        count = count or self.draw(1, 0, 6, 1, 8, 2, 4, 3, 1, 5)
        for place in range(count):
            device = {"port": port, "vendor": name[0], "device": name[1], "keys": list(keys), "values": list(values)}
            if place:
                self.replace(device)
            self.vary(device, place, place + 1 < count)
            self.devices.append(device)

    def replace(self, device):
        """Makes a device one that comes in the place of another: as it was, blank, with other parameters, or a stranger."""
        keys, values = device["keys"], device["values"]
        how = self.draw(2, "same", 8, "blank", 5, "other", 2, "longer", 2, "fewer", 2, "stranger")
        if how == "blank":
            device["values"] = ["00" * (len(octets) // 2) for octets in values]
        elif how == "other":
            device["values"] = [self.octets(len(octets) // 2) for octets in values]
        elif how == "longer":
            device["values"] = [(octets + "00")[self.draw(1, 0, 1, 4) :] for octets in values]
        elif how == "fewer":
            device.update(keys=keys[1:], values=values[1:])
        elif how == "stranger":
            key = self.draw(1, "vendor", 1, "device")
            device[key] = self.random.choice([number for number in (VENDORS if key == "vendor" else DEVICES) if number != device[key]])

    def vary(self, device, place, is_followed):
        """Gives a device its flag, its loss and its event, and a fault at times."""
        # (so many calls take an upload to its end, or a download)
        whole = len(device["keys"]) + self.draw(3, 8, 1, 5)
        if self.is_so(60 if not place else 15):
            device["flag"] = self.is_so(80)
        if self.is_so(90 if is_followed else 15):
            device["answers"] = self.draw(6, whole + self.number(0, 3), 3, self.number(0, whole), 2, self.number(8, 30), 1, NEVER)
        if self.is_so(10 if place else 20):
            device["event"] = self.draw(4, self.number(0, 12), 3, self.number(8, 30), 1, NEVER)
        if self.is_so(6):
            device["locked"] = True
        if self.is_so(5):
            device["revision"] = self.draw(1, 16, 1, 0, 1, 18, 1, 255)
        if self.is_so(3):
            device["isdu"] = False

    def put_large(self, port):
        """A device whose set counts near 4,096, the most: the last value is cut so that it is that, one less or one more."""
        name = self.names[port] = [VENDORS[0], DEVICES[0]]
        count = self.draw(2, 17, 1, 69, 1, self.number(2, 16))
        size = min(232, (4096 - 4 * count) // count)
        left = 4096 - 4 * (count + 1) - size * count + self.draw(6, 0, 2, -1, 2, 1)
        sizes = [size] * count + [max(0, min(232, left))]
        keys = [[256 + place, place % 3] for place in range(count + 1)]
        values = ["".join(f"{(place + octet) & 255:02X}" for octet in range(length)) for place, length in enumerate(sizes)]
        device = {"port": port, "vendor": name[0], "device": name[1], "keys": keys, "values": values, "flag": self.is_so(80)}
        if self.is_so(50):
            device["answers"] = self.number(10, 40)
        self.devices.append(device)

    # Steps.

    def begin(self, ports, times=None):
        """Configures ports for their devices, so that these are backed up and told so: mostly whole, sometimes cut short."""
        for port in ports:
            if self.is_so(95):
                self.configure(port, usual=90)
        self.draw(8, self.drain, 2, self.flush)()
        for _ in range(self.draw(1, 1, 3, 2, 4, 3, 2, 4)):
            for port in ports:
                self.step_port(port, times or self.draw(8, self.number(13, 24), 2, self.number(1, 12)))
            self.draw(8, self.drain, 2, self.flush)()

    def do_something(self, ports=None, longest=30):
        """One step of some kind, or several that go side by side."""
        port = self.random.choice(ports or self.ports)
        kind = self.draw(
            3, "configure", 1, "clear", 2, "rollback", 10, "port", 4, "flush", 5, "drain", 3, "beside", 4, "between", 1, "nowhere"
        )
        if kind in ("configure", "clear", "rollback"):
            getattr(self, kind)(port)
        elif kind == "port":
            self.step_port(port, self.draw(3, self.number(1, 4), 5, self.number(5, 16), 2, self.number(17, longest)))
        elif kind in ("beside", "between"):
            getattr(self, f"go_{kind}")(port)
        elif kind == "nowhere":
            self.draw(1, self.configure, 1, self.clear, 1, self.rollback)(self.draw(1, min(32, self.script["ports"] + 1), 1, 32))
        else:
            getattr(self, kind)()

    def go_beside(self, port):
        """Steps of a port, of the flusher and of clients in turns."""
        for _ in range(self.number(3, 12)):
            kind = self.draw(12, self.step_port, 12, self.flush, 2, self.configure, 1, self.rollback)
            if kind in (self.configure, self.rollback):
                kind(port)
            else:
                kind(*([port] if kind == self.step_port else []), times=self.number(1, 2))

    def go_between(self, port):
        """A client's command in the midst of what a port begins, mostly where it knows what to do and has no permit yet."""
        if self.is_so(50):
            self.configure(port, usual=95)
        self.step_port(port, self.draw(6, 5, 1, 6, 2, self.number(1, 16)))
        if self.is_so(30):
            self.draw(2, self.clear, 1, self.rollback)(port)
        else:
            self.configure(port, usual=100)
            stranger = {"device": self.random.choice(DEVICES)}
            self.steps[-1].update(self.draw(2, {}, 4, stranger, 2, {"validation": 4}, 2, {"validation": self.number(0, 2)}, 1, {"mode": 0}))
        self.step_port(port)

    def configure(self, port, usual=65):
        """Configures a port, mostly for its device."""
        vendor, device = self.names.get(port, (VENDORS[0], DEVICES[0]))
        mode, validation = 1, 3
        if not self.is_so(usual):
            mode, validation = self.draw(8, 1, 1, self.number(0, 4)), self.draw(4, 4, 3, 3, 2, self.number(0, 2))
            if self.is_so(25):
                vendor, device = self.random.choice(VENDORS), self.random.choice(DEVICES)
        named = {"port": port, "mode": mode, "validation": validation, "vendor": vendor, "device": device}
        if self.is_so(20):
            named["label"] = "".join(self.random.choice(" ABz09~&<>\\'#") for _ in range(self.draw(1, 0, 4, self.number(1, 31), 1, 32)))
        self.steps.append({"do": "configure", **named})

    def clear(self, port):
        self.steps.append({"do": "clear", "port": port})

    def rollback(self, port):
        self.steps.append({"do": "rollback", "port": port})

    def step_port(self, port, times=None):
        self.steps.append({"do": "port", "port": port, "times": times or self.number(1, 16)})

    def flush(self, times=None):
        self.steps.append({"do": "flush", "times": times or self.draw(3, 7, 4, self.number(1, 12), 1, self.number(13, 60))})

    def drain(self):
        self.steps.append({"do": "drain"})

    # Mistakes.

    def make_mistake(self):
        """Makes a script one that cannot be run, or that is at a limit and can."""
        table = self.random.choice(self.steps + self.devices) if self.steps + self.devices else self.script
        kind = self.number(1, 8)
        if kind == 1:
            self.script[self.draw(1, "ports", 1, "slots")] = self.draw(1, 0, 1, 33, 1, 257, 1, -1, 1, 256)
        elif kind == 2:
            table[self.draw(1, "port", 1, "times", 1, "vendor", 1, "device", 1, "mode")] = self.draw(1, 0, 1, 33, 1, 10001, 1, 5, 1, 65536)
        elif kind == 3:
            table[self.draw(1, "prot", 1, "keep", 1, "keys", 1, "do")] = self.draw(1, "old", 1, 1)
        elif kind == 4:
            table.pop(self.random.choice(list(table)), None)
        elif kind == 5:
            self.script["fail"] = self.draw(1, "write 0", 1, "sync 01", 1, "read  1", 1, "write 1000001", 1, "sync", 1, "sync 1000000")
        elif kind == 6 and self.is_so(50):
            table["label"] = self.draw(1, "A" * 33, 1, '"', 1, "\t", 1, "\u007f", 1, "é", 1, "A" * 32, 1, 7)
        elif kind == 6:
            self.steps.insert(0, {"do": "stop", "keep": "old"})
        elif kind == 7 and self.devices:
            device = self.random.choice(self.devices)
            key = self.random.choice(([0, 0], [3, 1], [2, 9], [1, 0], [65535, 255], [65536, 0], [7, 256], [7]))
            device["keys"] = device.get("keys", []) + [key]
            device["values"] = device.get("values", []) + [self.draw(1, "00", 1, "0", 1, "0G", 1, "00" * 233, 1, "00" * 232, 1, "ab")]
        elif kind == 8 and self.devices:
            count = self.draw(1, 70, 1, 71)
            keys = [[300 + place, 0] for place in range(count)]
            self.random.choice(self.devices).update(keys=keys, values=["0A"] * count)


def make(seed, number):
    """The script of a number, which is the same for the same seed."""
    return Maker(seed, number).make()
