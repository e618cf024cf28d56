"""Plays a script by another reading of docs/FORMATS.md and docs/ARCHITECTURE.md, line by line, with the calls of its disk.

It says what a run has to print, and so also that ports and the flusher get on, of which no rule of tests/fuzz_judge.py speaks.
"""

import functools
import itertools

import fuzz_errors as errors
import fuzz_judge as judge
import fuzz_port
import fuzz_words as words

SECTOR_OCTETS = 512
SLOT_OCTETS = 8192
SLOT_SECTORS = 16
HEAD_OCTETS = 22


class Failed(Exception):
    """The disk call failed that the script lets fail."""


class Core:
    """What clients, ports and the flusher share: what was accepted, what of it is durable, and whether the disk has failed."""

    def __init__(self, ports):
        self.commands, self.states, self.acknowledged, self.has_failed, self.lines = [], [(words.Port(),) * ports], 0, False, []

    def live(self, port):
        return self.states[-1][port - 1]

    def durable(self, port):
        return self.states[self.acknowledged][port - 1]

    def refusal(self, command):
        """Why a command is not taken; nothing where it is."""
        if self.has_failed:
            return "Stopped"
        if command.port > len(self.states[0]):
            return "UnknownPort"
        if command.is_rollback and not self.live(command.port).previous:
            return "NoPrevious"
        return "QueueFull" if len(self.commands) - self.acknowledged == words.MOST_WAITING else None

    def submit(self, command):
        """Takes a command and tells its number, or says why not."""
        cause = self.refusal(command)
        if not cause:
            self.commands.append(command)
            self.states.append(words.state_after(self.states[-1], command))
            self.lines.append(f"accepted {len(self.commands)}")
        return cause


class Disk:
    """The calls of a disk, each a line, and the one that fails."""

    def __init__(self, script, lines):
        self.ports, self.lines = script["ports"], lines
        self.slots = script["slots"] - words.given_up(self.ports)
        self.area_sectors = 2 + 9 * self.ports + 17 * script["slots"]
        self.kind, _, number = script.get("fail", "none 0").partition(" ")
        # The recovery before the run makes the first sync, and all reads.
        self.left = int(number) - (self.kind == "sync")

    def call(self, kind, line):
        self.lines.append(line)
        self.left -= kind == self.kind
        if kind == self.kind and self.left == 0:
            raise Failed

    def sync(self):
        self.call("sync", "disk sync")

    def write(self, area, offset, place):
        """Writes a sector of an area."""
        sector = 2 + offset + self.area_sectors * (area == "B")
        self.call("write", f"disk write sector {sector}, {place}")

    def write_gate(self, area, how):
        self.write(area, 0, f"gate of area {area}, {how}")

    def write_slot_gate(self, area, slot, how):
        self.write(area, 2 + 17 * (self.ports + slot - 1), f"gate of slot {slot} in area {area}, {how}")

    def write_body(self, area, slot, place):
        """Writes one sector of a body, which goes on in the slots behind and leaves out their gates."""
        slot, place = slot + place // SLOT_SECTORS, place % SLOT_SECTORS
        self.write(area, 3 + 17 * (self.ports + slot - 1) + place, f"body of slot {slot} in area {area}")

    def write_header(self, area):
        self.write(area, 1, f"header of area {area}")

    def write_record(self, area, port, place):
        self.write(area, 2 + 17 * (port - 1) + place, f"record of port {port} in area {area}")


def places(octets, size):
    """How many places of a size so many octets take."""
    return -(-octets // size)


class Flusher:
    """Brings batches to the disk, one call at a time, and makes checkpoints beside them."""

    def __init__(self, core, disk):
        self.core, self.disk, self.lines, self.turns = core, disk, core.lines, self.make_turns()
        # The area in use and its used slots; the checkpoint that is under way, the batches that it has to carry, and whether its
        # gate is written; the number up to which gates are synced, and up to which they are written.
        self.area, self.used = "A", 0
        self.checkpoint, self.owed, self.is_opening = None, [], False
        self.synced, self.written = 0, 0

    def turn(self):
        """Makes a turn, and says whether there was anything to do."""
        if self.core.has_failed:
            return False
        try:
            return next(self.turns)
        except Failed:
            self.lines.append("disk failed")
            self.core.has_failed = True
            return True

    def make_turns(self):
        """Turn by turn: a batch that waits goes before the next call of a checkpoint, but for the last one."""
        while True:
            waiting = self.core.commands[self.core.acknowledged :]
            if waiting and not self.is_opening:
                yield True
                yield from self.bring(*self.longest(waiting))
            elif self.checkpoint or 2 * self.used >= self.disk.slots:
                self.go_on()
                yield True
            else:
                yield False

    def longest(self, waiting):
        """How many of the first commands fit the free slots, or one where none is free, and the octets of their batch."""
        room = SLOT_OCTETS * max(1, self.disk.slots - self.used)
        count, octets = 0, HEAD_OCTETS
        while count < len(waiting) and octets + waiting[count].record_octets() <= room:
            octets += waiting[count].record_octets()
            count += 1
        return count, octets

    def bring(self, count, octets):
        """Frees slots for a batch that was taken, writes it, publishes it and acknowledges it."""
        last, slots = self.core.acknowledged + count, places(octets, SLOT_OCTETS)
        while self.disk.slots - self.used < slots:
            self.go_on()
            yield True
        *calls, gate, sync = self.calls_of_batch(self.area, self.used + 1, octets)
        for call in calls:
            call()
            yield True
        self.written = last
        gate()
        yield True
        sync()
        self.synced = last
        yield True
        self.used += slots
        self.owed += [octets] if self.checkpoint else []
        yield True
        self.core.acknowledged = last
        self.lines.append(f"acknowledged {last}")
        yield True

    def calls_of_batch(self, area, slot, octets):
        """The calls of a batch: its body, a sync, the gate of its first slot, a sync."""
        body = [functools.partial(self.disk.write_body, area, slot, place) for place in range(places(octets, SECTOR_OCTETS))]
        return [*body, self.disk.sync, functools.partial(self.disk.write_slot_gate, area, slot, "open"), self.disk.sync]

    def go_on(self):
        """Makes the next call of the checkpoint, which is begun where none is under way."""
        if not self.checkpoint:
            self.owed, self.checkpoint = [], self.make_checkpoint("B" if self.area == "A" else "A")
        next(self.checkpoint)

    def make_checkpoint(self, area):
        """Makes the calls of a checkpoint of what is durable now; batches that are written meanwhile are carried over."""
        for call in self.calls_of_snapshot(area, self.core.states[self.core.acknowledged]):
            call()
            yield
        used = 0
        while self.owed:
            for call in self.calls_of_batch(area, used + 1, self.owed[0]):
                call()
                yield
            used += places(self.owed.pop(0), SLOT_OCTETS)
        self.disk.write_gate(area, "open")
        self.is_opening = True
        yield
        self.disk.sync()
        self.area, self.used, self.checkpoint, self.is_opening = area, used, None, False
        yield

    def calls_of_snapshot(self, area, state):
        """The calls up to the sync of the records: the gate closed, those of the slots closed, header and records."""
        disk, part = self.disk, functools.partial
        yield from (part(disk.write_gate, area, "closed"), disk.sync)
        yield from (part(disk.write_slot_gate, area, slot, "closed") for slot in range(1, disk.slots + 1))
        yield from (disk.sync, part(disk.write_header, area))
        for port, held in enumerate(state, 1):
            sectors = places(words.port_record_octets(held), SECTOR_OCTETS)
            yield from (part(disk.write_record, area, port, place) for place in range(sectors))
        yield disk.sync


def make_step(step, core, machines, flusher):
    """Makes a step of a script."""
    command = words.client_command(step)
    if command:
        cause = core.submit(command)
        core.lines += [f"refused {cause}"] if cause else []
    elif step["do"] == "drain":
        while flusher.turn():
            pass
    else:
        make = machines[step["port"] - 1].step if step["do"] == "port" else flusher.turn
        for _ in range(step.get("times", 1)):
            make()


def play(script, keep):
    """The lines of a script's run, with those of its disk."""
    core = Core(script["ports"])
    flusher = Flusher(core, Disk(script, core.lines))
    devices = script.get("device", [])
    links = [fuzz_port.Link([device for device in devices if device["port"] == port]) for port in range(1, script["ports"] + 1)]
    machines = [fuzz_port.Machine(port, link, core) for port, link in enumerate(links, 1)]
    for step in script.get("step", []):
        if step["do"] != "stop":
            make_step(step, core, machines, flusher)
    number = flusher.written if keep in ("new", "pattern") else flusher.synced
    return [*core.lines, "stopped", *words.recovered_lines(number, core.states[number])]


def judge_played(script, plain, explained=None):
    """Claims that a run says what this reading of the documents says, plain and, if it was asked, explained."""
    played = play(script, errors.kept_by(script))
    bare = [line for line in played if not judge.LINES["disk"].fullmatch(line)]
    told = [(bare, plain.out.splitlines())]
    told += [(played, judge.without_words(explained.out))] if explained else []
    for wanted, said in told:
        pairs = itertools.zip_longest(wanted, said, fillvalue="nothing")
        differs = next(((place, *pair) for place, pair in enumerate(pairs, 1) if pair[0] != pair[1]), None)
        judge.claim("reading", differs is None, "line {} is to be {!r}, and is {!r}".format(*differs or [""] * 3))
