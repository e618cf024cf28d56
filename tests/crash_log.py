"""The log of a run's disk calls and of what it told, the images that a power stop leaves of it, and what is wrong with one."""

import random
import re
import struct
from collections import namedtuple

import reader

SECTOR = reader.SECTOR
HEAD = struct.Struct("=qqq")
SHOWN_RECORDS = 40
PATTERN = bytes.fromhex("A55A") * (SECTOR // 2)
# In words, and in JSON.
TOLD = re.compile(rb'(?:receipt|durable|ended)(?: |":|","number":)(\d+)')
# A record of a log: `write` of octets to a sector, `sync` that begins, `synced` when it has ended, or `told` with a number.
Record = namedtuple("Record", "kind sector octets number", defaults=(None, b"", 0))
# What is read of an image: the number of commands and the ports, or why it holds none.
State = namedtuple("State", "number ports why")


def log_of(records):
    """The records that tests/disk_calls.c wrote, but for reads."""
    log, at = [], 0
    while at < len(records):
        kind, place, count = HEAD.unpack_from(records, at)
        at += HEAD.size
        octets = records[at : at + count] if chr(kind) in "wWt" else b""
        at += len(octets)
        if chr(kind) in "wW":
            log += [Record("write", (place + more) // SECTOR, octets[more : more + SECTOR]) for more in range(0, count, SECTOR)]
        elif chr(kind) in "se":
            log.append(Record("sync" if chr(kind) == "s" else "synced"))
        elif chr(kind) == "t":
            log += [Record("told", number=int(number)) for number in TOLD.findall(octets)]
    return log


def state_of(image):
    """What a recovery finds on an image."""
    try:
        number, ports = reader.Reader(image).read()
    except reader.Cause as cause:
        return State(0, (), cause.told)
    return State(number, tuple(ports), None)


class Sweep:
    """A log that is gone through once: what is durable, and all that was written to each sector since the last sync that ended."""

    def __init__(self, image, log):
        self.durable, self.log, self.place, self.pending, self.told = bytearray(image), log, 0, {}, 0

    def step(self):
        """Takes the next record."""
        record = self.log[self.place]
        self.place += 1
        if record.kind == "write":
            self.pending.setdefault(record.sector, []).append(record.octets)
        elif record.kind == "synced":
            self.durable, self.pending = bytearray(self.with_sectors({n: its[-1] for n, its in self.pending.items()})), {}
        elif record.kind == "told":
            self.told = max(self.told, record.number)

    def with_sectors(self, sectors):
        image = bytearray(self.durable)
        for sector, octets in sectors.items():
            image[sector * SECTOR : sector * SECTOR + len(octets)] = octets
        return bytes(image)

    def newest(self):
        """The image with all that was written."""
        return self.with_sectors({sector: its[-1] for sector, its in self.pending.items()})

    def old(self, sector):
        return bytes(self.durable[sector * SECTOR : (sector + 1) * SECTOR])

    def left(self, choices):
        """An image that a power stop may leave here."""
        return self.with_sectors({sector: self.left_of(choices, sector) for sector in self.pending})

    def left_of(self, choices, sector):
        """What a power stop may leave of a sector that was written since the last sync: any of what it was given, the durable octets, one
        torn into another, or octets that nobody wrote."""
        known = [self.old(sector), *self.pending[sector]]
        how = choices.random()
        if how < 0.55:
            return choices.choice([known[0], known[-1], choices.choice(known)])
        if how < 0.8:
            cut = choices.randrange(1, SECTOR)
            return choices.choice(known)[:cut] + choices.choice([*known, PATTERN, choices.randbytes(SECTOR)])[cut:]
        return choices.choice([bytes(SECTOR), PATTERN, choices.randbytes(SECTOR)])


def states_of(image, log):
    """Each state that is on the disk when a sync has ended, and at the end, by its number; the place of the log behind which it is durable;
    and what is wrong with them, if anything."""
    sweep, last = Sweep(image, log), state_of(image)
    states, places = {last.number: last}, {}
    while sweep.place < len(log):
        sweep.step()
        if log[sweep.place - 1].kind == "synced" or sweep.place == len(log):
            state = state_of(sweep.newest())
            if state.number < last.number:
                return states, places, f"a sync leaves {state.number} commands of {last.number}"
            if states.setdefault(state.number, state) != state:
                return states, places, f"two states are the one behind {state.number} commands"
            last = state
            places.setdefault(state.number, sweep.place - 1)
    return states, places, None


class Judge:
    """What has to be on each image that a stop of a run leaves."""

    def __init__(self, states, is_right):
        self.states, self.is_right = states, is_right

    def wrong(self, image, told):
        """What is wrong with an image behind a receipt, or None."""
        state = state_of(image)
        if state.why:
            return None if state in self.states.values() and told == 0 else f"nothing is found: {state.why}"
        if state.number < told:
            return f"receipt {told} was told, and {state.number} commands are found"
        if self.states.get(state.number) != state:
            return f"no prefix of the commands has the state that is found behind {state.number} of them"
        return self.is_right(state)


def stops(image, log, judge, choices, count):
    """So many images at random places of a log: each with what is wrong with it, or None, and the receipt that was told before."""
    places = sorted(choices.randrange(len(log) + 1) for _ in range(count))
    sweep = Sweep(image, log)
    for place in places:
        while sweep.place < place:
            sweep.step()
        left = sweep.left(choices)
        yield place, left, sweep.told, judge.wrong(left, sweep.told)


def least(image, log, judge, seed):
    """The shortest beginning of a log of which some stop leaves a wrong image, and what is wrong there."""
    sweep = Sweep(image, log)
    for place in range(len(log) + 1):
        for again in range(40):
            wrong = judge.wrong(sweep.left(random.Random(f"{seed} {place} {again}")), sweep.told)
            if wrong:
                return place, wrong
        if place < len(log):
            sweep.step()
    return len(log), "it is not met again"


def lines_of(log):
    """The end of a log as lines, of which those up to each sync stand together."""
    log = log[-SHOWN_RECORDS:]
    said = {"write": "write {}", "sync": "sync begins", "synced": "sync ended\n", "told": "told {}\n"}
    return ", ".join(said[its.kind].format(its.sector if its.kind == "write" else its.number) for its in log).replace("\n, ", "\n")
