"""What the told calls of a disk make durable, for tests/fuzz_judge.py: gates, and what stands behind them (docs/FORMATS.md)."""

import re

from fuzz_words import given_up

WRITE = re.compile(r"write sector \d+, ((?:gate|header|body|record) of (?:(slot|port) (\d+) in )?area ([AB])(?:, (open|closed))?)")


class ToldDisk:
    """A disk by its calls: which area is in use, what is not synced, and the gate of the batch that is not acknowledged."""

    def __init__(self, script, claim):
        self.claim, self.used, self.unsynced, self.owes_sync = claim, "A", [], False
        # What was written in each area since its gate was closed, which of its slots are open, and which areas are.
        self.written, self.opened, self.areas = {"A": set(), "B": set()}, {"A": set(), "B": set()}, {"A"}
        # Whether the gate of the batch that is not acknowledged is None, "written" or "synced".
        self.gate = None
        self.behind = ["header of area {}", *(f"record of port {port} in area {{}}" for port in range(1, script["ports"] + 1))]
        self.behind += [f"gate of slot {slot} in area {{}}, closed" for slot in range(1, script["slots"] - given_up(script["ports"]) + 1)]

    def hear(self, call):
        """Hears a write or a sync. A sync counts once the next line is there, as that may tell that it has failed."""
        self.settle()
        if call == "sync":
            self.owes_sync = True
            return
        match = WRITE.fullmatch(call)
        self.claim("disk", match, f"no call of a batch or of a checkpoint: {call}")
        place, kind, number, area, gate = match.groups()
        if gate and not kind:
            self.write_gate(call, area, gate)
        elif gate == "open":
            self.open_slot(call, int(number), area)
        else:
            # (a checkpoint writes nothing in the area in use, and a batch writes only its body there)
            is_free = area != self.used or kind == "slot" and not gate and int(number) not in self.opened[area]
            self.claim("disk", is_free, f"what is in use is written: {call}")
        is_shut = area not in self.areas and f"gate of area {area}, closed" not in self.unsynced
        may_be_written = area == self.used or is_shut or place.startswith("gate of area")
        self.claim("disk", may_be_written, f"an area is written that is not closed: {call}")
        self.written[area].add(place)
        self.unsynced.append(place)

    def claim_synced(self, call, area):
        """A gate is opened once all that was written in its area is synced."""
        self.claim("durability", not any(f"area {area}" in place for place in self.unsynced), f"a gate is opened before a sync: {call}")

    def write_gate(self, call, area, gate):
        """The gate of an area is closed before the rest of the area is written, and opened behind that."""
        self.claim("disk", area != self.used, f"the gate of the area in use is written: {call}")
        if gate == "closed":
            self.written[area], self.opened[area] = set(), set()
            self.areas.discard(area)
            return
        self.areas.add(area)
        self.claim_synced(call, area)
        missing = [place.format(area) for place in self.behind if place.format(area) not in self.written[area]]
        self.claim("disk", not missing, f"a gate is opened, and {missing[:1]} was not written: {call}")

    def open_slot(self, call, slot, area):
        """The gate of a slot is opened once its body is there; in the area in use it is that of the next batch."""
        self.claim_synced(call, area)
        is_filled = f"body of slot {slot} in area {area}" in self.written[area] and slot not in self.opened[area]
        self.claim("disk", is_filled, f"a gate is opened that has no body, or again: {call}")
        self.opened[area].add(slot)
        if area == self.used:
            self.claim("durability", self.gate is None, f"a batch is written before the one before it is acknowledged: {call}")
            self.gate = "written"

    def fail(self):
        """The call before has failed. A sync that fails is not made, and a write that fails is made."""
        self.owes_sync = False

    def settle(self):
        """Makes the sync that was told before, if one was."""
        if not self.owes_sync:
            return
        other = "B" if self.used == "A" else "A"
        self.used = other if f"gate of area {other}, open" in self.unsynced else self.used
        self.gate = self.gate and "synced"
        self.unsynced, self.owes_sync = [], False

    def acknowledge(self, number):
        self.settle()
        self.claim("durability", self.gate == "synced", f"{number} is acknowledged, and the gate of its batch is not synced")
        self.gate = None

    def judge_recovered(self, number, acknowledged, keep):
        """A batch that is not acknowledged is recovered where its gate is synced, or is written and kept as open."""
        self.settle()
        is_there = self.gate == "synced" or self.gate == "written" and keep in ("new", "pattern")
        why = f"{number} is recovered behind {acknowledged}, the next gate is {self.gate or 'not written'}, and {keep} is kept"
        self.claim("recovery", (number > acknowledged) == is_there, why)
