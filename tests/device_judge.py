"""Judges what ports do with their devices: what they ask, which statuses they show, and what is stored at the end.

It is written from docs/FORMATS.md ("Identification page", "What is done with a device's parameters") and docs/ARCHITECTURE.md ("The stages
of a port"), and says of each step what the port has to ask and to show. It shares no code with the library. Beside that, two tables say
which statuses may follow which, and which faults may come from which.
"""

from collections import Counter

import reader
from device_links import EVENT_UPLOAD, INDEX_DATA_STORAGE
from device_play import PAGE, Configured, Raised, Shown, ShownSet, Stepped, Written
from device_talks import BREAK, CHECKSUM, STATE_PROPERTY, UPLOAD_END, Fault, Lost, command, download, read_part, request, upload
from reader import BACKUP_AND_RESTORE, IOL_MANUAL, RESTORE

MOST_CHANGES = 64
DATA_STORAGE_LOCKED, UPLOAD_FLAG = 3, 0x80
# What a port sends in a step of which its device hears nothing: the master is asked.
NOTHING = None
SETTLED_WITH_DEVICE = ("ready", "ready locked", "ready empty", "mismatch")
IN_EXCHANGES = ("starting", "uploading", "storing", "downloading")
# Which statuses may follow which, besides a failure, where no port is deactivated.
FOLLOWERS = {
    **dict.fromkeys(("off", "lost", "failed"), ("starting",)),
    **dict.fromkeys(SETTLED_WITH_DEVICE, ("starting", "lost")),
    "starting": (*SETTLED_WITH_DEVICE, "lost", "uploading", "downloading"),
    "uploading": ("storing", "starting", "lost"),
    **dict.fromkeys(("storing", "downloading"), ("ready", "lost")),
}
# Which faults may come from which statuses, where there is memory, the disk does not fail, and no set is rolled back.
FAULTS = {
    **dict.fromkeys(("size", "list"), ("uploading",)),
    **dict.fromkeys(("not allowed", "no set"), ("starting",)),
    **dict.fromkeys(("refused", "unexpected", "busy", "empty", "reserved", "wrong service", "length", "check"), IN_EXCHANGES),
}


class Wrong(Exception):
    """What is wrong with a step."""


class Anew(Exception):
    """The port starts anew, with the work that it was told last."""


def kind_of(status):
    """A status without the codes of a refusal, and without what a device differs in."""
    if status.startswith("mismatch"):
        return "mismatch"
    return "failed refused" if status.startswith("failed refused") else status


def may_follow(before, status):
    """Whether a status may follow another."""
    first, second = kind_of(before).split(" ")[0], kind_of(status)
    if second.startswith("failed "):
        return first in FAULTS.get(second[len("failed ") :], ())
    return second in FOLLOWERS[kind_of(before) if first != "failed" else first]


def read_of(page):
    """What is read of a page: MinCycleTime, whether ISDUs are known, RevisionID, VendorID and DeviceID."""
    return page[2], page[3] % 2, page[4], int.from_bytes(page[7:9], "big"), int.from_bytes(page[9:12], "big")


def mismatch_of(configuration, page):
    """Why a device is another than the one that is configured, if it is ("Identification page")."""
    _, has_isdu, revision, vendor, device = read_of(page)
    faults = {"other vendor": vendor != configuration.vendor, "other device": device != configuration.device,
              "old revision": revision < 0x11, "no isdu": not has_isdu}
    return next((name for name, is_met in faults.items() if is_met), None)


def decision_of(validation, state_property, checksum, present):
    """What is done with a device's parameters: a transfer, or the status in which the port settles."""
    backs_up = validation == BACKUP_AND_RESTORE
    if state_property // 2 % 4 == DATA_STORAGE_LOCKED:
        return "ready locked"
    if present is None:
        return "upload" if backs_up else "ready empty"
    if backs_up and state_property & UPLOAD_FLAG:
        return "upload"
    return "ready" if checksum == present.parameters.checksum else "download"


class Numbers:
    """The number of the last accepted change, and of the last durable one."""

    def __init__(self):
        self.accepted = self.durable = 0

    def accept(self):
        self.accepted += 1
        return self.accepted

    def is_full(self):
        return self.accepted - self.durable == MOST_CHANGES


class Course:
    """The course of a port under IOL_MANUAL with validation 03 or 04: `wanted` is what it has to ask next, and `status` what it has to
    show. Of what it asks, `talk` is sent the answer, and is thrown `Lost` where the device is gone."""

    def __init__(self, numbers):
        self.numbers = numbers
        self.port = reader.Port(reader.Configuration(0, 0, 0, 0, b""), 0)
        # What the port was told last of its configuration and revision, and under which revision it has started.
        self.work, self.started, self.status, self.is_called = self.port, None, "off", False
        # The statuses that it has shown.
        self.shown = []
        self.talk = self.life()
        self.wanted = next(self.talk)

    def configured(self, configuration):
        """(A Configure that the tests make leaves the sets.)"""
        self.port = self.port._replace(configuration=configuration, revision=self.port.revision + 1)

    def store(self, entries, checksum):
        """(Store)"""
        configuration = self.port.configuration
        parameters = reader.ParameterSet(configuration.vendor, configuration.device, checksum, entries)
        self.port = self.port._replace(stored=reader.StoredSet(configuration, parameters), previous=self.port.stored)

    def hear(self, step):
        """A step of the port."""
        if step.sent != self.wanted:
            raise Wrong(f"asks {said(step.sent)}, and not {said(self.wanted)}")
        before = self.status
        if step.sent is not NOTHING and step.answered is None:
            self.wanted = self.talk.throw(Lost())
        else:
            self.wanted = self.talk.send(step.answered)
        if step.status != self.status:
            raise Wrong(f"is {step.status}, and not {self.status}")
        if before != self.status:
            self.shown.append(step.status)
            if not may_follow(before, step.status):
                raise Wrong(f"is {step.status} after {before}")

    def life(self):
        """A port that is settled without a device is woken, again and again."""
        while True:
            yield from self.attended()
            self.start()
            while self.status == "starting":
                try:
                    yield from self.with_device()
                except Anew:
                    self.start()
                except Lost:
                    self.status = "lost"
                except Fault as fault:
                    self.status = f"failed {fault}"

    def attended(self):
        """The port is told its work."""
        yield NOTHING
        self.work = self.port

    def start(self):
        """It starts with the work that it was told last."""
        self.started, self.is_called = self.work.revision, False
        self.status = "starting" if self.work.configuration.mode == IOL_MANUAL else "off"

    def is_configured_anew(self):
        return self.work.revision != self.started

    def with_device(self):
        """The device is looked at, and then only compared with what it was."""
        page = yield PAGE
        mismatch = mismatch_of(self.work.configuration, page)
        if mismatch:
            self.status = f"mismatch {mismatch}"
        else:
            yield from self.decided()
        while True:
            yield from self.attended()
            if self.is_called or self.is_configured_anew():
                raise Anew
            if read_of((yield PAGE)) != read_of(page):
                raise Anew

    def decided(self):
        """What is to be done is read of the device, decided, and done."""
        state_property = yield from read_part(STATE_PROPERTY, 1)
        checksum = yield from read_part(CHECKSUM, 4)
        yield from self.attended()
        if self.is_configured_anew():
            raise Anew
        decision = decision_of(self.work.configuration.validation, state_property[0], int.from_bytes(checksum, "big"), self.port.stored)
        if decision == "upload":
            yield from self.uploaded()
        elif decision == "download":
            yield from self.downloaded()
        else:
            self.status = decision

    def uploaded(self):
        """An upload, the set of which is stored, unless the port was configured meanwhile."""
        yield NOTHING
        if self.port.configuration.validation == RESTORE:
            raise Fault("not allowed")
        revision, self.status = self.port.revision, "uploading"
        entries, checksum = yield from self.transfer(upload())
        yield NOTHING
        while self.port.revision == revision and self.numbers.is_full():
            yield NOTHING
        if self.port.revision != revision:
            yield from self.yielded()
        self.store(entries, checksum)
        self.status, number = "storing", self.numbers.accept()
        yield NOTHING
        while self.numbers.durable < number:
            yield NOTHING
        yield from command(UPLOAD_END)
        self.status = "ready"

    def yielded(self):
        """Whatever the device answers to the break, the port starts anew."""
        yield request(0, INDEX_DATA_STORAGE, 1, BREAK)
        yield from self.attended()
        raise Anew

    def downloaded(self):
        """A download of the set that is then stored."""
        yield NOTHING
        self.status = "downloading"
        yield from self.transfer(download(self.port.stored.parameters.entries))
        yield NOTHING
        self.status = "ready"

    def transfer(self, talk):
        """A transfer, which a fault breaks. Its permit is returned in a step of its own; a loss shows before that."""
        try:
            try:
                return (yield from talk)
            except Fault as fault:
                yield request(0, INDEX_DATA_STORAGE, 1, BREAK)
                yield NOTHING
                raise fault
        except Lost as lost:
            self.status = "lost"
            yield NOTHING
            raise lost


def said(octets):
    """What was sent, in words."""
    return "nothing" if octets is NOTHING else octets if octets == PAGE else octets.hex(" ").upper()


def told(record):
    """A record, in words."""
    members = (f"{name}={value.hex(' ').upper() if isinstance(value, bytes) else value}" for name, value in record._asdict().items())
    return f"{type(record).__name__} {', '.join(members)}"


class Judge:
    """Judges the steps of a master of so many ports, on a flash that was new."""

    def __init__(self, ports):
        self.numbers = Numbers()
        self.courses = {port: Course(self.numbers) for port in range(1, ports + 1)}
        # How often each kind of status was shown, and how many steps of ports were heard.
        self.met, self.steps = Counter(), 0

    def hear(self, record):
        """Judges a record."""
        try:
            {Stepped: self.stepped, Raised: self.raised, Written: self.written, Configured: self.configured}[type(record)](record)
        except Wrong as wrong:
            raise Wrong(f"at step {self.steps}, {told(record)}: {wrong}") from wrong

    def stepped(self, step):
        self.steps += 1
        course = self.courses[step.port]
        before = course.status
        course.hear(step)
        if step.accepted != self.numbers.accepted:
            raise Wrong(f"{step.accepted} changes are accepted, and not {self.numbers.accepted}")
        if course.status != before:
            self.met[kind_of(course.status)] += 1

    def raised(self, event):
        course = self.courses[event.port]
        course.is_called = course.is_called or event.code == EVENT_UPLOAD

    def written(self, record):
        if not self.numbers.durable <= record.durable <= self.numbers.accepted:
            raise Wrong(f"{record.durable} is durable after {self.numbers.durable}, of {self.numbers.accepted} that were accepted")
        self.numbers.durable = record.durable

    def configured(self, change):
        expected = None if self.numbers.is_full() else self.numbers.accept()
        if change.number != expected:
            raise Wrong(f"number {change.number}, and not {expected}")
        if expected is not None:
            self.courses[change.port].configured(reader.Configuration(*change.configuration, b""))

    def stored(self):
        """What has to be found of each port, as tests/reader.py finds it."""
        return [course.port for course in self.courses.values()]

    def shown(self):
        """What the library has to show of each port once all is durable."""
        return [Shown(port.configuration, port.revision, shown_set(port.stored), shown_set(port.previous)) for port in self.stored()]


def shown_set(stored):
    """What is shown of a set."""
    if stored is None:
        return None
    entries = stored.parameters.entries
    return ShownSet(stored.parameters.checksum, sum(4 + len(octets) for _, octets in entries), entries)


def unlike(found, wanted):
    """The first port that is not as it has to be, if one is."""
    for port, (mine, its) in enumerate(zip(found, wanted), 1):
        if mine != its:
            return f"port {port} is {mine}, and not {its}"
    return None if len(found) == len(wanted) else f"{len(found)} ports, and not {len(wanted)}"
