"""What tests/fuzz reads docs/FORMATS.md as: ISDUs, parameter sets, commands, the state of a port, and its lines.

Nothing of it is taken from the program, so that what both do wrong in the same way is a mistake of the document.
"""

import dataclasses
import functools
import operator
import typing

MANUAL = 1
BACKUP, RESTORE = 3, 4
MOST_WAITING = 64
# (what a set counts at most)
MOST_OCTETS = 4096
# Subindexes of the Data Storage object, Index 0003, and the commands to it.
STATE, SIZE, CHECKSUM, LIST = (3, 2), (3, 3), (3, 4), (3, 5)
COMMAND = (3, 1)
UPLOAD_START, UPLOAD_END, DOWNLOAD_START, DOWNLOAD_END, BREAK = (bytes([number]) for number in range(1, 6))


class Config(typing.NamedTuple):
    mode: int
    validation: int
    vendor: int
    device: int
    label: str = ""


class ParameterSet(typing.NamedTuple):
    """The parameters of a device: entries are a key, which is Index and Subindex, and octets."""

    vendor: int
    device: int
    checksum: int
    entries: tuple

    def octets(self):
        """What the set counts."""
        return sum(4 + len(octets) for _, octets in self.entries)


class Port(typing.NamedTuple):
    """The state of a port: `recorded` is the configuration that its set was taken under, and `previous` what it had stored
    before, a set and such a configuration."""

    config: Config = Config(0, 0, 0, 0)
    revision: int = 0
    parameters: typing.Optional[ParameterSet] = None
    recorded: typing.Optional[Config] = None
    previous: typing.Optional[tuple] = None

    def stored(self):
        """The set and its configuration, if there is one."""
        return (self.parameters, self.recorded) if self.parameters else None


@dataclasses.dataclass(frozen=True)
class Command:
    """A Configure has a configuration, a Store a set, and a Clear or a Rollback neither."""

    port: int
    config: typing.Optional[Config] = None
    parameters: typing.Optional[ParameterSet] = None
    is_rollback: bool = False

    def record_octets(self):
        """How many octets its record has."""
        if self.config:
            return 11 + len(self.config.label)
        return 22 + self.parameters.octets() if self.parameters else 2


def client_command(step):
    """The command that a client's step asks for; none where the step is no client's."""
    if step["do"] == "configure":
        return Command(step["port"], Config(step["mode"], step["validation"], step["vendor"], step["device"], step.get("label", "")))
    return Command(step["port"], is_rollback=step["do"] == "rollback") if step["do"] in ("clear", "rollback") else None


def may_keep(config):
    return config.mode == MANUAL and config.validation in (BACKUP, RESTORE)


def keeps_set(old, new):
    """Whether a set stays where this configuration comes behind that one."""
    return may_keep(old) and may_keep(new) and old[2:4] == new[2:4]


def port_after(port, command):
    """The state of a command's port behind the command."""
    if command.parameters:
        return port._replace(parameters=command.parameters, recorded=port.config, previous=port.stored())
    if command.is_rollback:
        return port._replace(parameters=port.previous[0], recorded=port.previous[1], previous=port.stored())
    if not command.config:
        return port._replace(parameters=None, recorded=None, previous=None)
    kept = port if keeps_set(port.config, command.config) else Port()
    return Port(command.config, port.revision + 1, *kept[2:])


def state_after(state, command):
    """The state of all ports behind a command, port 1 first."""
    place = command.port - 1
    return (*state[:place], port_after(state[place], command), *state[place + 1 :])


def port_record_octets(port):
    """How many octets the record of a port has."""
    sets = [stored for stored in (port.stored(), port.previous) if stored]
    return 19 + len(port.config.label) + sum(21 + len(recorded.label) + parameters.octets() for parameters, recorded in sets)


def given_up(ports):
    """The slots that an area gives up for the records of so many ports (Disk layout)."""
    return (8 * ports + 16) // 17


def port_lines(number, port):
    """The lines of a port in a recovered state."""
    config, held = port.config, port.parameters
    line = f"port {number} revision {port.revision} mode {config.mode} validation {config.validation}"
    label = f' label "{config.label}"' if config.label else ""
    line += f" vendor {config.vendor:04X} device {config.device:06X}{label} set"
    lines = set_lines(line, held, port.recorded) if held else [f"{line} none"]
    return lines + (set_lines("previous", *port.previous) if port.previous else [])


def set_lines(line, held, recorded):
    """The lines of a set of a port, of which the first begins so."""
    under = "{} {} {:04X} {:06X}".format(*recorded[:4])
    line += f" {len(held.entries)} entries {held.octets()} octets checksum {held.checksum:08X} under {under}"
    entries = [f"entry {index:04X}.{subindex:02X} {octets.hex().upper()}".rstrip() for (index, subindex), octets in held.entries]
    return [line, *entries]


def recovered_lines(number, state):
    """The lines of what is recovered: the state after so many commands."""
    return [f"recovered {number}", *(line for place, port in enumerate(state, 1) for line in port_lines(place, port))]


def spaced(octets):
    return "".join(f" {octet:02X}" for octet in octets)


def isdu(service, carried):
    """The octets of an ISDU: Length counts them all, and behind 15 of them ExtLength does."""
    head = [service << 4 | len(carried) + 2] if len(carried) < 14 else [service << 4 | 1, len(carried) + 3]
    octets = bytes(head) + carried
    return octets + bytes([functools.reduce(operator.xor, octets)])


def request(key, data=None):
    """A write of these data to a key, or a read of it where there are none, in the shortest form."""
    index, subindex = key
    reads = 8 if data is None else 0
    if index > 255:
        return isdu(3 + reads, index.to_bytes(2, "big") + bytes([subindex]) + (data or b""))
    place = bytes([index, subindex] if subindex else [index])
    return isdu(len(place) + reads, place + (data or b""))


def whole(octets):
    """The service and what it carries, of octets that are as many as they state and whose XOR is 00; else nothing."""
    if len(octets) < 2 or functools.reduce(operator.xor, octets):
        return None
    extended = octets[0] & 15 == 1
    stated = octets[1] if extended else octets[0] & 15
    return (octets[0] >> 4, octets[2 if extended else 1 : -1]) if stated == len(octets) else None


def read_request(octets):
    """The key of a request, and what it writes, which is nothing where it reads; nothing at all of other octets."""
    service, carried = whole(octets) or (0, b"")
    form = service & 7
    if form not in (1, 2, 3) or len(carried) < form:
        return None
    index = int.from_bytes(carried[:2], "big") if form == 3 else carried[0]
    subindex = 0 if form == 1 else carried[form - 1]
    return (index, subindex), None if service & 8 else carried[form:]


def read_answer(octets):
    """What an answer says: busy, written, read with its data, or refused with its codes; nothing of other octets."""
    if octets == b"\1":
        return "busy", b""
    service, carried = whole(octets) or (0, b"")
    words = {4: "refused", 12: "refused", 5: "written", 13: "read"}
    return (words[service], carried) if service in words else None


def answer(octets=None):
    """The answer (+) to a read with these octets, or to a write where there are none."""
    return isdu(5, b"") if octets is None else isdu(13, octets)


def refusal(writes, additional):
    """The answer (-) to a write or a read, with ErrorCode 80."""
    return isdu(4 if writes else 12, bytes([0x80, additional]))


def keys_of(octets):
    """The keys of an Index_List that ends in its octets, each at its first place; nothing where it does not."""
    keys = []
    while octets[:2] not in (b"", b"\0\0"):
        if len(octets) < 3 or octets[:2] in (b"\0\2", b"\0\3"):
            return None
        keys.append((int.from_bytes(octets[:2], "big"), octets[2]))
        octets = octets[3:]
    return list(dict.fromkeys(keys))


def page_numbers(page):
    """VendorID and DeviceID of an identification page."""
    return int.from_bytes(page[7:9], "big"), int.from_bytes(page[9:12], "big")


def mismatch(config, page):
    """Why a device with this page is not the one of a configuration, if it is not."""
    faults = [
        (1, page_numbers(page)[0] != config.vendor, "vendor"),
        (1, page_numbers(page)[1] != config.device, "device"),
        (2, page[4] < 0x11, "revision"),
        (3, not page[3] & 1, "isdu"),
    ]
    return next((name for least, holds, name in faults if holds and config.validation >= least), None)
