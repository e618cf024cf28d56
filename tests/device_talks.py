"""What is sent to a device in an upload and in a download, and what is made of its answers.

It is written from docs/FORMATS.md ("ISDU", "Index list", "Uploads and downloads"), and shares no code with the library. A talk is a
generator: it yields the octets of a request, is sent those of the answer, and is thrown `Lost` where the device is gone. tests/device_judge.py
follows the talks of ports by these.
"""

from device_links import BUSY, INDEX_DATA_STORAGE, READ_FAULT, READ_OK, READS, WRITE_FAULT, WRITE_OK
from independent_device import pack, xor_of
from reader import RESERVED_INDICES

MOST_TIMES, MOST_LISTS = 16, 16
LARGEST_SET, LARGEST_ISDU, MOST_DATA = 4096, 238, 232
STATE_PROPERTY, SIZE, CHECKSUM, INDEX_LIST = range(2, 6)
UPLOAD_START, UPLOAD_END, DOWNLOAD_START, DOWNLOAD_END, BREAK = (bytes([number]) for number in range(1, 6))
RESPONSES = {READ_OK: range(MOST_DATA + 1), READ_FAULT: [2], WRITE_OK: [0], WRITE_FAULT: [2]}
REQUESTS = (1, 2, 3, *READS)


class Lost(Exception):
    """The device is gone."""


class Fault(Exception):
    """Why a port fails."""


def request(access, index, subindex, data=b""):
    """The shortest write, of access 0, or read, of access 8."""
    if index > 0xFF:
        return pack(access + 3, index.to_bytes(2, "big") + bytes([subindex]) + data)
    return pack(access + 2, bytes([index, subindex]) + data) if subindex else pack(access + 1, bytes([index]) + data)


def is_reserved(isdu):
    """Whether the service, the length or the ExtLength of octets is reserved."""
    service, length = divmod(isdu[0], 16)
    if service == 0:
        return length > 1
    has_wrong_end = length == 1 and len(isdu) > 1 and not 17 <= isdu[1] <= LARGEST_ISDU
    return service not in (*RESPONSES, *REQUESTS) or length == 0 or has_wrong_end


def answer_of(isdu):
    """The service and the data of an answer that is not Device busy ("ISDU")."""
    if not isdu:
        raise Fault("empty")
    service, length = divmod(isdu[0], 16)
    if isdu[:1] == BUSY:
        raise Fault("length")
    if is_reserved(isdu):
        raise Fault("reserved")
    if service not in RESPONSES:
        raise Fault("wrong service")
    head = 2 if length == 1 else 1
    stated = isdu[1] if length == 1 and len(isdu) > 1 else length
    if stated != len(isdu) or len(isdu) - head - 1 not in RESPONSES[service]:
        raise Fault("length")
    if xor_of(isdu):
        raise Fault("check")
    return service, isdu[head:-1]


def asked(isdu, plus, minus):
    """Sends a request, again while the device is busy, and gives the data of the answer to it."""
    for _ in range(MOST_TIMES):
        answer = yield isdu
        if answer == BUSY:
            continue
        service, data = answer_of(answer)
        if service == minus:
            raise Fault(f"refused {data.hex(' ').upper()}")
        if service != plus:
            raise Fault("unexpected")
        return data
    raise Fault("busy")


def read(index, subindex):
    return asked(request(8, index, subindex), READ_OK, READ_FAULT)


def read_part(subindex, count):
    """Reads a part of the Data Storage object, which has so many octets."""
    data = yield from read(INDEX_DATA_STORAGE, subindex)
    if len(data) != count:
        raise Fault("unexpected")
    return data


def written(index, subindex, data):
    return asked(request(0, index, subindex, data), WRITE_OK, WRITE_FAULT)


def command(data):
    return written(INDEX_DATA_STORAGE, 1, data)


def keys_of(octets):
    """The keys of an Index_List, and the place of the next list, if it names one ("Index list")."""
    keys = []
    for at in range(0, len(octets), 3):
        entry = octets[at : at + 3]
        index = int.from_bytes(entry[:2], "big")
        if len(entry) > 1 and index == 0:
            break
        if len(entry) == 1 or index in RESERVED_INDICES:
            raise Fault("list")
        if len(entry) == 2:
            return keys, (index, 0)
        keys.append((index, entry[2]))
    return keys, None


def listed():
    """The keys of all lists, each at its first place."""
    keys, place = [], (INDEX_DATA_STORAGE, INDEX_LIST)
    for _ in range(MOST_LISTS):
        more, place = keys_of((yield from read(*place)))
        keys += more
        if place is None:
            return list(dict.fromkeys(keys))
    raise Fault("list")


def upload():
    """An upload: its entries, and its checksum."""
    yield from command(UPLOAD_START)
    if int.from_bytes((yield from read_part(SIZE, 4)), "big") > LARGEST_SET:
        raise Fault("size")
    entries, total = [], 0
    for key in (yield from listed()):
        value = yield from read(*key)
        total += 4 + len(value)
        if total > LARGEST_SET:
            raise Fault("size")
        entries.append((key, value))
    return tuple(entries), int.from_bytes((yield from read_part(CHECKSUM, 4)), "big")


def download(entries):
    """A download of these entries."""
    yield from command(DOWNLOAD_START)
    for (index, subindex), value in entries:
        yield from written(index, subindex, value)
    yield from command(DOWNLOAD_END)
