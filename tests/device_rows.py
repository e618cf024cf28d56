"""Rows of devices that give answers which no simulated device gives: what each is asked and answers, and what its port makes of that.

tests/device_answers plays them. An exchange is the number of times that a request is sent, its octets, and those of each answer. A request
of None is not checked. The octets are those of docs/FORMATS.md, or written out beside them.
"""

from collections import namedtuple

from device_links import READ_OK
from independent_device import pack

# How far a row is played (up to the end of an upload, of DS_UploadEnd, or of a download), the exchanges with the device by then, the first
# statuses that its port shows, the last of which is its end, and the entries that are then stored.
Row = namedtuple("Row", "name until exchanges statuses stored", defaults=(None,))
READ, TOLD, WRITTEN = "read", "told", "written"


def octets(digits):
    return bytes.fromhex(digits)


PROPERTY = octets("A4 03 02 A5")
UPLOAD_START = octets("25 03 01 01 26")
UPLOAD_END = octets("25 03 01 02 25")
DOWNLOAD_START = octets("25 03 01 03 24")
FIRST = octets("15 40 0A 64 3B")
SECOND_WRITTEN = octets("25 41 01 7F 1A")
DOWNLOAD_END = octets("25 03 01 04 23")
BROKEN = octets("25 03 01 05 22")
SET_SIZE = octets("A4 03 03 A4")
SET_CHECKSUM = octets("A4 03 04 A3")
FIRST_VALUE = octets("93 40 D3")
SECOND_VALUE = octets("A4 41 01 E4")
INDEX_LIST = octets("A4 03 05 A2")
LIST_1200 = octets("B5 12 00 00 A7")
WANTS_UPLOAD = octets("D3 80 53")
WANTS_NONE = octets("D3 00 D3")
NO_CHECKSUM = octets("D6 00 00 00 00 D6")
TWO_KEYS = octets("DA 00 40 00 00 41 01 00 00 DA")
ELEVEN = octets("D6 00 00 00 0B DD")
VALUE_READ = octets("D4 0A 64 BA")
# A list without a key, which names a further list at 1200.
NEXT_1200 = octets("D4 12 00 C6")
DONE = octets("52 52")
BUSY = octets("01")
NO_DATA = octets("D2 D2")
WRITE_REFUSED = octets("44 80 11 D5")
READ_REFUSED = octets("C4 80 11 55")

CHECKSUM = (1, SET_CHECKSUM, octets("D6 00 00 02 4F 9B"))
# The first exchanges with a device that wants an upload, and with one whose parameters are others than the set's.
FLAGGED = [(1, PROPERTY, WANTS_UPLOAD), CHECKSUM]
BLANK = [(1, PROPERTY, WANTS_NONE), (1, SET_CHECKSUM, NO_CHECKSUM)]
STARTED = (1, UPLOAD_START, DONE)
SIZE = (1, SET_SIZE, ELEVEN)
LIST = (1, INDEX_LIST, TWO_KEYS)
VALUE = (1, FIRST_VALUE, VALUE_READ)
SECOND = (1, SECOND_VALUE, octets("D3 7F AC"))
BREAK = (1, BROKEN, DONE)
UPLOAD = [STARTED, SIZE, LIST, VALUE, SECOND, CHECKSUM]
ENDED = (1, UPLOAD_END, DONE)

UPLOADING = ["starting", "uploading"]
STORING = [*UPLOADING, "storing"]
DOWNLOADING = [*STORING, "ready", "starting", "downloading"]
REFUSED, UNEXPECTED, STAYS_BUSY = "failed refused 80 11", "failed unexpected", "failed busy"
NO_LIST, TOO_LARGE = "failed list", "failed size"
KEPT_VALUE = ((0x40, 0), octets("0A 64"))
KEPT = (KEPT_VALUE, ((0x41, 1), octets("7F")))


def broken(name, exchanges, fault, started=(STARTED,)):
    """A row of an upload that is broken by its last exchange."""
    return Row(name, READ, [*FLAGGED, *started, *exchanges, BREAK], [*UPLOADING, fault])


REQUEST_ROWS = [
    broken("DS_UploadStart is refused", [(1, UPLOAD_START, WRITE_REFUSED)], REFUSED, ()),
    broken("DS_UploadStart is refused as a read", [(1, UPLOAD_START, READ_REFUSED)], UNEXPECTED, ()),
    broken("DS_UploadStart is answered as a read", [(1, UPLOAD_START, ELEVEN)], UNEXPECTED, ()),
    broken("the size is refused", [(1, SET_SIZE, READ_REFUSED)], REFUSED),
    broken("the size is answered as a write", [(1, SET_SIZE, DONE)], UNEXPECTED),
    broken("the size is refused as a write", [(1, SET_SIZE, WRITE_REFUSED)], UNEXPECTED),
    broken("a value is refused", [SIZE, LIST, (1, FIRST_VALUE, READ_REFUSED)], REFUSED),
    broken("a size of three octets", [(1, SET_SIZE, octets("D5 00 00 0B DE"))], UNEXPECTED),
    broken("a checksum of three octets", [SIZE, LIST, VALUE, SECOND, (1, SET_CHECKSUM, octets("D5 00 02 4F 98"))], UNEXPECTED),
]

# Answers that cannot be read, or that do not come. A break that is not answered well changes nothing.
FAULT_ROWS = [
    broken("no octet", [(1, UPLOAD_START, b"")], "failed empty", ()),
    broken("a reserved service", [(1, UPLOAD_START, octets("62"))], "failed reserved", ()),
    broken("a request", [(1, UPLOAD_START, UPLOAD_START)], "failed wrong service", ()),
    broken("an octet too many", [(1, UPLOAD_START, octets("52 52 00"))], "failed length", ()),
    Row("a wrong CHKPDU, and a break that is not answered", READ, [*FLAGGED, (1, UPLOAD_START, octets("52 53")), (1, BROKEN, octets("00"))],
        [*UPLOADING, "failed check"]),
    Row("busy sixteen times at State_Property", READ, [(16, PROPERTY, BUSY)], ["starting", STAYS_BUSY]),
    broken("busy sixteen times at DS_UploadStart", [(16, UPLOAD_START, BUSY)], STAYS_BUSY, ()),
]

# Lists that follow others. Sixteen are read, and no more; a key of two lists is read once.
LIST_ROWS = [
    broken("a sixteenth list that names another", [SIZE, (1, INDEX_LIST, NEXT_1200), (15, LIST_1200, NEXT_1200)], NO_LIST),
    Row("sixteen lists", READ, [*FLAGGED, STARTED, SIZE, (1, INDEX_LIST, NEXT_1200), (14, LIST_1200, NEXT_1200),
                                (1, LIST_1200, octets("D4 00 00 D4")), CHECKSUM], STORING, ()),
    Row("a key of two lists", READ, [*FLAGGED, STARTED, SIZE, (1, INDEX_LIST, octets("D7 00 40 00 12 00 85")),
                                     (1, LIST_1200, octets("D7 00 40 00 00 00 97")), VALUE, CHECKSUM], STORING, (KEPT_VALUE,)),
    broken("a reserved key after another", [SIZE, (1, INDEX_LIST, octets("DA 00 40 00 00 02 00 00 00 98"))], NO_LIST),
]

BUSY_UPLOAD = [
    (15, PROPERTY, BUSY), (1, PROPERTY, WANTS_UPLOAD), (15, SET_CHECKSUM, BUSY), CHECKSUM, (15, UPLOAD_START, BUSY), STARTED,
    (15, SET_SIZE, BUSY), SIZE, (15, INDEX_LIST, BUSY), (1, INDEX_LIST, NEXT_1200), *3 * [(15, LIST_1200, BUSY), (1, LIST_1200, NEXT_1200)],
    (15, LIST_1200, BUSY), (1, LIST_1200, TWO_KEYS), (15, FIRST_VALUE, BUSY), VALUE, (15, SECOND_VALUE, BUSY), SECOND,
    (15, SET_CHECKSUM, BUSY), CHECKSUM, (15, UPLOAD_END, BUSY), ENDED,
]
BUSY_DOWNLOAD = [
    (15, PROPERTY, BUSY), (1, PROPERTY, WANTS_NONE), (15, SET_CHECKSUM, BUSY), (1, SET_CHECKSUM, NO_CHECKSUM),
    (15, DOWNLOAD_START, BUSY), (1, DOWNLOAD_START, DONE), (15, FIRST, BUSY), (1, FIRST, DONE),
    (15, SECOND_WRITTEN, BUSY), (1, SECOND_WRITTEN, DONE), (15, DOWNLOAD_END, BUSY), (1, DOWNLOAD_END, DONE),
]


def with_download(name, exchanges, fault):
    """A row of a download that is broken by its last exchange."""
    return Row(name, WRITTEN, [*FLAGGED, *UPLOAD, ENDED, *BLANK, *exchanges, BREAK], [*DOWNLOADING, fault], KEPT)


# At the end of an upload no break is sent.
END_ROWS = [
    Row("DS_UploadEnd is refused", TOLD, [*FLAGGED, *UPLOAD, (1, UPLOAD_END, WRITE_REFUSED)], [*STORING, REFUSED], KEPT),
    Row("busy sixteen times at DS_UploadEnd", TOLD, [*FLAGGED, *UPLOAD, (16, UPLOAD_END, BUSY)], [*STORING, STAYS_BUSY], KEPT),
    with_download("DS_DownloadStart is refused as a read", [(1, DOWNLOAD_START, READ_REFUSED)], UNEXPECTED),
    with_download("a written value is answered as a read", [(1, DOWNLOAD_START, DONE), (1, FIRST, VALUE_READ)], UNEXPECTED),
    with_download("busy sixteen times at DS_DownloadStart", [(16, DOWNLOAD_START, BUSY)], STAYS_BUSY),
    Row("busy fifteen times at each request", WRITTEN, [*BUSY_UPLOAD, *BUSY_DOWNLOAD], [*DOWNLOADING, "ready"], KEPT),
]


def listed(name, digits, behind, stored):
    """A row of an upload whose Index_List has these octets, and then these exchanges."""
    exchanges = [*FLAGGED, STARTED, SIZE, (1, INDEX_LIST, pack(READ_OK, octets(digits))), *behind]
    return Row(name, READ, exchanges, [*UPLOADING, NO_LIST] if stored is None else STORING, stored)


INDEX_LIST_ROWS = [
    listed("a list of one octet", "00", [BREAK], None),
    listed("a list with one octet too many", "00 40 00 00", [BREAK], None),
    listed("a list with the Data Storage object as an entry", "00 03 01 00 00", [BREAK], None),
    listed("a list with the System Command as the next list", "00 40 00 00 02", [BREAK], None),
    listed("a list that ends with its octets", "00 40 00", [VALUE, CHECKSUM], (KEPT_VALUE,)),
    listed("a list with octets behind its end", "00 40 00 00 00 FF FF", [VALUE, CHECKSUM], (KEPT_VALUE,)),
    listed("a list that names a key twice", "00 40 00 00 40 00 00 00", [VALUE, CHECKSUM], (KEPT_VALUE,)),
    listed("a list without octets", "", [CHECKSUM], ()),
    listed("a list that names a further one", "00 40 00 12 00", [(1, LIST_1200, NO_DATA), VALUE, CHECKSUM], (KEPT_VALUE,)),
]


def keys(high, count):
    """So many keys, in order."""
    return [(high * 0x100 + low, 0) for low in range(count)]


def list_of(names):
    return b"".join(index.to_bytes(2, "big") + bytes([subindex]) for index, subindex in names)


def longest(count):
    """A row of a list of 76 keys that names a further one, of so many keys, which ends with its octets."""
    first, further = keys(1, 76), keys(2, count)
    behind = [(1, LIST_1200, pack(READ_OK, list_of(further))), (76 + count, None, NO_DATA), CHECKSUM]
    digits = (list_of(first) + b"\x12\x00").hex()
    return listed(f"76 keys, and {count} in a further list", digits, behind, tuple((key, b"") for key in first + further))


def too_large(count):
    """A row of a set that is too large, though its size was told as 11. Seventeen keys of 232 octets count 4,012, and 84 are left: fewer
    than a last key with so many octets."""
    last = (list_of(keys(2, 77)) + b"\x00")[:count]
    behind = [(17, None, pack(READ_OK, 232 * b"\x55")), (1, None, pack(READ_OK, last))]
    row = listed(f"a last value of {count} octets", list_of(keys(2, 18)).hex(), [*behind, BREAK], None)
    return row._replace(statuses=[*UPLOADING, TOO_LARGE])


LONGEST_ROWS = [*(longest(count) for count in (0, 1, 76, 77)), *(too_large(count) for count in (81, 232))]
ROWS = [*REQUEST_ROWS, *FAULT_ROWS, *LIST_ROWS, *END_ROWS, *INDEX_LIST_ROWS, *LONGEST_ROWS]


def wrong_row(row, requests, statuses, entries):
    """What is wrong with a row of which these requests were sent, these statuses shown and these entries stored; or None."""
    if statuses[: len(row.statuses)] != row.statuses:
        return f"it shows {statuses}, and not {row.statuses}"
    wanted = [request for times, request, _ in row.exchanges for _ in range(times)]
    if len(requests) < len(wanted):
        return f"{len(requests)} requests are sent, and not {len(wanted)}"
    for sent, request in zip(requests, wanted):
        if request not in (None, sent):
            return f"{sent.hex(' ').upper()} is sent, and not {request.hex(' ').upper()}"
    return None if entries == row.stored else f"{entries} is stored, and not {row.stored}"
