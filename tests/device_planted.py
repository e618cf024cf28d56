"""Mistakes that are planted in what a judge of tests/device_judge.py hears. Each is to be found."""

import device_rows as rows
from device_judge import Judge, Wrong, may_follow, unlike
from device_links import EVENT_UPLOAD, PAGE as OCTETS
from device_play import PAGE, Configured, Raised, Stepped, Written

BACKUP, RESTORE = (1, 3, 0x01F4, 0x00ABCD), (1, 4, 0x01F4, 0x00ABCD)


def core(status, accepted=1):
    """A step of port 1 of which its device hears nothing."""
    return Stepped(1, None, None, status, accepted)


def page(status, accepted=1, octets=OCTETS):
    return Stepped(1, PAGE, octets, status, accepted)


def steps(exchanges, status, accepted=1):
    """The steps of these exchanges, behind each of which the status is this one."""
    return [Stepped(1, sent, answer, status, accepted) for times, sent, answer in exchanges for _ in range(times)]


# A port is configured, uploads the set of its device, raises an event that is not DS_UPLOAD_REQ, loses its device, and writes the set to
# the next one.
BEGUN = [Configured(1, BACKUP, 1), Written(0), Written(1), core("starting"), page("starting")]
UPLOADED = [*steps(rows.FLAGGED, "starting"), core("starting"), core("uploading"), *steps(rows.UPLOAD, "uploading")]
STORED = [core("storing", 2), core("storing", 2), Written(2), core("storing", 2)]
ENDED = [*steps([rows.ENDED], "ready", 2), core("ready", 2), page("ready", 2), Raised(1, 0xFF90), core("ready", 2)]
GONE = [page("lost", 2, None), core("starting", 2), page("starting", 2)]
WRITES = [(1, rows.DOWNLOAD_START, rows.DONE), (1, rows.FIRST, rows.DONE), (1, rows.SECOND_WRITTEN, rows.DONE),
          (1, rows.DOWNLOAD_END, rows.DONE)]
DOWNLOADED = [*steps(rows.BLANK, "starting", 2), core("starting", 2), core("downloading", 2), *steps(WRITES, "downloading", 2),
              core("ready", 2)]
SOUND = [*BEGUN, *UPLOADED, *STORED, *ENDED, *GONE, *DOWNLOADED]
UPLOADS = len(BEGUN)
STORES = UPLOADS + len(UPLOADED)
ENDS = STORES + len(STORED)
LOSES = ENDS + len(ENDED)
DOWNLOADS = LOSES + len(GONE)
# Where in the upload DS_UploadStart, the size, and the first value are.
START, SIZE, VALUE = UPLOADS + 4, UPLOADS + 5, UPLOADS + 7


def wrong(records):
    """What a judge says of records, or None."""
    judge = Judge(1)
    try:
        for record in records:
            judge.hear(record)
    except Wrong as said:
        return str(said)
    return None


def planted(place, **members):
    """The sound records, one of which has other members."""
    return wrong([*SOUND[:place], SOUND[place]._replace(**members), *SOUND[place + 1 :]])


def without(place, count=1):
    return wrong(SOUND[:place] + SOUND[place + count :])


def doubled(place):
    return wrong([*SOUND[: place + 1], *SOUND[place:]])


def swapped(place):
    """The sound records, where two that follow one another have changed places."""
    return wrong([*SOUND[:place], SOUND[place + 1], SOUND[place], *SOUND[place + 2 :]])


def broken(fault, *behind):
    """The sound records up to DS_UploadStart, which is refused, and then others."""
    return wrong([*SOUND[:START], SOUND[START]._replace(answered=rows.WRITE_REFUSED, **fault), *behind])


def unlike_stored(**members):
    """What a comparison says of a set that is stored with other members than were answered."""
    judge = Judge(1)
    for record in SOUND:
        judge.hear(record)
    port = judge.stored()[0]
    parameters = port.stored.parameters._replace(**members)
    return unlike([port._replace(stored=port.stored._replace(parameters=parameters))], judge.stored())


def wrong_row(until=None, **members):
    """What is wrong with a sound row, of which other requests were sent, other statuses shown or other entries stored."""
    row = rows.END_ROWS[-1]
    requests = [request for times, request, _ in row.exchanges for _ in range(times)]
    sound = {"requests": requests[:until], "statuses": [*row.statuses, "lost"], "entries": row.stored}
    return rows.wrong_row(row, **{**sound, **members})


BREAK = Stepped(1, rows.BROKEN, rows.DONE, "uploading", 1)
PLANTED = {
    "a status out of order": planted(STORES, status="ready"),
    "a status that is told too early": planted(STORES - 1, status="storing"),
    "a fault that cannot come": planted(UPLOADS + 1, status="failed list"),
    "a fault in place of another": broken({}, BREAK, core("failed unexpected")),
    "a fault with other codes": broken({}, BREAK, core("failed refused 80 12")),
    "a fault without a break": broken({"status": "failed refused 80 11"}),
    "a refusal that is taken for an answer": broken({}, SOUND[SIZE]),
    "a request that is sent twice": doubled(SIZE),
    "a request that is left out": without(SIZE),
    "a request of another key": planted(VALUE, sent=rows.SECOND_VALUE),
    "a value that was never answered": unlike_stored(entries=(((0x40, 0), b"\x0a\x65"), rows.KEPT[1])),
    "a value that was left out": unlike_stored(entries=rows.KEPT[:1]),
    "another checksum": unlike_stored(checksum=0),
    "an upload that is ended before its set is durable": without(STORES + 2),
    "a set that is stored without a change": planted(STORES, accepted=1),
    "a change that is not asked for": planted(UPLOADS, accepted=2),
    "a page that is read after a loss without starting": without(LOSES + 1),
    "a loss that is not shown": planted(LOSES, status="ready"),
    "a device that differs and is not looked at": planted(ENDS + 2, answered=OCTETS[:4] + b"\x12" + OCTETS[5:]),
    "an event that is not followed": planted(ENDS + 3, code=EVENT_UPLOAD),
    "a download in another order": swapped(DOWNLOADS + 5),
    "a download of another value": planted(DOWNLOADS + 5, sent=rows.FIRST[:2] + b"\x0a\x65\x3a"),
    "a download that is not ended": without(DOWNLOADS + 7),
    "a number that is durable before it is accepted": planted(1, durable=2),
    "a number that is durable no more": planted(STORES + 2, durable=0),
    "a number that is left out": planted(0, number=2),
    "a change that is refused without a reason": planted(0, number=None),
    "an upload under a configuration that takes none": planted(0, configuration=RESTORE),
    "a status that may not follow, by the table alone": None if may_follow("ready", "storing") else "it may not follow",
    "a fault that may not come, by the table alone": None if may_follow("starting", "failed list") else "it may not come",
    "a row with a request too few": wrong_row(until=-1),
    "a row with another request": wrong_row(requests=304 * [rows.PROPERTY]),
    "a row with another status": wrong_row(statuses=rows.STORING),
    "a row with another set": wrong_row(entries=rows.KEPT[:1]),
    "a device that is busy a seventeenth time": wrong([*BEGUN, *steps([(17, rows.PROPERTY, rows.BUSY)], "starting")]),
}


def said_of_judge():
    """What is said of the sound records and of each mistake."""
    told = [("the sound records", wrong(SOUND)), ("a sound row", wrong_row())]
    return told + [(f"planted: {title}", None if found else "it is not found") for title, found in PLANTED.items()]
