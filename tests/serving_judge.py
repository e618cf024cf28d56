"""Judges what a serving master printed, what its drivers heard, and what is then on its image. Each judge says what is wrong, or None.

What was asked is a dictionary from the id of a request to its verb and port, in the order of asking; the verb of a line that is no
request is `wrong`. What was printed is a list of lines, each the members of its JSON object.
"""

import re

CHANGES = ("configure", "clear", "rollback")
OF_PORTS = (*CHANGES, "read")
NAMED = (*OF_PORTS, "status")
# After these answers of a driver the master takes the device as lost, and begins anew by reading the page.
NO_ANSWERS = ("late", "ahead", "other", "garbage", "flood", "half", "silent", "die")


def configuration(port, revision):
    """The configuration that tests give a port at a revision. No two of them are alike, and none names a device that is there."""
    mode, validation = 2 + revision % 3, revision % 5
    return {"mode": mode, "validation": validation, "vendor": 1000 * port + revision % 1000, "device": 65536 * port + revision}


def is_right(request, line):
    """Whether a line is an answer of a kind that a request may have, about its port."""
    do, port = request
    if "refused" in line:
        # A line that is no request is refused only where memory is out for saying so.
        return do in NAMED or line["refused"] == "Memory"
    if do in CHANGES:
        return isinstance(line.get("receipt"), int)
    if do == "read":
        return "port" in line and line["port"]["port"] == port
    if do == "status":
        ports = [each["port"] for each in line.get("statuses", [])]
        return ports == ([port] if port else list(range(1, len(ports) + 1))) != []
    return do in line


def wrong_answers(asked, printed, is_whole=True):
    """Each request is answered once, unless the program was ended before, and by its own answer."""
    answers = [line for line in printed if "event" not in line]
    numbers = [line.get("id") for line in answers]
    if len(set(numbers)) < len(numbers):
        return f"two answers have one id, {[number for number in numbers if numbers.count(number) > 1][0]}"
    for line in answers:
        if line.get("id") not in asked:
            return f"nobody asked for {line}"
        if not is_right(asked[line["id"]], line):
            return f"{asked[line['id']]} is answered {line}"
    missing = set(asked) - set(numbers)
    return f"no answer to request {min(missing)}, {asked[min(missing)]}" if is_whole and missing else None


def wrong_order(asked, printed, ports):
    """The requests of a port that the master has are answered in their order, and its receipts rise. One for which there is no memory does
    not wait for those before it."""
    numbers = [line["receipt"] for line in printed if "receipt" in line]
    if len(set(numbers)) < len(numbers):
        return "two receipts have one number"
    for port in range(1, ports + 1):
        own = [line for line in printed if "id" in line and asked[line["id"]] in [(do, port) for do in OF_PORTS]]
        own = [line for line in own if line.get("refused") != "Memory"]
        ids, receipts = [line["id"] for line in own], [line["receipt"] for line in own if "receipt" in line]
        if ids != sorted(ids):
            return f"port {port} is answered out of order: {ids}"
        if receipts != sorted(receipts):
            return f"the receipts of port {port} do not rise: {receipts}"
    return None


def wrong_reads(asked, printed):
    """A read says the revision that the receipts before it led to, on an image that was new."""
    revisions = {}
    for line in printed:
        do, port = asked.get(line.get("id"), (None, None))
        if do == "configure" and "receipt" in line:
            revisions[port] = revisions.get(port, 0) + 1
        if do == "read" and "port" in line and line["port"]["revision"] != revisions.get(port, 0):
            return f"port {port} was configured {revisions.get(port, 0)} times, and is read as {line['port']}"
    return None


def wrong_events(printed, is_whole=True):
    """Events begin with `serving` and end with `ended`; no port has the same status twice in a row; what is durable rises."""
    events = [line for line in printed if "event" in line]
    statuses, durable = {}, 0
    for line in events:
        if line["event"] == "status" and statuses.get(line["port"]) == line["status"]:
            return f"the same status twice in a row: {line}"
        if line["event"] == "durable" and line["number"] <= durable:
            return f"durable {line['number']} after {durable}"
        if line["event"] == "status":
            statuses[line["port"]] = line["status"]
        elif line["event"] == "durable":
            durable = line["number"]
    if printed and printed[0].get("event") != "serving" or sum(line["event"] == "serving" for line in events) > 1:
        return f"it does not begin with serving: {printed[:2]}"
    if is_whole and (not printed or printed[-1].get("event") != "ended"):
        return f"it does not end with ended: {printed[-2:]}"
    return None


def wrong_whole(asked, printed, ports):
    """What is wrong with a run that went to its end, on a new image."""
    wrong = wrong_answers(asked, printed) or wrong_order(asked, printed, ports)
    return wrong or wrong_reads(asked, printed) or wrong_events(printed)


def wrong_receipts(printed, found):
    """What is found has the number of each receipt, and all that was said to be durable."""
    numbers = [line.get("receipt", line.get("number", 0)) for line in printed]
    most = max([0, *numbers])
    return f"{most} was acknowledged, and {found['recovered']} is found" if most > found["recovered"] else None


def wrong_configurations(asked, printed, before, found):
    """Each port is as one of its requests left it that is no earlier than its last receipt, and no later than the last request."""
    for port, (old, new) in enumerate(zip(before["ports"], found["ports"]), 1):
        mine = [number for number, request in asked.items() if request == ("configure", port)]
        granted = sum(line.get("id") in mine for line in printed if "receipt" in line)
        revision, least = new["revision"], old["revision"] + granted
        if not least <= revision <= old["revision"] + len(mine):
            return f"port {port} is found at revision {revision}, and had {granted} receipts after {old['revision']}"
        wanted = configuration(port, revision) if revision > old["revision"] else old["configuration"]
        if any(new["configuration"][key] != value for key, value in wanted.items()):
            return f"no request left port {port} so: {new['configuration']}"
    return None


def wrong_log(log):
    """After what is no answer the next request of a driver asks for the page, so that nothing of it was taken."""
    for line, after in zip(log, log[1:]):
        if line["deed"] in NO_ANSWERS and after["asked"] != "page":
            return f"{line['deed']} is taken as an answer: {line}, and then {after}"
    return None


def wrong_end(status, errors, causes):
    """A master ends with status 0 and no error, or with status 1 and one of these causes."""
    if status == 0:
        return f"it ends well, and says {errors!r}" if errors else None
    is_named = status == 1 and re.fullmatch(r"error: .*\n", errors) and errors[len("error: ") : -1] in causes
    return None if is_named else f"it ends with status {status}, and says {errors!r}"


# What no master may print, find or ask.
SERVING = {"event": "serving", "ports": 2, "commands": 0}
ENDED = {"event": "ended", "number": 2}
NEW = {"revision": 0, "configuration": configuration(1, 0)}
ASKED = {1: ("configure", 1), 2: ("configure", 1), 3: ("read", 1), 4: ("wrong", None), 5: ("status", 2)}
SOUND = [
    SERVING,
    {"id": 1, "receipt": 1},
    {"id": 4, "wrong": "missing: port"},
    {"id": 5, "statuses": [{"port": 2, "status": "off"}]},
    {"id": 2, "receipt": 2},
    {"id": 3, "port": {"port": 1, "revision": 2}},
    ENDED,
]


def planted(place, **members):
    """The sound lines, one of which has other members."""
    return [*SOUND[:place], {**SOUND[place], **members}, *SOUND[place + 1 :]]


def status_of(port, status):
    """The event of a status."""
    return {"event": "status", "port": port, "status": status}


# Mistakes that are planted: a title, and what its judge says.
PLANTED = {
    "an answer of another port": wrong_answers(ASKED, planted(5, port={"port": 2, "revision": 2})),
    "a status of another port": wrong_answers(ASKED, planted(3, statuses=[{"port": 1, "status": "off"}])),
    "an answer that is given twice": wrong_answers(ASKED, [*SOUND, SOUND[1]]),
    "an answer that is missing": wrong_answers(ASKED, SOUND[:2]),
    "an answer to a request that nobody made": wrong_answers(ASKED, planted(1, id=7)),
    "a receipt for a line that is no request": wrong_answers(ASKED, [{"id": 4, "receipt": 3}]),
    "a receipt with a smaller number": wrong_order(ASKED, planted(4, receipt=0), 2),
    "one number for two receipts": wrong_order(ASKED, planted(4, receipt=1), 2),
    "answers of a port in another order": wrong_order(ASKED, SOUND[::-1], 2),
    "a read of what was there before": wrong_reads(ASKED, planted(5, port={"port": 1, "revision": 1})),
    "a status that is told twice": wrong_events([SERVING, status_of(1, "lost"), status_of(2, "lost"), status_of(1, "lost"), ENDED]),
    "a number that is durable twice": wrong_events([SERVING, *2 * [{"event": "durable", "number": 1}], ENDED]),
    "an end that is not told": wrong_events(SOUND[:-1]),
    "a receipt before it came": wrong_receipts([SERVING, {"id": 1, "receipt": 5}], {"recovered": 4}),
    "a receipt that is not on the image": wrong_configurations(ASKED, SOUND, {"ports": [NEW]}, {"ports": [NEW]}),
    "a configuration that nobody asked for": wrong_configurations(
        ASKED, SOUND, {"ports": [NEW]}, {"ports": [{"revision": 2, "configuration": configuration(1, 3)}]}
    ),
    "a malformed line as an answer": wrong_log(
        [{"deed": "garbage", "asked": "isdu 93 40 D3"}, {"deed": "answer", "asked": "isdu A4 41 01 E4"}]
    ),
    "an end without a cause": wrong_end(1, "", ["out of memory"]),
    "an end by a signal": wrong_end(-11, "error: out of memory\n", ["out of memory"]),
}


def wrong_judges():
    """What the judges make of the sound lines, and which planted mistakes they do not find; None if they are right."""
    sound = wrong_whole(ASKED, SOUND, 2) or wrong_receipts(SOUND, {"recovered": 2})
    unseen = [title for title, wrong in PLANTED.items() if not wrong]
    if sound or unseen:
        return f"the sound lines: {sound}; not found: {unseen}"
    return None
