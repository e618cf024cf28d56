"""Programs that wrap the real one and change what it prints in ways that no program may, to see whether tests/fuzz finds them.

Each takes the lines of a run and what fuzz_judge.py has read there, and gives other lines, or nothing where it has nothing to
change. Beside it stands the rule that has to find it.
"""

import re

import fuzz_words as words
from fuzz_judge import Said

STOPPED = "stopped"


def after_stop(lines, told):
    """The lines with another state behind the stop."""
    return [*lines[: lines.index(STOPPED) + 1], *told]


def recovered_number(lines):
    return int(lines[lines.index(STOPPED) + 1].split()[1])


def swapped(lines, place):
    """The lines with one behind the other swapped."""
    return [*lines[:place], lines[place + 1], lines[place], *lines[place + 2 :]]


def first_place(lines, pattern, start=0):
    """The place of the first line from a place on that is of a pattern."""
    return next((place for place in range(start, len(lines)) if re.fullmatch(pattern, lines[place])), None)


def acknowledges_before_the_sync(lines, read):
    place = next((at for at, line in enumerate(lines[1:]) if line.startswith("acknowledged") and lines[at] == "disk sync"), None)
    return None if place is None else swapped(lines, place)


def acknowledges_what_is_lost(lines, read):
    if recovered_number(lines) > read.acknowledged or len(read.commands) == read.acknowledged:
        return None
    place = lines.index(STOPPED)
    return [*lines[:place], f"acknowledged {read.acknowledged + 1}", *lines[place:]]


def opens_a_gate_before_the_sync(lines, read):
    place = next((at for at, line in enumerate(lines[1:]) if re.search("gate of slot .* open", line) and lines[at] == "disk sync"), None)
    return None if place is None else swapped(lines, place)


def keeps_a_set_over_a_configure(lines, read):
    number, state = recovered_number(lines), read.states[0]
    for command in read.commands[:number]:
        before, state = state, words.state_after(state, command)
        held = before[command.port - 1]
        if command.config and held.parameters:
            kept = state[command.port - 1]._replace(parameters=held.parameters, recorded=held.recorded)
            state = (*state[: command.port - 1], kept, *state[command.port :])
    return None if state == read.states[number] else after_stop(lines, words.recovered_lines(number, state))


def copies_the_previous_set_over_the_present_one(lines, read):
    number, state = recovered_number(lines), read.states[0]
    for command in read.commands[:number]:
        state = words.state_after(state, command)
        held = state[command.port - 1]
        if command.is_rollback:
            state = (*state[: command.port - 1], held._replace(previous=held.stored()), *state[command.port :])
    return None if state == read.states[number] else after_stop(lines, words.recovered_lines(number, state))


def recovers_less_than_was_acknowledged(lines, read):
    number = read.acknowledged - 1
    return after_stop(lines, words.recovered_lines(number, read.states[number])) if number >= 0 else None


def recovers_what_was_never_accepted(lines, read):
    state = words.state_after(read.states[-1], words.Command(1, words.Config(1, 3, 500, 43981)))
    return after_stop(lines, words.recovered_lines(len(read.commands) + 1, state))


def recovers_a_batch_that_is_not_written(lines, read):
    number = read.acknowledged + 1
    if not any(line.startswith("disk ") for line in lines) or recovered_number(lines) == number or number > len(read.commands):
        return None
    return after_stop(lines, words.recovered_lines(number, read.states[number]))


def shows_a_set_that_was_not_uploaded_whole(lines, read):
    """The values that a port had read when its device was lost."""
    number = recovered_number(lines)
    for port, state in enumerate(read.states[number], 1):
        told = [line for line in lines if line.startswith(f"port {port} ")]
        values = []
        for line, behind in zip(told, told[1:]):
            key, data = words.read_request(bytes.fromhex(line.partition(" > ")[2])) or (None, b"")
            heard = words.read_answer(bytes.fromhex(behind.partition(" < ")[2]))
            values = [] if line.endswith("uploading") else values
            values += [(key, heard[1])] if heard and heard[0] == "read" and data is None and key[0] != 3 else []
            if line.endswith("storing"):
                break
            if behind.endswith("lost") and values and not state.parameters:
                found = words.ParameterSet(*state.config[2:4], 0, tuple(values))
                shown = state._replace(parameters=found, recorded=state.config)
                others = read.states[number]
                return after_stop(lines, words.recovered_lines(number, (*others[: port - 1], shown, *others[port:])))
    return None


def stores_a_set_that_was_not_uploaded_whole(lines, read):
    """The checksum, which is read last, is not read."""
    place = first_place(lines, r"port \d+ storing")
    is_read = place is not None and lines[place - 3].endswith(" > A4 03 04 A3")
    return [*lines[: place - 3], *lines[place - 1 :]] if is_read else None


def stores_a_set_after_a_configure(lines, read):
    """A Configure that was accepted behind the Store of its port is told before it."""
    place = first_place(lines, r"port \d+ storing")
    number = int(lines[place - 1].split()[1]) if place else len(read.commands)
    if number == len(read.commands):
        return None
    behind, command = lines.index(f"accepted {number + 1}"), read.commands[number]
    is_other = not command.config or command.port != read.commands[number - 1].port
    if is_other or any(line.startswith("refused") for line in lines[place:behind]):
        return None
    told = [f"accepted {number}", f"accepted {number + 1}", lines[place]]
    return [*lines[: place - 1], *told, *lines[place + 1 : behind], *lines[behind + 1 :]]


def sends_a_set_to_another_device(lines, read):
    place = first_place(lines, r"port \d+ downloading")
    if place is None:
        return None
    port = lines[place].split()[1]
    page = max(at for at in range(place) if lines[at].startswith(f"port {port} page"))
    octets = lines[page].split(" ")
    octets[3 + 11] = f"{int(octets[3 + 11], 16) ^ 1:02X}"
    return [*lines[:page], " ".join(octets), *lines[page + 1 :]]


def writes_of(lines):
    """The places of the entries that downloads write, each with its port."""
    found, downloading = [], set()
    for place, line in enumerate(lines[: lines.index(STOPPED)]):
        _, port, *rest = line.split(" ") if line.startswith("port ") else ("", "", "")
        if rest[:1] == [">"] and port in downloading:
            key, data = words.read_request(bytes.fromhex("".join(rest[1:])))
            found += [(place, port)] if data is not None and key[0] != 3 else []
        elif rest[0] not in (">", "<", "page"):
            (downloading.add if rest == ["downloading"] else downloading.discard)(port)
    return found


def swaps_two_entries(lines, read):
    found = writes_of(lines)
    for (place, port), (behind, other) in zip(found, found[1:]):
        if port == other and lines[place] != lines[behind]:
            changed = list(lines)
            changed[place], changed[behind] = lines[behind], lines[place]
            return changed
    return None


def sends_another_value(lines, read):
    for place, port in writes_of(lines):
        key, data = words.read_request(bytes.fromhex(lines[place].partition(">")[2]))
        if data:
            sent = words.request(key, bytes([data[0] ^ 1]) + data[1:])
            return [*lines[:place], f"port {port} >{words.spaced(sent)}", *lines[place + 1 :]]
    return None


def ends_an_upload_too_early(lines, read):
    """DS_UploadEnd stands before what makes its set durable."""
    end = first_place(lines, r"port \d+ > 25 03 01 02 25")
    if end is None:
        return None
    storing = max(at for at in range(end) if lines[at] == f"port {lines[end].split()[1]} storing")
    return [*lines[: storing + 1], *lines[end : end + 2], *lines[storing + 1 : end], *lines[end + 2 :]]


def skips_a_number(lines, read):
    place = first_place(lines, f"accepted {len(read.commands)}")
    return None if place is None else [*lines[:place], f"accepted {len(read.commands) + 1}", *lines[place + 1 :]]


def refuses_by_another_cause(lines, read):
    place = first_place(lines, "refused .*")
    if place is None:
        return None
    other = "QueueFull" if lines[place] == "refused UnknownPort" else "UnknownPort"
    return [*lines[:place], f"refused {other}", *lines[place + 1 :]]


def accepts_once_the_disk_has_failed(lines, read):
    place = first_place(lines, "refused Stopped")
    return None if place is None else [*lines[:place], f"accepted {len(read.commands) + 1}", *lines[place + 1 :]]


def loses_an_entry(lines, read):
    place = first_place(lines, "entry .*", lines.index(STOPPED))
    return None if place is None else [*lines[:place], *lines[place + 1 :]]


def shows_another_recorded_configuration(lines, read):
    place = first_place(lines, "port .* under 1 3 .*", lines.index(STOPPED))
    return None if place is None else [*lines[:place], lines[place].replace(" under 1 3 ", " under 1 4 "), *lines[place + 1 :]]


def stops_serving_a_port(lines, read):
    place = next((at for at in range(len(lines) - 1, -1, -1) if re.match(r"port \d+ page", lines[at])), None)
    is_settled = place is not None and not re.match(r"port \d+ ([<>]|mismatch|ready)", lines[place + 1])
    return [*lines[:place], *lines[place + 1 :]] if is_settled else None


def leaves_a_queue_in_a_drain(lines, read):
    place = next((at for at, line in enumerate(lines) if line == f"acknowledged {read.acknowledged}"), None)
    later = place is not None and any(re.match(r"port \d+ > 25 03 01 02|acknowledged", line) for line in lines[place + 1 :])
    return None if place is None or later else [*lines[:place], *lines[place + 1 :]]


def explains_another_run(lines, read):
    place = first_place(lines, "accepted .*") if any(line.startswith("disk ") for line in lines) else None
    return None if place is None else [*lines[:place], *lines[place + 1 :]]


# Those that change the lines of a run, each with the rule that finds it.
OF_LINES = {
    "acknowledges before the sync": (acknowledges_before_the_sync, "durability"),
    "acknowledges one command more, which is lost": (acknowledges_what_is_lost, "recovery"),
    "opens a gate before the sync of what stands behind it": (opens_a_gate_before_the_sync, "durability"),
    "keeps a set over a Configure that deletes it": (keeps_a_set_over_a_configure, "states"),
    "copies the previous set over the present one": (copies_the_previous_set_over_the_present_one, "states"),
    "recovers a command less than was acknowledged": (recovers_less_than_was_acknowledged, "recovery"),
    "recovers a command that was never accepted": (recovers_what_was_never_accepted, "recovery"),
    "recovers a batch whose gate is not written": (recovers_a_batch_that_is_not_written, "recovery"),
    "shows a set of an upload that did not finish": (shows_a_set_that_was_not_uploaded_whole, "states"),
    "stores a set of an upload that did not finish": (stores_a_set_that_was_not_uploaded_whole, "sets"),
    "stores a set behind a Configure of its port": (stores_a_set_after_a_configure, "sets"),
    "sends a set to another device": (sends_a_set_to_another_device, "connections"),
    "swaps two entries of a download": (swaps_two_entries, "downloads"),
    "sends another value in a download": (sends_another_value, "downloads"),
    "ends an upload before its set is durable": (ends_an_upload_too_early, "ends"),
    "skips a number": (skips_a_number, "numbers"),
    "refuses by another cause": (refuses_by_another_cause, "refusals"),
    "accepts a command once the disk has failed": (accepts_once_the_disk_has_failed, "refusals"),
    "loses an entry of a set": (loses_an_entry, "states"),
    "shows a set under another configuration": (shows_another_recorded_configuration, "states"),
    "explains another run than it makes": (explains_another_run, "explained"),
    "stops serving a port": (stops_serving_a_port, "reading"),
    "tells nothing of a batch that it wrote": (leaves_a_queue_in_a_drain, "reading"),
}

# Those that end otherwise, each with the rule that finds it.
OF_ENDS = {
    "crashes": (Said("", "", -11), "status"),
    "does not end": (Said("", "", "no end"), "status"),
    "says nothing": (Said("", "", 0), "lines"),
    "fails for want of memory": (Said("", "error: out of memory\n", 1), "status"),
}
