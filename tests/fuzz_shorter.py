"""Cuts a script of tests/fuzz down to a short one that still fails: with fewer steps and devices, and with smaller numbers."""

import copy
import time

SECONDS = 60
# The keys of a device that may be left out.
OPTIONAL = ("answers", "event", "revision", "isdu", "locked", "flag")


def with_change(script, change):
    """A copy of a script that a function has changed."""
    changed = copy.deepcopy(script)
    change(changed)
    return changed


def without(script, kind, first, count):
    """The script without so many of its steps or its devices."""
    return {**script, kind: script[kind][:first] + script[kind][first + count :]}


def fewer(script, kind):
    """Scripts with fewer steps or devices: first without a half of them, at last without one."""
    count = len(script.get(kind, []))
    while count:
        yield from (without(script, kind, first, count) for first in range(0, len(script[kind]), count))
        count //= 2


def joined(script):
    """Scripts in which two steps that follow one another and do the same are one."""
    steps = script.get("step", [])
    for place, (step, behind) in enumerate(zip(steps, steps[1:])):
        if "times" in step and {**step, "times": 0} == {**behind, "times": 0}:
            both = {**step, "times": step["times"] + behind.get("times", 1)}
            yield {**script, "step": [*steps[:place], both, *steps[place + 2 :]]}


def smaller(number, least):
    """Numbers that are smaller, the smallest first."""
    return [value for value in dict.fromkeys((least, number // 2, number - 1)) if least <= value < number]


def set_at(kind, place, key, value):
    """A change that sets a key of a device or a step; without a value it takes the key out."""

    def change(script):
        table = script[kind][place] if kind else script
        if value is None:
            table.pop(key)
        else:
            table[key] = value

    return change


def renamed(script, key, old, new):
    """A change of each number of a key, in devices and steps alike, so that what was the same stays the same."""

    def change(changed):
        for table in [*changed.get("device", []), *changed.get("step", [])]:
            if table.get(key) == old:
                table[key] = new

    return with_change(script, change)


def with_smaller_names(script):
    """Scripts in which all ports, vendors or devices of one number have a smaller one that is free."""
    tables = [*script.get("device", []), *script.get("step", [])]
    for key, least in (("port", 1), ("vendor", 1), ("device", 1)):
        used = sorted({table[key] for table in tables if isinstance(table.get(key), int)}, reverse=True)
        for old in used:
            new = next(number for number in range(least, len(used) + least + 1) if number not in used)
            if new < old:
                yield renamed(script, key, old, new)


def without_key(script, key, calls):
    """The script with no device that has this parameter; each of those is lost so many calls earlier."""

    def change(changed):
        for device in changed["device"]:
            if key in device.get("keys", [])[: len(device.get("values", []))]:
                del device["values"][device["keys"].index(key)]
                device["keys"].remove(key)
                if device.get("answers", 0) > calls:
                    device["answers"] -= calls

    return with_change(script, change)


def with_fewer_parameters(script):
    """Scripts of which a device has fewer parameters, or shorter values."""
    keys = [key for device in script.get("device", []) for key in device.get("keys", [])]
    yield from (without_key(script, key, calls) for place, key in enumerate(keys) if key not in keys[:place] for calls in (1, 0))
    for place, device in enumerate(script.get("device", [])):
        keys, values = device.get("keys", []), device.get("values", [])
        if device.get("keys") == device.get("values") == []:
            yield with_change(script, lambda changed, place=place: [changed["device"][place].pop(kind) for kind in ("keys", "values")])
        for first in range(min(len(keys), len(values))):

            def change(changed, first=first, place=place):
                for kind in ("keys", "values"):
                    del changed["device"][place][kind][first]

            yield with_change(script, change)
        for at, octets in enumerate(values):
            for shorter in dict.fromkeys(("00", octets[: len(octets) // 4 * 2])):
                if len(shorter) < len(octets):
                    change = set_at("device", place, "values", values[:at] + [shorter] + values[at + 1 :])
                    yield with_change(script, change)


def with_smaller_numbers(script):
    """Scripts of which one number is smaller, or one key is left out."""
    for key in ("fail",) if "fail" in script else ():
        yield with_change(script, set_at(None, None, key, None))
    for key in ("ports", "slots"):
        if isinstance(script.get(key), int):
            yield from (with_change(script, set_at(None, None, key, value)) for value in smaller(script[key], 1))
    for place, device in enumerate(script.get("device", [])):
        for key in OPTIONAL:
            if key in device:
                yield with_change(script, set_at("device", place, key, None))
            if key in ("answers", "event") and key in device:
                yield from (with_change(script, set_at("device", place, key, value)) for value in smaller(device[key], 0))
    for place, step in enumerate(script.get("step", [])):
        if isinstance(step.get("times"), int):
            yield from (with_change(script, set_at("step", place, "times", value)) for value in smaller(step["times"], 1))


def candidates(script):
    """Scripts that are shorter than this one, those that leave out most first."""
    for kind in ("step", "device"):
        yield from fewer(script, kind)
    yield from joined(script)
    yield from with_smaller_numbers(script)
    yield from with_fewer_parameters(script)
    yield from with_smaller_names(script)


def shortest(script, still_fails):
    """A script that still fails, and of which no candidate does, or the shortest that was found in the time that there is."""
    end, is_done = time.monotonic() + SECONDS, False
    while not is_done:
        is_done = True
        for candidate in candidates(script):
            if time.monotonic() > end:
                return script
            if still_fails(candidate):
                script, is_done = candidate, False
                break
    return script
