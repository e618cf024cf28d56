"""Which scripts of tests/fuzz are not run, and with which error, as docs/FORMATS.md has it ("Scripts", "Texts")."""

import re

from fuzz_words import given_up

# What may stand at a key of a device or a step: the least and the greatest number, or the type of what is no number.
FOREVER = 2**63 - 1
DEVICE_KEYS = {"vendor": (0, 65535), "device": (0, 2**24 - 1), "revision": (0, 255), "answers": (0, FOREVER), "event": (0, FOREVER)}
DEVICE_TYPES = {"isdu": bool, "flag": bool, "locked": bool, "keys": list, "values": list}
CONFIG_KEYS = {"port": (1, 32), "mode": (0, 4), "validation": (0, 4), "vendor": (0, 65535), "device": (0, 2**24 - 1)}
LABEL = r"[ !#-~]{0,32}"
STEP_KEYS = {
    "configure": CONFIG_KEYS,
    "clear": {"port": (1, 32)},
    "rollback": {"port": (1, 32)},
    "port": {"port": (1, 32), "times": (1, 10_000)},
    "flush": {"times": (1, 10_000)},
    "drain": {},
    "stop": {},
}


def is_number(value, least, most):
    return isinstance(value, int) and not isinstance(value, bool) and least <= value <= most


def is_table(table, numbers, optional, types):
    """Whether a table has these numbers, all but the optional ones, and besides nothing but values of these types."""
    is_whole = isinstance(table, dict) and all(key in table for key in numbers if key not in optional)
    return is_whole and all(
        is_number(value, *numbers[key]) if key in numbers else isinstance(value, types.get(key, ())) for key, value in table.items()
    )


def is_device(device, ports):
    """Whether a table is a device: with keys of which none is reserved or stands twice, and as many values of octets."""
    numbers = {"port": (1, ports), **DEVICE_KEYS}
    if not is_table(device, numbers, ("revision", "answers", "event"), DEVICE_TYPES):
        return False
    keys, values = device.get("keys", []), device.get("values", [])
    are_keys = all(isinstance(key, list) and len(key) == 2 and is_number(key[0], 1, 65535) and is_number(key[1], 0, 255) for key in keys)
    are_free = are_keys and not any(key[0] in (2, 3) for key in keys) and len({tuple(key) for key in keys}) == len(keys)
    are_values = all(isinstance(value, str) and re.fullmatch(r"([0-9A-Fa-f]{2}){0,232}", value) for value in values)
    return are_free and are_values and len(keys) == len(values) <= 70


def is_step(step, ports, is_last):
    """Whether a table is a step: a stop as the last one alone, and a step of a port that is there."""
    kind = step.get("do") if isinstance(step, dict) else None
    is_kind = isinstance(kind, str) and kind in STEP_KEYS
    if not is_kind or (kind == "stop" and not (is_last and step.get("keep") in ("old", "new", "zero", "pattern"))):
        return False
    numbers = {**STEP_KEYS[kind], **({"port": (1, ports)} if kind == "port" else {})}
    texts = {"do": str, **{"stop": {"keep": str}, "configure": {"label": str}}.get(kind, {})}
    return is_table(step, numbers, ("times",), texts) and bool(re.fullmatch(LABEL, step.get("label", "")))


def is_script(script, text):
    """Whether a text is a script: with whole numbers of ports and slots, which may be no geometry."""
    ports, steps, fail = script.get("ports"), script.get("step", []), script.get("fail", "read 1")
    if not isinstance(fail, str) or not all(isinstance(script.get(kind, []), list) for kind in ("device", "step")):
        return False
    are_numbers = all(is_number(script.get(key), -FOREVER - 1, FOREVER) for key in ("ports", "slots"))
    if not are_numbers or len(text.encode()) > 65_536 or set(script) - {"ports", "slots", "fail", "device", "step"}:
        return False
    fail = re.fullmatch(r"(?:read|write|sync) ([1-9]\d{0,6})", fail)
    are_devices = all(is_device(device, min(ports, 32)) for device in script.get("device", []))
    are_steps = all(is_step(step, min(ports, 32), place == len(steps)) for place, step in enumerate(steps, 1))
    return bool(fail) and int(fail[1]) <= 1_000_000 and are_devices and are_steps


def expected_error(script, text):
    """The error and the status of a script that is not run; nothing of one that is."""
    if not is_script(script, text):
        return "error: the script is not valid\n", 2
    ports, slots = script["ports"], script["slots"]
    if not (1 <= ports <= 32 and 1 <= slots <= 256 and given_up(ports) < slots):
        return "error: the geometry is not valid\n", 2
    # The recovery before the run makes one sync. It reads sectors 0 and 1, the gates and the headers of both areas, a record for
    # each port, and the gate of the first slot.
    kind, _, number = script.get("fail", "write 1").partition(" ")
    is_first = int(number) <= {"sync": 1, "read": 7 + script["ports"], "write": 0}[kind]
    return ("error: the disk failed\n", 1) if is_first else None


def kept_by(script):
    """What the stop of a script keeps."""
    return (script.get("step") or [{}])[-1].get("keep", "new")
