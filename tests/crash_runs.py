"""Runs of a master for tests/crashes: scripts from a seed, runs under the library that logs disk calls, and what each state has to be."""

import json
import os
import subprocess
from collections import namedtuple

from crash_log import log_of

TOP = os.path.dirname(os.path.dirname(os.path.abspath(__file__)))
IOLMASTER = f"{TOP}/out/iolmaster"
SECONDS = 120
MOST_OCTETS = 65_536
IOL_MANUAL, BACKUP_AND_RESTORE, RESTORE = 1, 3, 4
# Half of the configurations keep sets.
MODES = (*[(IOL_MANUAL, BACKUP_AND_RESTORE)] * 2, (IOL_MANUAL, RESTORE), (0, 0))
LABELS = ("", "", "Pump 3", "x" * 32, "~ !#")
# A device of a script, and a step of a port: `configure` with its numbers and its label, `clear` or `rollback`.
Device = namedtuple("Device", "port vendor device flag keys values")
Step = namedtuple("Step", "do port mode validation vendor device label", defaults=(0, 0, 0, 0, ""))


class Plan:
    """What is asked of a master with so many ports, and which devices are there."""

    def __init__(self, choices, ports):
        served = choices.sample(range(1, ports + 1), min(ports, choices.choice((1, 2, 3, 5, 8))))
        self.devices = [device for port in served for device in devices_at(choices, port)]
        steps = [steps_of(choices, port, self.devices) for port in served]
        self.steps = [step for turn in range(max(map(len, steps))) for its in steps for step in its[turn : turn + 1]]

    def configured(self, port):
        """The configurations that are asked for a port, in order."""
        return [step for step in self.steps if step.port == port and step.do == "configure"]

    def drop_refused(self, said):
        """Drops what a serving master has refused."""
        lines = [json.loads(line) for line in said.splitlines() if line.startswith("{")]
        refused = {line["id"] for line in lines if "refused" in line}
        self.steps = [step for place, step in enumerate(self.steps) if place not in refused]

    def script(self):
        """The plan as a script of a running master."""
        return "\n".join([*map(device_table, self.devices), *map(step_table, self.steps), ""])

    def requests(self):
        """Its steps as requests of a serving master."""
        asked = [{name: value for name, value in step._asdict().items() if name in KEYS[step.do]} for step in self.steps]
        return "".join(f"{json.dumps({'id': place, **its})}\n" for place, its in enumerate(asked)) + '{"do": "quit"}\n'


KEYS = {"configure": Step._fields, "clear": ("do", "port"), "rollback": ("do", "port")}


def plan_of(choices, ports):
    """A plan whose script is not too long."""
    plan = Plan(choices, ports)
    while len(plan.script()) > MOST_OCTETS:
        plan = Plan(choices, ports)
    return plan


def devices_at(choices, port):
    """Devices that come one after another at a port: some are alike but for their values, so that one replaces the other."""
    vendor, device = choices.randrange(1, 4), choices.randrange(1, 4)
    return [
        Device(port, vendor, device + choices.choice((0, 0, 0, 1)), choices.random() < 0.7, *parameters(choices))
        for _ in range(choices.choice((0, 1, 1, 2, 3)))
    ]


def parameters(choices):
    """Keys and values of a device: few, or so many that a set takes several sectors."""
    count = choices.choice((0, 1, 2, 3, 12))
    keys = [[0x40 + place, choices.randrange(3)] for place in range(count)]
    return keys, [choices.randbytes(choices.choice((0, 1, 4, 232))).hex().upper() for _ in keys]


def steps_of(choices, port, devices):
    """The steps of a port, most of which configure it for one of its devices."""
    numbers = [(its.vendor, its.device) for its in devices if its.port == port] or [(1, 1)]
    steps = []
    for _ in range(choices.choice((1, 2, 4, 8, 20))):
        do = choices.choice((*["configure"] * 7, "clear", "rollback"))
        if do != "configure":
            steps.append(Step(do, port))
            continue
        mode, validation = choices.choice(MODES)
        steps.append(Step(do, port, mode, validation, *choices.choice(numbers), choices.choice(LABELS)))
    return steps


def device_table(its):
    numbers = f"vendor = {its.vendor}\ndevice = {its.device}\nflag = {str(its.flag).lower()}"
    return f"[[device]]\nport = {its.port}\n{numbers}\nkeys = {json.dumps(its.keys)}\nvalues = {json.dumps(its.values)}"


def step_table(its):
    keys = [f"{name} = {json.dumps(value)}" for name, value in its._asdict().items() if name in KEYS[its.do]]
    return "\n".join(["[[step]]", *keys])


def logged(folder, shims, words, descriptor, requests="", **more):
    """Runs the program on the image of a folder, behind these libraries. Its log, its status, and what it said."""
    records = f"{folder}/records"
    with open(records, "wb"):
        pass
    told = {"LD_PRELOAD": ":".join(shims), "DISK_CALLS": records, "DISK_ENDS": "1", "DISK_TOLD": str(descriptor), **more}
    pipes = {"input": requests.encode(), "capture_output": True, "timeout": SECONDS}
    ran = subprocess.run([IOLMASTER, *words], cwd=folder, env=os.environ | told, **pipes)
    with open(records, "rb") as file:
        return log_of(file.read()), ran.returncode, (ran.stdout + ran.stderr).decode(errors="replace")


def run(folder, shims, plan, serves, **more):
    """A run of a plan on the image of a folder, by `live` or by `serve`, with more in its environment."""
    with open(f"{folder}/script.toml", "w", encoding="utf-8") as file:
        # (a serving master takes the devices of a script that has no step)
        file.write("\n".join([*map(device_table, plan.devices), ""]) if serves else plan.script())
    if not serves:
        return logged(folder, shims, ["live", "a.img", "script.toml", "--receipts"], 2, **more)
    log, status, said = logged(folder, shims, ["serve", "a.img", "--devices", "script.toml", "--json"], 1, plan.requests(), **more)
    plan.drop_refused(said)
    return log, status, said


class Allowed:
    """What the states of a run may be, that began with one: the configurations of each port by its revisions, and the sets of devices."""

    def __init__(self, before, plan, sets):
        self.before, self.plan = before, plan
        self.sets = sets | {(its.port, its.vendor, its.device, entries_of(its)) for its in plan.devices}

    def wrong(self, state):
        """What is wrong with a state, or None."""
        for number, port in enumerate(state.ports, 1):
            wrong = self.wrong_port(number, port, self.before.ports[number - 1])
            if wrong:
                return f"port {number}: {wrong}"
        return None

    def wrong_port(self, number, port, before):
        turn = port.revision - before.revision
        asked = self.plan.configured(number)
        if not 0 <= turn <= len(asked):
            return f"its revision is {port.revision}"
        if turn == 0 and port.configuration != before.configuration:
            return "it is configured otherwise under the same revision"
        if turn and not is_configured(port.configuration, asked[turn - 1]):
            return f"revision {port.revision} is not what was asked for: {port.configuration}"
        for stored in filter(None, (port.stored, port.previous)):
            its = stored.parameters
            if (number, its.vendor, its.device, frozenset(its.entries)) not in self.sets:
                return f"no device held the set {its}"
        return None


def sets_of(state):
    """The sets of a state, as those of devices."""
    stored = [(number, its.parameters) for number, port in enumerate(state.ports, 1) for its in (port.stored, port.previous) if its]
    return {(number, its.vendor, its.device, frozenset(its.entries)) for number, its in stored}


def entries_of(device):
    return frozenset((tuple(key), bytes.fromhex(value)) for key, value in zip(device.keys, device.values))


def is_configured(configuration, step):
    return tuple(configuration) == (step.mode, step.validation, step.vendor, step.device, step.label.encode())
