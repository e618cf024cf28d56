"""Cases of a serving master and its drivers: a backup, a replaced sensor, a rollback, many ports, and drivers that misbehave."""

import concurrent.futures
import contextlib
import json
import os
import subprocess
import time

from driver_runs import INDEPENDENT, TOP, Different, Started, devices_of, trace_of, words_of
from serving_judge import wrong_log
from serving_master import PATIENCE, Served, formatted, ran, shown, status_in

MOST_PORTS = 32
# How long the drivers of many ports wait before each page, in milliseconds, so that they leave the processors to others.
CYCLE = "20"
# How many drivers are started at a time.
STARTED_AT_ONCE = 8
SENSOR = {"vendor": 500, "device": 43981, "flag": True}
MANUAL = {"mode": 1, "validation": 3, "vendor": 500, "device": 43981}
# The deeds of tests/independent_device.py that are tried, each at a port of its own, and whether the port is ready in the end. The first
# port has a driver that does nothing wrong. Request 6 is in the middle of an upload.
DEEDS = {
    "1- answer": True,
    "0 events 300": True,
    "0 flood": True,
    "1 cut": True,
    "1 slow 1": True,
    "6 slow 1": True,
    "6 pieces 0.3": True,
    "6 die 0.5": True,
    "6 garbage": True,
    "2-9 garbage": True,
    "6 half": True,
    "6 flood": True,
    "6 twice": True,
    "2- twice": True,
    "6 late": True,
    "6 ahead": True,
    "6 other": True,
    "6 silent": True,
    "3-8 busy": True,
    "1-9 events 300": True,
    "6 events 900": True,
    "1- silent": False,
    "1- garbage": False,
}
# Those that are tried over pseudo-terminals too.
PTY_DEEDS = ("1- answer", "6 die 0.5", "6 garbage", "6 half", "6 flood", "6 silent", "1- silent")
# How long a driver may be silent in these cases, in seconds. For how long a port that is ready has to stay so beside them, and how
# often its driver is asked meanwhile at least.
SILENCE, CALM_SECONDS, LEAST_ASKED = 3, 1, 5
# How soon it is told that a driver has ended, in seconds: less than a driver may be silent at first.
LOST_SECONDS = 6
# How soon a driver that talks and does not answer is lost, in seconds: it talks for longer, and keeps a processor busy with that.
TALKER_LOST_SECONDS = 20
# How soon a master ends beside a silent driver, in seconds. It is tried so often at most, as other programs may keep the processors.
END_SECONDS, END_ROUNDS = 0.6, 3
# A driver whose files a shell opens. It has one device, and answers with its page alone.
FROM_SHELL = """
import sys
is_new = True
for line in sys.stdin:
    number, kind = line.split()[:2]
    is_page = kind == "page" and (number == "1" or not is_new)
    print(f"{number} page 00 00 17 01 11 00 00 01 F4 00 AB CD 00 00 00 00" if is_page else f"{number} lost", flush=True)
    is_new = False
"""


def parameters_of(port):
    """The parameters of the device at a port, which are like those of no other port."""
    return {"0040.00": f"{port:02X}64", "0041.01": f"{port:02X}", "1200.00": f"{port:02X}" * 40}


def entries_of(parameters):
    """The entries that `show --json` has of parameters."""
    keys = [(name.split("."), octets) for name, octets in parameters.items()]
    return [{"index": int(index, 16), "subindex": int(subindex, 16), "data": octets} for (index, subindex), octets in keys]


def read_log(path):
    """The log of a driver."""
    with open(path, encoding="utf-8") as file:
        return [json.loads(line) for line in file]


def without_watching(exchanges):
    """The exchanges without those by which a port watches its device: a page that no ISDU follows. Losses in a row are one."""
    kept = []
    for exchange, after in zip(exchanges, [*exchanges[1:], None]):
        is_watching = exchange[0] == "page" and exchange[2] != "lost" and (after is None or after[0] == "page")
        is_repeated = exchange[2] == "lost" and kept and kept[-1][2] == "lost"
        if not is_watching and not is_repeated:
            kept.append(exchange)
    return kept


def exchanges_in(log):
    """The exchanges of a log, as a trace has them."""
    asked = [(line["asked"].partition(" "), line["answered"]) for line in log]
    return [(kind, request, (answered or "").removeprefix(f"{kind} ")) for (kind, _, request), answered in asked]


def is_look(exchange):
    """Whether an exchange only looks at a device: its page, or a read of State_Property or of Parameter_Checksum. A driver that answers
    late while its master ends is lost, and is looked at again before the port settles."""
    return exchange[0] == "page" or exchange[1] in ("A4 03 02 A5", "A4 03 04 A3")


def follow_example(folder, files, example):
    """The drivers of an example's devices, one after another, are asked what `run` prints for the same devices and steps. Each time
    that a driver ends its terminal hangs up."""
    script = f"{TOP}/examples/{example}.toml"
    with open(script, encoding="utf-8") as file:
        devices = devices_of(file.read(), 1)
    trace, log = trace_of(ran("run", script), 1), f"{folder}/log"
    image = formatted(folder, 2)

    def start(device):
        """Starts the driver of a device."""
        return Started(folder, files, INDEPENDENT, [*words_of(INDEPENDENT, device), "--log", log])

    driver = start(devices[0])
    try:
        with Served(image, "--json", "--port", f"1={driver.port}", is_service=files == "pty") as master:
            master.change("configure", 1, **MANUAL)
            if example == "rollback" and master.ask("rollback", 1).get("refused") != "NoPrevious":
                raise Different("there is a previous set")
            place = master.wait_status(1, "ready")
            for device in devices[1:]:
                if example == "rollback" and device is devices[-1]:
                    master.change("rollback", 1)
                driver.end()
                place = master.wait_status(1, "lost", begin=place, seconds=LOST_SECONDS)
                driver = start(device)
                place = master.wait_status(1, "ready", begin=place)
            played = len(read_log(log))
            master.end_well()
    finally:
        driver.end()
    heard, wanted = exchanges_in(read_log(log)), without_watching(trace)
    if without_watching(heard[:played]) != wanted:
        raise Different(f"the drivers heard {heard[:played]}, and in the trace is {wanted}")
    if not all(is_look(exchange) for exchange in heard[played:]):
        raise Different(f"at the end the driver heard {heard[played:]}")
    if ran("show", image).split("\n", 1)[1] != ran("run", script).split("\nrecovered ", 1)[1].split("\n", 1)[1]:
        raise Different(f"it leaves {ran('show', image)}")


@contextlib.contextmanager
def drivers_of(folder, words, files="fifos"):
    """Drivers for each port, with the words of each. Gives the words for the master."""
    folders = {port: f"{folder}/{port}" for port in words}
    for each in folders.values():
        os.mkdir(each)

    def start(port):
        """Starts the driver of a port."""
        device = json.dumps({**SENSOR, "parameters": parameters_of(port)})
        usual = ["--device", device, "--cycle", CYCLE, "--log", f"{folders[port]}/log"]
        return Started(folders[port], files, INDEPENDENT, [*usual, *words[port]])

    with concurrent.futures.ThreadPoolExecutor(STARTED_AT_ONCE) as pool:
        started = [pool.submit(start, port) for port in words]
    running = [each.result() for each in started if not each.exception()]
    try:
        if len(running) < len(started):
            raise Different("a driver does not start")
        yield [word for port, driver in zip(words, running) for word in ("--port", f"{port}={driver.port}")]
    finally:
        for driver in running:
            driver.end()


def wrong_sets(state, stored):
    """What is wrong with the sets of a state, where these ports have that of their device, and the others none."""
    for port in state["ports"]:
        number, kept = port["port"], port["set"]
        if (kept is not None) != (number in stored):
            return f"port {number} has the set {kept}"
        if kept is not None and kept["entries"] != entries_of(parameters_of(number)):
            return f"port {number} has the set {kept}"
    return None


def back_up_all_ports(folder):
    """Each of 32 drivers is backed up."""
    ports = range(1, MOST_PORTS + 1)
    image = formatted(folder, MOST_PORTS, 64)
    with drivers_of(folder, {port: [] for port in ports}) as words, Served(image, "--json", *words) as master:
        numbers = [master.send("configure", port, **MANUAL) for port in ports]
        for port, number in zip(ports, numbers):
            if "receipt" not in master.answer(number):
                raise Different(f"port {port} is not configured")
            master.wait_status(port, "ready")
        number = master.end_well()
    state = shown(image)
    wrong = wrong_sets(state, set(ports))
    if wrong or state["recovered"] != number or number < 2 * MOST_PORTS:
        raise Different(wrong or f"{state['recovered']} commands, and it ended after {number}")


def bear_misbehaviour(folder, files, tried):
    """Drivers misbehave beside one that does not: its port stays ready, theirs are ready once they answer, and no wrong set is stored."""
    deeds = dict(enumerate(tried, 1))
    ready = {port for port, deed in deeds.items() if DEEDS[deed]}
    image = formatted(folder, len(deeds), 64)
    words = {port: ["--at", *deed.split()] for port, deed in deeds.items()}
    with drivers_of(folder, words, files) as named, Served(image, "--json", "--silence", str(SILENCE), *named) as master:
        for port in deeds:
            master.send("configure", port, **MANUAL)
        places = {}
        for port, deed in deeds.items():
            try:
                places[port] = master.wait_status(port, *(["ready"] if port in ready else ["lost", "starting"]))
            except Different as late:
                raise Different(f"after {deed}: {late}") from None
        asked = len(read_log(f"{folder}/1/log"))
        time.sleep(CALM_SECONDS)
        asked, calm = len(read_log(f"{folder}/1/log")) - asked, list(master.lines[places[1] :])
        statuses = {each["port"]: each["status"] for each in master.ask("status")["statuses"]}
        master.end_well()
    if asked < LEAST_ASKED or any(status_in(line) and line["port"] == 1 for line in calm):
        raise Different(f"a driver that does nothing wrong is asked {asked} times in {CALM_SECONDS} s, and its port says {calm}")
    wrong = [deed for port, deed in deeds.items() if (statuses[port] == "ready") != (port in ready)]
    if wrong:
        raise Different(f"after {wrong} the statuses are {statuses}")
    told = wrong_sets(shown(image), ready) or next(filter(None, (wrong_log(read_log(f"{folder}/{port}/log")) for port in deeds)), None)
    if told:
        raise Different(told)


def lose_talker(folder):
    """A driver that tells events for ever and answers nothing is lost within its time, and holds up no end."""
    image = formatted(folder, 1)
    with drivers_of(folder, {1: ["--at", "1-", "chatter", "30"]}) as words:
        with Served(image, "--json", "--silence", "2", *words) as master:
            master.change("configure", 1, **MANUAL)
            master.wait_status(1, "lost", seconds=TALKER_LOST_SECONDS)
            begun = time.monotonic()
            master.end_well()
            if time.monotonic() - begun > LOST_SECONDS:
                raise Different(f"it ends after {time.monotonic() - begun} seconds")


def end_beside_silence(folder):
    """A master ends soon beside a driver that is silent, however long that may be."""
    image, taken = formatted(folder, 2), []
    with drivers_of(folder, {1: ["--at", "1-", "silent"]}) as words:
        for _ in range(END_ROUNDS):
            before = len(read_log(f"{folder}/1/log"))
            with Served(image, "--json", "--silence", "60", *words) as master:
                master.change("configure", 1, **MANUAL)
                end = time.monotonic() + PATIENCE
                while len(read_log(f"{folder}/1/log")) == before and time.monotonic() < end:
                    time.sleep(0.02)
                begun = time.monotonic()
                master.end_well()
                taken.append(time.monotonic() - begun)
            if min(taken) <= END_SECONDS:
                return
    raise Different(f"it ends after {taken} seconds")


def ask_from_shell(folder):
    """A driver may have its files opened one after the other, each for one way, as a shell does."""
    image, pages = formatted(folder, 1), f"{folder}/to_master"
    requests = f"{folder}/from_master"
    for fifo in (requests, pages):
        os.mkfifo(fifo)
    with Served(image, "--json", "--port", f"1={pages},{requests}") as master:
        words = ["sh", "-c", 'exec python3 -c "$0" <"$1" >"$2"', FROM_SHELL, requests, pages]
        with subprocess.Popen(words) as driver:
            try:
                master.change("configure", 1, **{**MANUAL, "validation": 1})
                master.wait_status(1, "ready")
                master.end_well()
            finally:
                driver.kill()


def cases():
    """Each case: its title, its function and the words for it."""
    yield "32 ports with a driver each are backed up", back_up_all_ports
    yield "drivers over FIFOs that misbehave do no harm", bear_misbehaviour, "fifos", list(DEEDS)
    yield "a driver that talks and does not answer is lost", lose_talker
    yield "a driver whose files a shell opens is asked", ask_from_shell
    yield "drivers over pseudo-terminals that misbehave do no harm", bear_misbehaviour, "pty", PTY_DEEDS
    for files in ("fifos", "pty"):
        for example in ("sensor_replaced", "rollback"):
            yield f"the drivers of {example} over {files} are asked what run prints", follow_example, files, example
