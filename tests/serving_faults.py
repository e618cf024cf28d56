"""Cases of a serving master that is killed, finds no memory, or has a disk call fail: nothing that has a receipt is lost."""

import concurrent.futures
import dataclasses
import json
import math
import os
import random
import select
import signal
import subprocess
import tempfile
import time

import shims
from driver_runs import Different
from serving_judge import configuration, wrong_answers, wrong_configurations, wrong_end, wrong_events, wrong_order, wrong_receipts
from serving_master import IOLMASTER, PATIENCE, SHOWN_LINES, formatted, ran, read_lines, shown

KILLS, KILLED_PORTS, SEED = 30, 4, 1
# How many requests of each port there are in a run that is killed, how soon it is at most, and behind how many receipts at most.
ROUNDS, MOST_SECONDS, MOST_RECEIPTS = 60, 0.6, 120
FAILED = ("the disk failed",)
CAUSES = ("out of memory", "a thread could not start", *FAILED)
# A file in memory is synced at once.
MEMORY = "/dev/shm" if os.access("/dev/shm", os.W_OK) else None
# A program asks for memory less often than this; and how many requests are tried past the last one that was found, since threads make
# another number of them each time.
MOST_GROWTHS, STRETCH = 100_000, 16
MOST_CALLS, CALLS_AT_ONCE, DEVICE_FAILED = 1_000, 8, 5
# Answers in words are those that found no memory, of which it is not known which request they are to.
NO_MEMORY = "refused Memory"
DEVICES = """
[[device]]
port = 1
vendor = 500
device = 43981
flag = true
keys = [[64, 0], [65, 1]]
values = ["0A64", "7F"]
"""


def requests_of(rounds, ports, before):
    """Lines that configure each port in turn behind the revisions of a state, and what they ask by their ids."""
    lines, asked = [], {}
    for turn in range(1, rounds + 1):
        for port in range(1, ports + 1):
            number, revision = len(asked) + 1, before["ports"][port - 1]["revision"] + turn
            asked[number] = ("configure", port)
            lines.append(json.dumps({"id": number, "do": "configure", "port": port, **configuration(port, revision)}))
    return "\n".join([*lines, ""]).encode(), asked


def read_until(file, is_enough, seconds):
    """The octets that come until they are enough, the file ends, or the time is over."""
    octets, end = b"", time.monotonic() + seconds
    while not is_enough(octets) and select.select([file], [], [], max(0, end - time.monotonic()))[0]:
        more = os.read(file.fileno(), 65536)
        if not more:
            break
        octets += more
    return octets


def kill(image, seconds, receipts):
    """Kills a master on an image after these seconds, or at once behind the last of these receipts. Says whether it met a running one."""
    before = shown(image)
    lines, asked = requests_of(ROUNDS, KILLED_PORTS, before)
    pipes = {"stdin": subprocess.PIPE, "stdout": subprocess.PIPE, "stderr": subprocess.PIPE}
    with subprocess.Popen([IOLMASTER, "serve", image, "--json"], **pipes) as process:
        os.write(process.stdin.fileno(), lines)
        octets = read_until(process.stdout, lambda octets: receipts and octets.count(b'"receipt"') >= receipts, seconds)
        process.kill()
        octets += process.stdout.read()
        status = process.wait(PATIENCE)
    printed, found = read_lines(octets), shown(image)
    wrong = wrong_answers(asked, printed, False) or wrong_order(asked, printed, KILLED_PORTS) or wrong_events(printed, False)
    wrong = wrong or wrong_receipts(printed, found) or wrong_configurations(asked, printed, before, found)
    if wrong or status != -signal.SIGKILL:
        raise Different(wrong or f"it ends by itself, with status {status} and {printed[-SHOWN_LINES:]}")
    return sum("receipt" in line for line in printed)


def kill_often(folder):
    """A master is killed again and again on one image: half of the times at any moment, half right behind a receipt."""
    image, random_numbers = formatted(folder, KILLED_PORTS), random.Random(SEED)
    printed = 0
    for turn in range(KILLS):
        try:
            if turn % 2:
                printed += kill(image, random_numbers.random() * MOST_SECONDS, 0)
            else:
                printed += kill(image, PATIENCE, random_numbers.randint(1, MOST_RECEIPTS))
        except Different as different:
            raise Different(f"kill {turn + 1}: {different}") from None
    if not printed:
        raise Different("no kill came behind a receipt")


def script_of_requests():
    """What is asked in a run with faults, and the lines that ask it."""
    wanted = [("configure", 1, {"mode": 1, "validation": 3, "vendor": 500, "device": 43981}), ("configure", 2, configuration(2, 1))]
    wanted += [("status", None, {}), ("clear", 2, {}), ("read", 1, {}), ("help", None, {}), ("configure", 2, configuration(2, 2))]
    wanted += [("status", 2, {}), ("read", 2, {}), ("rollback", 2, {}), ("clear", 3, {})]
    asked = {number: (do, port) for number, (do, port, _) in enumerate(wanted, 1)}
    lines = [{"id": number, "do": do, **({"port": port} if port else {}), **more} for number, (do, port, more) in enumerate(wanted, 1)]
    return asked, "".join(json.dumps(line) + "\n" for line in lines) + '{"id": 12, "do": "clear"}\n', {12: ("wrong", None)}


@dataclasses.dataclass
class Ran:
    """A run with faults: whether it met one, the lines that it printed, its status, its errors, and the state that is then found."""

    is_met: bool
    printed: list
    status: int
    errors: str
    found: dict


def wrong_run(ran_so, is_memory):
    """What is wrong with a run with faults and with what is found behind it."""
    first, _, last = script_of_requests()
    printed, status, found = ran_so.printed, ran_so.status, ran_so.found
    asked, answers = {**first, **last}, [line for line in printed if isinstance(line, dict)]
    words = [line for line in printed if isinstance(line, str)]
    if any(not (is_memory and line.startswith(NO_MEMORY)) for line in words):
        return f"it prints {words}"
    wrong = wrong_end(status, ran_so.errors, CAUSES if is_memory else FAILED)
    wrong = wrong or wrong_answers(asked, answers, False) or wrong_order(asked, answers, 2)
    # An event may find no memory.
    wrong = wrong or (None if is_memory else wrong_events(answers, False)) or wrong_receipts(answers, found)
    if not wrong and (not ran_so.is_met and status or not is_memory and ran_so.is_met and not status):
        wrong = f"it ends with status {status}, and it {'met' if ran_so.is_met else 'did not meet'} the fault"
    number = sum("event" not in line for line in answers) + len(words)
    if not wrong and (number > len(asked) or status == 0 and number < len(asked)):
        wrong = f"{number} of {len(asked)} requests are answered, and it ends with status {status}: {printed}"
    # Port 1 is configured once, port 2 twice; a Clear may be refused, and a Rollback is.
    for port, most in ((1, 1), (2, 2)):
        revision = found["ports"][port - 1]["revision"]
        mine = [number for number, request in asked.items() if request == ("configure", port)]
        least = sum(line.get("id") in mine for line in answers if "receipt" in line)
        if not wrong and not least <= revision <= most:
            wrong = f"port {port} had {least} receipts, and is found at revision {revision}"
    kept = found["ports"][0]["set"]
    if not wrong and kept is not None and [entry["data"] for entry in kept["entries"]] != ["0A64", "7F"]:
        wrong = f"a set is stored that no device has: {kept}"
    return wrong


def run_with(faults):
    """A run with faults on a new image."""
    with tempfile.TemporaryDirectory(dir=MEMORY) as folder:
        image, script, met = f"{folder}/a.img", f"{folder}/devices.toml", f"{folder}/met"
        ran("format", image, "--ports", "2", "--slots", "4")
        with open(script, "w", encoding="utf-8") as file:
            file.write(DEVICES)
        words = [IOLMASTER, "serve", image, "--json", "--devices", script]
        environment = {**os.environ, **faults, "REFUSE_MET": met, "FAIL_MET": met}
        lines = script_of_requests()[1].encode()
        try:
            done = subprocess.run(words, input=lines, capture_output=True, env=environment, timeout=PATIENCE)
        except subprocess.TimeoutExpired as late:
            return Ran(True, read_lines(late.stdout or b""), None, f"no end within {PATIENCE} seconds", shown(image))
        errors = done.stderr.decode(errors="replace")
        return Ran(os.path.exists(met), read_lines(done.stdout), done.returncode, errors, shown(image))


def refused(shim, growth, behind=False):
    """A run in which this request for memory is refused, or also all behind it."""
    faults = {"LD_PRELOAD": shim, "REFUSE_GROWTH": str(growth), **({"REFUSE_ALL": "1"} if behind else {})}
    ran_so = run_with(faults)
    wrong = wrong_run(ran_so, True)
    return ran_so.is_met, f"with request {growth}{' and all behind it' if behind else ''} refused: {wrong}" if wrong else None


def last_growth(shim):
    """About the last request for memory that a run makes, which threads make in another order each time."""
    most = 1
    while most < MOST_GROWTHS and refused(shim, most)[0]:
        most *= 2
    least = most // 2
    while least + 1 < most:
        middle = (least + most) // 2
        least, most = (middle, most) if refused(shim, middle)[0] else (least, middle)
    return least


def refuse_growths(folder, seconds):
    """Each request for memory is refused in turn, half of them also with all behind it, as far as there is time."""
    shim, workers = shims.compiled(folder, "refuse_memory"), len(os.sched_getaffinity(0))
    if not shim:
        raise Different("the shim cannot be compiled")
    begun, tried = time.monotonic(), 20
    for _ in range(tried):
        refused(shim, MOST_GROWTHS)
    each, last = (time.monotonic() - begun) / tried, last_growth(shim)
    stride = max(1, math.ceil(last * 1.5 * each / (seconds * workers)))
    growths = list(range(1, last + STRETCH, stride))
    tries = [(growth, False) for growth in growths] + [(growth, True) for growth in growths[::2]]
    end = time.monotonic() + 3 * seconds
    with concurrent.futures.ThreadPoolExecutor(workers) as pool:
        found = list(pool.map(lambda each: refused(shim, *each) if time.monotonic() < end else (False, None), tries))
    met, wrong = sum(is_met for is_met, _ in found), [text for _, text in found if text]
    print(f"memory was refused to a serving master {met} times: each {stride}. of {last} requests, half of them with all behind")
    if wrong or not met:
        raise Different("\n".join(wrong[:5]) or "no request for memory was met")


def failed(shim, kind, number):
    """A run in which this disk call of a kind fails."""
    faults = {"LD_PRELOAD": shim, "FAIL_CALL": kind, "FAIL_NUMBER": str(number), "FAIL_HOW": str(DEVICE_FAILED), "HELD_CALLS": "lose"}
    ran_so = run_with(faults)
    wrong = wrong_run(ran_so, False)
    return ran_so.is_met, f"{kind} {number} fails: {wrong}" if wrong else None


def fail_calls(folder):
    """Each disk call fails once, and what is not synced is lost with the program's end in half of the runs."""
    failing, losing = (shims.compiled(folder, name) for name in ("fail_calls", "hold_calls"))
    if not failing or not losing:
        raise Different("the shims cannot be compiled")
    met = {}
    with concurrent.futures.ThreadPoolExecutor(len(os.sched_getaffinity(0))) as pool:
        for kind in ("read", "write", "sync"):
            for first in range(1, MOST_CALLS, CALLS_AT_ONCE):
                tries = [(shim, number) for number in range(first, first + CALLS_AT_ONCE) for shim in (failing, f"{failing}:{losing}")]
                found = list(pool.map(lambda each, kind=kind: failed(each[0], kind, each[1]), tries))
                wrong = [text for _, text in found if text]
                if wrong:
                    raise Different("\n".join(wrong[:5]))
                met[kind] = met.get(kind, 0) + sum(is_met for is_met, _ in found)
                if not any(is_met for is_met, _ in found):
                    break
    print(f"disk calls of a serving master that failed: {met}")
    if not all(met.values()):
        raise Different("a kind of call was not met")


def cases(seconds):
    """Each case: its title, its function and the words for it."""
    yield f"{KILLS} kills lose nothing that had its receipt", kill_often
    yield "memory that is refused", refuse_growths, seconds
    yield "disk calls that fail", fail_calls
