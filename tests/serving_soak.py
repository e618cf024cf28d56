"""A serving master that is asked all the time, with drivers that ask for uploads all the time, takes no more and more memory."""

import random
import re
import time

from driver_runs import Different
from serving_drivers import MANUAL, drivers_of, wrong_sets
from serving_judge import configuration, wrong_answers, wrong_events, wrong_order, wrong_receipts
from serving_master import Served, formatted, shown

SEED, PORTS = 1, 8
# These ports have drivers. Each device asks for an upload at every such request.
DRIVEN, UPLOAD_EVERY, MOST_UPLOADS = (1, 2, 3, 4), 60, 500
# How long there is between two requests, and how much more memory there may be at the end than after a sixth of the time.
PAUSE_SECONDS, MOST_MORE_KILOBYTES = 0.004, 256
KINDS = ["configure", "clear", "rollback", "read", "read", "status", "status", "help", "wrong"]


def resident_kilobytes(process):
    """The resident memory of a process."""
    with open(f"/proc/{process.pid}/status", encoding="ascii") as file:
        return int(re.search(r"(?m)^VmRSS:\s+(\d+) kB$", file.read())[1])


def ask_at_random(master, random_numbers):
    """Asks for something. Ports with a driver keep their configuration and their sets."""
    do = random_numbers.choice(KINDS)
    if do == "wrong":
        line, number = master.line_of("clear")
        master.asked[number] = (do, None)
        master.write(line)
    elif do in ("status", "help"):
        master.send(do)
    else:
        port = random_numbers.randint(1, PORTS)
        if do == "read" or port not in DRIVEN:
            master.send(do, port, **(configuration(port, random_numbers.randint(1, 99)) if do == "configure" else {}))


def soak(folder, seconds):
    """Memory after a sixth of the time and at its end differ by little, and all is answered."""
    image, random_numbers = formatted(folder, PORTS, 64), random.Random(SEED)
    raises = [word for count in range(1, MOST_UPLOADS) for word in ("--at", str(count * UPLOAD_EVERY), "raise")]
    with drivers_of(folder, {port: raises for port in DRIVEN}) as words, Served(image, "--json", *words) as master:
        for port in DRIVEN:
            master.change("configure", port, **MANUAL)
        begun, early = time.monotonic(), None
        while time.monotonic() - begun < seconds:
            ask_at_random(master, random_numbers)
            time.sleep(PAUSE_SECONDS)
            if early is None and time.monotonic() - begun > seconds / 6:
                early = resident_kilobytes(master.process)
        late = resident_kilobytes(master.process)
        master.end_well()
        asked, lines = master.asked, master.lines
    state = shown(image)
    stores = state["recovered"] - sum("receipt" in line for line in lines)
    print(f"a soak of {seconds:g} seconds: {len(asked)} requests, {stores} uploads, {early} kB after a sixth and {late} kB at the end")
    wrong = wrong_answers(asked, lines) or wrong_order(asked, lines, PORTS) or wrong_events(lines) or wrong_receipts(lines, state)
    wrong = wrong or wrong_sets(state, set(DRIVEN))
    if wrong or abs(late - early) >= MOST_MORE_KILOBYTES:
        raise Different(wrong or f"memory went from {early} kB to {late} kB")
