"""Runs the shells of examples/serve.md and the commands of examples/iolmaster.service as they are written."""

import json
import os
import re
import shlex
import signal
import subprocess
import threading
import time

from driver_runs import INDEPENDENT, TOP, Different, Started
from serving_drivers import MANUAL, SENSOR, parameters_of, wrong_sets
from serving_master import IOLMASTER, PATIENCE, Served, ran, read_line, shown, status_in

GUIDE, SERVICE = f"{TOP}/examples/serve.md", f"{TOP}/examples/iolmaster.service"
REQUESTS = ("configure", "read", "status", "quit")
# Events that may be left out: a status that is over quickly, and a number that was exceeded before it was printed.
MAY_MISS = r"port \d+ (starting|uploading|storing|downloading) .*|durable \d+"


class Shells:
    """The shells of the guide: a master in one, a driver in the other."""

    def __init__(self, folder):
        """Shells in a folder where the program and the examples are to be found as at the top of the repository."""
        os.symlink(IOLMASTER, f"{folder}/iolmaster")
        os.symlink(f"{TOP}/examples", f"{folder}/examples")
        self.folder, self.master, self.driver = folder, None, None
        # What a command printed that has ended; where in the master's output the lines are sought that come next; all that it may print.
        self.printed, self.place, self.expected = [], 0, set()

    def enter(self, command):
        """Enters a command."""
        words = shlex.split(command)
        if words[1:2] == ["serve"]:
            self.master = Served(*words[2:], folder=self.folder)
        elif words[0].startswith("examples/drivers/"):
            self.driver = subprocess.Popen(words, cwd=self.folder)
        else:
            done = subprocess.run(words, cwd=self.folder, capture_output=True, text=True, timeout=PATIENCE)
            self.printed = (done.stdout + done.stderr).splitlines()

    def take(self, line):
        """Does what a line of the guide says, or looks whether it is printed."""
        if self.printed:
            if self.printed.pop(0) != line:
                raise Different(f"not printed: {line}")
        elif line.startswith("$ ") or line == "^C" or line.split()[0] in REQUESTS:
            self.place = len(self.master.lines) if self.master else 0
            self.do(line)
        else:
            self.expected.add(line)
            if not re.fullmatch(MAY_MISS, line):
                self.master.wait(lambda printed: printed == line, self.place)

    def do(self, line):
        """Does what somebody does at the shells."""
        if line.startswith("$ "):
            self.enter(line[2:])
        elif line == "^C":
            self.driver.send_signal(signal.SIGINT)
            self.driver.wait(PATIENCE)
        else:
            self.master.write(f"{line}\n")
        if line == "quit":
            self.master.process.stdin.close()

    def end(self):
        """Ends what still runs."""
        if self.driver:
            self.driver.kill()
            self.driver.wait()
        if self.master:
            self.master.__exit__()


def follow_guide(folder):
    """What the guide says is printed, and the master prints nothing else."""
    with open(GUIDE, encoding="utf-8") as file:
        blocks = re.findall(r"(?ms)^```console\n(.*?)^```$", file.read())
    shells = Shells(folder)
    try:
        for line in "".join(blocks).splitlines():
            shells.take(line)
            if line == "ended 2" and shells.master.await_end():
                raise Different("the master does not end well")
        others = [line for line in shells.master.lines if line not in shells.expected]
        if others or shells.printed or not blocks:
            raise Different(f"also printed: {others + shells.printed}")
    finally:
        shells.end()


def service_commands(folder):
    """The commands of the service, by their names, with its folders in another one."""
    with open(SERVICE, encoding="utf-8") as file:
        found = re.findall(r"(?m)^(Exec\w+)=(.*)$", file.read())
    places = {"/opt/iolmaster/out/iolmaster": IOLMASTER, "/run/iolmaster": f"{folder}/run", "/var/lib/iolmaster": f"{folder}/lib"}
    commands = {}
    for name, command in found:
        for path, place in places.items():
            command = command.replace(path, place)
        # The manager takes a doubled sign for one.
        commands[name] = shlex.split(command.replace("$$", "$"))
    return commands


def await_lines(path, is_last):
    """The lines of a file once one of them is wanted, which is looked for until it is there."""
    end = time.monotonic() + PATIENCE
    while time.monotonic() < end:
        with open(path, encoding="utf-8") as file:
            lines = [read_line(line[:-1]) for line in file if line.endswith("\n")]
        if any(map(is_last, lines)):
            return lines
        time.sleep(0.02)
    raise Different(f"no such line: {lines}")


def ask_by_fifo(folder, **members):
    """Asks as a client of the service does, and leaves."""
    with open(f"{folder}/run/requests", "w", encoding="utf-8") as requests:
        requests.write(json.dumps(members) + "\n")


def follow_service(folder):
    """The commands of the service start a master, which clients that come and go ask by its FIFO, and stop it."""
    os.mkdir(f"{folder}/run")
    os.mkdir(f"{folder}/lib")
    image, commands, answers = f"{folder}/lib/master.img", service_commands(folder), f"{folder}/answers"
    ran("format", image, "--ports", "2", "--slots", "64")
    for _ in range(2):
        subprocess.run(commands["ExecStartPre"], check=True, timeout=PATIENCE)
    words = ["--device", json.dumps({**SENSOR, "parameters": parameters_of(1)}), "--cycle", "20"]
    with open(answers, "wb") as file, Started(f"{folder}/run/port1", "fifos", INDEPENDENT, words):
        with subprocess.Popen(commands["ExecStart"], stdout=file) as master:
            try:
                ask_by_fifo(folder, id=1, do="configure", port=1, **MANUAL)
                await_lines(answers, lambda line: line.get("id") == 1)
                await_lines(answers, lambda line: status_in(line) == (1, "ready"))
                ask_by_fifo(folder, id="two", do="read", port=1)
                await_lines(answers, lambda line: line.get("id") == "two")
                # The manager takes notice of the end, which a process that nobody waits for does not come to.
                threading.Thread(target=master.wait, daemon=True).start()
                stopped = subprocess.run(commands["ExecStop"], env={**os.environ, "MAINPID": str(master.pid)}, timeout=PATIENCE)
            finally:
                master.kill()
    last = await_lines(answers, lambda line: line.get("event") == "ended")[-1]
    state = shown(image)
    wrong = wrong_sets(state, {1})
    if stopped.returncode or last != {"event": "ended", "number": 2} or wrong:
        raise Different(wrong or f"it stops with {stopped.returncode}, {last} and {state}")


def cases():
    """Each case: its title, its function and the words for it."""
    yield "examples/serve.md prints what it says", follow_guide
    yield "the commands of examples/iolmaster.service serve", follow_service
