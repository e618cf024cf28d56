"""A serving master as its clients see it: `iolmaster serve` over pipes, and what it leaves on its image."""

import json
import os
import subprocess
import threading
import time

from driver_runs import TOP, Different

IOLMASTER = os.path.abspath(os.environ.get("IOLMASTER") or f"{TOP}/out/iolmaster")
# How many seconds a test waits for a line or an end that is to come, also where other programs keep the processors busy.
PATIENCE = 40
# How much of what was printed is shown if a test fails.
SHOWN_LINES = 12


def ran(*words):
    """What a command of the program prints, which has to succeed."""
    done = subprocess.run([IOLMASTER, *words], capture_output=True, text=True, timeout=PATIENCE)
    if done.returncode:
        raise Different(f"{' '.join(words)} says {done.stdout}{done.stderr}? {done.returncode}")
    return done.stdout


def formatted(folder, ports, slots=8):
    """A new image in a folder."""
    image = f"{folder}/a.img"
    ran("format", image, "--ports", str(ports), "--slots", str(slots))
    return image


def shown(image):
    """The state on an image, as `show --json` has it."""
    return json.loads(ran("show", image, "--json"))


def read_line(line):
    """A printed line: the members of its JSON object, or its text."""
    return json.loads(line) if line.startswith("{") else line


def read_lines(octets):
    """The lines that were printed to their ends."""
    return [read_line(line.decode()) for line in octets[: octets.rfind(b"\n") + 1].splitlines()]


class Served:
    """A master that serves an image, what was asked of it, and what it printed."""

    def __init__(self, image, *words, folder=None, is_service=False):
        """Starts the program in a folder, perhaps as a supervisor does (docs/DRIVERS.md). It prints events as JSON if `words` say so."""
        self.lines, self.asked, self.changed = [], {}, threading.Condition()
        self.is_ended = False
        pipes = {"stdin": subprocess.PIPE, "stdout": subprocess.PIPE, "stderr": subprocess.PIPE}
        start = ["sh", "-c", "trap '' HUP && exec \"$@\"", "sh"] if is_service else []
        self.process = subprocess.Popen([*start, IOLMASTER, "serve", image, *words], cwd=folder, start_new_session=is_service, **pipes)
        self.reader = threading.Thread(target=self.read, daemon=True)
        self.reader.start()

    def __enter__(self):
        return self

    def __exit__(self, *_):
        self.process.kill()
        self.process.wait()
        self.reader.join()
        for file in (self.process.stdin, self.process.stdout, self.process.stderr):
            file.close()

    def read(self):
        """Keeps each line as it comes."""
        for line in self.process.stdout:
            with self.changed:
                if line.endswith(b"\n"):
                    self.lines.append(read_line(line.decode()[:-1]))
                self.changed.notify_all()
        with self.changed:
            self.is_ended = True
            self.changed.notify_all()

    def write(self, text):
        """Writes to standard input."""
        try:
            os.write(self.process.stdin.fileno(), text.encode() if isinstance(text, str) else text)
        except BrokenPipeError:
            raise Different(f"it reads no more: {self.lines[-SHOWN_LINES:]}") from None

    def line_of(self, do, port=None, **members):
        """A request in JSON with the next id, and that id."""
        number = len(self.asked) + 1
        self.asked[number] = (do, port)
        named = {"port": port} if port else {}
        return json.dumps({"id": number, "do": do, **named, **members}) + "\n", number

    def send(self, do, port=None, **members):
        """Asks without waiting. Returns the id."""
        line, number = self.line_of(do, port, **members)
        self.write(line)
        return number

    def ask(self, do, port=None, **members):
        """Asks, and returns the members of the answer."""
        return self.answer(self.send(do, port, **members))

    def answer(self, number):
        """The answer to the request with this id."""
        return self.wait(lambda line: isinstance(line, dict) and line.get("id") == number and "event" not in line)[1]

    def change(self, do, port, **members):
        """Asks for a change that has to be granted, and returns its receipt."""
        answer = self.ask(do, port, **members)
        if "receipt" not in answer:
            raise Different(f"{do} of port {port} is answered {answer}")
        return answer["receipt"]

    def wait(self, is_wanted, begin=0, seconds=PATIENCE):
        """The first line from `begin` on that is wanted, with its place."""
        end, place = time.monotonic() + seconds, begin
        with self.changed:
            while True:
                for place in range(place, len(self.lines)):
                    if is_wanted(self.lines[place]):
                        return place, self.lines[place]
                place = max(begin, len(self.lines))
                if self.is_ended or not self.changed.wait(max(0, end - time.monotonic())):
                    raise Different(f"no such line {'before the end' if self.is_ended else 'in time'}: {self.lines[-SHOWN_LINES:]}")

    def wait_status(self, port, *statuses, begin=0, seconds=PATIENCE):
        """The place behind the first event from `begin` on that says one of these statuses of a port."""
        return 1 + self.wait(lambda line: status_in(line) in [(port, status) for status in statuses], begin, seconds)[0]

    def end(self, word="quit\n"):
        """Writes the last words, closes standard input and returns the exit status."""
        if word:
            self.write(word)
        self.process.stdin.close()
        return self.await_end()

    def await_end(self):
        """Waits for the end, and returns the exit status."""
        try:
            status = self.process.wait(PATIENCE)
        except subprocess.TimeoutExpired:
            raise Different(f"it does not end: {self.lines[-SHOWN_LINES:]}") from None
        self.reader.join(PATIENCE)
        return status

    def end_well(self, word="quit\n"):
        """Ends it, which has to be with status 0 and `ended` as its last line, and returns the number of that line."""
        status = self.end(word)
        errors, last = self.process.stderr.read().decode(errors="replace"), self.lines[-1] if self.lines else None
        number = last.get("number") if isinstance(last, dict) and last.get("event") == "ended" else None
        if status or errors or number is None:
            raise Different(f"it ends with status {status}, {errors!r} and {self.lines[-SHOWN_LINES:]}")
        return number


def status_in(line):
    """The port and the status that an event says, or None."""
    is_status = isinstance(line, dict) and line.get("event") == "status"
    return (line["port"], line["status"]) if is_status else None


def receipts_in(lines):
    """The receipts among printed lines, each by the id of its request."""
    return {line["id"]: line["receipt"] for line in lines if isinstance(line, dict) and "receipt" in line}
