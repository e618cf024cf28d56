"""Cases of what a serving master is asked: malformed requests, many requests, ends of all kinds, and how soon a status is answered."""

import collections
import json
import os
import random
import select
import statistics
import subprocess
import time
import tty

from driver_runs import Different
from serving_drivers import MANUAL, drivers_of, read_log, wrong_sets
from serving_judge import CHANGES, configuration, wrong_answers, wrong_events, wrong_order, wrong_reads, wrong_receipts, wrong_whole
from serving_master import IOLMASTER, PATIENCE, Served, formatted, ran, shown

MOST_LINE_OCTETS, MOST_MISTAKE_OCTETS = 4096, 200
CONFIGURE = "configure port=1 mode=2 validation=0 vendor=1 device=1"
CLEAR = '"do": "clear", "port": 1'
# Lines that are no request. Those in JSON have the id 7 if it is to be given back.
MALFORMED = [
    "configure",
    "configure port=1",
    "configure port=1 mode=1 validation=3 vendor=500",
    "configure mode=2 validation=0 vendor=1 device=1",
    CONFIGURE.replace("port=1", "port=0"),
    CONFIGURE.replace("port=1", "port=33"),
    CONFIGURE.replace("mode=2", "mode=5"),
    CONFIGURE.replace("mode=2", "mode=-1"),
    CONFIGURE.replace("validation=0", "validation=5"),
    CONFIGURE.replace("vendor=1", "vendor=65536"),
    CONFIGURE.replace("device=1", "device=16777216"),
    CONFIGURE.replace("device=1", 'device="1"'),
    CONFIGURE.replace("port=1", "prot=1"),
    f"{CONFIGURE} port=2",
    f"{CONFIGURE} label=Pump",
    f'{CONFIGURE} label="Pump 3',
    f'{CONFIGURE} label="{33 * "a"}"',
    f"{CONFIGURE} label='a\"b'",
    f'{CONFIGURE} label="Pümp"',
    f"{CONFIGURE} label=3",
    f"{CONFIGURE} revision=3",
    "clear",
    "clear port",
    "clear port=",
    "clear =1",
    'clear port="1"',
    "clear port=1.0",
    "clear port=true",
    "clear port=-1",
    "clear port=99999999999999999999",
    "clear port = 1",
    "clear port=1 port=1",
    'clear port=1 label="Pump 3"',
    "clear port=1 2",
    "clear port=1,port=2",
    'clear do="clear" port=1',
    "rollback",
    "rollback port=0",
    "read",
    "read port=33",
    "status port=99",
    "status prot=1",
    "help me",
    "help port=1",
    "quit now",
    "quit port=1",
    "Clear port=1",
    "clera port=1",
    "port=1",
    "clear\0port=1",
    "clear\x0bport=1",
    "[1]",
    '"clear"',
    b"clear port=\xff",
    "clear port=1".ljust(MOST_LINE_OCTETS + 1),
    "a" * 20000,
    "{",
    "{}",
    '{"port": 1}',
    '{"do": "clear"}',
    '{"id": 7, "do": "clear"}',
    '{"id": 7, "do": "clear", "port": 33}',
    '{"id": 7, "do": "clear", "port": "1"}',
    '{"id": 7, "do": "clear", "port": 1.0}',
    '{"id": 7, "do": "clear", "port": null}',
    '{"id": 7, "do": "clear", "port": [1]}',
    '{"id": 7, "do": 7, "port": 1}',
    '{"id": 7, "do": "quit", "port": 1}',
    '{"id": 7, "do": "quti"}',
    f'{{"id": 7, {CLEAR}, "mode": 1}}',
    f'{{{CLEAR}, "port": 2}}',
    f"{{{CLEAR}}} x",
    f"{{{CLEAR},}}",
    f'{{"id": -1, {CLEAR}}}',
    f'{{"id": true, {CLEAR}}}',
    f'{{"id": 9223372036854775808, {CLEAR}}}',
    f'{{"id": "{65 * "a"}", {CLEAR}}}',
    "{'do': 'clear', 'port': 1}",
]
# Lines that are not answered.
NOTHING = ["", " ", "\t \t", "#", "# clear port=1", "\r"]
REQUESTS, SEED, PORTS, NAMED_PORTS = 2000, 1, 4, 6
VERBS = {"configure": 30, "clear": 10, "rollback": 10, "read": 20, "status": 20, "help": 3, "wrong": 7}
# How many requests for help are asked for whose answers nobody reads, and for how many seconds, twice.
UNREAD, UNREAD_SECONDS = 2000, 1
# For how many seconds requests are written whose answers nobody reads, and how many octets of them are taken at most.
WRITTEN_SECONDS, MOST_TAKEN = 3, 200_000
# What is printed at a terminal, at first, for an empty line, for a read, and at the end.
PROMPTED = [
    b"\rserving 2 ports after 0 commands\n> ",
    b"\r> ",
    b"\rport 2 revision 0 mode 0 validation 0 vendor 0000 device 000000 set none\n> ",
    b"\rended 0\n",
]
# How many statuses are asked for before and while the time is taken, how often, and how soon half of them have to be answered.
WARM_UPS, MEASURED, ROUNDS, MOST_SECONDS = 50, 100, 3, 0.001


def wrong_complaint(line, answer):
    """What is wrong with the answer to a line that is no request."""
    text = line if isinstance(line, str) else line.decode(errors="replace")
    in_json = text.startswith("{")
    said = answer.get("wrong") if isinstance(answer, dict) else answer.removeprefix("wrong: ") if answer.startswith("wrong: ") else None
    is_given_back = not in_json or answer.get("id") == (7 if text.startswith('{"id": 7,') else None)
    if in_json == isinstance(answer, dict) and said and len(said.encode()) <= MOST_MISTAKE_OCTETS and is_given_back:
        return None
    return f"{text[:100]!r} is answered {answer}"


def refuse_malformed(folder):
    """Each line that is no request is answered once, and changes nothing."""
    image = formatted(folder, 2)
    with Served(image, "--json") as master:
        master.change("configure", 1, **configuration(1, 1), label="Pump 3")
        master.end_well()
    before = ran("show", image)
    with Served(image, "--json") as master:
        master.wait(lambda line: isinstance(line, dict) and line.get("event") == "serving")
        for line in NOTHING + MALFORMED:
            master.write((line if isinstance(line, bytes) else line.encode()) + b"\n")
        master.ask("help")
        answers = [line for line in master.lines if not isinstance(line, dict) or "event" not in line][:-1]
        if len(answers) != len(MALFORMED):
            raise Different(f"{len(MALFORMED)} lines have {len(answers)} answers: {answers}")
        wrong = next(filter(None, map(wrong_complaint, MALFORMED, answers)), None)
        master.end_well()
    if wrong or ran("show", image) != before:
        raise Different(wrong or f"it is now {ran('show', image)}")


def in_words(do, port, members):
    """A request in words."""
    named = {"port": port} if port else {}
    return " ".join([do, *(f"{key}={value}" for key, value in {**named, **members}.items())]) + "\n"


def made(master, random_numbers, counts):
    """A request that is made at random, in JSON for ports 1 and 2, in words for 3 and 4, in either for others and those of no port."""
    do = random_numbers.choices(list(VERBS), VERBS.values())[0]
    is_of_port = do in (*CHANGES, "read") or do == "status" and random_numbers.random() < 0.5
    port = random_numbers.randint(1, NAMED_PORTS) if is_of_port else None
    members = configuration(port, random_numbers.randint(1, 99)) if do == "configure" else {}
    if port in (1, 2) or port not in (3, 4) and random_numbers.random() < 0.5:
        # A line in JSON that is no request is a Clear without a port.
        line, number = master.line_of("clear" if do == "wrong" else do, port, **members)
        master.asked[number] = (do, port)
        return line
    counts[do, port] += 1
    return in_words("clera" if do == "wrong" else do, port, members)


def wrong_words(lines, counts):
    """Requests in words are answered once each, by the numbers of lines of each kind."""
    found = collections.Counter()
    for line in lines:
        first, second, *rest = [*line.split(" "), ""]
        found[f"{first} {second}" if first == "port" else first] += 1
        found["reads"] += first == "port" and rest[0] == "revision"
    for port in range(1, PORTS + 1):
        # Every port has a line in the answer for all.
        if found[f"port {port}"] != counts["status", None] + counts["status", port] + counts["read", port]:
            return f"port {port} has {found[f'port {port}']} lines, and was asked for {counts}"
    if found["reads"] != sum(counts["read", port] for port in range(1, PORTS + 1)):
        return f"{found['reads']} reads are answered of {counts}"
    unknown = sum(counts[do, port] for do in ("read", "status") for port in range(PORTS + 1, NAMED_PORTS + 1))
    changes = sum(number for (do, _), number in counts.items() if do in CHANGES)
    wanted = {"receipt": changes + unknown - found["refused"], "wrong:": counts["wrong", None], "quit": counts["help", None]}
    differing = {word: (found[word], number) for word, number in wanted.items() if found[word] != number}
    return f"answers in words, and those that are to be: {differing}" if differing else None


def answer_many(folder):
    """Requests of all kinds, in words and in JSON, are answered once each."""
    image, counts, random_numbers = formatted(folder, PORTS, 64), collections.Counter(), random.Random(SEED)
    with Served(image, "--json") as master:
        for _ in range(REQUESTS):
            master.write(made(master, random_numbers, counts))
        number = master.end_well()
        lines = [line for line in master.lines if isinstance(line, dict)]
        words = [line for line in master.lines if isinstance(line, str)]
        # What is asked in words raises revisions too, but of ports 3 and 4 alone.
        wrong = wrong_answers(master.asked, lines) or wrong_order(master.asked, lines, 2) or wrong_reads(master.asked, lines)
    wrong = wrong or wrong_events(lines) or wrong_words(words, counts)
    receipts = [line["receipt"] for line in lines if "receipt" in line] + [int(line[8:]) for line in words if line.startswith("receipt ")]
    if not wrong and sorted(receipts) != list(range(1, len(receipts) + 1)):
        wrong = f"the receipts are {sorted(receipts)}"
    state = shown(image)
    if wrong or not number == state["recovered"] == len(receipts):
        raise Different(wrong or f"{len(receipts)} receipts, ended {number}, and {state['recovered']} are found")


def lose_output(folder):
    """A master whose output is closed ends by itself with status 1, and its image is whole."""
    image = formatted(folder, 2)
    with subprocess.Popen([IOLMASTER, "serve", image], stdin=subprocess.PIPE, stdout=subprocess.PIPE, stderr=subprocess.PIPE) as process:
        try:
            process.stdout.readline()
            process.stdout.close()
            os.write(process.stdin.fileno(), f"{CONFIGURE}\nstatus\n".encode())
            status = process.wait(PATIENCE)
        except subprocess.TimeoutExpired:
            raise Different("it does not end") from None
        finally:
            process.kill()
    state = shown(image)
    if status != 1 or state["recovered"] != state["ports"][0]["revision"] or state["recovered"] > 1:
        raise Different(f"it ends with status {status} and leaves {state}")


def outlast_readers(folder):
    """A master whose output nobody reads goes on with its ports, and prints all once somebody reads."""
    image, log = formatted(folder, 2), f"{folder}/1/log"
    pipes = {"stdin": subprocess.PIPE, "stdout": subprocess.PIPE}
    with drivers_of(folder, {1: []}) as words, subprocess.Popen([IOLMASTER, "serve", image, *words], **pipes) as process:
        try:
            os.write(process.stdin.fileno(), (in_words("configure", 1, MANUAL) + UNREAD * "help\n").encode())
            time.sleep(UNREAD_SECONDS)
            asked = len(read_log(log))
            time.sleep(UNREAD_SECONDS)
            heard = len(read_log(log))
            said, _ = process.communicate(timeout=PATIENCE)
        finally:
            process.kill()
    lines = said.decode().splitlines()
    helped, last = sum(line.startswith("quit ") for line in lines), lines[-1:]
    if process.returncode or helped != UNREAD or not lines[-1].startswith("ended ") or heard <= asked:
        raise Different(f"it ends with status {process.returncode}, {last}, {helped} answers, and {heard - asked} requests to the driver")


def hold_writers(folder):
    """A master whose output nobody reads takes no more requests than it has room for, and answers each one later."""
    image, line, taken = formatted(folder, 2), b"read port=2\n", 0
    with subprocess.Popen([IOLMASTER, "serve", image], stdin=subprocess.PIPE, stdout=subprocess.PIPE) as process:
        try:
            os.set_blocking(process.stdin.fileno(), False)
            end = time.monotonic() + WRITTEN_SECONDS
            while time.monotonic() < end:
                try:
                    taken += os.write(process.stdin.fileno(), 100 * line)
                except BlockingIOError:
                    time.sleep(0.01)
            os.set_blocking(process.stdin.fileno(), True)
            said, _ = process.communicate(line[taken % len(line) :] if taken % len(line) else b"", timeout=PATIENCE)
        finally:
            process.kill()
    answers = sum(line.startswith("port 2 revision ") for line in said.decode().splitlines())
    if process.returncode or taken > MOST_TAKEN or answers != -(-taken // len(line)):
        raise Different(f"it ends with status {process.returncode}, took {taken} octets, and answered {answers} requests")


def read_octets(file, count):
    """So many octets of a file, or those that come in time."""
    said, end = b"", time.monotonic() + PATIENCE
    while len(said) < count and select.select([file], [], [], max(0, end - time.monotonic()))[0]:
        octets = os.read(file, count - len(said))
        if not octets:
            break
        said += octets
    return said


def prompt(folder):
    """At a terminal a prompt stands after each line, and none after the last one."""
    image = formatted(folder, 2)
    person, terminal = os.openpty()
    tty.setraw(terminal)
    said = b""
    with subprocess.Popen([IOLMASTER, "serve", image], stdin=terminal, stdout=subprocess.PIPE) as process:
        try:
            for line, answer in zip([b"", b"\n", b"read port=2\n", b"quit\n"], PROMPTED):
                os.write(person, line)
                said += read_octets(process.stdout.fileno(), len(answer))
            said += process.communicate(timeout=PATIENCE)[0]
        finally:
            process.kill()
            os.close(person)
            os.close(terminal)
    if process.returncode or said != b"".join(PROMPTED):
        raise Different(f"it ends with status {process.returncode} and prints {said}")


def end_in_upload(folder, word):
    """A master that is ended in the middle of an upload ends with status 0, and what had a receipt is found."""
    image = formatted(folder, 2)
    with drivers_of(folder, {1: ["--at", "6-", "slow", "0.3"]}) as words, Served(image, "--json", *words) as master:
        master.change("configure", 1, **MANUAL)
        master.wait_status(1, "uploading")
        end = time.monotonic() + PATIENCE
        while len(read_log(f"{folder}/1/log")) < 6 and time.monotonic() < end:
            time.sleep(0.02)
        master.send("configure", 2, **configuration(2, 1))
        master.send("read", 2)
        number = master.end_well(word)
        wrong = wrong_whole(master.asked, master.lines, 2)
    state = shown(image)
    wrong = wrong or wrong_receipts(master.lines, state) or wrong_sets(state, {1} if state["ports"][0]["set"] else set())
    if wrong or state["recovered"] != number or state["ports"][1]["revision"] != 1:
        raise Different(wrong or f"it leaves {state} after {number}")


def end_without_line_feed(folder, line, answer):
    """The last line is a request also without a line feed."""
    image = formatted(folder, 1)
    with Served(image, "--json") as master:
        if master.end_well(line) != 1 or answer not in master.lines:
            raise Different(f"it prints {master.lines}")
    if shown(image)["ports"][0]["revision"] != 1:
        raise Different(f"it leaves {shown(image)}")


def end_at_once(folder):
    """A master of which nothing is asked prints two lines."""
    image = formatted(folder, 2)
    with Served(image) as master:
        status = master.end("")
        if status or master.lines != ["serving 2 ports after 0 commands", "ended 0"]:
            raise Different(f"it ends with status {status} and prints {master.lines}")


def seconds_to_answer(requests, answers, number):
    """The seconds until a status is answered."""
    line, kept = json.dumps({"id": number, "do": "status", "port": 1}).encode() + b"\n", b""
    begun = time.perf_counter()
    os.write(requests, line)
    while b'"statuses"' not in kept or not kept.endswith(b"\n"):
        octets = os.read(answers, 65536)
        if not octets:
            raise Different("it ends")
        kept += octets
    return time.perf_counter() - begun


def answer_soon(folder):
    """A status is answered within a millisecond while the driver of its port is silent."""
    image = formatted(folder, 2)
    pipes = {"stdin": subprocess.PIPE, "stdout": subprocess.PIPE}
    with drivers_of(folder, {1: ["--at", "1-", "silent"]}) as words:
        with subprocess.Popen([IOLMASTER, "serve", image, "--json", "--silence", "60", *words], **pipes) as process:
            requests, answers = process.stdin.fileno(), process.stdout.fileno()
            os.write(requests, in_words("configure", 1, MANUAL).encode())
            while len(read_log(f"{folder}/1/log")) < 1:
                time.sleep(0.02)
            rounds = []
            for _ in range(ROUNDS):
                taken = [seconds_to_answer(requests, answers, number) for number in range(WARM_UPS + MEASURED)][WARM_UPS:]
                rounds.append((statistics.median(taken), max(taken)))
                if min(rounds)[0] <= MOST_SECONDS:
                    break
            process.kill()
    median, most = min(rounds)
    print(f"a status beside a silent driver takes {median * 1000:.3f} ms, the median of {MEASURED}, and {most * 1000:.3f} ms at most")
    if median > MOST_SECONDS:
        raise Different(f"the medians are {[f'{each * 1000:.3f} ms' for each, _ in rounds]}")


def cases():
    """Each case: its title, its function and the words for it."""
    yield "lines that are no requests are answered once each, and change nothing", refuse_malformed
    yield f"{REQUESTS} requests are answered once each", answer_many
    yield "a master whose output is closed ends", lose_output
    yield "a master whose output nobody reads goes on", outlast_readers
    yield "a master whose output nobody reads holds up who writes", hold_writers
    yield "a prompt stands where it is to", prompt
    yield "quit ends a master in the middle of an upload", end_in_upload, "quit\n"
    yield "the end of input ends a master in the middle of an upload", end_in_upload, ""
    line = in_words("configure", 1, configuration(1, 1))[:-1]
    yield "a last line in words needs no line feed", end_without_line_feed, line, "receipt 1"
    line = json.dumps({"id": "last", "do": "configure", "port": 1, **configuration(1, 1)})
    yield "a last line in JSON needs no line feed", end_without_line_feed, line, {"id": "last", "receipt": 1}
    yield "a master of which nothing is asked ends", end_at_once
