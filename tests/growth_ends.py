"""How a run of a built program may end where one of its requests for memory is refused.

Each subject runs a program in an empty folder, and `end` names the end that a refused run came to, or says None where it may
not end so. What a run may come to is mostly what the same program says with all memory: to the same script, to one of which a
sync fails, or to one of which a step is left out.
"""

import dataclasses
import functools
import json
import os
import re
import struct
import subprocess
import tempfile
import tomllib

SECONDS = 60
# How a copy ended, as tests/refuse_memory.c writes it.
ENDED = struct.Struct("5q")
MEMORY = ("", "error: out of memory\n", 1)
# The toolchain words want of memory in two ways.
NO_MEMORY = ("Error: out of memory\n", "Error: memory allocation failed\n")
DISK = ("", "error: the disk failed\n", 1)
NOT_FORMATTED = ("", "error: the disk is not formatted\n", 1)
UNUSED = "port {} revision 0 mode 0 validation 0 vendor 0000 device 000000 set none\n"
EMPTY = "recovered 0\n" + UNUSED.format(1) + UNUSED.format(2)


# The steps of schedules.
def turns(times):
    """Turns of the flusher."""
    return f'[[step]]\ndo = "flush"\ntimes = {times}\n'


TURNS = turns(32)
CLEAR = '[[step]]\ndo = "clear"\nport = 1\n'
ROLLBACK = '[[step]]\ndo = "rollback"\nport = 1\n'


def configured(validation=3):
    """A step that configures port 1 for the sensor."""
    return f'[[step]]\ndo = "configure"\nport = 1\nmode = 1\nvalidation = {validation}\nvendor = 500\ndevice = 43981\n'


def stepped(times):
    """Steps of port 1."""
    return f'[[step]]\ndo = "port"\nport = 1\ntimes = {times}\n'


def backed_up(reads):
    """A port that is configured, and the steps in which its sensor's set is read, stored and ended. The turns of the flusher are
    enough for a batch of the largest set behind a checkpoint, and some to spare, so that one that finds no memory is made up for."""
    return configured() + TURNS + stepped(reads) + TURNS + stepped(2)


def sensor(values, keys, words=""):
    """A sensor with these parameters."""
    return f"[[device]]\nport = 1\nvendor = 500\ndevice = 43981\nkeys = {keys}\nvalues = {values}\n{words}"


KEYS, LARGEST_KEYS = [[64, 0], [65, 1]], [[index, 0] for index in range(256, 274)]


def largest(octet):
    """The values of the largest set, of this octet alone: they count 4,096."""
    return [*[octet * 232] * 17, octet * 80]


# Scripts of fixed steps on two ports.
SCHEDULES = {
    "command": configured() + TURNS,
    "backup": sensor(["0A64", "7F"], KEYS, "flag = true\n") + backed_up(13),
    "replacement": sensor(["0A64", "7F"], KEYS, "flag = true\nanswers = 10\n")
    + sensor(["0000", "00"], KEYS) + backed_up(13) + stepped(15),
    # Configured again and again, under validations that keep the set and one that does not, and cleared.
    "changes": sensor(["0A64", "7F"], KEYS, "flag = true\n")
    + backed_up(13) + configured() + configured(4) + TURNS + configured(2) + CLEAR + TURNS,
    # A second set, and the first one again; of the largest sets too, which a checkpoint writes.
    "rollback": sensor(["0A64", "7F"], KEYS, "flag = true\nanswers = 10\n") + sensor(["0A64", "80"], KEYS, "flag = true\n")
    + backed_up(13) + stepped(16) + TURNS + stepped(2) + ROLLBACK + TURNS,
    "largest rollback": sensor(largest("A7"), LARGEST_KEYS, "flag = true\nanswers = 26\n")
    + sensor(largest("00"), LARGEST_KEYS, "flag = true\n") + backed_up(29) + stepped(32) + TURNS + stepped(2) + ROLLBACK + turns(96),
    # More batches than slots.
    "checkpoints": 10 * (configured() + TURNS),
    # A batch between two calls of a checkpoint, which carries it. A batch has a turn to spare, so that one that finds no memory is
    # made up for.
    "carried": 2 * (configured() + turns(8)) + turns(4) + configured() + turns(8) + TURNS,
    # As many commands as may wait, and one more.
    "waiting": 65 * configured() + TURNS,
    "largest": sensor(largest("A7"), LARGEST_KEYS, "flag = true\nanswers = 26\n")
    + sensor(largest("00"), LARGEST_KEYS) + backed_up(29) + stepped(31),
}


@dataclasses.dataclass
class Said:
    """What a run said, whether it met the refusal, and the image file that it left; no status where it did not end."""

    told: tuple
    met: bool
    image: bytes


@dataclasses.dataclass
class Subject:
    """A program with its words and the files that lie where it runs, and the shim that refuses memory."""

    name: str
    words: list
    files: dict
    shim: str = ""
    seconds: int = SECONDS

    def lay_out(self, room):
        """Writes the files into a folder."""
        for name, octets in self.files.items():
            with open(f"{room}/{name}", "wb") as file:
                file.write(octets)

    def run(self, growth=0, all_after=False):
        """What is said where this request for memory is refused, also with all behind it, or none."""
        with tempfile.TemporaryDirectory() as room:
            self.lay_out(room)
            refused = {"REFUSE_GROWTH": str(growth), "REFUSE_MET": f"{room}/met", "LD_PRELOAD": self.shim if growth else ""}
            if all_after:
                refused["REFUSE_ALL"] = "1"
            told = self.told_in(room, {**os.environ, **refused})
            image = octets_of(f"{room}/a.img") if os.path.exists(f"{room}/a.img") else None
            return Said(told, os.path.exists(f"{room}/met"), image)

    def told_in(self, room, environment):
        """The output, the errors and the status of a run in a folder."""
        try:
            ran = subprocess.run(self.words, cwd=room, env=environment, capture_output=True, timeout=self.seconds)
        except subprocess.TimeoutExpired:
            return "", f"no end within {self.seconds} seconds", None
        return self.told_of(ran.stdout, ran.stderr, ran.returncode)

    def told_of(self, out, errors, status):
        """The output, the errors and the status as they are looked at."""
        return out.decode(errors="replace"), errors.decode(errors="replace"), status

    def run_with_copies(self):
        """What is said where the first request for memory is refused, alone and then with all behind it, where the second is, and
        so on, and lastly where none is. All in one run of a program of one thread that writes no file: each request is refused in
        copies that the program makes of itself there (tests/refuse_memory.c)."""
        with tempfile.TemporaryDirectory() as room, tempfile.TemporaryDirectory() as copies:
            self.lay_out(room)
            environment = {**os.environ, "LD_PRELOAD": self.shim, "REFUSE_EACH": copies}
            with open(f"{copies}/own_out", "wb") as out, open(f"{copies}/own_errors", "wb") as errors:
                ran = subprocess.run(self.words, cwd=room, env=environment, stdout=out, stderr=errors)
            names = ("own_out", "own_errors", "out", "errors", "ended")
            own_out, own_errors, out, errors, ended = (octets_of(f"{copies}/{name}") for name in names)
        out_begin = errors_begin = 0
        for status, out_before, errors_before, out_end, errors_end in ENDED.iter_unpack(ended):
            said = own_out[:out_before] + out[out_begin:out_end], own_errors[:errors_before] + errors[errors_begin:errors_end]
            yield Said(self.told_of(*said, os.waitstatus_to_exitcode(status)), True, None)
            out_begin, errors_begin = out_end, errors_end
        yield Said(self.told_of(own_out, own_errors, ran.returncode), False, None)

    def end_of_all(self, said):
        """The end of a run that has no memory from the refused request on: it says all, if it had all that it needs by then, or
        else that memory ran out or, where a sync found none for its record, that the disk failed."""
        if said.told == self.whole.told:
            return "whole"
        return "no memory from there on" if said.told in (MEMORY, DISK) else None

    @functools.cached_property
    def whole(self):
        """What is said with all memory."""
        return self.run()

    @property
    def whole_out(self):
        return self.whole.told[0]


def octets_of(path):
    with open(path, "rb") as file:
        return file.read()


def last(word, text):
    """The last number that is told behind a word, 0 where none is."""
    return max([0, *map(int, re.findall(rf"^{word} (\d+)$", text, re.M))])


def recovered(out):
    """What is found behind the stop: the number, and a line for each port and each entry."""
    return out.partition("stopped\n")[2]


def keeps_what_was_acknowledged(out):
    """Whether the recovered number lies between the last that was acknowledged and the last that was accepted."""
    told, _, state = out.partition("stopped\n")
    return state.startswith("recovered ") and last("acknowledged", told) <= last("recovered", state) <= last("accepted", told)


def has_known_ports(out, known):
    """Whether each port is recovered as in one of these states, but for a set that was not stored."""
    lines = {line for state in known for line in state.split("\n")}
    lines |= {re.sub(r" set .*", " set none", line) for line in lines}
    return all(line in lines for line in recovered(out).split("\n")[1:])


def lines_of(table):
    """A line for each key of a table."""
    return "".join(f"{key} = {json.dumps(value)}\n" for key, value in table.items())


class Script(Subject):
    """A run of `iolmaster run`."""

    def end(self, said):
        if said.told == self.whole.told:
            return "whole"
        if said.told == MEMORY:
            return "out of memory"
        if self.whole.told[2] != 0:
            return None
        if said.told == DISK:
            return "failed sync of a format or a recovery"
        out, errors, status = said.told
        if status != 0 or errors or not keeps_what_was_acknowledged(out):
            return None
        if out in self.with_failing_sync:
            return "failed sync"
        if out in self.with_a_step_less:
            return "step left out"
        return "failed transfer" if self.is_failed_transfer(out) else None

    def is_failed_transfer(self, out):
        """Whether a port's transfer ended for want of memory: what is told is as ever up to a break of that port, and then it
        has failed, or is lost at the break, or the run ends before its status; or up to that status, where it breaks anyway."""
        told = out.partition("stopped\n")[0].splitlines()
        same = len(os.path.commonprefix([told, self.whole_out.partition("stopped\n")[0].splitlines()]))
        ended = re.fullmatch(r"(port \d+) (> 25 03 01 05 22|failed Memory)", "".join(told[same : same + 1]))
        if not ended or "disk failed" in told or not has_known_ports(out, self.states):
            return False
        if ended[2] == "failed Memory":
            return True
        behind = [line for line in told[same + 1 :] if line.startswith(f"{ended[1]} ")]
        is_answered = bool(behind) and behind[0].startswith(f"{ended[1]} < ")
        return behind[:1] in ([], [f"{ended[1]} lost"]) or is_answered and behind[1:2] in ([], [f"{ended[1]} failed Memory"])

    def says_to(self, text):
        """What is said to another script, with all memory."""
        return dataclasses.replace(self, files={"script.toml": text.encode()}).whole_out

    @functools.cached_property
    def text(self):
        """The script, with a table of its own for each device and each step; as it is where it is of TOML 1.1."""
        text = self.files["script.toml"].decode()
        try:
            said = tomllib.loads(text)
        except tomllib.TOMLDecodeError:
            return text
        tables = [(name, table) for name in ("device", "step") for table in said.pop(name, [])]
        return lines_of(said) + "".join(f"[[{name}]]\n{lines_of(table)}" for name, table in tables)

    @functools.cached_property
    def with_failing_sync(self):
        """What is said where a sync of the run fails: the first, the second, and so on."""
        text, says = re.sub(r"^fail *=.*\n", "", self.text, flags=re.M), []
        while not says or "disk failed" in says[-1] or says[-1] == "":
            says.append(self.says_to(f'fail = "sync {len(says) + 1}"\n{text}'))
        return set(says[:-1])

    @functools.cached_property
    def with_a_step_less(self):
        """What is said where one of the steps of a port or of the flusher is left out."""
        head, *steps = self.text.split("[[step]]\n")
        says = set()
        for place, step in enumerate(steps):
            if re.search(r'^do *= *"(port|flush)"', step, re.M):
                times = re.search(r"^times *= *(\d+)", step, re.M)
                fewer = int(times[1]) - 1 if times else 0
                less = [re.sub(r"^times *= *\d+", f"times = {fewer}", step, flags=re.M)] if fewer else []
                says.add(self.says_to("[[step]]\n".join([head, *steps[:place], *less, *steps[place + 1 :]])))
        return says

    @functools.cached_property
    def states(self):
        """The states that are recovered behind each step; and those where a device is left out, as is one of which no set is
        stored: the set of the next one may then be."""
        head, *steps = self.text.split("[[step]]\n")
        says = [self.says_to("[[step]]\n".join([head, *steps[:made]])) for made in range(len(steps))]
        front, *devices = head.split("[[device]]\n")
        for place in range(len(devices)):
            fewer = "[[device]]\n".join([front, *devices[:place], *devices[place + 1 :]])
            says.append(self.says_to("[[step]]\n".join([fewer, *steps])))
        return {recovered(out) for out in [*says, self.whole_out]}


class Explained(Script):
    """A run of `iolmaster run --explain`, of which the lines of the run are looked at."""

    def told_of(self, out, errors, status):
        out, errors, status = super().told_of(out, errors, status)
        lines = [line.partition("  # ")[0] for line in out.splitlines() if not line.startswith(("disk write ", "disk sync"))]
        return "".join(f"{line}\n" for line in lines), errors, status


class Check(Subject):
    """A check of a script, which says all or that memory ran out."""

    def end(self, said):
        return "whole" if said.told == self.whole.told else "out of memory" if said.told == MEMORY else None


class Misfit(Subject):
    """A batch that does not follow its journal: where the batch finds no memory, that is told in place of the misfit."""

    def end_of_all(self, said):
        return self.end(said)

    def end(self, said):
        if said.told == self.whole.told == ("Misfit behind 0 commands\n", "", 0):
            return "whole"
        if said.told == ("Memory behind 0 commands\n", "", 0):
            return "out of memory in place of a misfit"
        out, errors, status = said.told
        before = (*NO_MEMORY, "Error: a sync of the disk failed\n", "Error: no recovery\n")
        is_before = out == "" and status == 1 and errors in before
        return "out of memory before the batch" if is_before else None


@dataclasses.dataclass
class Schedule(Subject):
    """A run of `iol_plays` with one schedule, which says with all memory what is wanted."""

    wanted: str = ""

    def end(self, said):
        if said.told == self.whole.told:
            return "whole"
        out, errors, status = said.told
        if out == "" and status == 1 and errors in NO_MEMORY:
            return "out of memory before the run"
        if status != 0 or errors:
            return None
        begun = re.search(r"^no (format|run) (.*)\n", out, re.M)
        if begun:
            return f"no {begun[1]}: {begun[2]}" if self.is_not_begun(out, begun) else None
        if not keeps_what_was_acknowledged(out):
            return None
        if out.replace("ended Whole, 1 waits\n", "ended Whole, 0 waits\n") == self.whole_out:
            return "turn that waited"
        if "ended Memory, 0 waits\n" in out:
            return "ended before a step" if out.replace("ended Memory", "ended Whole") in self.beginnings else None
        if len(re.findall(r"status Failed\((?:Transfer|Download)\(Memory\)\)\n", out)) == 1 and "disk failed" not in out:
            return "failed transfer" if has_known_ports(out, self.states) else None
        is_known = recovered(out) in self.states and self.has_failed_sync(out)
        return "failed sync" if is_known else None

    def end_of_all(self, said):
        """The last recovery finds no memory either, if only for the record of its sync: no journal is found behind what was told."""
        if said.told == self.whole.told:
            return "whole"
        out, errors, status = said.told
        if out == "" and status == 1 and errors in NO_MEMORY:
            return "no memory from there on"
        told, _, found = out.partition("stopped\n")
        is_none = found in ("no journal Memory\n", "no journal Disk(Sync)\n") and last("acknowledged", told) <= last("accepted", told)
        return "no memory from there on" if is_none and not errors and status == 0 else None

    def is_not_begun(self, out, begun):
        """Whether no run was made for want of memory, and the disk has an empty journal, or none where its format failed."""
        causes = ("Memory", "Disk(Sync)") if begun[1] == "format" else ("Memory", "Recover Memory", "Recover Disk(Sync)")
        found = out.partition("stopped\n")[2]
        has_none = begun[1] == "format" and found == "no journal NotFormatted\n"
        return begun[2] in causes and "accepted" not in out and (found == EMPTY or has_none)

    def has_failed_sync(self, out):
        """Whether the disk failed once, and nothing was accepted or acknowledged from then on."""
        _, failed, behind = out.partition("disk failed\n")
        return bool(failed) and not re.search(r"^(accepted|acknowledged|disk failed)", behind, re.M)

    @functools.cached_property
    def beginnings(self):
        """What is said to no step, the first, the first two, and so on."""
        head, *steps = self.files["script.toml"].decode().split("[[step]]\n")
        made, says = head, []
        for step in steps:
            times = re.search(r"^times = (\d+)\n", step, re.M)
            for _ in range(int(times[1]) if times else 1):
                says.append(self.says_to(made))
                made += "[[step]]\n" + re.sub(r"^times = .*\n", "", step, flags=re.M)
        return [*says, self.says_to(made)]

    def says_to(self, text):
        """What is said to another script, with all memory."""
        return dataclasses.replace(self, files={"script.toml": text.encode()}).whole_out

    @functools.cached_property
    def states(self):
        """The states that are recovered behind each step."""
        return {recovered(out) for out in self.beginnings}


class Image(Subject):
    """A format, a show or a map of an image file of two ports and four slots."""

    def end_of_all(self, said):
        return self.end(said)

    def end(self, said):
        if said.told == self.whole.told and said.image == self.whole.image:
            return "whole"
        if said.told != MEMORY:
            return None
        if said.image == self.files.get("a.img"):
            return "out of memory, the file as it was"
        if self.words[1] in ("show", "map"):
            return None
        shown = dataclasses.replace(self, words=[self.words[0], "show", "a.img"], files={"a.img": said.image}).whole.told
        return {NOT_FORMATTED: "out of memory, not formatted", (EMPTY, "", 0): "out of memory, an empty journal"}.get(shown)


class Picture(Subject):
    """The run of a script, drawn into a file that is named as an image is. What a run may come to is for `Script`."""

    def end_of_all(self, said):
        return self.end(said)

    def end(self, said):
        if said.told == self.whole.told and said.image == self.whole.image:
            return "whole"
        if said.told in (MEMORY, DISK):
            return "out of memory, no picture" if said.image is None else None
        is_drawn = said.told[1:] == ("", 0) and re.fullmatch(r"drawn \d+ events\n", said.told[0])
        return "picture of a shorter run" if is_drawn and said.image.endswith(b"</svg>\n") else None


def formatted(program):
    """An image file with an empty journal of two ports and four slots."""
    return Image("", [program, "format", "a.img", "--ports", "2", "--slots", "4"], {}).whole.image


def written(program):
    """An image file with a journal of two commands, the first batch: a Configure of port 1, and the Store of its set."""
    image = bytearray(formatted(program))
    head = bytes.fromhex("00 00 00 00 00 00 00 01  00 00 00 00 00 00 00 01  00 02  00 00 00 2B")
    configure = bytes.fromhex("01 01 01 03 01 F4 00 00 AB CD")
    store = bytes.fromhex("03 01  00 00 00 00 00 00 00 01  01 F4  00 00 AB CD  00 00 02 4F  00 02")
    entries = bytes.fromhex("00 40 00 02 0A 64  00 41 01 01 7F")
    body = head + configure + store + entries
    image[512 * 22 : 512 * 22 + 8] = bytes.fromhex("A55A" * 4)
    image[512 * 23 : 512 * 23 + len(body)] = body
    return bytes(image)
