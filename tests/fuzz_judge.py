"""Judges what a run of a script printed, by the script and the printed lines alone.

Each rule is one of README.md or docs/FORMATS.md. Whether a line may stand where it stands is told by the lines before it, so
that no rule depends on how many steps the program needs for something; tests/fuzz_model.py says that.
"""

import itertools
import re
import typing

import fuzz_disk
import fuzz_errors as errors
import fuzz_words as words

OCTETS = r"((?: [0-9A-F]{2})*)"
FAILURES = "Unexpected|Size|List|Busy|Memory|Empty|Reserved|WrongService|Length|Check|Stopped|NotAllowed|WrongDevice|Taken|Same|Exhausted"
STATUSES = (
    "off|lost|starting|ready|ready locked|ready empty|uploading|storing|downloading|mismatch (?:vendor|device|revision|isdu)"
    f"|failed Refused [0-9A-F]{{2}} [0-9A-F]{{2}}|failed (?:{FAILURES})"
)
LINES = {
    "accepted": re.compile(r"accepted (\d+)"),
    "refused": re.compile(r"refused (Stopped|UnknownPort|RevisionSpent|NoPrevious|QueueFull|Exhausted)"),
    "page": re.compile(rf"port (\d+) page{OCTETS}"),
    "sent": re.compile(rf"port (\d+) >{OCTETS}"),
    "heard": re.compile(rf"port (\d+) <{OCTETS}"),
    "status": re.compile(rf"port (\d+) ({STATUSES})"),
    "acknowledged": re.compile(r"acknowledged (\d+)"),
    "failed": re.compile(r"disk failed"),
    "disk": re.compile(r"disk (sync|write .*)"),
}
TRANSFERS = ("uploading", "storing", "downloading")


class Said(typing.NamedTuple):
    """What the program said: its output, its errors and its status, which is a text where it has none."""

    out: str
    errors: str = ""
    status: typing.Union[int, str] = 0


class Wrong(Exception):
    """What a run says and no run may say: the name of the rule, and why."""


def claim(rule, holds, why):
    if not holds:
        raise Wrong(f"{rule}: {why}")


def said_lines(lines, words=""):
    """What a run says that prints these lines, with these words behind each line of an event."""
    stop = lines.index("stopped")
    events = [line if LINES["disk"].fullmatch(line) else line + words for line in lines[: stop + 1]]
    return Said("".join(f"{line}\n" for line in [*events, *lines[stop + 1 :]]))


def without_words(text):
    """The lines of an explained run without their words."""
    return [line.partition("  # ")[0] for line in text.splitlines()]


class Talk:
    """What is known of a port: its status, what it has said to its device since, and the page of that, if it was not lost.

    `live` and `durable` are the states of the port when its status was told, and `stored` is the number of its last Store.
    """

    def __init__(self):
        self.status, self.exchanges, self.page, self.live, self.durable, self.stored = "off", [], None, words.Port(), words.Port(), 0


def answers_to(talk, requests):
    """The answers to the first of these requests, as far as the exchanges are them in their order, and the exchanges behind
    these. A request is sent again at Device busy, and has None for an answer where its device was lost."""
    answers, left = [], list(talk.exchanges)
    for wanted in requests:
        while left and left[0] == (wanted, b"\1"):
            left.pop(0)
        if not left or left[0][0] != wanted:
            break
        answers.append(words.read_answer(left.pop(0)[1] or b""))
    return answers, left


def are(answers, *kinds):
    """Whether the answers are there, and are of these kinds."""
    return [answer and answer[0] for answer in answers] == list(kinds)


def uploaded(talk):
    """The set of which the exchanges are one whole upload; nothing where they are none."""
    requests = [words.request(words.COMMAND, words.UPLOAD_START), words.request(words.SIZE), words.request(words.LIST)]
    answers, _ = answers_to(talk, requests)
    keys = words.keys_of(answers[2][1]) if are(answers, "written", "read", "read") else None
    if keys is None:
        return None
    requests += [*map(words.request, keys), words.request(words.CHECKSUM)]
    answers, left = answers_to(talk, requests)
    if left or not are(answers, "written", *["read"] * (len(requests) - 1)):
        return None
    values = [octets for _, octets in answers[3:]]
    return words.ParameterSet(*words.page_numbers(talk.page), int.from_bytes(values.pop(), "big"), tuple(zip(keys, values)))


class Judge:
    """Hears the lines of a run one after another, and claims of each what has to hold there."""

    def __init__(self, script, keep, is_explained):
        self.script, self.keep = script, keep
        self.commands, self.states, self.acknowledged, self.has_failed = [], [(words.Port(),) * script["ports"]], 0, False
        self.asked = [step for step in script.get("step", []) if words.client_command(step)]
        self.talks = {port: Talk() for port in range(1, script["ports"] + 1)}
        self.disk = fuzz_disk.ToldDisk(script, claim) if is_explained else None

    def live(self, port):
        """The state of a port after all that was accepted."""
        return self.states[-1][port - 1]

    def durable(self, port):
        """The state of a port after what was acknowledged."""
        return self.states[self.acknowledged][port - 1]

    def hear_all(self, lines):
        """Hears the lines of events, each with the lines before and behind it."""
        for place, line in enumerate(lines):
            kind, match = next(((kind, match) for kind, match in ((k, p.fullmatch(line)) for k, p in LINES.items()) if match), ("", None))
            claim("lines", match, f"no line of a run: {line}")
            told = match.groups()
            if line.startswith("port "):
                claim("lines", int(told[0]) in self.talks, f"there is no such port: {line}")
                told = (int(told[0]), *told[1:])
            getattr(self, f"hear_{kind}")(*told, before="".join(lines[place - 1 : place]), behind="".join(lines[place + 1 : place + 2]))
        claim("clients", not self.asked, f"{len(self.asked)} steps of clients have no answer")

    def hear_disk(self, call, before, behind):
        claim("disk", self.disk and not self.has_failed, f"a disk call that is not to be told: {call}")
        self.disk.hear(call)

    def hear_failed(self, before, behind):
        kind = self.script.get("fail", "none").split()[0]
        claim("failures", kind in ("write", "sync") and not self.has_failed, "a disk call has failed that was not to fail")
        claim("failures", not self.disk or before.startswith(f"disk {kind}"), f"no {kind} has failed")
        self.has_failed = True
        if self.disk:
            self.disk.fail()

    def hear_acknowledged(self, number, before, behind):
        claim("durability", not self.has_failed, f"{number} is acknowledged once the disk has failed")
        is_next = self.acknowledged < int(number) <= len(self.commands)
        claim("durability", is_next, f"{number} is acknowledged behind {self.acknowledged}, and {len(self.commands)} are accepted")
        if self.disk:
            self.disk.acknowledge(number)
        self.acknowledged = int(number)

    def next_client(self):
        claim("clients", self.asked, "a client is answered that has not asked")
        return words.client_command(self.asked.pop(0))

    def first_cause(self, command):
        """The first cause by which a command is refused; `accepted` where none is."""
        if self.has_failed:
            return "Stopped"
        if command.port > self.script["ports"]:
            return "UnknownPort"
        if command.is_rollback and not self.live(command.port).previous:
            return "NoPrevious"
        return "QueueFull" if len(self.commands) - self.acknowledged >= words.MOST_WAITING else "accepted"

    def hear_refused(self, cause, before, behind):
        first = self.first_cause(self.next_client())
        claim("refusals", cause == first, f"refused {cause} in place of {first}")

    def hear_accepted(self, number, before, behind):
        """A Store is accepted where its port is `storing` at once, and else it is the command of a client."""
        claim("numbers", int(number) == len(self.commands) + 1, f"{number} is accepted behind {len(self.commands)}")
        storing = re.fullmatch(r"port (\d+) storing", behind)
        command = self.store_of(int(storing[1])) if storing else self.next_client()
        first = self.first_cause(command)
        claim("refusals", first == "accepted", f"{number} is accepted in place of refused {first}")
        self.commands.append(command)
        self.states.append(words.state_after(self.states[-1], command))
        if storing:
            self.talks[command.port].stored = int(number)

    def store_of(self, port):
        """The Store of the set that a port has uploaded: whole, and under the configuration that it has had since."""
        claim("lines", port in self.talks, f"there is no port {port}")
        talk, state = self.talks[port], self.live(port)
        claim("sets", talk.status == "uploading" and talk.page, f"port {port} is {talk.status}, and stores a set")
        found = uploaded(talk)
        claim("sets", found, f"port {port} stores a set of which there is no whole upload")
        claim("sets", found.octets() <= words.MOST_OCTETS, f"port {port} stores a set that counts {found.octets()}")
        claim("sets", state.revision == talk.live.revision, f"port {port} stores a set, and was configured since its upload began")
        wanted = words.Config(words.MANUAL, words.BACKUP, found.vendor, found.device)
        claim("sets", state.config[:4] == wanted[:4], f"port {port} stores a set that its configuration does not allow")
        return words.Command(port, parameters=found)

    def hear_page(self, port, octets, before, behind):
        claim("lines", len(octets) == 3 * 16, f"port {port} has a page of other than 16 octets:{octets}")
        self.talks[port].page, self.talks[port].exchanges = bytes.fromhex(octets), []

    def hear_sent(self, port, octets, before, behind):
        """A request, which an answer or a loss follows."""
        talk, sent = self.talks[port], bytes.fromhex(octets)
        answered = re.fullmatch(rf"port {port} <{OCTETS}", behind)
        claim("lines", answered or behind == f"port {port} lost", f"a request of port {port} has no end:{octets}")
        claim("lines", words.read_request(sent), f"port {port} sends what is no request:{octets}")
        claim("connections", talk.page, f"port {port} asks a device of which it has no page:{octets}")
        key, data = words.read_request(sent)
        if data is not None:
            self.judge_write(port, talk, sent, data if key == words.COMMAND else None)
        talk.exchanges.append((sent, bytes.fromhex(answered[1]) if answered else None))

    def hear_heard(self, port, octets, before, behind):
        claim("lines", before.startswith(f"port {port} >"), f"port {port} is answered what it has not asked:{octets}")

    def judge_write(self, port, talk, sent, command):
        """What is written is a command of the transfer that the port is in, or the next of the set that is downloaded."""
        told = f"port {port} is {talk.status}, and writes{words.spaced(sent)}"
        if command == words.BREAK:
            claim("writes", talk.status in TRANSFERS, told)
        elif talk.status == "downloading":
            self.judge_download(talk, sent, told)
        elif talk.status == "storing":
            claim("writes", command == words.UPLOAD_END, told)
            claim("ends", talk.stored <= self.acknowledged, f"port {port} ends an upload whose set is not acknowledged")
        else:
            starts = talk.status == "uploading" and command == words.UPLOAD_START
            claim("writes", starts and not any(exchange != (sent, b"\1") for exchange in talk.exchanges), told)

    def judge_download(self, talk, sent, told):
        """A download sends the set that was durable when it began, and each request once the one before was answered (+)."""
        requests = [words.request(words.COMMAND, words.DOWNLOAD_START)]
        requests += [words.request(key, octets) for key, octets in talk.durable.parameters.entries]
        requests += [words.request(words.COMMAND, words.DOWNLOAD_END)]
        answers, left = answers_to(talk, requests)
        claim("downloads", not left and are(answers, *["written"] * len(answers)), f"{told} behind what was not written")
        claim("downloads", requests[len(answers) :][:1] == [sent], f"{told}, which is not next in its set")

    def hear_status(self, port, status, before, behind):
        talk = self.talks[port]
        claim("lines", status != talk.status, f"port {port} is told as {status} again")
        if status in ("uploading", "downloading"):
            self.judge_beginning(port, status, talk)
        if status == "storing":
            is_stored = before == f"accepted {talk.stored}" and talk.status == "uploading"
            claim("sets", is_stored, f"port {port} is storing, and its set was not accepted")
        if status == "ready" and talk.status in TRANSFERS:
            self.judge_end(port, talk)
        if status in ("lost", "starting"):
            talk.page = None
        talk.status, talk.exchanges, talk.live, talk.durable = status, [], self.live(port), self.durable(port)

    def judge_beginning(self, port, status, talk):
        """A transfer begins with the device that the port is configured for, and a download with one of the durable set."""
        config, held = self.live(port).config, self.durable(port).parameters
        answers, left = answers_to(talk, [words.request(words.STATE), words.request(words.CHECKSUM)])
        is_examined = talk.status == "starting" and talk.page and are(answers, "read", "read") and not left
        claim("connections", is_examined, f"port {port} is {status} with a device that was not examined")
        fits = words.page_numbers(talk.page) == config[2:4] and not words.mismatch(config, talk.page) and words.may_keep(config)
        claim("connections", fits, f"port {port} is {status} with a device that it is not configured for")
        if status == "uploading":
            claim("connections", config.validation == words.BACKUP, f"port {port} is uploading, and is not to back up")
            claim("refusals", not self.has_failed, f"port {port} is uploading once the disk has failed")
        else:
            claim("downloads", held, f"port {port} is downloading, and has no durable set")
            claim("downloads", words.page_numbers(talk.page) == held[:2], f"port {port} is downloading to another device than its set's")

    def judge_end(self, port, talk):
        """A port is ready behind a transfer once the last request of that was answered (+)."""
        last = {"storing": words.UPLOAD_END, "downloading": words.DOWNLOAD_END}.get(talk.status, words.BREAK)
        is_done = talk.exchanges[-1:] == [(words.request(words.COMMAND, last), words.answer())] and last != words.BREAK
        claim("ends", is_done, f"port {port} is ready, and its transfer, {talk.status}, has not ended")

    def judge_recovered(self, lines):
        """What is recovered is the state after the first of the accepted commands, all acknowledged ones among them."""
        match = re.fullmatch(r"recovered (\d+)", lines[0]) if lines else None
        claim("recovery", match, "nothing is recovered")
        number, accepted = int(match[1]), len(self.commands)
        is_prefix = self.acknowledged <= number <= accepted
        claim("recovery", is_prefix, f"{number} is recovered, {self.acknowledged} was acknowledged, and {accepted} accepted")
        if self.disk:
            self.disk.judge_recovered(number, self.acknowledged, self.keep)
        wanted = words.recovered_lines(number, self.states[number])
        differs = next(((told, said) for told, said in zip([*wanted, ""], [*lines, ""]) if told != said), None)
        claim("states", lines == wanted, f"after {number} commands the state has {differs}")


def judge_lines(script, keep, lines, is_explained):
    """Judges the lines of a run, with or without those of its disk."""
    claim("lines", lines.count("stopped") == 1, "the power does not stop once")
    place, judge = lines.index("stopped"), Judge(script, keep, is_explained)
    judge.hear_all(lines[:place])
    judge.judge_recovered(lines[place + 1 :])


def judge_said(script, text, plain, explained=None):
    """Judges what was said of a script, and what was said where it was to be explained."""
    error = errors.expected_error(script, text)
    for said in (plain, explained or plain):
        claim("status", said[1:] == (error or ("", 0)), f"status {said.status}, and {said.errors!r} in place of {error}")
        claim("status", not (error and said.out), f"an error, and the output {said.out!r}")
    if not error:
        judge_run(script, errors.kept_by(script), plain, explained)


def judge_run(script, keep, plain, explained):
    """Judges a run that was made."""
    claim("lines", plain.out.endswith("\n"), "the last line has no end")
    judge_lines(script, keep, plain.out.splitlines(), False)
    if explained:
        events = itertools.takewhile(lambda line: not line.startswith("stopped"), explained.out.splitlines())
        have_words = all(LINES["disk"].fullmatch(line) or "  # " in line for line in events)
        claim("explained", have_words, "a line of an explained run has no words")
        lines = without_words(explained.out)
        bare = "".join(f"{line}\n" for line in lines if not LINES["disk"].fullmatch(line))
        claim("explained", plain == explained._replace(out=bare), "an explained run without its words is another run")
        judge_lines(script, keep, lines, True)
