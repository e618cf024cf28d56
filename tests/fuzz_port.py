"""Simulated devices and the machine of a port, by another reading of docs/FORMATS.md and docs/ARCHITECTURE.md ("The stages of a port").

For tests/fuzz_model.py: each step of a machine is one call of its link, a page or an exchange, or one call of the core.
"""

import fuzz_words as words

LOCKED = 3
INACTIVE, IN_UPLOAD, IN_DOWNLOAD = 0, 1, 2
ACCESS_DENIED, NO_INDEX, NO_SUBINDEX, OUT_OF_RANGE, OVERRUN, UNDERRUN = 0x23, 0x11, 0x12, 0x30, 0x33, 0x34


class Device:
    """A simulated device on its visit at a port."""

    def __init__(self, said):
        self.said, self.flag, self.state = said, said.get("flag", False), LOCKED if said.get("locked", False) else INACTIVE
        keys = [tuple(key) for key in said.get("keys", [])]
        self.parameters = dict(zip(keys, map(bytes.fromhex, said.get("values", []))))
        self.answered, self.is_raised = 0, False
        self.raise_in_time()

    def raise_in_time(self):
        """Once it has answered as many calls as the script says it wants an upload."""
        if self.answered == self.said.get("event"):
            self.flag = self.is_raised = True

    def answers(self):
        """Counts a call that it answers, if it does."""
        return self.answered != self.said.get("answers")

    def has_answered(self, octets):
        self.answered += 1
        self.raise_in_time()
        return octets

    def page(self):
        said = self.said
        head = bytes([0, 0, 0x17, said.get("isdu", True), said.get("revision", 17), 0, 0])
        return head + said["vendor"].to_bytes(2, "big") + said["device"].to_bytes(3, "big") + bytes(4)

    def respond(self, octets):
        """What it answers to a request."""
        key, data = words.read_request(octets)
        if data is None:
            found = self.read(key)
            return words.refusal(False, found) if isinstance(found, int) else words.answer(found)
        refused = self.command(data) if key == words.COMMAND else self.write(key, data)
        return words.refusal(True, refused) if refused else words.answer()

    def read(self, key):
        """The octets at a key, or the AdditionalCode of a refusal."""
        if key[0] != 3:
            return self.parameters.get(key, NO_INDEX)
        values = b"".join(self.parameters.values())
        checksum = sum(place * octet for place, octet in enumerate(values, 1)) % 2**32
        keys = b"".join(index.to_bytes(2, "big") + bytes([subindex]) for index, subindex in self.parameters)
        objects = {
            words.COMMAND: ACCESS_DENIED,
            words.STATE: bytes([self.state << 1 | self.flag << 7]),
            words.SIZE: (4 * len(self.parameters) + len(values)).to_bytes(4, "big"),
            words.CHECKSUM: checksum.to_bytes(4, "big"),
            words.LIST: keys + bytes(2),
        }
        return objects.get(key, NO_SUBINDEX)

    def write(self, key, data):
        """Writes octets at a key, or gives the AdditionalCode of a refusal."""
        if key[0] == 3:
            return ACCESS_DENIED if key in (words.STATE, words.SIZE, words.CHECKSUM, words.LIST) else NO_SUBINDEX
        if key not in self.parameters:
            return NO_INDEX
        if len(data) != len(self.parameters[key]):
            return OVERRUN if len(data) > len(self.parameters[key]) else UNDERRUN
        self.parameters[key] = data
        return None

    def command(self, data):
        """Follows a command to its Data Storage, or gives the AdditionalCode of a refusal."""
        if self.state == LOCKED:
            return ACCESS_DENIED
        if data in (words.UPLOAD_END, words.DOWNLOAD_END):
            self.flag = False
        states = {words.UPLOAD_START: IN_UPLOAD, words.DOWNLOAD_START: IN_DOWNLOAD}
        if data not in (words.UPLOAD_START, words.UPLOAD_END, words.DOWNLOAD_START, words.DOWNLOAD_END, words.BREAK):
            return OUT_OF_RANGE
        self.state = states.get(data, INACTIVE)
        return None


class Link:
    """The devices of a port, one after another; at a loss the next is there."""

    def __init__(self, said):
        self.said = list(said)
        self.device = None
        self.lose()

    def lose(self):
        self.device = Device(self.said.pop(0)) if self.said else None

    def takes_event(self):
        """Whether the device raises its event, which it tells once."""
        is_raised = bool(self.device) and self.device.is_raised
        if is_raised:
            self.device.is_raised = False
        return is_raised

    def call(self, request=None):
        """The answer of the device to a request, or its page; nothing where it is lost."""
        if not self.device or not self.device.answers():
            self.lose()
            return None
        return self.device.has_answered(self.device.respond(request) if request else self.device.page())


class Machine:
    """The machine of a port. `stage` is the function that its next step makes; a settled port attends first."""

    def __init__(self, port, link, core):
        self.port, self.link, self.core, self.lines = port, link, core, core.lines
        self.status, self.stage, self.told_page, self.config, self.revision = "off", self.wake, None, None, None
        self.has_asked, self.has_permit, self.permitted, self.ending = False, False, None, None
        # What was read of the device, what is still to be sent to it or was answered, and the number of the set that is stored.
        self.property, self.checksum, self.requests, self.values, self.number = 0, 0, [], [], 0

    def step(self):
        """An event of the device is noted, one call is made, and the status is told where it has changed."""
        self.has_asked |= self.link.takes_event()
        before = self.status
        self.stage()
        if self.status != before:
            self.lines.append(f"port {self.port} {self.status}")

    def settle(self, status):
        self.status, self.stage = status, self.wake

    def wake(self):
        """A settled port starts where it was configured or its device has asked; else it looks whether its device is still there."""
        is_same = self.core.live(self.port).revision == self.revision and not self.has_asked
        if is_same and self.status.startswith(("ready", "mismatch")):
            self.stage = self.compare_page
        elif not is_same or self.status != "off":
            self.start()

    def start(self):
        state = self.core.live(self.port)
        self.config, self.revision, self.has_asked = state.config, state.revision, False
        if state.config.mode == words.MANUAL:
            self.status, self.stage = "starting", self.read_page
        else:
            self.settle("off")

    def lose(self):
        """The device is lost: a permit that is held is given back by a step of its own."""
        self.settle("lost")
        if self.has_permit:
            self.stage, self.ending = self.give_back, "lost"

    def page(self):
        """The page of the device, or nothing where that is lost."""
        page = self.link.call()
        if page:
            self.lines.append(f"port {self.port} page{words.spaced(page)}")
        else:
            self.lose()
        return page

    def ask(self, key, data=None):
        """What the device answers to a request, or nothing where it is lost."""
        request = words.request(key, data)
        self.lines.append(f"port {self.port} >{words.spaced(request)}")
        octets = self.link.call(request)
        if octets is None:
            self.lose()
            return None
        self.lines.append(f"port {self.port} <{words.spaced(octets)}")
        return words.read_answer(octets)

    def compare_page(self):
        page = self.page()
        if page:
            self.stage = self.wake

    def read_page(self):
        self.told_page = self.page()
        if not self.told_page:
            return
        fault = words.mismatch(self.config, self.told_page)
        if fault:
            self.settle(f"mismatch {fault}")
        elif self.config.validation < words.BACKUP:
            self.settle("ready")
        else:
            self.stage = self.read_state

    def read_state(self):
        answer = self.ask(words.STATE)
        if answer:
            self.property, self.stage = answer[1][0], self.read_checksum

    def read_checksum(self):
        answer = self.ask(words.CHECKSUM)
        if answer:
            self.checksum, self.stage = int.from_bytes(answer[1], "big"), self.decide

    def decide(self):
        """Goes by the table of decisions, or starts anew where the port was configured meanwhile."""
        if self.core.live(self.port).revision != self.revision:
            self.start()
            return
        held, is_backed_up = self.core.durable(self.port).parameters, self.config.validation == words.BACKUP
        if self.property >> 1 & 3 == LOCKED:
            self.settle("ready locked")
        elif is_backed_up and (not held or self.property & 0x80):
            self.stage = self.begin_upload
        elif not held:
            self.settle("ready empty")
        elif held.checksum == self.checksum:
            self.settle("ready")
        else:
            self.stage = self.begin_download

    def begin_upload(self):
        """Asks for a permit, which is given for the revision that the port has by now."""
        state = self.core.live(self.port)
        if self.core.has_failed:
            self.settle("failed Stopped")
        elif (state.config.mode, state.config.validation) != (words.MANUAL, words.BACKUP):
            self.settle("failed NotAllowed")
        elif state.config[2:4] != words.page_numbers(self.told_page):
            self.settle("failed WrongDevice")
        else:
            self.status, self.has_permit, self.permitted = "uploading", True, state.revision
            self.requests, self.values = [(words.COMMAND, words.UPLOAD_START), (words.SIZE, None), (words.LIST, None)], []
            self.stage = self.upload

    def upload(self):
        """Sends the next request of an upload; the keys of the list are asked behind it, and the checksum behind those."""
        asked = self.requests[len(self.values)]
        answer = self.ask(*asked)
        if not answer:
            return
        self.values.append(answer[1])
        if answer[0] == "refused":
            self.break_off(f"failed Refused{words.spaced(answer[1])}")
        elif asked[0] == words.SIZE and int.from_bytes(answer[1], "big") > words.MOST_OCTETS:
            self.break_off("failed Size")
        elif asked[0] == words.LIST:
            self.requests += [(key, None) for key in [*words.keys_of(answer[1]), words.CHECKSUM]]
        elif asked[0] == words.CHECKSUM:
            self.stage = self.file_set

    def file_set(self):
        """Hands in the set: again where the queue is full, and not where the port was configured since the permit."""
        _, _, _, *values, checksum = self.values
        entries = tuple((key, octets) for (key, _), octets in zip(self.requests[3:], values))
        found = words.ParameterSet(*words.page_numbers(self.told_page), int.from_bytes(checksum, "big"), entries)
        is_current = self.core.live(self.port).revision == self.permitted
        if self.core.has_failed or not is_current:
            self.has_permit = False
            self.break_off("failed Stopped" if self.core.has_failed else None)
        elif not self.core.submit(words.Command(self.port, parameters=found)):
            self.status, self.has_permit, self.number, self.stage = "storing", False, len(self.core.commands), self.wait

    def wait(self):
        """Asks whether the set is durable."""
        if self.core.acknowledged >= self.number:
            self.stage = self.end_upload
        elif self.core.has_failed:
            self.break_off("failed Stopped")

    def end_upload(self):
        answer = self.ask(words.COMMAND, words.UPLOAD_END)
        if answer:
            self.settle("ready" if answer[0] == "written" else f"failed Refused{words.spaced(answer[1])}")

    def begin_download(self):
        """Asks for a permit, which comes with the durable set."""
        state, held = self.core.live(self.port), self.core.durable(self.port).parameters
        if not words.may_keep(state.config):
            self.settle("failed NotAllowed")
        elif not held or not state.parameters:
            self.settle("failed Empty")
        elif not state.config[2:4] == held[:2] == words.page_numbers(self.told_page):
            self.settle("failed WrongDevice")
        elif held.checksum == self.checksum:
            self.settle("failed Same")
        else:
            self.status, self.has_permit, self.stage = "downloading", True, self.download
            self.requests = [(words.COMMAND, words.DOWNLOAD_START), *held.entries, (words.COMMAND, words.DOWNLOAD_END)]

    def download(self):
        answer = self.ask(*self.requests[0])
        if not answer:
            return
        if answer[0] == "refused":
            self.break_off(f"failed Refused{words.spaced(answer[1])}")
            return
        self.requests = self.requests[1:]
        if not self.requests:
            self.stage, self.ending = self.give_back, "ready"

    def break_off(self, ending):
        """A transfer is broken off: the port ends so, or starts anew where there is no ending."""
        self.stage, self.ending = self.send_break, ending

    def send_break(self):
        """Sends DS_Break, whose answer is not looked at."""
        if not self.ask(words.COMMAND, words.BREAK):
            return
        if self.has_permit:
            self.stage = self.give_back
        elif self.ending:
            self.settle(self.ending)
        else:
            self.stage = self.start

    def give_back(self):
        """Gives the permit back."""
        self.has_permit = False
        self.settle(self.ending)
