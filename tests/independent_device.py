#!/usr/bin/env python3
"""A device and its driver for tests of a master, which can be told to misbehave.

tests/independent_device.py --fifos FOLDER|--pty LINK --device JSON.. [--log FILE] [--cycle MS] [--at WHEN DEED [VALUE]]..

It is written from docs/DRIVERS.md, docs/FORMATS.md ("ISDU", "Simulated devices") and the standard. It shares no code with the other
devices of this repository, so that a mistake of theirs is not also one of it.

--fifos FOLDER  makes FOLDER/from_master, which requests are read from, and FOLDER/to_master, which answers are written to
--pty LINK      makes a pseudo-terminal in raw mode, and LINK to it; who kills the process removes LINK before
--device JSON   is a device, the first that answers; further ones follow by `replace`. Each is an object such as
                {"vendor": 500, "device": 43981, "flag": true, "parameters": {"0040.00": "0A64", "0041.01": "7F"}}
                with `revision`, `isdu` and `locked` beside these, which are 17, true and false if they are missing
--log FILE      gets a line of JSON for each request: its count in this process and its number, the device that is there, the deed,
                the words that were asked, and those that were answered, or null if the master got no answer that it may take
--cycle MS      answers each page only after this number of milliseconds: a master reads the page of a ready device again and again
--at WHEN DEED  does this at request WHEN of this process, as `7`, `7-9` or `7-`; 0 is before the first one

A deed is one of:

answer          what a driver does, which is the usual deed
slow VALUE      an answer after VALUE seconds
pieces VALUE    an answer in two pieces, VALUE seconds apart
busy            the device answers Device busy to an ISDU
raise           the device asks for an upload: its DS_UPLOAD_FLAG is set, and the event FF91 comes before the answer
events VALUE    VALUE events before the answer; their EventCodes count up from 1
replace         `lost`, and from then on the next device
twice           the answer two times
late            nothing, and the answer comes right before that to the next request
ahead           the answer under the next number
other           an answer of the other kind: a page to an ISDU, an ISDU to the request for a page
spoil           the answer with another last octet
cut             the answer without its last octet
garbage         a line that is no answer
half            one half of the answer, without a line feed
flood           10,000 octets without a line feed
chatter VALUE   an event each 20 ms for VALUE seconds, and no answer
silent          nothing
die VALUE       the files are closed without an answer, and opened again after VALUE seconds
"""

import argparse
import json
import os
import re
import select
import sys
import time
import tty

REQUEST = re.compile(rb"[0-9]+ (page|isdu( [0-9A-Fa-f]{2})*)\r?")
DEEDS = "answer slow pieces busy raise events replace twice late ahead other spoil cut garbage half flood chatter silent die".split()
# In these the device is not asked, and in those the master gets no answer that it may take.
WITHOUT_DEVICE = ("garbage", "flood", "chatter", "silent", "die")
WITHOUT_ANSWER = (*WITHOUT_DEVICE, "half", "late", "ahead", "other")
# How long it waits for a master that does not read.
WRITE_SECONDS = 5
FLOOD_OCTETS = 10_000
CHATTER_SECONDS = 0.02
INDEX_DATA_STORAGE = 3
IDLE, UPLOADING, DOWNLOADING, LOCKED = 0, 1, 2, 3
IDX_NOTAVAIL, SUBIDX_NOTAVAIL, ACCESS_DENIED = 0x8011, 0x8012, 0x8023
PAR_VALOUTOFRNG, VAL_LENOVRRUN, VAL_LENUNDRUN = 0x8030, 0x8033, 0x8034


def xor_of(octets):
    """The XOR of octets."""
    result = 0
    for octet in octets:
        result ^= octet
    return result


def pack(service, body=b""):
    """An ISDU, which has its own length in front and ends with CHKPDU."""
    if len(body) + 2 < 16:
        head = bytes([(service << 4) + len(body) + 2])
    else:
        head = bytes([(service << 4) + 1, len(body) + 3])
    return head + body + bytes([xor_of(head + body)])


def unpack(isdu):
    """I-Service and body of an ISDU that is whole, or None."""
    if len(isdu) < 2 or xor_of(isdu) != 0:
        return None
    service, length = divmod(isdu[0], 16)
    if length == 1 and 17 <= isdu[1] <= 238:
        return (service, isdu[2:-1]) if isdu[1] == len(isdu) else None
    return (service, isdu[1:-1]) if length == len(isdu) else None


class Device:
    """An IO-Link device that keeps its parameters in a Data Storage."""

    def __init__(self, said):
        """The device that an object of JSON describes."""
        self.vendor, self.number = said["vendor"], said["device"]
        self.revision, self.has_isdu = said.get("revision", 0x11), said.get("isdu", True)
        self.upload_flag = said.get("flag", False)
        self.storage = LOCKED if said.get("locked", False) else IDLE
        self.keys, self.contents = [], {}
        for name, digits in said.get("parameters", {}).items():
            index, subindex = name.split(".")
            self.keys.append((int(index, 16), int(subindex, 16)))
            self.contents[self.keys[-1]] = bytes.fromhex(digits)

    def page(self):
        """Direct Parameter page 1, by its addresses."""
        page = bytearray(16)
        page[0x02], page[0x03], page[0x04] = 0x17, int(self.has_isdu), self.revision
        page[0x07], page[0x08] = divmod(self.vendor, 256)
        page[0x09:0x0C] = self.number.to_bytes(3, "big")
        return bytes(page)

    def respond(self, isdu):
        """The octets that answer an ISDU."""
        service, body = unpack(isdu) or (0, b"")
        # One octet of Index, the same with one of Subindex, or two of Index with one of Subindex.
        widths = {0x1: (1, 0), 0x2: (1, 1), 0x3: (2, 1), 0x9: (1, 0), 0xA: (1, 1), 0xB: (2, 1)}
        if service not in widths or len(body) < sum(widths[service]):
            return b"\x00"
        wide, narrow = widths[service]
        index, subindex, data = int.from_bytes(body[:wide], "big"), body[wide] if narrow else 0, body[wide + narrow :]
        if service < 0x8:
            fault = self.write(index, subindex, data)
            return pack(0x4, fault.to_bytes(2, "big")) if fault else pack(0x5)
        if data:
            return b"\x00"
        fault, octets = self.read(index, subindex)
        return pack(0xC, fault.to_bytes(2, "big")) if fault else pack(0xD, octets)

    def read(self, index, subindex):
        """The ErrorType of a read, 0 if it is answered, and the octets."""
        if index != INDEX_DATA_STORAGE:
            octets = self.contents.get((index, subindex))
            return (IDX_NOTAVAIL, b"") if octets is None else (0, octets)
        if subindex == 1:
            return ACCESS_DENIED, b""
        if subindex == 2:
            return 0, bytes([(0x80 if self.upload_flag else 0) + 2 * self.storage])
        if subindex == 3:
            return 0, sum(4 + len(octets) for octets in self.contents.values()).to_bytes(4, "big")
        if subindex == 4:
            return 0, self.checksum().to_bytes(4, "big")
        if subindex == 5:
            return 0, b"".join(bytes([index >> 8, index & 255, subindex]) for index, subindex in self.keys) + b"\x00\x00"
        return SUBIDX_NOTAVAIL, b""

    def checksum(self):
        """Parameter_Checksum: each octet of the parameters times its place, in the order of the Index_List."""
        total = place = 0
        for key in self.keys:
            for octet in self.contents[key]:
                place += 1
                total += place * octet
        return total % (1 << 32)

    def write(self, index, subindex, data):
        """Writes, and gives the ErrorType, 0 if that is not refused."""
        if index == INDEX_DATA_STORAGE:
            return self.command(subindex, data)
        if (index, subindex) not in self.contents:
            return IDX_NOTAVAIL
        surplus = len(data) - len(self.contents[index, subindex])
        if surplus:
            return VAL_LENOVRRUN if surplus > 0 else VAL_LENUNDRUN
        self.contents[index, subindex] = data
        return 0

    def command(self, subindex, data):
        """Follows a DS_Command, and gives the ErrorType."""
        if subindex < 1 or subindex > 5:
            return SUBIDX_NOTAVAIL
        if subindex > 1 or self.storage == LOCKED:
            return ACCESS_DENIED
        if data == b"\x01":
            self.storage = UPLOADING
        elif data == b"\x03":
            self.storage = DOWNLOADING
        elif data in (b"\x02", b"\x04"):
            self.storage, self.upload_flag = IDLE, False
        elif data == b"\x05":
            self.storage = IDLE
        else:
            return PAR_VALOUTOFRNG
        return 0

    def unplug(self):
        """Ends a transfer, since the master is gone."""
        if self.storage != LOCKED:
            self.storage = IDLE


class Files:
    """The files that lead to the master."""

    def __init__(self, fifos, link):
        """Files of two FIFOs in a folder, or of a pseudo-terminal with a link to it."""
        self.fifos, self.link = fifos, link
        self.all, self.requests, self.answers = [], None, None

    def open(self):
        """Opens them, and makes them first where they are not there."""
        if self.link:
            self.requests, end_of_master = os.openpty()
            tty.setraw(end_of_master)
            self.answers = self.requests
            self.all = [self.requests, end_of_master]
            os.symlink(os.ttyname(end_of_master), self.link)
            return
        self.all = []
        for name in ("from_master", "to_master"):
            path = os.path.join(self.fifos, name)
            if not os.path.exists(path):
                os.mkfifo(path)
            self.all.append(os.open(path, os.O_RDWR))
        self.requests, self.answers = self.all

    def close(self):
        """Closes them, so that the master sees their end. The link goes first, since another may get the same pseudo-terminal."""
        if self.link:
            os.unlink(self.link)
        for file in self.all:
            os.close(file)

    def write(self, octets):
        """Writes octets, but waits for no master that does not read."""
        os.set_blocking(self.answers, False)
        end = time.monotonic() + WRITE_SECONDS
        while octets and select.select([], [self.answers], [], max(0, end - time.monotonic()))[1]:
            try:
                octets = octets[os.write(self.answers, octets) :]
            except BlockingIOError:
                time.sleep(0.01)
        os.set_blocking(self.answers, True)


class Driver:
    """Answers requests, or does something else with them."""

    def __init__(self, devices, files, deeds, log, cycle=0):
        """The driver of these devices, the first of which answers, each page after `cycle` seconds."""
        self.devices, self.files, self.deeds, self.log, self.cycle = devices, files, deeds, log, cycle
        self.count, self.place, self.is_known = 0, 0, False
        self.kept = self.late = b""

    def deed_at(self, count):
        """What is done at a request, and its value."""
        for first, last, deed, value in self.deeds:
            if first <= count <= last:
                return deed, value
        return "answer", 0

    def serve(self):
        """Takes the requests of masters, one after another."""
        self.files.open()
        if self.deed_at(0)[0] != "answer":
            self.do(*self.deed_at(0), b"", 0)
        while True:
            self.kept += os.read(self.files.requests, 4096)
            while b"\n" in self.kept:
                line, _, self.kept = self.kept.partition(b"\n")
                # What is no request was not written by a master. It may be an echo of the line.
                if REQUEST.fullmatch(line):
                    self.take(line.decode("ascii"))

    def take(self, line):
        """Does what is to be done at a request."""
        number, asked = line.split(maxsplit=1)
        self.count += 1
        deed, value = self.deed_at(self.count)
        if asked == "page":
            time.sleep(self.cycle)
        # Request 1 is the first of a new master. Before another one another device may have answered.
        is_lost = deed == "replace" or not self.is_known and number != "1"
        self.is_known = True
        said = None if deed in WITHOUT_DEVICE else self.answer(asked, deed, is_lost)
        self.note(number, asked, None if deed in WITHOUT_ANSWER else said, deed)
        self.place = min(self.place + (deed == "replace"), len(self.devices) - 1)
        whole = f"{number} {said}\n".encode()
        self.files.write(self.late)
        self.late = whole if deed == "late" else b""
        self.do(deed, value, whole, int(number))

    def answer(self, asked, deed, is_lost):
        """The words that answer a request."""
        kind, *digits = asked.split()
        device = self.devices[self.place]
        device.upload_flag = device.upload_flag or deed == "raise"
        if is_lost:
            device.unplug()
            return "lost"
        if deed == "other":
            kind = "isdu" if kind == "page" else "page"
        if kind == "page":
            octets = device.page()
        else:
            octets = b"\x01" if deed == "busy" else device.respond(bytes.fromhex("".join(digits)))
        last = {"cut": b"", "spoil": bytes([octets[-1] ^ 0xFF])}.get(deed, octets[-1:])
        return f"{kind} {(octets[:-1] + last).hex(' ').upper()}"

    def do(self, deed, value, whole, number):
        """Does a deed, with the line that is the answer."""
        write, half = self.files.write, len(whole) // 2
        if deed in ("answer", "slow", "busy", "replace", "other", "spoil", "cut"):
            time.sleep(value)
            write(whole)
        elif deed == "pieces":
            write(whole[:half])
            time.sleep(value)
            write(whole[half:])
        elif deed == "half":
            write(whole[:half])
        elif deed == "raise":
            write(b"event FF91\n" + whole)
        elif deed == "events":
            write(b"".join(b"event %04X\n" % code for code in range(1, int(value) + 1)) + whole)
        elif deed == "twice":
            write(whole + whole)
        elif deed == "ahead":
            write(whole.replace(b"%d" % number, b"%d" % (number + 1), 1))
        elif deed == "garbage":
            write(b"?? what is this ??\n")
        elif deed == "flood":
            write(b"A" * FLOOD_OCTETS)
        elif deed == "chatter":
            end = time.monotonic() + value
            while time.monotonic() < end:
                write(b"event 1800\n")
                time.sleep(CHATTER_SECONDS)
        elif deed == "die":
            self.die(value)

    def die(self, seconds):
        """Is gone for a while. The master waits for an answer and sees the end of its file, so that no answer has to say it."""
        self.files.close()
        self.kept = self.late = b""
        self.devices[self.place].unplug()
        time.sleep(seconds)
        self.files.open()

    def note(self, number, asked, answered, deed):
        """Adds a line to the log."""
        said = {"count": self.count, "number": int(number), "device": self.place + 1, "deed": deed}
        print(json.dumps({**said, "asked": asked, "answered": answered}), file=self.log, flush=True)


def deed_of(words):
    """The first and the last request of a deed, its name and its value."""
    when, deed, *values = words
    first, dash, last = when.partition("-")
    if deed not in DEEDS or len(values) > 1:
        sys.exit(f"no deed: {' '.join(words)}")
    return int(first), int(last) if last else sys.maxsize if dash else int(first), deed, float(values[0]) if values else 0


def main():
    """Makes the devices, and answers until it is killed."""
    parser = argparse.ArgumentParser(description=__doc__, formatter_class=argparse.RawDescriptionHelpFormatter)
    parser.add_argument("--fifos", metavar="FOLDER")
    parser.add_argument("--pty", metavar="LINK")
    parser.add_argument("--device", required=True, action="append", metavar="JSON")
    parser.add_argument("--log", metavar="FILE")
    parser.add_argument("--cycle", type=float, default=0, metavar="MS")
    parser.add_argument("--at", action="append", nargs="+", default=[], metavar="WORD")
    words = parser.parse_args()
    if bool(words.fifos) == bool(words.pty):
        parser.error("one of --fifos and --pty has to be given")
    devices = [Device(json.loads(said)) for said in words.device]
    with open(words.log or os.devnull, "a", encoding="utf-8") as log:
        deeds = [deed_of(each) for each in words.at]
        Driver(devices, Files(words.fifos, words.pty), deeds, log, words.cycle / 1000).serve()


if __name__ == "__main__":
    main()
