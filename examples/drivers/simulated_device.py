#!/usr/bin/env python3
"""A driver with a simulated IO-Link device, to try a master without hardware. docs/DRIVERS.md has the lines that it reads and writes.

    simulated_device.py --fifos FOLDER --flag 0040.00=0A64 0041.01=7F
    iolmaster serve IMAGE --port 1=FOLDER/to_master,FOLDER/from_master

With `--pty LINK` it makes a pseudo-terminal, and LINK to it: `--port 1=LINK`. A parameter is INDEX.SUBINDEX=OCTETS in hexadecimal
digits. With `--flag` the device asks for an upload. Stop this program, and the device is unplugged.
"""

import argparse
import atexit
import functools
import os
import re
import signal
import sys
import tty

REQUEST = re.compile(r"(\d+) (page|isdu(?: [0-9A-Fa-f]{2})+)\r?\n")
DS_COMMAND, STATE_PROPERTY, DATA_STORAGE_SIZE, PARAMETER_CHECKSUM, INDEX_LIST = ((0x0003, subindex) for subindex in range(1, 6))
VENDOR_NAME, PRODUCT_NAME = (0x0010, 0), (0x0012, 0)
INACTIVE, UPLOAD, DOWNLOAD, LOCKED = range(4)
UPLOAD_START, UPLOAD_END, DOWNLOAD_START, DOWNLOAD_END, BREAK = range(1, 6)
STATES = {UPLOAD_START: UPLOAD, UPLOAD_END: INACTIVE, DOWNLOAD_START: DOWNLOAD, DOWNLOAD_END: INACTIVE, BREAK: INACTIVE}
NO_INDEX, NO_SUBINDEX, ACCESS_DENIED, OUT_OF_RANGE, TOO_LONG, TOO_SHORT = 0x11, 0x12, 0x23, 0x30, 0x33, 0x34


class Device:
    """A device with Data Storage. Its parameters are octets by Index and Subindex, in the order of its Index_List."""

    def __init__(self, words):
        """The device that the words of the command line describe. One that asks for an upload also raises the event for it."""
        # Direct Parameter page 1: cycles of 2.3 ms, ISDUs, V1.1, and from address 07 on VendorID and DeviceID.
        self.page = bytes.fromhex("00 00 17 01 11 00 00") + words.vendor.to_bytes(2, "big") + words.device.to_bytes(3, "big") + bytes(4)
        self.parameters, self.state = dict(words.parameters), LOCKED if words.locked else INACTIVE
        self.flag = self.event = words.flag

    def values(self):
        """All octets that can be read, by Index and Subindex."""
        octets = b"".join(self.parameters.values())
        values = {VENDOR_NAME: b"Robinfuton", PRODUCT_NAME: b"Simulated device", **self.parameters}
        values[STATE_PROPERTY] = bytes([self.state << 1 | self.flag << 7])
        values[DATA_STORAGE_SIZE] = (len(octets) + 4 * len(self.parameters)).to_bytes(4, "big")
        values[PARAMETER_CHECKSUM] = (sum(place * octet for place, octet in enumerate(octets, 1)) % 2**32).to_bytes(4, "big")
        values[INDEX_LIST] = b"".join(index.to_bytes(2, "big") + bytes([subindex]) for index, subindex in self.parameters) + bytes(2)
        return values

    def write(self, key, octets):
        """Writes a parameter, or follows a DS_Command. What is refused gets an AdditionalCode."""
        if key in self.parameters and len(octets) != len(self.parameters[key]):
            return TOO_LONG if len(octets) > len(self.parameters[key]) else TOO_SHORT
        if key in self.parameters:
            self.parameters[key] = octets
        elif key != DS_COMMAND or self.state == LOCKED:
            return self.refusal(key)
        elif len(octets) != 1 or octets[0] not in STATES:
            return OUT_OF_RANGE
        else:
            self.state, self.flag = STATES[octets[0]], self.flag and octets[0] not in (UPLOAD_END, DOWNLOAD_END)
        return None

    def refusal(self, key):
        """The AdditionalCode for a key that is not read or not written."""
        if key == DS_COMMAND or key in self.values():
            return ACCESS_DENIED
        return NO_SUBINDEX if key[0] == DS_COMMAND[0] else NO_INDEX

    def answer(self, isdu):
        """The ISDU that answers an ISDU, which is No Service if it is no request."""
        service, key, octets = request_in(isdu)
        if service is None:
            return bytes([0x00])
        if service > 8:
            read = self.values().get(key)
            return isdu_of(0xC, bytes([0x80, self.refusal(key)])) if read is None else isdu_of(0xD, read)
        code = self.write(key, octets)
        return isdu_of(0x4, bytes([0x80, code])) if code else isdu_of(0x5, b"")


def isdu_of(service, carried):
    """The ISDU of an I-Service that carries these octets. Length, or ExtLength, counts all of it, and the XOR of all of it is 00."""
    octets = bytes([service << 4 | len(carried) + 2] if len(carried) <= 13 else [service << 4 | 1, len(carried) + 3]) + carried
    return octets + bytes([functools.reduce(int.__xor__, octets)])


def request_in(isdu):
    """I-Service, key and octets to write of a request. The I-Service is None if it is no request."""
    service, carried = isdu[0] >> 4, isdu[2 if isdu[0] & 15 == 1 else 1 : -1]
    at, end = {1: (1, 1), 2: (1, 2), 3: (2, 3)}.get(service & 7, (0, 256))
    octets, is_whole = carried[end:], len(carried) >= end and isdu == isdu_of(service, carried)
    key = int.from_bytes(carried[:at], "big"), int.from_bytes(carried[at:end], "big")
    return service if is_whole and not (service > 8 and octets) else None, key, octets


def answer(device, number, asked):
    """The lines that answer a request: the event of the device, if it is due, and the answer."""
    event, device.event = "event FF91\n" if device.event else "", False
    kind, *digits = asked.split()
    octets = device.page if kind == "page" else device.answer(bytes.fromhex("".join(digits)))
    return f"{event}{number} {kind} {octets.hex(' ').upper()}\n"


def opened(words):
    """The files to read requests from and to write answers to."""
    if words.pty:
        ours, of_master = os.openpty()
        tty.setraw(of_master)
        os.symlink(os.ttyname(of_master), words.pty)
        atexit.register(os.remove, words.pty)
        return ours, ours
    paths = [os.path.join(words.fifos, name) for name in ("from_master", "to_master")]
    for path in paths:
        if not os.path.exists(path):
            os.mkfifo(path)
    # A FIFO that is opened to read and write waits for no master, and does not end with one.
    return [os.open(path, os.O_RDWR) for path in paths]


def parameter(word):
    """The key and the octets that INDEX.SUBINDEX=OCTETS says."""
    index, subindex, octets = re.split("[.=]", word)
    return (int(index, 16), int(subindex, 16)), bytes.fromhex(octets)


def main():
    """Answers the requests of a master until it is stopped."""
    for number in (signal.SIGINT, signal.SIGTERM):
        signal.signal(number, lambda *_: sys.exit())
    parser = argparse.ArgumentParser(description=__doc__, formatter_class=argparse.RawDescriptionHelpFormatter)
    place = parser.add_mutually_exclusive_group(required=True)
    place.add_argument("--fifos", metavar="FOLDER")
    place.add_argument("--pty", metavar="LINK")
    parser.add_argument("--vendor", type=int, default=500)
    parser.add_argument("--device", type=int, default=43981)
    parser.add_argument("--flag", action="store_true")
    parser.add_argument("--locked", action="store_true")
    parser.add_argument("parameters", nargs="*", type=parameter)
    words = parser.parse_args()
    device, (requests, answers), is_new = Device(words), opened(words), True
    for line in os.fdopen(requests, encoding="ascii", errors="replace"):
        if request := REQUEST.fullmatch(line):
            # Request 1 is the first of a new master. Before another one the device may have been another.
            is_lost, is_new = is_new and request[1] != "1", False
            os.write(answers, (f"{request[1]} lost\n" if is_lost else answer(device, *request.groups())).encode())


if __name__ == "__main__":
    main()
