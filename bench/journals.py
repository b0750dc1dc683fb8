#!/usr/bin/env python3
"""Appends deliveries to a store that `undomail init` has made, as docs/FORMATS.md spells their records.

Usage: journals.py STORE FIRST COUNT: messages with the numbers FIRST, FIRST + 1, .. to ann, each of about 120 bytes.
It stands in for a run of so many deliveries, without their syncs. The store has to end with a closed gate.
"""
import struct
import sys

OPEN, CLOSED = b"\x55", b"\x00"
AT = 1105092000


def text(octets):
    return struct.pack(">I", len(octets)) + octets


def name(octets):
    return struct.pack(">B", len(octets)) + octets


def delivery(number):
    body = (
        "Return-Path: <joe@far.test>\r\n"
        "Received: from client.test by mail.test; 7 Jan 2005 10:00:00 +0000\r\n"
        "Subject: message %d\r\n\r\nhello\r\n" % number
    ).encode()
    head = struct.pack(">BIQB", 1, number, AT, 255)
    deed = b"\x01" + text(b"joe@far.test") + struct.pack(">I", 1) + name(b"ann") + text(body)
    return head + deed + b"\x00"


def main():
    path, first, count = sys.argv[1], int(sys.argv[2]), int(sys.argv[3])
    with open(path, "r+b") as store:
        store.seek(-1, 2)
        if store.read(1) != CLOSED:
            sys.exit("the store doesn't end with a closed gate")
        store.seek(-1, 2)
        for number in range(first, first + count):
            store.write(OPEN + text(delivery(number)))
        store.write(CLOSED)


if __name__ == "__main__":
    main()
