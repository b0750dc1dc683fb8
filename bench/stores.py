#!/usr/bin/env python3
"""Times what replays STOREs and FETCHes in one mailbox: those of one message each, and those of every message.

usage: bench/stores.py PROGRAM..      processor seconds of `check` for each PROGRAM, in three rounds

First as many STOREs as messages, each of one message, at 8,000 to 64,000 messages; then 20 STOREs, and 20 FETCHes, each of
every message, at 20,000 and 65,536 messages, beside none. It makes a store by `init`, and appends deliveries to ann and items by
ann, as docs/FORMATS.md spells their records.
"""
import os
import resource
import struct
import subprocess
import sys
import tempfile

sys.path.insert(0, os.path.dirname(os.path.abspath(__file__)))
from journals import AT, CLOSED, OPEN, delivery, name, text

FIRST = 2
ROUNDS = 20
HERE = os.path.dirname(os.path.abspath(__file__))
HOUSE = os.path.join(HERE, "..", "examples", "house.toml")


def key(number):
    return struct.pack(">IH", number, 0)


def listed(parts):
    return struct.pack(">I", len(parts)) + b"".join(parts)


def head(number):
    return struct.pack(">BIQB", 1, number, AT, 0)


def store(number, keys):
    keys = listed([key(it) for it in keys])
    return head(number) + b"\x04" + name(b"INBOX") + keys + b"\x01\x08" + b"\x04" + keys


def fetch(number, keys):
    seen = listed([key(it) + struct.pack(">I", 0) for it in keys])
    return head(number) + b"\x03" + name(b"INBOX") + listed([key(it) for it in keys]) + b"\x00\x01" + b"\x01" + seen


def one_each(count):
    return [store(FIRST + count + n, [FIRST + n * 7919 % count]) for n in range(count)]


def of_all(verb):
    return lambda count: [verb(FIRST + count + n, range(FIRST, FIRST + count)) for n in range(ROUNDS)]


TABLE = (
    [(count, f"{count} STOREs of one message", one_each) for count in (8000, 16000, 32000, 64000)]
    + [(count, f"nothing behind {count} deliveries", lambda count: []) for count in (20000, 65536)]
    + [(count, f"{ROUNDS} STOREs of {count} messages", of_all(store)) for count in (20000, 65536)]
    + [(count, f"{ROUNDS} FETCHes of {count} messages", of_all(fetch)) for count in (20000, 65536)]
)


def written(path, count, items):
    with open(path, "r+b") as out:
        out.seek(-1, 2)
        if out.read(1) != CLOSED:
            sys.exit("the store doesn't end with a closed gate")
        out.seek(-1, 2)
        for n in range(count):
            out.write(OPEN + text(delivery(FIRST + n)))
        for item in items:
            out.write(OPEN + text(item))
        out.write(CLOSED)


def seconds(program, path):
    before = resource.getrusage(resource.RUSAGE_CHILDREN)
    done = subprocess.run([program, "check", path], stdout=subprocess.PIPE, stderr=subprocess.STDOUT)
    after = resource.getrusage(resource.RUSAGE_CHILDREN)
    return after.ru_utime + after.ru_stime - before.ru_utime - before.ru_stime, done.stdout


def main():
    with tempfile.TemporaryDirectory() as folder:
        for at, (count, what, items) in enumerate(TABLE):
            path = os.path.join(folder, str(at))
            subprocess.run([sys.argv[1], "init", path], stdin=open(HOUSE, "rb"), check=True)
            written(path, count, items(count))
            told = set()
            for program in sys.argv[1:]:
                rounds = [seconds(program, path) for _ in range(3)]
                told |= {said for _, said in rounds}
                print(f"{what}, {program}:", *(f"{spent:.2f}" for spent, _ in rounds), "s", flush=True)
            os.remove(path)
            if len(told) != 1:
                sys.exit(f"they differ: {told}")
            print(next(iter(told)).decode().replace("\n", ", "))


if __name__ == "__main__":
    main()
