#!/usr/bin/env python3
"""Measures cuts and audits of a store of many letters of 10 kB, made by records and not by deliveries, beside copies of the same octets.

usage: bench/cuts.py PROGRAM [-d FOLDER] [-k FOLDER] [-n COUNT] [-r ROUNDS]

COUNT letters (100,000), ROUNDS rounds (3), by turns. First in a folder of -d, in a memory file system (/dev/shm): seconds, processor seconds and memory of a cut at the last item, in the middle and at 0, of an audit, of
`check`, and of `cp`. The cut at the last item is opened and audited too. Then, where -k names a folder on a disk: seconds of each cut, and of `cp`, until what was written is synced, with the store in the system's memory
(warm) and with none of its octets there (cold). Of each the least of the rounds and the most memory, as the system tells it (VmHWM, looked at each five milliseconds); of speed, how many times as long as `cp`.
"""
import argparse
import os
import struct
import subprocess
import sys
import tempfile
import time

HOUSE = b'host = "mail.test"\ndomains = ["mail.test"]\npostmaster = "ann"\n[[user]]\nname = "ann"\npassword = "a1"\n'
LINE = b'A line of ninety-eight octets, as it stands in a letter that somebody wrote and sent to ann today.\r\n'
AT = 1105092000
PIECE = 1 << 22


def text(octets):
    return struct.pack('>I', len(octets)) + octets


def delivery(number):
    body = b'Return-Path: <joe@far.test>\r\nReceived: from client.test by mail.test; 7 Jan 2005 10:00:00 +0000\r\nSubject: message %d\r\n\r\n' % number + LINE * 100
    return struct.pack('>BIQB', 1, number, AT, 255) + b'\x01' + text(b'joe@far.test') + struct.pack('>I', 1) + b'\x03ann' + text(body) + b'\0'


def fill(store, count):
    with open(store, 'r+b') as out:
        out.seek(-1, 2)
        for number in range(2, count + 2):
            out.write(b'\x55' + text(delivery(number)))
        out.write(b'\0')


def memory(pid):
    try:
        with open(f'/proc/{pid}/status') as said:
            return int(next((line.split()[1] for line in said if line.startswith('VmHWM')), 0)) / 1024
    except OSError:
        return 0


def run(words, out, synced=False):
    """Seconds of wall, until what was written is synced where that is asked, and of the processor, and memory in MB."""
    began, most = time.monotonic(), 0
    with open(out, 'wb') as to:
        done = subprocess.Popen(words, stdin=subprocess.DEVNULL, stdout=to, stderr=subprocess.DEVNULL)
        while True:
            pid, status, used = os.wait4(done.pid, os.WNOHANG)
            if pid:
                break
            most = max(most, memory(done.pid))
            time.sleep(.005)
        done.returncode = os.waitstatus_to_exitcode(status)
        if synced:
            os.fsync(to.fileno())
    if done.returncode:
        sys.exit(f'{words}: status {done.returncode}')
    return time.monotonic() - began, used.ru_utime + used.ru_stime, most


def warm(store):
    with open(store, 'rb') as file:
        while file.read(PIECE):
            pass


def cold(store):
    """Nothing of the store is in the system's memory."""
    with open(store, 'rb') as file:
        os.fsync(file.fileno())
        os.posix_fadvise(file.fileno(), 0, 0, os.POSIX_FADV_DONTNEED)


def gone(*paths):
    for path in paths:
        if os.path.exists(path):
            os.unlink(path)


def filled(program, folder, count):
    store = os.path.join(folder, 'store')
    subprocess.run([program, 'init', store], input=HOUSE, check=True)
    fill(store, count)
    return store


def cuts(program, store, last):
    return {'`cut` at the last item': [program, 'cut', store, str(last)], '`cut` in the middle': [program, 'cut', store, str(last // 2)], '`cut` at 0': [program, 'cut', store, '0']}


def in_memory(program, given):
    """All of it in a memory file system."""
    with tempfile.TemporaryDirectory(dir=given.d) as folder:
        store, cut = filled(program, folder, given.n), os.path.join(folder, 'cut')
        octets, last = os.path.getsize(store), given.n + 1
        print(f'{given.n:,} letters, {octets / 1e6:,.0f} MB\n')
        asked = {'`cp`': ['cp', '--reflink=never', store, cut], '`check`': [program, 'check', store], '`audit`': [program, 'audit', store], **cuts(program, store, last)}
        found = {name: [] for name in asked}
        for _ in range(given.r):
            for name, words in asked.items():
                found[name].append(run(words, cut if 'cut' in words else os.devnull))
                gone(cut)
        run([program, 'cut', store, str(last)], cut)
        for name in ('check', 'audit'):
            found[f'`{name}` of the cut at the last item'] = [run([program, name, cut], os.devnull) for _ in range(given.r)]
        copied = min(it[1] for it in found['`cp`'])
        print('| What, in a memory file system | Seconds | Processor | Times that of `cp` | MB/s | Memory, MB |\n|---|---|---|---|---|---|')
        for name, rounds in found.items():
            wall, processor, most = min(it[0] for it in rounds), min(it[1] for it in rounds), max(it[2] for it in rounds)
            print(f'| {name} | {wall:.2f} | {processor:.2f} | {processor / copied:.1f} | {octets / 1e6 / wall:,.0f} | {most:.0f} |')


def on_disk(program, given):
    """Until it is synced, on a disk."""
    with tempfile.TemporaryDirectory(dir=given.k) as folder:
        store, cut = filled(program, folder, given.n), os.path.join(folder, 'cut')
        octets = os.path.getsize(store)
        asked = {'`cp`': ['cp', '--reflink=never', store, cut], **cuts(program, store, given.n + 1)}
        found = {(name, before): [] for name in asked for before in (warm, cold)}
        for _ in range(given.r):
            for name, before in found:
                before(store)
                words = asked[name]
                found[name, before].append(run(words, cut, synced=True) if 'cut' in words else copied(words, cut))
                gone(cut)
        print('\n| What, on the disk, until it is synced | Warm, s | Times that of `cp` | Cold, s | Times that of `cp` | Memory, MB |\n|---|---|---|---|---|---|')
        least = {key: min(it[0] for it in rounds) for key, rounds in found.items()}
        for name in asked:
            here = [f'{least[name, before]:.2f} | {least[name, before] / least["`cp`", before]:.2f}' for before in (warm, cold)]
            print(f'| {name} | {here[0]} | {here[1]} | {max(it[2] for before in (warm, cold) for it in found[name, before]):.0f} |')
        print(f'\n{octets / 1e6:,.0f} MB; the rounds, in seconds: ' + '; '.join(f'{name} {before.__name__} {", ".join(f"{it[0]:.2f}" for it in rounds)}' for (name, before), rounds in found.items()))


def copied(words, to):
    """The same of a copy, whose program opens its file itself."""
    began = time.monotonic()
    found = run(words, os.devnull)
    with open(to, 'r+b') as file:
        os.fsync(file.fileno())
    return time.monotonic() - began, *found[1:]


def main():
    it = argparse.ArgumentParser(description=__doc__, formatter_class=argparse.RawDescriptionHelpFormatter)
    it.add_argument('program')
    it.add_argument('-d', default='/dev/shm')
    it.add_argument('-k')
    it.add_argument('-n', type=int, default=100_000)
    it.add_argument('-r', type=int, default=3)
    given = it.parse_args()
    program = os.path.abspath(given.program)
    in_memory(program, given)
    if given.k:
        on_disk(program, given)


if __name__ == '__main__':
    main()
