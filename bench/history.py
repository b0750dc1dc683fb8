#!/usr/bin/env python3
"""Writes a journal of many items, and measures how long `undo history` and `undo who-read` take over it, and the memory that they want.

usage: bench/history.py [ITEMS]      1000000 where none is given; the journal is in a folder below TMPDIR and is removed

Half of the items are deliveries of some 400 octets to one or two of 20 users, the others FETCHes, STOREs, COPYs and EXPUNGEs of what
came before; every 100,000th is a filter of the operator. Records are spelled here by docs/FORMATS.md, without the program.
"""
import os, random, resource, subprocess, sys, tempfile, time

UNDO = os.path.join(os.path.dirname(os.path.dirname(os.path.abspath(__file__))), 'operate', 'undo')
u32 = lambda n: n.to_bytes(4, 'big')
name = lambda text: bytes([len(text)]) + text.encode()
key = lambda item: u32(item) + b'\0\0'
keys = lambda items: u32(len(items)) + b''.join(map(key, items))
sealed = lambda payload: b'\x55' + u32(len(payload)) + payload

def house(users):
    return b'\0' + name('mail.test') + u32(1) + name('mail.test') + u32(2) + u32(len(users)) + b''.join(name(user) + name('x') for user in users) + b'\0' + u32(0)

def verb(number, by, deed): return b'\1' + u32(number) + (1_795_000_000 + number // 3).to_bytes(8, 'big') + bytes([by]) + deed

def written(path, items):
    users, chance = [f'user{n}' for n in range(20)], random.Random(7)
    lies = [[] for _ in users]
    with open(path, 'wb', 1 << 20) as out:
        out.write(sealed(house(users)))
        for number in range(2, items + 2):
            by = chance.randrange(20)
            there = lies[by][-200:]
            if number % 100_000 == 0:
                out.write(sealed(b'\2' + u32(number) + (1_795_000_000 + number // 3).to_bytes(8, 'big') + b'\3' + name(f'filter{number}') + name(f'no{number}') + b'\0'))
            elif number % 2 or not there:
                to = {by, chance.randrange(20)} if number % 10 == 1 else {by}
                text = f'Return-Path: <joe{number % 500}@far.test>\r\nSubject: letter {number}\r\nTo: {users[by]}@mail.test\r\n\r\n{"word " * 50}\r\n'.encode()
                out.write(sealed(verb(number, 255, b'\1' + u32(17) + b'joe%06d@far.tst' % (number % 500) + u32(len(to)) + b''.join(name(users[user]) for user in to) + u32(len(text)) + text + b'\0')))
                for user in to: lies[user].append(number)
            else:
                some, what = chance.sample(there, min(len(there), 3)), chance.random()
                if what < .8: deed = b'\3' + name('INBOX') + keys(some) + (b'\1\1' if what < .3 else b'\0\0') + b'\1' + u32(len(some)) + b''.join(key(it) + u32(0) for it in some)
                elif what < .95: deed = b'\4' + name('INBOX') + keys(some[:1]) + b'\1' + bytes([2 if what < .94 else 4]) + b'\4' + keys(some[:1])
                elif what < .98: deed = b'\5' + name('INBOX') + keys(some[:1]) + name('Lost+Found') + b'\5' + keys(some[:1]) + b'\0'
                else: deed = b'\x09' + name('INBOX') + keys(some[:1]) + b'\7' + u32(0)
                out.write(sealed(verb(number, by, deed)))
        out.write(b'\0')

def main():
    items = int(sys.argv[1]) if len(sys.argv) > 1 else 1_000_000
    with tempfile.TemporaryDirectory() as folder:
        path = os.path.join(folder, 'store')
        written(path, items)
        print(f'{items:,} items, {os.path.getsize(path):,} octets')
        for words in (['history', path, '--counts'], ['history', path], ['history', path, '--user', 'user3', '--json'], ['who-read', '--store', path, str(items // 2 | 1)], ['to', '--store', path, 'user3']):
            began = time.monotonic()
            done = subprocess.Popen([sys.executable, UNDO, *words], stdout=subprocess.PIPE)
            told = sum(piece.count(b'\n') for piece in iter(lambda: done.stdout.read(1 << 20), b''))
            _, status, used = os.wait4(done.pid, 0)
            print(f'undo {" ".join(words).replace(path, "STORE")}: {time.monotonic() - began:.1f} s, {used.ru_maxrss / 1024:.0f} MB, {told:,} lines, status {os.waitstatus_to_exitcode(status)}', flush=True)

main()
