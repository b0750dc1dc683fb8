#!/usr/bin/env python3
"""Moves a store of many messages into a new one with operate/move, and tells how long that takes.

usage: bench/move.py PROGRAM [MESSAGES [USERS]]      100000 messages of 50 users where none are given

The old store's journal is spelled by docs/FORMATS.md: a delivery of some 400 octets each, and flags on every third.
"""
import importlib.machinery, importlib.util, os, subprocess, sys, tempfile, time

TOP = os.path.dirname(os.path.dirname(os.path.abspath(__file__)))

def loaded(path):
    """A script of this repository as a module."""
    loader = importlib.machinery.SourceFileLoader('undo_tests', path)
    module = importlib.util.module_from_spec(importlib.util.spec_from_loader('undo_tests', loader))
    sys.dont_write_bytecode = True
    loader.exec_module(module)
    return module

tests = loaded(os.path.join(TOP, 'tests', 'undo'))
u32 = lambda n: n.to_bytes(4, 'big')
name = lambda text: bytes([len(text)]) + text.encode()
sealed = lambda payload: b'\x55' + u32(len(payload)) + payload

def record(number, by, deed): return sealed(b'\1' + u32(number) + (1_795_000_000 + number).to_bytes(8, 'big') + bytes([by]) + deed)

def written(path, messages, users):
    with open(path, 'wb', 1 << 20) as out:
        out.write(sealed(b'\0' + name('mail.test') + u32(1) + name('mail.test') + u32(2) + u32(users) + b''.join(name(f'user{n}') + name(f'p{n}') for n in range(users)) + b'\0' + u32(0)))
        number = 2
        for count in range(messages):
            user = count % users
            text = f'Return-Path: <joe@far.test>\r\nSubject: letter {count}\r\n\r\n{"word " * 60}\r\n'.encode()
            out.write(record(number, 255, b'\1' + u32(12) + b'joe@far.test' + u32(1) + name(f'user{user}') + u32(len(text)) + text + b'\0'))
            if count % 3 == 0:
                key = u32(1) + u32(number) + b'\0\0'
                number += 1
                out.write(record(number, user, b'\4' + name('INBOX') + key + b'\1' + bytes([count % 31 + 1]) + b'\4' + key))
            number += 1
        out.write(b'\0')

def main():
    if not 2 <= len(sys.argv) <= 4: sys.exit(__doc__)
    tests.PROGRAM = os.path.abspath(sys.argv[1])
    messages, users = (int(it) for it in (*sys.argv[2:], *('100000', '50')[len(sys.argv) - 2:]))
    house = 'host = "mail.test"\ndomains = ["mail.test"]\nfirst = 5000\npostmaster = "user0"\n' + ''.join(f'[[user]]\nname = "user{n}"\npassword = "new{n}"\n' for n in range(users))
    with tempfile.TemporaryDirectory() as folder:
        old = os.path.join(folder, 'old')
        written(old, messages, users)
        tests.same('the program reads it so', tests.checked(old), tests.counted(old))
        with tests.Server(folder, house=house) as it:
            began = time.monotonic()
            done = subprocess.run([sys.executable, os.path.join(TOP, 'operate', 'move'), old, it.store, str(it.ports[1]), str(it.port)], stdout=subprocess.PIPE, stderr=subprocess.STDOUT, text=True)
            print(f'{done.stdout.strip()}\nstatus {done.returncode}, {time.monotonic() - began:.0f} s')
    sys.exit(done.returncode)

main()
