#!/usr/bin/env python3
"""Copies a store by several programs while mail comes, and opens each copy.

usage: bench/copies.py PROGRAM [TIMES]      TIMES copies by each program, 100 where none is given

cp, cat and dd read until they find the end: each of their copies must open, with every letter that was answered before it began. tar and rsync look for
the length first: of their copies it tells how many did not open, and each of these must open, with all these letters, once one closed gate stands in
the place where it is damaged. A program that this machine lacks is left out.
"""
import contextlib, importlib.machinery, importlib.util, itertools, os, re, shutil, socket, subprocess, sys, tempfile, threading, time

TOP = os.path.dirname(os.path.dirname(os.path.abspath(__file__)))

def loaded(path):
    """A script of this repository as a module."""
    loader = importlib.machinery.SourceFileLoader('undo_tests', path)
    module = importlib.util.module_from_spec(importlib.util.spec_from_loader('undo_tests', loader))
    sys.dont_write_bytecode = True
    loader.exec_module(module)
    return module

tests = loaded(os.path.join(TOP, 'tests', 'undo'))

def to_file(words):
    """A program that writes to its output, as one that writes a file."""
    def copies(store, copy):
        with open(copy, 'wb') as out: subprocess.run([*words, store], stdout=out, stderr=subprocess.DEVNULL, check=True)
    return copies

def of_words(*words): return lambda store, copy: subprocess.run([it.format(store=store, copy=copy) for it in words], stderr=subprocess.DEVNULL, check=True)

def by_tar(store, copy):
    with open(copy, 'wb') as out, subprocess.Popen(['tar', '-C', os.path.dirname(store), '-cf', '-', os.path.basename(store)], stdout=subprocess.PIPE, stderr=subprocess.DEVNULL) as tar:
        subprocess.run(['tar', '-xOf', '-'], stdin=tar.stdout, stdout=out, check=True)

def by_rsync(store, copy):
    with contextlib.suppress(FileNotFoundError): os.unlink(copy)
    subprocess.run(['rsync', '--whole-file', store, copy], stderr=subprocess.DEVNULL)

TO_END = {'cp': of_words('cp', '{store}', '{copy}'), 'cat': to_file(['cat']), **{f'dd bs={size}': of_words('dd', 'if={store}', 'of={copy}', f'bs={size}') for size in ('512', '4k', '1M')}}
LENGTH_FIRST = {'tar': by_tar, 'rsync': by_rsync}

class Senders:
    """Letters over some connections, until it ends; `highest` is the highest number that was answered."""
    def __init__(self, port, count=4):
        self.port, self.ends, self.answered = port, threading.Event(), {}
        self.all = [threading.Thread(target=self._send, args=(n,)) for n in range(count)]
    def _send(self, n):
        with contextlib.suppress(OSError), socket.create_connection(('127.0.0.1', self.port)) as link, link.makefile('rb') as answers:
            answers.readline()
            for line in itertools.chain([b'HELO x'], itertools.cycle([b'MAIL FROM:<joe@far.test>', b'RCPT TO:<team@mail.test>', b'DATA', b'Subject: x\r\n\r\n' + b'y' * 2000 + b'\r\n.'])):
                if self.ends.is_set(): return
                link.sendall(line + b'\r\n')
                if (said := re.match(rb'250 OK (\d+)', answers.readline())): self.answered[n] = int(said[1])
    def highest(self): return max(self.answered.values(), default=1)
    def __enter__(self):
        for it in self.all: it.start()
        while self.highest() < 500: time.sleep(.01)
        return self
    def __exit__(self, *_):
        self.ends.set()
        for it in self.all: it.join()

def looked_at(copy):
    """The next number of a copy, or the place at which it is damaged."""
    done = subprocess.run([tests.PROGRAM, 'check', copy], stdout=subprocess.PIPE, stderr=subprocess.DEVNULL)
    if (found := re.search(rb'^next (\d+)$', done.stdout, re.M)): return int(found[1]), None
    found = re.fullmatch(rb'undomail: damaged at (\d+)\n', done.stdout)
    return None, int(found[1]) if found else None

def mend(copy, place):
    with open(copy, 'r+b') as it: it.seek(place); it.write(b'\0')

def tried(name, copies, store, senders, times):
    opened = mended = bad = 0
    copy, sealed = os.path.join(os.path.dirname(store), 'copy'), senders.highest()
    for _ in range(times):
        before = senders.highest()
        copies(store, copy)
        number, place = looked_at(copy)
        if number is None and place is not None and name in LENGTH_FIRST:
            mend(copy, place)
            number, _ = looked_at(copy)
            mended += number is not None
        else: opened += number is not None
        if number is None or number <= before:
            bad += 1
            print(f'{name}: {"a copy that does not open" if number is None else f"{before} was answered before a copy whose next number is {number}"}', flush=True)
    print(f'{name}: {times} copies, {opened} opened, {mended} with one closed gate; {senders.highest() - sealed:,} records were sealed meanwhile; {bad} bad', flush=True)
    return bad

def main():
    if len(sys.argv) not in (2, 3): sys.exit(__doc__)
    tests.PROGRAM, times = os.path.abspath(sys.argv[1]), int(sys.argv[2]) if len(sys.argv) == 3 else 100
    with tempfile.TemporaryDirectory() as folder, tests.Server(folder) as it, Senders(it.ports[0]) as senders:
        bad = sum(tried(name, copies, it.store, senders, times) for name, copies in {**TO_END, **LENGTH_FIRST}.items() if shutil.which(name.split()[0]))
    sys.exit(1 if bad else 0)

main()
