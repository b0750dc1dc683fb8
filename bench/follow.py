#!/usr/bin/env python3
"""Kills a server at random moments while mail comes and a copy follows its store, and opens the copy each time.

usage: bench/follow.py PROGRAM [TIMES]      200 times where none is given

Tells how many letters were acknowledged, how many of these the copy had not at the kill, and how old the oldest of these was.
Each copy that does not open, or has not what was acknowledged a second before the kill, is told, and the status is 1.
"""
import contextlib, importlib.machinery, importlib.util, os, random, shutil, socket, subprocess, sys, tempfile, time

TOP = os.path.dirname(os.path.dirname(os.path.abspath(__file__)))

def loaded(path):
    """A script of this repository as a module."""
    loader = importlib.machinery.SourceFileLoader('undo_tests', path)
    module = importlib.util.module_from_spec(importlib.util.spec_from_loader('undo_tests', loader))
    sys.dont_write_bytecode = True
    loader.exec_module(module)
    return module

tests = loaded(os.path.join(TOP, 'tests', 'undo'))

def send_until(port, until):
    """Letters over one connection; the moment and the number of each that was acknowledged."""
    found = []
    with contextlib.suppress(OSError), socket.create_connection(('127.0.0.1', port)) as link, link.makefile('rb') as answers:
        answers.readline()
        link.sendall(b'HELO x\r\n'); answers.readline()
        while time.monotonic() < until:
            for line in (b'MAIL FROM:<joe@far.test>', b'RCPT TO:<team@mail.test>', b'DATA', b'Subject: x\r\n\r\n' + b'y' * random.randrange(4000) + b'\r\n.'):
                link.sendall(line + b'\r\n')
                said = answers.readline()
            found.append((time.monotonic(), int(said.split()[2])))
    return found

def once(folder):
    copy, look = os.path.join(folder, 'copy'), os.path.join(folder, 'look')
    with tests.Server(folder, status=-9) as it:
        follower = subprocess.Popen([sys.executable, os.path.join(TOP, 'operate', 'backup'), '--follow', it.store, copy], stdout=subprocess.PIPE, text=True)
        follower.stdout.readline()
        acknowledged = send_until(it.ports[0], time.monotonic() + random.uniform(.2, 3))
        it.process.kill()
        killed = time.monotonic()
        shutil.copy(copy, look)
        follower.terminate(); follower.wait(); follower.stdout.close()
    with tests.journals.Journal(look) as opened: there = set(tests.model.Past(opened).read().timeline)
    missing = [killed - when for when, number in acknowledged if number not in there]
    if tests.checked(look) != tests.counted(look): raise tests.Wrong('the copy is not read as the program reads it')
    return len(acknowledged), missing

def main():
    if len(sys.argv) not in (2, 3): sys.exit(__doc__)
    tests.PROGRAM, times = os.path.abspath(sys.argv[1]), int(sys.argv[2]) if len(sys.argv) == 3 else 200
    letters, missing, bad = 0, [], 0
    for count in range(times):
        with tempfile.TemporaryDirectory() as folder:
            try:
                acknowledged, late = once(folder)
                letters, missing = letters + acknowledged, missing + late
                if any(age > 1.5 for age in late): bad += 1; print(f'kill {count + 1}: {max(late):.2f} s behind', flush=True)
            except Exception as it: bad += 1; print(f'kill {count + 1}: {type(it).__name__}: {it}', flush=True)
    print(f'{times} kills, {letters:,} letters acknowledged, {len(missing):,} of them not in the copy, the oldest {max(missing, default=0):.2f} s before its kill; {bad} bad')
    sys.exit(1 if bad else 0)

main()
