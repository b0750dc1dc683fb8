#!/usr/bin/env python3
"""What sections of texts cost: the seconds that a client waits for each FETCH over a mailbox of 10,000 messages of 10 kB.

usage: bench/sections.py PROGRAM [PORT USER PASSWORD]      with these, also the INBOX of another server on this machine
"""
import os, socket, subprocess, sys, tempfile, time

COUNT, LINES = 10_000, 200
HOUSE = b'host = "mail.test"\ndomains = ["mail.test"]\npostmaster = "ann"\n[[user]]\nname = "ann"\npassword = "a1"\n'
COMMANDS = ('FETCH 1:* (BODY.PEEK[HEADER.FIELDS (FROM TO SUBJECT DATE)])', 'FETCH 1:* (BODY.PEEK[HEADER])', 'FETCH 1:* (RFC822.HEADER)',
            'FETCH 1:* (BODY.PEEK[TEXT]<0.80>)', 'FETCH 1:* (RFC822.SIZE)', 'FETCH 1:1000 (BODY.PEEK[])')

def script():
    yield 'at 1105092000\nopen 1 smtp\nline 1 HELO client.test\n'
    for n in range(COUNT):
        yield f'line 1 MAIL FROM:<joe@far.test>\nline 1 RCPT TO:<ann@mail.test>\nline 1 DATA\nline 1 Subject: message {n}\nline 1\nfill 1 {LINES} 50\nline 1 .\n'

def asks(link, command):
    """Sends a command, and reads to its tagged answer; whether that is OK."""
    link.sendall(b'zq ' + command.encode() + b'\r\n')
    tail = b'\r\n'
    while not (tail.endswith(b'\r\n') and tail[:-2].rsplit(b'\r\n', 1)[-1].startswith(b'zq ')):
        piece = link.recv(1 << 20)
        if not piece: raise SystemExit('the server closed')
        tail = (tail + piece)[-4096:]
    return tail[:-2].rsplit(b'\r\n', 1)[-1].startswith(b'zq OK')

def measured(name, port, user, password):
    link = socket.create_connection(('127.0.0.1', port))
    link.recv(4096)
    for command in (f'LOGIN {user} {password}', 'SELECT INBOX', *COMMANDS):
        times = []
        for _ in range(1 if command not in COMMANDS else 3):
            start = time.monotonic()
            good = asks(link, command)
            times.append(time.monotonic() - start)
        if command in COMMANDS or not good: print(f'{name:9} {command:62}' + ' '.join(f'{it:.3f}' for it in times) + ('' if good else '  refused'))

def main():
    if len(sys.argv) not in (2, 5): sys.exit(__doc__)
    with tempfile.TemporaryDirectory() as folder:
        store, ports = os.path.join(folder, 'store'), (25725, 25743, 25780)
        subprocess.run([sys.argv[1], 'init', store], input=HOUSE, check=True)
        subprocess.run([sys.argv[1], 'script', store], input=''.join(script()).encode(), stdout=subprocess.DEVNULL, check=True)
        server = subprocess.Popen([sys.argv[1], 'serve', store, *map(str, ports)])
        try:
            time.sleep(2)
            measured('undomail', ports[1], 'ann', 'a1')
            if len(sys.argv) == 5: measured('other', int(sys.argv[2]), *sys.argv[3:])
        finally: server.terminate(); server.wait()

main()
