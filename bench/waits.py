#!/usr/bin/env python3
"""How long a client of `undomail serve` waits: short commands over a mailbox of 10,000 messages, and the first command after a silence.

usage: bench/waits.py PROGRAM [COUNT]      the middle and the longest of 200 commands each, in milliseconds; after silences of 20
"""
import os, socket, statistics, subprocess, sys, tempfile, time

HOUSE = b'host = "mail.test"\ndomains = ["mail.test"]\npostmaster = "ann"\n[[user]]\nname = "ann"\npassword = "a1"\n'

def script(count):
    yield 'at 1105092000\nopen 1 smtp\nline 1 HELO client.test\n'
    for n in range(count):
        yield f'line 1 MAIL FROM:<joe@far.test>\nline 1 RCPT TO:<ann@mail.test>\nline 1 DATA\nline 1 Subject: message {n}\nline 1\nline 1 text\nline 1 .\n'

def asks(link, command):
    link.sendall(b'zq ' + command.encode() + b'\r\n')
    got = b''
    while not (got.endswith(b'\r\n') and got[:-2].rsplit(b'\r\n', 1)[-1].startswith(b'zq ')):
        piece = link.recv(1 << 20)
        if not piece: raise SystemExit('the server closed')
        got = (got + piece)[-4096:]

def waited(link, command, count, silence=0):
    times = []
    for _ in range(count):
        if silence: time.sleep(silence)
        start = time.perf_counter()
        asks(link, command)
        times.append((time.perf_counter() - start) * 1000)
    return f'{statistics.median(times):8.3f} {max(times):8.3f}'

def main():
    program, count = os.path.abspath(sys.argv[1]), int(sys.argv[2]) if len(sys.argv) > 2 else 10_000
    with tempfile.TemporaryDirectory() as folder:
        store = folder + '/store'
        subprocess.run([program, 'init', store], input=HOUSE, check=True, stdout=subprocess.DEVNULL)
        subprocess.run([program, 'script', store], input=''.join(script(count)).encode(), check=True, stdout=subprocess.DEVNULL)
        server = subprocess.Popen([program, 'serve', store, '23025', '23143', '23080'], stdout=subprocess.DEVNULL)
        try:
            for _ in range(600):
                try: link = socket.create_connection(('127.0.0.1', 23143)); break
                except OSError: time.sleep(0.1)
            link.setsockopt(socket.IPPROTO_TCP, socket.TCP_NODELAY, 1)
            link.recv(4096)
            asks(link, 'LOGIN ann a1'); asks(link, 'SELECT INBOX')
            print(f'{"milliseconds":34}  middle  longest')
            for command in ('NOOP', 'FETCH 1 (FLAGS)', 'UID FETCH 1 (FLAGS)', 'STATUS INBOX (MESSAGES)', 'STORE 1 +FLAGS.SILENT (\\Flagged)'):
                print(f'{command:34}{waited(link, command, 200)}')
            for silence in (0.1, 0.5, 2):
                print(f'{"NOOP after " + str(silence) + " s of silence":34}{waited(link, "NOOP", 20, silence)}')
        finally:
            server.kill(); server.wait()

if len(sys.argv) not in (2, 3): sys.exit(__doc__)
main()
