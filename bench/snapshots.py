#!/usr/bin/env python3
"""Measures snapshots and the short rewind. Prints tables for docs/SPEED.md.

usage: bench/snapshots.py PROGRAM [FOLDER] [ITEMS ..]      (10000 100000 1000000 by default)

For each number of items a day of so many is served from a script into a store in a file: a hundred deliveries, and then counts and marks, so
that the store stays small and the timeline grows. Then the store is served, and cycles are asked for without repairs: at the last item, where
the newest snapshot is near, and at the beginning, where each item is performed again. The other table is of one snapshot of 100,000 messages
in 1,000 mailboxes: its bytes, the time from the request to its answer, and the time of writing and syncing so many bytes to a file beside it.
"""
import json, os, socket, statistics, struct, subprocess, sys, tempfile, time

HOUSE = b'host = "mail.test"\ndomains = ["mail.test"]\npostmaster = "ann"\n[[user]]\nname = "ann"\npassword = "a1"\n'

def delivery(n): return b'line 1 MAIL FROM:<joe@far.test>\nline 1 RCPT TO:<ann@mail.test>\nline 1 DATA\nline 1 Subject: m %d\nline 1\nline 1 .\n' % n

def head(): return b'at 1105092000\nopen 1 smtp\nline 1 HELO c.test\n' + b''.join(map(delivery, range(100))) + b'open 2 imap\nline 2 a LOGIN ann a1\nline 2 b SELECT INBOX\n'

def day(items):
    # the hundred deliveries and the SELECT are the first 101
    each = [b'line 2 c STATUS INBOX (MESSAGES)\n', b'line 2 d STORE %d +FLAGS.SILENT (\\Seen)\n', b'line 2 e STORE %d -FLAGS.SILENT (\\Seen)\n']
    return head() + b''.join(each[n % 3] % (n % 100 + 1) if n % 3 else each[0] for n in range(items - 101))

def wide(): return head() + b''.join(b'line 2 c CREATE B%d\nline 2 d COPY 1:100 B%d\n' % (n, n) for n in range(998))

def run(program, *words, text=b''):
    start = time.monotonic()
    done = subprocess.run([program, *words], input=text, stdout=subprocess.DEVNULL)
    if done.returncode: sys.exit(f'{words}: status {done.returncode}')
    return time.monotonic() - start

def ask(port, method, path, body=b''):
    start = time.monotonic()
    with socket.create_connection(('127.0.0.1', port)) as it:
        it.sendall(b'%b %b HTTP/1.1\r\nHost: x\r\nContent-Length: %d\r\n\r\n%b' % (method, path, len(body), body))
        got = b''
        while more := it.recv(65536): got += more
    spent = time.monotonic() - start
    if not got.startswith(b'HTTP/1.1 200 '): sys.exit(f'{path}: {got[:200]}')
    return spent, json.loads(got.split(b'\r\n\r\n', 1)[1])

def free_ports():
    socks = [socket.socket() for _ in range(3)]
    for it in socks: it.bind(('127.0.0.1', 0))
    ports = [it.getsockname()[1] for it in socks]
    for it in socks: it.close()
    return ports

class Served:
    def __init__(self, program, store):
        self.ports = free_ports()
        start = time.monotonic()
        self.process = subprocess.Popen([program, 'serve', store, *map(str, self.ports)], stdout=subprocess.DEVNULL)
        while True:
            try: ask(self.ports[2], b'GET', b'/status'); break
            except OSError:
                if self.process.poll() is not None: sys.exit('serve ended')
                time.sleep(0.05)
        self.opened = time.monotonic() - start
    def memory(self):
        with open(f'/proc/{self.process.pid}/status') as it: return next(int(line.split()[1]) for line in it if line.startswith('VmHWM')) / 1024
    def __enter__(self): return self
    def __exit__(self, *_):
        try: ask(self.ports[2], b'POST', b'/stop')
        finally: self.process.wait()

def snapshots_in(store):
    """How many Snapshot records a journal has, and the bytes of them all."""
    count = total = 0
    with open(store, 'rb') as it:
        while it.read(1) == b'\x55':
            length = struct.unpack('>I', it.read(4))[0]
            kind = it.read(1)
            it.seek(length - 1, 1)
            if kind == b'\4': count, total = count + 1, total + length
    return count, total

def made(program, folder, name, text):
    store = os.path.join(folder, name)
    run(program, 'init', store, text=HOUSE)
    return store, run(program, 'script', store, text=text)

def cycles(port, point, key, count):
    found = [ask(port, b'POST', b'/cycle', b'{"key":"%b%d","point":%d}' % (key, n, point)) for n in range(count)]
    return statistics.median(it[0] for it in found), found[-1][1]

def main():
    if len(sys.argv) < 2: sys.exit(__doc__)
    program, folder = os.path.abspath(sys.argv[1]), sys.argv[2] if len(sys.argv) > 2 else None
    sizes = [int(it) for it in sys.argv[3:]] or [10000, 100000, 1000000]
    print('| Items | Snapshots | their MB | script | opening | memory | cycle at the last item | kept | at the beginning | kept |\n' + '|---' * 10 + '|')
    with tempfile.TemporaryDirectory(dir=folder) as folder:
        for items in sizes:
            store, spent = made(program, folder, f'day{items}', day(items))
            count, total = snapshots_in(store)
            with Served(program, store) as it:
                last, report = cycles(it.ports[2], items + 1, b'l', 5)
                first, whole = cycles(it.ports[2], 0, b'f', 1)
                print(f"| {items} | {count} | {total / 1e6:.1f} | {spent:.1f} s | {it.opened:.1f} s | {it.memory():.0f} MB | {last * 1e3:.1f} ms | {report['kept']} | {first * 1e3:.0f} ms | {whole['kept']} |", flush=True)
            os.remove(store)
        store, _ = made(program, folder, 'wide', wide())
        with Served(program, store) as it:
            before = os.path.getsize(store)
            spent, said = ask(it.ports[2], b'POST', b'/snapshot')
            size = os.path.getsize(store) - before - 5
            rest = [ask(it.ports[2], b'POST', b'/snapshot')[0] for _ in range(4)]
            messages = ask(it.ports[2], b'GET', b'/status')[1]['messages']
        writes = []
        for n in range(5):
            start = time.monotonic()
            with open(os.path.join(folder, f'plain{n}'), 'wb', buffering=0) as out:
                out.write(bytes(size)); os.fsync(out.fileno()); out.write(b'U'); os.fsync(out.fileno())
            writes.append(time.monotonic() - start)
        print('\n| Messages | Mailboxes | bytes | a snapshot | writing and syncing so many bytes |\n|---|---|---|---|---|')
        print(f"| {messages} | 1000 | {size} | {statistics.median([spent, *rest]) * 1e3:.1f} ms | {statistics.median(writes) * 1e3:.1f} ms |")

main()
