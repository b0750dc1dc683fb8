#!/usr/bin/env python3
"""POP3 of `undomail serve` beside Dovecot's pop3d (Maildir, Debian's settings), in one run: PASS, UIDL, LIST, RETR, TOP, and DELE with QUIT.

usage: bench/pop.py PROGRAM [--messages 10000] [--some 1000] [--octets 10000] [--rounds 5] [--folder /var/tmp] [--memory /dev/shm]

Wants root and dovecot-pop3d (its own configuration below the folder, a master of its own on 127.0.0.1, ended by its id). Both have one user with so many messages of
so many octets, the same ones. In each round both are asked one right after the other, by turns in the one order and the other; told is the median of the rounds, with
the least and the greatest, in milliseconds as the client sees them, and the median of the ratios within each round. First on a disk, then in memory, where a sync costs
nothing: the difference is what syncs cost. Dovecot's index and cache are there before the first round: it was asked all of it once.
"""
import argparse, os, shutil, signal, socket, statistics, subprocess, sys, tempfile, time

DOVECOT = '''base_dir = {w}/run
state_dir = {w}/state
log_path = {w}/dovecot.log
protocols = pop3
listen = 127.0.0.1
ssl = no
disable_plaintext_auth = no
auth_mechanisms = plain
mail_location = maildir:{w}/home/Maildir
first_valid_uid = 1
namespace inbox {{
  inbox = yes
}}
passdb {{
  driver = static
  args = password=pw
}}
userdb {{
  driver = static
  args = uid=8 gid=8 home={w}/home allow_all_users=yes
}}
service pop3-login {{
  service_count = 0
  process_min_avail = 1
  inet_listener pop3 {{
    port = {port}
  }}
  inet_listener pop3s {{
    port = 0
  }}
}}
'''
HOUSE = b'host = "mail.test"\ndomains = ["mail.test"]\npostmaster = "u"\n[[user]]\nname = "u"\npassword = "pw"\n'

def free_ports(count):
    them = [socket.create_server(('127.0.0.1', 0)) for _ in range(count)]
    found = [it.getsockname()[1] for it in them]
    for it in them: it.close()
    return found

def listens(port, process, seconds=120):
    until = time.monotonic() + seconds
    while time.monotonic() < until and process.poll() is None:
        try: socket.create_connection(('127.0.0.1', port), 2).close(); return
        except OSError: time.sleep(.02)
    sys.exit(f'nothing listens at port {port}')

class Undomail:
    name = 'undomail'
    def __init__(self, program, folder, count, octets):
        store, script = os.path.join(folder, 'store'), os.path.join(folder, 'script')
        subprocess.run([program, 'init', store], input=HOUSE, check=True)
        with open(script, 'w') as out:
            out.write('at 1105092000\nopen 1 smtp\nline 1 HELO client.test\n')
            for n in range(count): out.write(f'line 1 MAIL FROM:<joe@far.test>\nline 1 RCPT TO:<u@mail.test>\nline 1 DATA\nline 1 Subject: message {n}\nline 1\nfill 1 {octets // 50} 50\nline 1 .\n')
        with open(script) as text: subprocess.run([program, 'script', store], stdin=text, stdout=subprocess.DEVNULL, check=True)
        ports = free_ports(4)
        self.port, self.process = ports[3], subprocess.Popen([program, 'serve', store, *map(str, ports)], stdin=subprocess.DEVNULL, stdout=subprocess.DEVNULL, stderr=subprocess.DEVNULL)
        listens(self.port, self.process)

class Dovecot:
    name = 'Dovecot'
    def __init__(self, program, folder, count, octets):
        base = os.path.join(folder, 'dovecot')
        for part in ('run', 'state', 'home/Maildir/cur', 'home/Maildir/new', 'home/Maildir/tmp'): os.makedirs(os.path.join(base, part))
        for n in range(count):
            text = f'Return-Path: <joe@far.test>\nReceived: from client.test by mail.test; 7 Jan 2005 10:00:00 +0000\nSubject: message {n}\n\n' + ('a' * 48 + '\n') * (octets // 50)
            with open(f'{base}/home/Maildir/cur/{1105092000 + n}.M{n}P1.mail,S={len(text)},W={len(text) + text.count(chr(10))}:2,', 'w') as out: out.write(text)
        for at, _, names in os.walk(os.path.join(base, 'home')):
            for name in ('.', *names): os.chown(os.path.join(at, name), 8, 8)
        self.port = free_ports(1)[0]
        with open(os.path.join(base, 'conf'), 'w') as out: out.write(DOVECOT.format(w=base, port=self.port))
        self.process = subprocess.Popen(['dovecot', '-F', '-c', os.path.join(base, 'conf')], stdin=subprocess.DEVNULL)
        listens(self.port, self.process)

class Session:
    def __init__(self, server):
        self.socket, self.bytes = socket.create_connection(('127.0.0.1', server.port), 300), b''
        self.socket.setsockopt(socket.IPPROTO_TCP, socket.TCP_NODELAY, 1)
        self.line()
    def more(self):
        got = self.socket.recv(1 << 20)
        if not got: sys.exit('the connection was closed')
        self.bytes += got
    def line(self):
        while b'\r\n' not in self.bytes: self.more()
        said, _, self.bytes = self.bytes.partition(b'\r\n')
        if not said.startswith(b'+OK'): sys.exit(f'refused: {said}')
        return said
    def asks(self, *lines): self.socket.sendall(b''.join(line + b'\r\n' for line in lines))
    def one(self, line): self.asks(line); return self.line()
    def many(self, *lines):
        """Answers of many lines to commands that are sent in one piece: their ends are counted."""
        self.asks(*lines)
        due, parts, tail = len(lines), [], b''
        got = self.bytes
        while True:
            due -= (tail + got).count(b'\r\n.\r\n')
            parts.append(got)
            tail = (tail + got)[-4:]
            if not due: break
            got = self.socket.recv(1 << 20)
            if not got: sys.exit('the connection was closed')
        self.bytes = b''
        return b''.join(parts)

def timed(work):
    began = time.perf_counter()
    work()
    return (time.perf_counter() - began) * 1000

def round_of(server, words):
    some = [b'%d' % n for n in range(1, words.some + 1)]
    it, found = Session(server), {}
    it.one(b'USER u')
    found['PASS'] = timed(lambda: it.one(b'PASS pw'))
    found['STAT'] = timed(lambda: it.one(b'STAT'))
    found['UIDL'] = timed(lambda: it.many(b'UIDL'))
    found['LIST'] = timed(lambda: it.many(b'LIST'))
    found['RETR of {some}, one by one'] = timed(lambda: [it.many(b'RETR ' + n) for n in some])
    found['RETR of {some}, in one piece'] = timed(lambda: it.many(*(b'RETR ' + n for n in some)))
    found['TOP 0 of {some}, in one piece'] = timed(lambda: it.many(*(b'TOP ' + n + b' 0' for n in some)))
    found['QUIT'] = timed(lambda: it.one(b'QUIT'))
    return found

def deletes(server, words):
    it = Session(server)
    it.one(b'USER u'); it.one(b'PASS pw')
    def work():
        it.asks(*(b'DELE %d' % n for n in range(1, words.some + 1)))
        for _ in range(words.some): it.line()
    return {'DELE of {some}, in one piece': timed(work), 'QUIT that deletes {some}': timed(lambda: it.one(b'QUIT'))}

def told(rows, words):
    print('| Command | undomail, ms | Dovecot, ms | Dovecot / undomail |\n|---|---|---|---|')
    for name, (ours, theirs) in rows.items():
        span = lambda them: f'{statistics.median(them):.3g} ({min(them):.3g} to {max(them):.3g})'
        print(f'| {name.format(some=words.some)} | {span(ours)} | {span(theirs)} | {statistics.median(b / a for a, b in zip(ours, theirs)):.2g} |', flush=True)

def syncs(folder):
    """Milliseconds of a write of a hundred bytes and its sync."""
    with tempfile.NamedTemporaryFile(dir=folder) as it:
        def one(): os.write(it.fileno(), b'x' * 100); os.fdatasync(it.fileno())
        return statistics.median(timed(one) for _ in range(200))

def measured(words, folder):
    sides = []
    try:
        for kind in (Undomail, Dovecot): sides.append(kind(words.program, folder, words.messages, words.octets))
        for server in sides: round_of(server, words)
        rows = {}
        for work, count in ((round_of, words.rounds), (deletes, min(words.rounds, words.messages // words.some // 2))):
            for n in range(count):
                found = {server.name: work(server, words) for server in (sides if n % 2 else sides[::-1])}
                for name in found['undomail']:
                    ours, theirs = rows.setdefault(name, ([], []))
                    ours.append(found['undomail'][name]); theirs.append(found['Dovecot'][name])
        told(rows, words)
    finally:
        for server in sides: server.process.terminate(); server.process.wait(20)

def main():
    it = argparse.ArgumentParser(usage=__doc__)
    it.add_argument('program', type=os.path.abspath)
    for name, value in (('messages', 10000), ('some', 1000), ('octets', 10000), ('rounds', 5)): it.add_argument(f'--{name}', type=int, default=value)
    it.add_argument('--folder', default='/var/tmp'); it.add_argument('--memory', default='/dev/shm')
    words = it.parse_args()
    if os.geteuid() or not shutil.which('dovecot'): sys.exit('bench/pop.py wants root, and dovecot-pop3d')
    for where in (words.folder, words.memory):
        with tempfile.TemporaryDirectory(prefix='pop-', dir=where) as folder:
            os.chmod(folder, 0o755)
            print(f'\n{words.messages} messages of {words.octets} octets below {where}, where a write and its sync take {syncs(folder):.3g} ms:\n', flush=True)
            measured(words, folder)

if __name__ == '__main__':
    signal.signal(signal.SIGTERM, lambda *_: sys.exit(143))   # so that what was started is stopped
    main()
