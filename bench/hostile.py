#!/usr/bin/env python3
"""Throws random and mutated inputs at `serve` by sockets, watches its memory, and compares `check` before and after.

usage: bench/hostile.py PROGRAM [INPUTS [SEED]]      INPUTS: 1000000 where it isn't given

An input is what one client sends: bytes at random, or a conversation of SMTP, IMAP, POP3 or the console that is cut, doubled, spliced or of which bytes are
changed, sent in pieces; then the client reads for a moment, or leaves, or stays until the end of the round. None logs in with a password that is right and none names a
recipient who is here, so the store must be as before. Each round a client of each kind is asked whether it is still served. Memory is VmRSS, at the start and the most after a round.
"""
import os, random, re, socket, subprocess, sys, tempfile, time

HOUSE = b'host = "mail.test"\ndomains = ["mail.test"]\npostmaster = "ann"\n[[user]]\nname = "ann"\npassword = "a1"\n'
ROUND, CLIENTS = 2000, 200
SMTP = [b'HELO c\r\nMAIL FROM:<joe@far.test>\r\nRCPT TO:<bob@mail.test>\r\nDATA\r\n.\r\nVRFY x\r\nNOOP y\r\nRSET\r\nQUIT\r\n', b'EHLO [127.0.0.1]\r\nMAIL FROM:<@a,@b:joe@far.test> SIZE=1\r\nRCPT TO:<nobody>\r\n']
IMAP = [b'a LOGIN {3}\r\nann {2}\r\na2\r\nb SELECT INBOX\r\nc FETCH 1:* (FLAGS BODY[])\r\nd LOGOUT\r\n', b'a CAPABILITY\r\nb NOOP\r\nc APPEND INBOX (\\Seen) {1048576}\r\nSubject: x\r\n', b'a LOGIN "ann" {4294967295}\r\n',
        b'a SEARCH OR (SUBJECT "x" NOT FROM "y") 1:*,4294967295\r\n', b'a LIST "" "*%"\r\nb STATUS INBOX (MESSAGES UIDNEXT)\r\nc UID STORE 1 +FLAGS (\\Deleted)\r\n']
HTTP = [b'GET /status HTTP/1.1\r\nHost: x\r\n\r\n', b'POST /act HTTP/1.1\r\nContent-Length: 40\r\n\r\n{"act":"alias","local":"x","users":[7]}  ', b'POST /cycle HTTP/1.1\r\nContent-Length: 33\r\n\r\n{"drop":[4],"key":"k1","point":3}',
        b'POST /try HTTP/1.1\r\nContent-Length: 4194305\r\n\r\n', b'GET /body/4294967296 HTTP/1.1\r\nContent-Length: 1\r\nContent-Length: 2\r\n\r\n', b'GET /box/ann/%zz HTTP/1.1\r\n\r\n']
POP = [b'USER ann\r\nPASS a2\r\nSTAT\r\nLIST 1\r\nUIDL\r\nRETR 65536\r\nTOP 1 65535\r\nDELE 1\r\nRSET\r\nNOOP\r\nQUIT\r\n', b'CAPA\r\nAUTH PLAIN\r\nUSER a b\r\nPASS\r\nTOP 01 0\r\nuSeR ann   \r\npass  x \r\n']
KINDS = {'smtp': SMTP, 'imap': IMAP, 'http': HTTP, 'pop': POP}

def mutated(rng, text, others):
    """The text after a few changes."""
    it = bytearray(text)
    for _ in range(rng.randrange(4)):
        at = rng.randrange(len(it) + 1)
        way = rng.randrange(7)
        if way == 0: del it[at:at + rng.randrange(1, 20)]
        elif way == 1: it[at:at] = bytes(rng.randrange(256) for _ in range(rng.randrange(1, 20)))
        elif way == 2: it[at:at] = it[max(0, at - 40):at] * rng.randrange(1, 9)
        elif way == 3: it[at:] = rng.choice(others)[rng.randrange(8):]
        elif way == 4 and at < len(it): it[at] = rng.choice((0, 10, 13, 32, 34, 46, 123, 125, 128, 255))
        elif way == 5: it[at:at] = rng.choice((b'{1048576}\r\n', b'{4294967295}\r\n', b'\r\n', b'\x00', b'9999999999', b'((((((((', b'[[[[', b'a' * 300))
        else: it[at:at] = rng.choice((b'x', b' ', b'(', b'\r')) * rng.choice((10, 1000, 70000, 1100000) if rng.random() < .02 else (10, 1000))
    return bytes(it)

def harmless(said):
    """Not a word of what would be done to the store: a login that is right, a recipient who is here, an act or a cycle that could be done, or the end of serving."""
    low = said.lower()
    return not (re.search(rb'a1', low) or re.search(rb'rcpt *to:.*(ann|postmaster)', low) or b'/stop' in low)

def an_input(rng):
    kind = rng.choice(list(KINDS))
    said = bytes(rng.randrange(256) for _ in range(rng.randrange(200))) if rng.random() < .2 else mutated(rng, rng.choice(KINDS[kind]), rng.choice(list(KINDS.values())))
    return kind, said if harmless(said) else b'NOOP\r\n'

def memory(pid, what='VmRSS'): return int(re.search(rb'%s:\s+(\d+)' % what.encode(), open(f'/proc/{pid}/status', 'rb').read())[1])

class Server:
    def __init__(self, program, store): self.program, self.store = program, store
    def __enter__(self):
        ports = []
        for _ in KINDS:
            with socket.socket() as it: it.bind(('127.0.0.1', 0)); ports.append(it.getsockname()[1])
        self.ports = dict(zip(KINDS, ports))
        self.process = subprocess.Popen([self.program, 'serve', self.store, *map(str, ports)], stdin=subprocess.DEVNULL, stdout=subprocess.PIPE)
        for _ in range(400):
            try: self.join('http').close(); return self
            except OSError: time.sleep(.05)
        sys.exit('it does not serve')
    def __exit__(self, *_):
        self.talk('http', b'POST /stop HTTP/1.1\r\n\r\n')
        if self.process.wait(60): sys.exit(f'it ended with {self.process.returncode}: {self.process.stdout.read()}')
    def join(self, kind):
        it = socket.create_connection(('127.0.0.1', self.ports[kind]), timeout=30)
        it.setsockopt(socket.IPPROTO_TCP, socket.TCP_NODELAY, 1)
        return it
    def talk(self, kind, said):
        with self.join(kind) as it:
            it.sendall(said)
            return b''.join(iter(lambda: it.recv(65536), b''))

def throws(server, rng, open_):
    """One input; the client leaves, or stays among the open ones."""
    kind, said = an_input(rng)
    it = server.join(kind)
    try:
        at = 0
        while at < len(said):
            size = rng.choice((1, 7, 100, 65536)) if len(said) < 2000 else 65536
            it.sendall(said[at:at + size]); at += size
        if rng.random() < .1: it.settimeout(.01); it.recv(65536)
    except OSError: pass
    if rng.random() < .3: open_.append(it)
    else: it.close()
    while len(open_) > CLIENTS: open_.pop(rng.randrange(len(open_))).close()

def is_served(server):
    if not server.talk('smtp', b'QUIT\r\n').endswith(b'221 mail.test closing\r\n'): sys.exit('SMTP is not served')
    if not server.talk('imap', b'a LOGOUT\r\n').endswith(b'a OK LOGOUT done.\r\n'): sys.exit('IMAP is not served')
    if server.talk('pop', b'QUIT\r\n') != b'+OK undomail\r\n+OK Bye.\r\n': sys.exit('POP3 is not served')
    if b'200 OK' not in server.talk('http', b'GET /status HTTP/1.1\r\n\r\n'): sys.exit('the console is not served')

def main():
    if len(sys.argv) < 2: sys.exit(__doc__)
    program, inputs, seed = os.path.abspath(sys.argv[1]), int((sys.argv + [''])[2] or 1000000) if len(sys.argv) > 2 else 1000000, int(sys.argv[3]) if len(sys.argv) > 3 else 1
    rng = random.Random(seed)
    with tempfile.TemporaryDirectory() as folder:
        store = os.path.join(folder, 'store')
        subprocess.run([program, 'init', store], input=HOUSE, check=True)
        before, bytes_before = subprocess.run([program, 'check', store], stdout=subprocess.PIPE).stdout, open(store, 'rb').read()
        with Server(program, store) as server:
            first, most, begun, done = memory(server.process.pid), 0, time.monotonic(), 0
            while done < inputs:
                open_ = []
                for _ in range(min(ROUND, inputs - done)): throws(server, rng, open_); done += 1
                most = max(most, memory(server.process.pid))
                is_served(server)
                for it in open_: it.close()
            last, peak = memory(server.process.pid), memory(server.process.pid, 'VmHWM')
        after = subprocess.run([program, 'check', store], stdout=subprocess.PIPE).stdout
        if after != before or open(store, 'rb').read() != bytes_before: sys.exit(f'the store was changed:\n{before.decode()}\n{after.decode()}')
        seconds = time.monotonic() - begun
        print(f'{done} inputs with seed {seed} in {seconds:.0f} seconds, {CLIENTS} clients open at most; memory {first / 1000:.1f} MB at first, {most / 1000:.1f} at most after a round, {last / 1000:.1f} at last, {peak / 1000:.1f} at the peak; the store is as before')

main()
