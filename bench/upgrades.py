#!/usr/bin/env python3
"""POST /upgrade beside 1,000 IMAP clients: with bodies that are none, on a disk without room, twice at once, once more, and on a disk that fails.

usage: bench/upgrades.py PROGRAM [PART ..]      PART: of beside_all, without_room (wants mount) and on_a_disk_that_fails (wants strace)

Of the 1,000 connections that are served 984 are for mail: two SMTP clients within a transaction, two POP3 clients who have marked a message, and 980 IMAP clients,
who have not logged in, have logged in, have selected a mailbox, or stand within a command or a literal. Twenty more IMAP clients wait for a place. Looked at is what each
of them is told and what is left in the store; status 0 only where all was as docs/FORMATS.md says.
"""
import contextlib, os, resource, select, shutil, signal, smtplib, socket, subprocess, sys, tempfile, time

TOP = os.path.dirname(os.path.dirname(os.path.abspath(__file__)))
sys.dont_write_bytecode = True
sys.path.insert(0, os.path.join(TOP, 'tests'))
import stores  # noqa: E402
from stores import Store, Wrong, letter, same, true, within  # noqa: E402

SEATS, WAIT = 984, 20
HELLO, BYE = b'* OK mail.test IMAP4rev1 undomail\r\n', b'* BYE The store was upgraded.\r\n'
WAYS = (b'', b'a LOGIN ann a1\r\n', b'a LOGIN ann a1\r\nb SELECT INBOX\r\n', b'a LOGIN ann a1\r\nb NOO', b'a LOGIN ann a1\r\nb APPEND INBOX {20}\r\nhalf')
ENDS = (HELLO, b'a OK LOGIN done.\r\n', b'SELECT done.\r\n', b'a OK LOGIN done.\r\n', b'+ Ready.\r\n')   # what each way's answers end with
ASKS = b'z NOOP\r\n', b'z NOOP\r\n', b'z NOOP\r\n', b'P\r\n', b' of a literal...\r\n'
SAYS = b'z OK NOOP done.\r\n', b'z OK NOOP done.\r\n', b'z OK NOOP done.\r\n', b'b OK NOOP done.\r\n', b'b OK APPEND done.\r\n'
NONE = [b' ', b'\r\n', b'[]', b'null', b'true', b'0', b'""', b'"{}"', b'{', b'}', b'{}{}', b'{} x', b'{"a":1}', b'{"":{}}', b'{"act":"upgrade"}', b'{\x00}', b'\xff', b'{}' * 2000, b'{"a":' * 300 + b'1' + b'}' * 300]

def joined(port):
    it = socket.create_connection(('127.0.0.1', port), timeout=120)
    it.setsockopt(socket.IPPROTO_TCP, socket.TCP_NODELAY, 1)
    return it

def rest(it):
    """All that still comes, until it is closed or, by a program that has ended, reset."""
    got = b''
    with contextlib.suppress(ConnectionResetError):
        while more := it.recv(65536): got += more
    return got

def until(it, end):
    got = b''
    while not got.endswith(end):
        more = it.recv(65536)
        if not more: raise Wrong(f'closed after {got[-200:]}')
        got += more
    return got

def asked(store, body=b'{}', path='/upgrade', how='POST'):
    """What the console answers: its status and its body, or nothing."""
    with joined(store.http) as it:
        it.sendall(b'%s %s HTTP/1.1\r\nContent-Length: %d\r\n\r\n%s' % (how.encode(), path.encode(), len(body), body))
        head, _, said = rest(it).partition(b'\r\n\r\n')
    return int(head[9:12] or b'0'), said

def told(them):
    """Which of these connections have something to read, or were closed."""
    poll = select.poll()
    for one in them: poll.register(one, select.POLLIN)
    return poll.poll(0)

class Crowd:
    """All places for mail taken, and as many as are to wait beside them."""
    def __init__(self, store):
        self.store, self.clients, self.fetchers, self.readers = store, [], [], []
        for _ in range(2):
            one = joined(store.smtp)
            one.sendall(b'HELO c\r\nMAIL FROM:<joe@far.test>\r\nRCPT TO:<carl@mail.test>\r\n')
            until(one, b'250 OK\r\n250 OK\r\n')
            self.clients.append(one)
        for user, password in (('ann', 'a1'), ('bob', 'b2')):
            one = joined(store.pop)
            one.sendall(f'USER {user}\r\nPASS {password}\r\nDELE 1\r\n'.encode())
            until(one, b'+OK Marked.\r\n')
            self.fetchers.append(one)
        for number in range(SEATS - 4): self.readers.append(joined(store.imap))
        for number, one in enumerate(self.readers): until(one, HELLO); one.sendall(WAYS[number % 5])
        for number, one in enumerate(self.readers):
            if number % 5: until(one, ENDS[number % 5])
        self.waiting = [joined(store.imap) for _ in range(WAIT)]
    def all(self): return [*self.clients, *self.fetchers, *self.readers, *self.waiting]
    def is_left_alone(self, what):
        time.sleep(.5)
        same(f'{what}: connections that were told something', [], told(self.all()))
    def goes_on(self, what):
        """Each IMAP client ends what it began, or asks something."""
        for number, one in enumerate(self.readers): one.sendall(ASKS[number % 5])
        for number, one in enumerate(self.readers): until(one, SAYS[number % 5])
        print(f'{what}: each of {len(self.readers)} IMAP clients goes on', flush=True)
    def is_sent_away(self, begun):
        """Each IMAP client that had a place is told so and closed; those who waited are greeted, and nobody else hears of it."""
        for one in self.readers: same('an IMAP client', BYE, rest(one))
        took = time.monotonic() - begun
        for one in self.waiting: same('one who waited', HELLO, until(one, HELLO))
        for one in self.waiting: one.sendall(b'a LOGIN ann a1\r\nb LIST "" ""\r\n')
        for one in self.waiting: same('of the delimiter', True, b'* LIST (\\Noselect) "/" ""\r\n' in until(one, b'LIST done.\r\n'))
        same('SMTP clients and POP3 clients that were told something', [], told([*self.clients, *self.fetchers]))
        for one in self.clients: one.sendall(b'DATA\r\nSubject: late\r\n.\r\nQUIT\r\n'); true('an SMTP client ends its transaction', b'\r\n250 OK ' in rest(one))
        for one in self.fetchers: one.sendall(b'QUIT\r\n'); same('a POP3 client deletes', b'+OK Bye.\r\n', rest(one))
        print(f'the first upgrade: {len(self.readers)} IMAP clients were told and closed, the last {took * 1000:.0f} ms after it was asked for; {WAIT} who waited were greeted, mail and POP3 clients went on', flush=True)
    def ends(self):
        for one in self.all(): one.close()

def upgrades(store):
    """How many Upgrade records there are, and the octets of the journal."""
    said = subprocess.run([sys.executable, stores.UNDO, 'history', store.path, '--verb', 'UPGRADE', '--json'], stdout=subprocess.PIPE, text=True).stdout   # status 1 where there is none
    return said.count('"UPGRADE"'), os.path.getsize(store.path)

def filled(folder, name):
    store = Store(folder, name, pop=True).start()
    with smtplib.SMTP('127.0.0.1', store.smtp, local_hostname='c', timeout=120) as it: it.sendmail('joe@far.test', ['ann@mail.test', 'bob@mail.test'], letter(1).encode())
    return store

def beside_all(folder):
    store = filled(folder, 'all')
    try:
        crowd, before = Crowd(store), upgrades(store)
        for body in NONE: same(f'the body {body[:40]}', (400, b'{"error":"json"}'), asked(store, body))
        for how, path in (('GET', '/upgrade'), ('POST', '/upgrade/'), ('POST', '/upgrade?'), ('PUT', '/upgrade')): same(f'{how} {path}', (404, b'{"error":"route"}'), asked(store, b'{}', path, how))
        crowd.is_left_alone('bodies that are none')
        same('the store', before, upgrades(store))
        crowd.goes_on(f'{len(NONE)} bodies that are none')
        before, begun = upgrades(store), time.monotonic()
        pair = [joined(store.http) for _ in range(2)]
        for one in pair: one.sendall(b'POST /upgrade HTTP/1.1\r\nContent-Length: 2\r\n\r\n{}')
        for one in pair: same('two at once', b'{"upgraded":true}', rest(one).partition(b'\r\n\r\n')[2])
        crowd.is_sent_away(begun)
        crowd.ends()
        after = upgrades(store)
        same('records of two at once', 1, after[0])
        with smtplib.SMTP('127.0.0.1', store.smtp, local_hostname='c', timeout=120) as it: it.sendmail('joe@far.test', ['ann@mail.test', 'bob@mail.test'], letter(2).encode())
        crowd = Crowd(store)
        before = upgrades(store)
        for body in (b'{}', b'', b' {\t} \r\n'): same(f'once more, {body}', (200, b'{"upgraded":true}'), asked(store, body))
        crowd.is_left_alone('once more')
        same('the store, once more', before, upgrades(store))
        crowd.goes_on('a second, a third and a fourth upgrade')
        crowd.ends()
        store.process.send_signal(signal.SIGKILL); store.process.wait()
        store.start()
        one = store.reader('ann', 'a1')
        same('after a kill', b'(\\Noselect) "/" ""', one.list('""', '""')[1][0])
        one.logout()
    finally: store.kill()

def fills_the_page(store):
    """Sets aliases until what is left of the store's last page, in which it could still write, is full to the octet."""
    def sets(local):
        before = os.path.getsize(store.path)
        same(f'an alias of {len(local)}', 200, asked(store, b'{"act":"alias","local":"%s","users":["ann"]}' % local, '/act')[0])
        return os.path.getsize(store.path) - before
    least = sets(b'x')
    while (room := -os.path.getsize(store.path) % 4096) >= 2 * least: sets(b'x')
    sets(b'y' * (room - least + 1))
    same('what is left of the page', 0, os.path.getsize(store.path) % 4096)

def without_room(folder):
    """On a disk without room it is refused, and nobody is told; once there is room it is done."""
    disk = os.path.join(folder, 'disk')
    os.mkdir(disk)
    if not shutil.which('mount') or subprocess.run(['mount', '-t', 'tmpfs', '-o', 'size=1m', 'tmpfs', disk], stderr=subprocess.DEVNULL).returncode: return print('a disk without room: not tried, no mount')
    try:
        store = filled(disk, 'store')
        try:
            crowd = Crowd(store)
            fills_the_page(store)
            with open(os.path.join(disk, 'more'), 'wb', 0) as more, contextlib.suppress(OSError):
                while True: more.write(b'x' * 4096)
            before = upgrades(store)
            for _ in range(3): same('an upgrade', (503, b'{"error":"memory"}'), asked(store))
            crowd.is_left_alone('an upgrade without room')
            same('the store', before, upgrades(store))
            os.remove(os.path.join(disk, 'more'))
            begun = time.monotonic()
            same('an upgrade with room', (200, b'{"upgraded":true}'), asked(store))
            for one in crowd.readers: same('an IMAP client', BYE, rest(one))
            print('a disk without room: refused three times with 503, nobody was told, and done once there was room', flush=True)
            crowd.ends()
        finally: store.kill()
    finally: subprocess.run(['umount', '-l', disk])

def on_a_disk_that_fails(folder):
    """Its record is not synced: the operator is told of the disk, IMAP clients nothing, and serving ends; a next run has it or has it not."""
    if not shutil.which('strace'): return print('a disk that fails: not tried, no strace')
    for call, place in (('fsync', 1), ('fdatasync', 1)):
        store = filled(folder, call)
        crowd, size = Crowd(store), os.path.getsize(store.path)
        trace = subprocess.Popen(['strace', '-f', '-qq', '-o', os.path.join(folder, call + '.trace'), '-p', str(store.process.pid), '-e', f'trace={call}', '-e', f'inject={call}:error=EIO:when={place}'], stderr=subprocess.DEVNULL)
        within('strace is there', 20, lambda: 'TracerPid:\t0' not in open(f'/proc/{store.process.pid}/status').read())
        pair = [joined(store.http) for _ in range(2)]
        os.kill(store.process.pid, signal.SIGSTOP)   # so that both come in one event's turn, the second on a desk that is closed
        for one in pair: one.sendall(b'POST /upgrade HTTP/1.1\r\nContent-Length: 2\r\n\r\n{}')
        os.kill(store.process.pid, signal.SIGCONT)
        said = [rest(one).partition(b'\r\n\r\n')[2] for one in pair]
        same('its end', 5, store.process.wait(60))
        trace.wait(20)
        ends = {rest(one) for one in crowd.readers}
        same('IMAP clients are told', {b''}, ends)
        same('one of the two is told of the disk, the other nothing', [b'', b'{"error":"disk"}'], sorted(said))
        count = upgrades(store)[0]
        store.start()
        one = store.reader('ann', 'a1')
        deep = one.list('""', '""')[1][0]
        same('the next run agrees with its journal', b'(\\Noselect) %s ""' % (b'"/"' if count else b'NIL'), deep)
        same('asked again', (200, b'{"upgraded":true}'), asked(store))
        store.kill(); crowd.ends()
        print(f'a disk whose {call} fails: one of two is told so, the other and {len(crowd.readers)} IMAP clients are closed without a word, the program ends with 5; the next run has {"it" if count else "it not"}, and does it when asked again', flush=True)

def main():
    if len(sys.argv) < 2: sys.exit(__doc__)
    hard = resource.getrlimit(resource.RLIMIT_NOFILE)[1]
    resource.setrlimit(resource.RLIMIT_NOFILE, (min(4096, hard) if hard != resource.RLIM_INFINITY else 4096, hard))
    stores.PROGRAM = os.path.abspath(sys.argv[1])
    with tempfile.TemporaryDirectory(prefix='upgrades-') as folder:
        for it in (beside_all, without_room, on_a_disk_that_fails):
            if not sys.argv[2:] or it.__name__ in sys.argv[2:]: it(folder)

if __name__ == '__main__':
    signal.signal(signal.SIGTERM, lambda *_: sys.exit(143))   # so that what was started is stopped
    try: main()
    except Wrong as fault: sys.exit(f'WRONG: {fault}')
