#!/usr/bin/env python3
"""A mail system around a store: Postfix before SMTP, Dovecot and stunnel before IMAP, as operate/front writes them, on free ports of 127.0.0.1.

usage: bench/front.py PROGRAM [MESSAGES [KILLS]]      1000 messages and 12 kills where none are given; wants root, for Postfix

Delivers MESSAGES through Postfix while the store is killed (SIGKILL) and served again KILLS times, and once more in the one moment in which a delivery is
sealed and not yet answered (a relay before the store keeps that answer back). Then it counts what came, reads all by IMAPS through Dovecot with sessions
that wait in IDLE, runs a cycle, compares what Dovecot serves with the store byte for byte, and has a user delete a message that was open before the cycle:
connected directly, and through Dovecot. Status 0 only where nothing is lost, nothing lies twice that Postfix's log does not tell, and all is served as stored.
"""
import contextlib, imaplib, importlib.machinery, importlib.util, os, re, shutil, signal, smtplib, socket, subprocess, sys, tempfile, threading, time

TOP = os.path.dirname(os.path.dirname(os.path.abspath(__file__)))

def loaded(path):
    """A script of this repository as a module."""
    loader = importlib.machinery.SourceFileLoader('front_tests', path)
    module = importlib.util.module_from_spec(importlib.util.spec_from_loader('front_tests', loader))
    sys.dont_write_bytecode = True
    loader.exec_module(module)
    return module

tests = loaded(os.path.join(TOP, 'tests', 'front'))
same, true, within = tests.same, tests.true, tests.within

class Relay:
    """Stands before the store's SMTP port. Told to, it keeps the next answer behind a text back, has the store killed, and breaks off."""
    def __init__(self, store):
        self.store, self.port, self.armed, self.struck = store, tests.free_port(), threading.Event(), []
        self.socket = socket.socket()
        self.socket.setsockopt(socket.SOL_SOCKET, socket.SO_REUSEADDR, 1)
        self.socket.bind(('127.0.0.1', self.port)); self.socket.listen(128)
        threading.Thread(target=self.serve, daemon=True).start()
    def serve(self):
        while True:
            client, _ = self.socket.accept()
            threading.Thread(target=self.carry, args=(client,), daemon=True).start()
    def carry(self, client):
        with client:
            try:
                with socket.create_connection(('127.0.0.1', self.store.smtp)) as server:
                    threading.Thread(target=self.forth, args=(client, server), daemon=True).start()
                    while piece := server.recv(1 << 16):
                        if self.armed.is_set() and re.match(rb'250 OK \d+\r\n', piece):   # the delivery is sealed: its sender never hears of it
                            self.armed.clear(); self.struck.append(int(piece.split()[2])); self.store.kill(); return
                        client.sendall(piece)
            except OSError: pass
            finally:
                with contextlib.suppress(OSError): client.shutdown(socket.SHUT_RDWR)   # a close alone would wait for the other thread
    def forth(self, client, server):
        with contextlib.suppress(OSError):
            while piece := client.recv(1 << 16): server.sendall(piece)
            server.shutdown(socket.SHUT_WR)

def posted(front, first, last, later):
    """Messages to ann, bob and team by turns, from one sender, who tries again what is refused for a time (an alias, while the store that knows it is away)."""
    with front.client() as it:
        for number in range(first, last):
            to = ('ann', 'bob', 'team')[number % 3]
            while True:
                try: it.sendmail('joe@far.test', [f'{to}@mail.test'], tests.letter(number, 'word ' * 60 + '\r\n', to=f'{to}@mail.test')); break
                except smtplib.SMTPRecipientsRefused as fault:
                    later.append(number)
                    if next(iter(fault.recipients.values()))[0] != 450: raise
                    time.sleep(.5)

def delivered(front, store, relay, messages, kills):
    """Posts all, and kills the store meanwhile; the figures."""
    later, began = [], time.monotonic()
    senders = [threading.Thread(target=posted, args=(front, messages * n // 4, messages * (n + 1) // 4, later)) for n in range(4)]
    for it in senders: it.start()
    for kill in range(kills):
        came = store_length(store)
        within('something comes between two kills', 120, lambda: store_length(store) > came or not any(it.is_alive() for it in senders) and not front.queued() or (front.flush(), time.sleep(.3))[0])
        time.sleep(.05 + kill * 37 % 11 * .03)
        if not kill:                                       # while most are still to come, however fast they go
            relay.armed.set()
            within('a delivery is struck in its moment', 120, lambda: relay.struck or (front.flush(), time.sleep(.5))[0])
        store.kill()
        time.sleep(.3)
        store.start()
    for it in senders: it.join()
    accepted = time.monotonic() - began
    front.emptied(600)
    return later, accepted, time.monotonic() - began

def store_length(store): return os.path.getsize(store.path)

def idled(front, store, count):
    """Sessions in IDLE at Dovecot: how long each waits for a new message to be told, and how many numbers the waiting draws."""
    waits = [front.reader('carl', tests.USERS[2][1]) for _ in range(count)]
    for it in waits: it.select(); it.send(b'i IDLE\r\n'); it.readline()
    before = store.asks('/status')['next']
    time.sleep(10)
    drawn = store.asks('/status')['next'] - before
    began, took = time.monotonic(), []
    with front.client() as it: it.sendmail('joe@far.test', ['carl@mail.test'], tests.letter('idle', to='carl@mail.test'))
    for it in waits:
        while b'EXISTS' not in it.readline(): pass
        took.append(time.monotonic() - began)
        it.send(b'DONE\r\n'); it.readline()
    return waits, took, drawn

def looked(front, store):
    """What a first look at a mailbox through Dovecot draws in numbers: login and SELECT, flags, headers, one text."""
    before = store.asks('/status')['next']
    it, found = front.reader('bob', 'b2'), []
    for command in (lambda: it.select(), lambda: it.uid('FETCH', '1:*', '(FLAGS)'), lambda: it.uid('FETCH', '1:*', '(ENVELOPE BODYSTRUCTURE)'), lambda: it.uid('SORT', '(DATE)', 'UTF-8', 'ALL'), lambda: it.uid('FETCH', '1', '(BODY[])'), lambda: it.noop()):
        began = time.monotonic(); command()
        now = store.asks('/status')['next']
        found.append((now - before, time.monotonic() - began)); before = now
    it.logout()
    return dict(zip(('SELECT', 'flags', 'ENVELOPE and BODYSTRUCTURE', 'SORT', 'a text', 'NOOP'), found))

def stale_delete(store, joined, again):
    """A user has a message open, a cycle drops an earlier one, and the mail program deletes by the UID that it knows: COPY to Trash, STORE, EXPUNGE, in the
    session from before or, `again`, after it connected anew and was told the new UIDVALIDITY (as Claws and Thunderbird do). What it was told, and what went to Trash."""
    with contextlib.suppress(imaplib.IMAP4.error): setup = store.reader('ann', 'a1'); setup.create('Trash')
    entries = store.asks('/box/ann/INBOX')['entries']
    open_one, earlier = entries[10], entries[3]
    it = joined('ann', 'a1'); it.select('INBOX')
    before = {entry['item'] for entry in store.asks('/box/ann/Trash')['entries']}
    store.asks('/cycle', {'key': f'stale {time.monotonic()}', 'point': 0, 'drop': [earlier['item']]})
    said = []
    try:
        if again: it = joined('ann', 'a1'); it.select('INBOX')
        for words in (('COPY', str(open_one['uid']), 'Trash'), ('STORE', str(open_one['uid']), '+FLAGS.SILENT', '(\\Deleted)')): said.append(f'{words[0]} {it.uid(*words)[0]}')
        said.append(f'EXPUNGE {it.expunge()[0]}')
    except (imaplib.IMAP4.error, OSError) as fault: said.append(f'dropped ({str(fault)[-60:]})')
    return ', '.join(said), [entry['origin'] == open_one['origin'] for entry in store.asks('/box/ann/Trash')['entries'] if entry['item'] not in before]

def main():
    if not 2 <= len(sys.argv) <= 4: sys.exit(__doc__)
    tests.stores.PROGRAM = os.path.abspath(sys.argv[1])
    messages, kills = (int(it) for it in (*sys.argv[2:], *('1000', '12')[len(sys.argv) - 2:]))
    missing = [name for name in ('postfix', 'dovecot', 'stunnel') if not shutil.which(name)] + (['root'] if os.geteuid() else [])
    if missing: sys.exit(f'bench/front.py wants {", ".join(missing)}. On Debian: apt-get install postfix dovecot-imapd stunnel4')
    with tempfile.TemporaryDirectory(prefix='front-') as folder:
        store = tests.Store(folder).start()
        relay = Relay(store)
        try:
            with tests.Front(folder, [store], ['--tunnel'], line=lambda it: it.line(relay.port)) as front: run(front, store, relay, messages, kills)
        finally: store.kill()

def run(front, store, relay, messages, kills):
    later, accepted, took = delivered(front, store, relay, messages, kills)
    past = store.past()
    found = tests.numbers(past, ('ann', 'bob'))
    wanted = {str(number): {('ann', 'INBOX')} if number % 3 == 0 else {('bob', 'INBOX')} if number % 3 == 1 else {('ann', 'INBOX'), ('bob', 'INBOX')} for number in range(messages)}
    log = front.log()
    lost = [number for number, where in wanted.items() if set(found.get(number, ())) != where]
    twice = sorted((number for number, where in found.items() if len(where) > len(set(where))), key=int)
    told = {row.split()[-2].strip('<>').partition('@')[0] for row in tests.does([tests.FRONT, 'doubles', front.folder], 0).splitlines() if '@far.test' in row}
    print(f'{messages:,} messages: Postfix took all within {accepted:.0f} s, {kills} kills and one in a sealed delivery\'s moment; all delivered after {took:.0f} s, {log.count("status=deferred"):,} deferrals, {log.count("status=bounced")} sent back')
    print(f'lost: {len(lost)}; twice: {len(twice)} ({", ".join(twice)}); in doubt by Postfix\'s log: {len(told)}; told to come later (450): {len(later)} times', flush=True)
    same('nothing is lost', [], lost)
    same('nothing was sent back', 0, log.count('status=bounced'))
    true('the struck delivery lies twice', len(relay.struck) == 1 and len(twice) >= 1)
    same('twice and not told', [], [number for number in twice if number not in told])
    began = time.monotonic()
    count = tests.as_stored(front, store)
    print(f'Dovecot serves {count:,} messages as the store has them, byte for byte ({time.monotonic() - began:.0f} s)', flush=True)
    waits, told_after, drawn = idled(front, store, 3)
    print(f'IDLE: 3 sessions were told of a new message after {", ".join(f"{it:.1f}" for it in told_after)} s; 10 s of waiting drew {drawn} numbers')
    for name, (numbers, seconds) in looked(front, store).items(): print(f'  {name} of {len(store.asks("/box/bob/INBOX")["entries"]):,} messages through Dovecot: {numbers} numbers, {seconds:.2f} s')
    for it in waits: it.send(b'j IDLE\r\n'); it.readline()
    began = time.monotonic()
    report = store.asks('/cycle', {'key': 'bench', 'point': 0, 'drop': [int(store.asks('/box/ann/INBOX')['entries'][0]['item'])]})
    print(f'a cycle that drops the first message: {time.monotonic() - began:.2f} s, {len(report["broken"])} broken answers, {len(report["notices"])} notices, {len(report["renewed"])} mailboxes renewed', flush=True)
    said = []
    for it in waits:
        lines = []
        with contextlib.suppress(imaplib.IMAP4.error, OSError):
            it.sock.settimeout(20)
            while line := it.readline(): lines.append(line.strip().decode('ascii', 'replace'))
        said.append(' / '.join(lines) or 'nothing within 20 s')
    print(f'those who waited in IDLE were told: {"; ".join(sorted(set(said)))}')
    true('those who waited are told, and sent away', all('BYE' in it for it in said))
    for name, password in tests.USERS:
        if name not in {row['user'] for row in report['broken']}: continue
        it = front.reader(name, password); it.select()
        found = it.uid('SEARCH', 'SUBJECT', '"Mail rewound and replayed"')[1][0].split()
        same(f'{name} finds the notice through Dovecot', 1, len(found))
        it.logout()
    count = tests.as_stored(front, store)
    print(f'after it Dovecot serves {count:,} messages as the store has them, byte for byte, under their new UIDVALIDITY, and the notices', flush=True)
    for name, joined, again in (('directly, in the session from before', store.reader, False), ('directly, connected anew', store.reader, True), ('through Dovecot, in the session from before', front.reader, False), ('through Dovecot, connected anew', front.reader, True)):
        said, right = stale_delete(store, joined, again)
        print(f'stale Delete {name}: {said}; {"nothing" if not right else "the message that was meant" if all(right) else "ANOTHER message"} went to Trash', flush=True)
        if not again: true('a session from before a cycle hits no other message', all(right))
    same('stunnel', 'OK', reads_through_stunnel(front))
    print('stunnel: login and SELECT by IMAPS work')

def reads_through_stunnel(front):
    it = imaplib.IMAP4_SSL('127.0.0.1', front.ports['tunnel_imaps'], ssl_context=tests.LOOSE, timeout=30)
    it.login('ann', 'a1')
    said = it.select()[0]
    it.logout()
    return said

if __name__ == '__main__':
    signal.signal(signal.SIGTERM, lambda *_: sys.exit(143))   # so that what was started is stopped
    try: main()
    except tests.Wrong as fault: sys.exit(f'WRONG: {fault}')
