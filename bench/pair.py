#!/usr/bin/env python3
"""Measures two programs beside each other in one run, by turns: what one client, one search, one cycle and a million items cost before a change and after it.

usage: bench/pair.py BEFORE AFTER [--only PART,..] [--disk FOLDER] [--memory FOLDER] [--rounds 2] [--seconds 1] [--items 300000] [--small]

Parts: letters, search, texts, cycles, memory, opening, grow, silence, noops. The stores are written record by record as docs/FORMATS.md spells them, without
snapshots, so that both programs open the same octets. Letters and texts are measured in a folder of --disk (/tmp), all else in one of --memory (/dev/shm).
Each row has both figures and the ratio of the later to the earlier, of rounds by turns: the middle one, or for wall time of a whole run the least. --small
tries all of it in short sizes, for function alone. Prints tables for docs/SPEED.md.
"""
import argparse, multiprocessing, os, selectors, shutil, socket, statistics, struct, subprocess, sys, tempfile, time

sys.path.insert(0, os.path.dirname(os.path.abspath(__file__)))
from event import answers, asks, free_port, joined
from journals import AT, CLOSED, OPEN, name, text

SIDES = 'before', 'after'
HOUSE = 'host = "mail.test"\ndomains = ["mail.test"]\npostmaster = "%s"\n'
USERS = 'ann', 'bob', 'carl'
NOBODY, CYCLE_AT_0 = 255, '{"key":"k","point":0}'

# ---- stores

def house(users): return (HOUSE % users[0] + ''.join(f'[[user]]\nname = "{user}"\npassword = "pw"\n' for user in users)).encode()

def verb(number, actor, deed, shown): return OPEN + text(struct.pack('>BIQB', 1, number, AT, actor) + deed + shown)

def keys(numbers): return struct.pack('>I', len(numbers)) + b''.join(struct.pack('>IH', number, 0) for number in numbers)

def mail(number, subject, body):
    """A text as the server leaves it, of a delivery or none."""
    return b'Return-Path: <joe@far.test>\r\nReceived: from client.test by mail.test; 7 Jan 2005 10:00:00 +0000\r\nSubject: %b %d\r\n\r\n%b\r\n' % (subject, number, body)

def delivery(number, user, subject=b'message', body=b'hello'):
    return verb(number, NOBODY, b'\1' + text(b'joe@far.test') + struct.pack('>I', 1) + name(user) + text(mail(number, subject, body)), b'\0')

def letters_of(count, body=b'hello'):
    """So many deliveries to ann, numbered from 2 on."""
    for number in range(2, 2 + count): yield delivery(number, b'ann', body=body)

def spread(count, users):
    """So many deliveries to users by turns, each of whom has five mailboxes, into which filters put the mail by turns."""
    at = 2
    for box in range(1, 5):
        yield OPEN + text(struct.pack('>BIQ', 2, at, AT) + b'\3' + name(b'f%d' % box) + name(b'part%d' % box) + b'\1' + name(b'Box%d' % box))
        at += 1
        for user in range(len(users)):
            yield verb(at, user, b'\13' + name(b'Box%d' % box), b'\0')
            at += 1
    for n in range(count): yield delivery(at + n, users[n % len(users)].encode(), b'part%d' % (n // len(users) % 5))

def day(items):
    """So many items of three users: of ten, five deliveries, a read of the last, a copy of it, marks on the others, their expunge, and a count."""
    inbox, keep, at = name(b'INBOX'), name(b'Keep'), 2
    for user in range(3):
        yield verb(at, user, b'\13' + keep, b'\0')
        at += 1
    for round in range(items // 10):
        user, four, last = round % 3, keys(range(at, at + 4)), keys([at + 4])
        for n in range(5): yield delivery(at + n, USERS[user].encode())
        yield verb(at + 5, user, b'\3' + inbox + last + b'\0\1', b'\1' + last + struct.pack('>I', 0))
        yield verb(at + 6, user, b'\5' + inbox + last + keep, b'\5' + last + b'\0')
        yield verb(at + 7, user, b'\4' + inbox + four + b'\1\4', b'\4' + four)
        yield verb(at + 8, user, b'\11' + inbox + four, b'\7' + keys([]))
        yield verb(at + 9, user, b'\7' + keep, b'\3\1' + struct.pack('>I', round // 3 + 1))
        at += 10

def made(folder, users, records):
    """A store with these records behind its first."""
    path = os.path.join(folder, 'made')
    if os.path.exists(path): os.remove(path)
    subprocess.run([PROGRAMS[0], 'init', path], input=house(users), check=True)
    with open(path, 'r+b') as out:
        out.seek(-1, 2)
        out.writelines(records)
        out.write(CLOSED)
    return path

# ---- runs

def spent(words, given=b'', processors=None):
    """Seconds, processor seconds and the most memory in MB of a run, and what it told."""
    with tempfile.TemporaryFile(dir=WORDS.memory) as said, tempfile.TemporaryFile(dir=WORDS.memory) as out:
        said.write(given)
        said.seek(0)
        begun = time.perf_counter()
        run = subprocess.Popen(words, stdin=said, stdout=out, preexec_fn=processors and (lambda: os.sched_setaffinity(0, processors)))
        _, status, used = os.wait4(run.pid, 0)
        took = time.perf_counter() - begun
        if status: sys.exit(f'{words}: status {status >> 8}')
        out.seek(0)
        return took, used.ru_utime + used.ru_stime, used.ru_maxrss / 1024, out.read()

class Server:
    def __init__(self, program, store, memory=True):
        self.ports = [free_port() for _ in range(3)]
        begun = time.perf_counter()
        self.process = subprocess.Popen([program, 'serve', store, *map(str, self.ports)], stdin=subprocess.DEVNULL, stdout=subprocess.DEVNULL, stderr=subprocess.DEVNULL)
        self.pid = self.process.pid
        while True:
            try: socket.create_connection(('127.0.0.1', self.ports[2])).close(); break
            except OSError: time.sleep(.005)
            if self.process.poll() is not None: sys.exit(f'{program}: the server ends with {self.process.returncode}')
        self.opened = time.perf_counter() - begun
    def reader(self, user='ann'):
        link = joined(self.ports[1])
        asks(link, f'LOGIN {user} pw')
        asks(link, 'SELECT INBOX')
        return link
    def cycle(self):
        with socket.create_connection(('127.0.0.1', self.ports[2])) as link:
            link.sendall(b'POST /cycle HTTP/1.1\r\nContent-Length: %d\r\n\r\n%b' % (len(CYCLE_AT_0), CYCLE_AT_0.encode()))
            if not b''.join(iter(lambda: link.recv(65536), b'')).startswith(b'HTTP/1.1 200 '): sys.exit('the cycle is refused')
    def holds(self, what='VmRSS'):
        with open(f'/proc/{self.pid}/status') as it: return next(int(line.split()[1]) for line in it if line.startswith(what)) / 1024
    def used(self):
        """Seconds of a processor, of all its threads, to the nanosecond."""
        return sum(int(open(f'/proc/{self.pid}/task/{it}/schedstat').read().split()[0]) for it in os.listdir(f'/proc/{self.pid}/task')) / 1e9
    def __enter__(self): return self
    def __exit__(self, *_): self.process.kill(); self.process.wait()

def copied(store, folder, side):
    path = os.path.join(folder, f'store-{side}')
    shutil.copyfile(store, path)
    return path

def both(store, folder):
    """A server of each program, each over its own copy."""
    return [Server(program, copied(store, folder, side)) for side, program in zip(SIDES, PROGRAMS)]

def turns(number): return (0, 1) if number % 2 == 0 else (1, 0)

def timed(work):
    begun = time.perf_counter()
    work()
    return time.perf_counter() - begun

def head(what, unit): print(f'\n| {what} | before, {unit} | after, {unit} | after / before |\n|---|---|---|---|', flush=True)

def shown(value): return f'{value:,.0f}' if abs(value) >= 100 else f'{value:.3g}'

def row(what, found):
    ratio = f'{found[1] / found[0]:.2f}' if found[0] else '-'
    print(f'| {what} | {shown(found[0])} | {shown(found[1])} | {ratio} |', flush=True)

# ---- letters

def sends(port, links, letter, seconds, told):
    """Deliveries over so many connections at once, for so long; tells how many were answered and the seconds."""
    poll, steps, count = selectors.DefaultSelector(), (b'MAIL FROM:<a@b>\r\nRCPT TO:<ann@mail.test>\r\nDATA\r\n', letter + b'\r\n.\r\n'), 0
    for _ in range(links):
        it = joined(port)
        it.sendall(b'HELO x\r\n')
        it.recv(4096)
        it.setblocking(False)
        poll.register(it, selectors.EVENT_WRITE, {'out': memoryview(steps[0]), 'step': 0, 'in': b''})
    begun = last = time.perf_counter()
    end = begun + seconds
    while poll.get_map():
        for key, mask in poll.select(1):
            it, at = key.fileobj, key.data
            if mask & selectors.EVENT_WRITE:
                try:
                    at['out'] = at['out'][it.send(at['out']):]
                except BlockingIOError: pass
                if not at['out']: poll.modify(it, selectors.EVENT_READ, at)
                continue
            at['in'] += it.recv(4096)
            lines = at['in'].split(b'\r\n')[:-1]
            if len(lines) < (3, 1)[at['step']]: continue
            if lines[-1][:3] != (b'354', b'250')[at['step']]: sys.exit(f'refused: {lines}')
            if at['step'] == 1:
                last = time.perf_counter()
                count += 1
            at['in'], at['step'] = b'', 1 - at['step']
            if at['step'] == 0 and time.perf_counter() >= end:
                poll.unregister(it)
                it.close()
                continue
            at['out'] = memoryview(steps[at['step']])
            poll.modify(it, selectors.EVENT_WRITE, at)
    told.send((count, last - begun))

def slice_of(server, links, letter):
    """Deliveries a second, and what another client waits for a NOOP meanwhile: the middle and the longest of a hundred at most, in milliseconds."""
    here, there = multiprocessing.Pipe(False)
    other = server.reader('bob')
    load = multiprocessing.Process(target=sends, args=(server.ports[0], links, letter, WORDS.seconds, there))
    load.start()
    time.sleep(.1)
    waits = []
    while len(waits) < 100 and not here.poll(0):
        waits.append(1000 * timed(lambda: asks(other, 'NOOP')))
        time.sleep(WORDS.seconds / 150)
    count, took = here.recv()
    load.join()
    other.close()
    return count / took, statistics.median(waits), max(waits)

def bare(folder, octets):
    """Pairs of writes and syncs a second of so many octets each, by themselves."""
    path, count, begun = os.path.join(folder, 'bare'), 0, time.perf_counter()
    with open(path, 'wb', buffering=0) as out:
        while time.perf_counter() < begun + WORDS.seconds / 4:
            out.write(b'm' * octets); os.fdatasync(out.fileno())
            out.write(b'U'); os.fdatasync(out.fileno())
            count += 1
    os.remove(path)
    return count / (time.perf_counter() - begun)

def letters():
    for what, where in (('a disk', WORDS.disk), ('memory', WORDS.memory)):
        found = {}
        with tempfile.TemporaryDirectory(dir=where) as folder:
            for octets in (1000, 100_000):
                letter = b'Subject: s\r\n\r\n' + b'\r\n'.join([b'x' * 70] * (octets // 72))
                for links in (1, 10, 50, 100):
                    for number in range(WORDS.rounds):
                        rates = [bare(folder, octets)] if what == 'a disk' else []
                        for side in turns(number):
                            with Server(PROGRAMS[side], made(folder, USERS, ())) as server: figures = slice_of(server, links, letter)
                            for place, value in enumerate(figures): found.setdefault((octets, links, place), ([], []))[side].append(value)
                            if rates: rates.append(bare(folder, octets))
                        if rates: found.setdefault((octets, links, 3), ([], []))[0].append(statistics.median(rates))
        print(f'\n**Letters, in {what}**; a slice of {WORDS.seconds} s, the middle of {WORDS.rounds} rounds; another client\'s NOOP meanwhile, the longest of a hundred at most')
        print('\n| Octets, connections | before, a second | after | after / before | NOOP before, longest, ms | after | middle before, ms | after | bare pairs a second |' + '\n' + '|---' * 9 + '|')
        for octets, links in ((it[0], it[1]) for it in found if it[2] == 0):
            one, middle, longest = ([statistics.median(side) for side in found[octets, links, place]] for place in (0, 1, 2))
            disk = shown(statistics.median(found[octets, links, 3][0])) if (octets, links, 3) in found else ''
            print(f'| {octets:,}, {links} | {shown(one[0])} | {shown(one[1])} | {one[1] / one[0]:.2f} | {shown(longest[0])} | {shown(longest[1])} | {shown(middle[0])} | {shown(middle[1])} | {disk} |', flush=True)

# ---- searches

SEARCHES = ('SEARCH FLAGGED', 'SEARCH LARGER 1000', 'SEARCH SINCE 1-Jan-2020', 'SEARCH UID 1:50000', 'SEARCH TEXT zebra FLAGGED', 'SEARCH FLAGGED TEXT zebra', 'NOOP')

def search():
    count = 2_000 if WORDS.small else 100_000
    with tempfile.TemporaryDirectory(dir=WORDS.memory) as folder:
        servers = both(made(folder, USERS, letters_of(count)), folder)
        links, others = [it.reader() for it in servers], [it.reader() for it in servers]
        head(f'One command over {count:,} messages, the middle of 11', 'ms')
        for command in SEARCHES:
            found = [], []
            for number in range(11):
                for side in turns(number): found[side].append(1000 * timed(lambda: asks(links[side], command)))
            row(f'`{command}`', list(map(statistics.median, found)))
        one = b'a SEARCH FLAGGED\r\n'
        piece = 4096 // len(one)
        for many in (1, 10, piece): searches_beside(servers, links, others, one, many)
        for it in servers: it.__exit__()

def searches_beside(servers, links, others, one, many):
    """So many SEARCHes in one piece of at most 4,096 octets, and what another client waits who asks for a NOOP a moment later."""
    all_, waits = [0, 0], [0, 0]
    for side in (0, 1):
        begun = time.perf_counter()
        links[side].sendall(one * (many - 1) + b'z' + one[1:])
        time.sleep(.001)
        waits[side] = 1000 * timed(lambda: asks(others[side], 'NOOP'))
        answers(links[side], b'z')
        all_[side] = 1000 * (time.perf_counter() - begun)
    row(f'{many} of them in one piece', all_)
    row('meanwhile a NOOP of another client', waits)

def texts():
    count, octets = (300, 10_000) if WORDS.small else (10_000, 10_000)
    with tempfile.TemporaryDirectory(dir=WORDS.disk) as folder:
        store = made(folder, USERS, letters_of(count, b'\r\n'.join([b'x' * 70] * (octets // 72))))
        stores, size = [copied(store, folder, side) for side in SIDES], os.path.getsize(store)
        servers = [Server(program, it) for program, it in zip(PROGRAMS, stores)]
        links = [it.reader() for it in servers]
        head(f'{count:,} messages of {octets:,} octets, a store of {size / 1e6:.0f} MB, the least of 3', 's')
        def cold(path):
            fd = os.open(path, os.O_RDONLY)
            os.fsync(fd)
            os.posix_fadvise(fd, 0, 0, os.POSIX_FADV_DONTNEED)
            os.close(fd)
        def read(path):
            with open(path, 'rb', buffering=0) as it:
                while it.read(1 << 20): pass
        for what, before in (('in the system\'s memory', read), ('none of it there', cold)):
            for command in ('SEARCH TEXT zebra', 'SEARCH BODY zebra', 'SEARCH FLAGGED BODY zebra', 'the file, read by pieces of 1 MB'):
                found = [], []
                for number in range(3):
                    for side in turns(number):
                        before(stores[side])
                        found[side].append(timed(lambda: asks(links[side], command) if command.startswith('SEARCH') else read(stores[side])))
                row(f'{command}, {what}', list(map(min, found)))
        for it in servers: it.__exit__()

# ---- cycles

def asked(): return f'at 1105092000\nopen 9 http\ndata 9 POST /cycle HTTP/1.1~r~nContent-Length: {len(CYCLE_AT_0)}~r~n~r~n{CYCLE_AT_0}\n'.encode()

def cycles():
    count = 200 if WORDS.small else 100_000
    many = [f'u{n:03}' for n in range(4 if WORDS.small else 200)]
    stores = (('1 mailbox, deliveries', WORDS.rounds, USERS, lambda: letters_of(count)), (f'{5 * len(many):,} mailboxes, deliveries', WORDS.rounds, many, lambda: spread(count, many)),
              ('a mixed day of three users, one round', 1, USERS, lambda: day(count)))
    print(f'\n**A cycle at 0 over {count:,} items**, the least of {WORDS.rounds} rounds: as opening performs it, one item after the other ("fold"), and by levels; each less opening without it')
    print('\n| Store | Program | opening, s | fold | by levels, one processor | of the fold | by levels, all | of the fold | its processor seconds |' + '\n' + '|---' * 9 + '|')
    with tempfile.TemporaryDirectory(dir=WORDS.memory) as folder:
        for what, rounds, users, records in stores:
            store = made(folder, users, records())
            found = [], []
            for number in range(rounds):
                for side in turns(number): found[side].append(cycled(PROGRAMS[side], store, folder))
            for side in (0, 1):
                opening, again, one, all_, before, processor = map(min, zip(*found[side]))
                fold, alone, together = again - opening, one - opening, all_ - opening
                print(f'| {what} | {SIDES[side]} | {opening:.2f} | {fold:.2f} | {alone:.2f} | {alone / fold:.2f} | {together:.2f} | {together / fold:.2f} | {processor - before:.2f} |', flush=True)

def cycled(program, store, folder):
    """Seconds of a run that opens the store, that opens it with the cycle in it, that runs the cycle on one processor and on all; processor seconds of the first and last."""
    path, none = os.path.join(folder, 'cycled'), b'at 1105092000\n'
    shutil.copyfile(store, path)
    opening = spent([program, 'script', path], none)
    one = spent([program, 'script', path], asked(), {0})
    again = spent([program, 'script', path], none)
    shutil.copyfile(store, path)
    all_ = spent([program, 'script', path], asked())
    for it in (one, all_):
        if it[3].count(b'HTTP/1.1 200 OK') != 1: sys.exit(f'{program}: the cycle is refused')
    return opening[0], again[0], one[0], all_[0], opening[1], all_[1]

# ---- a million items

def memory():
    items = 1_000 if WORDS.small else WORDS.items
    with tempfile.TemporaryDirectory(dir=WORDS.memory) as folder:
        store = made(folder, USERS, day(items))
        found = [], []
        for side in (0, 1):
            with Server(PROGRAMS[side], copied(store, folder, 'one')) as server:
                found[side].append(server.opened)
                found[side].append(server.holds() * 1048576 / items)
                found[side].append(timed(server.cycle))
                found[side].append(server.holds() * 1048576 / items)
                found[side].append(server.holds('VmHWM') * 1048576 / items)
        print(f'\nA mixed day of {items:,} items, {os.path.getsize(store) / 1e6:.0f} MB, one round')
        head('What', 'as told')
        for place, what in enumerate(('serve listens after, s', 'octets an item then', 'a cycle at 0, s', 'octets an item behind it', 'octets an item at most')):
            row(what, [it[place] for it in found])

def opening():
    count = 1_000 if WORDS.small else 1_000_000
    with tempfile.TemporaryDirectory(dir=WORDS.memory) as folder:
        for what, many, records in (('deliveries of 120 octets', count, letters_of(count)), ('items of a mixed day', count, day(count)),
                                    ('deliveries of 10,000 octets', count // 10, letters_of(count // 10, b'\r\n'.join([b'x' * 70] * 138)))):
            store = made(folder, USERS, records)
            found = [], []
            for number in range(WORDS.rounds):
                for side in turns(number): found[side].append(spent([PROGRAMS[side], 'check', store])[:3])
            head(f'`check` of {many:,} {what}, {os.path.getsize(store) / 1e6:.0f} MB, the least of {WORDS.rounds}', 'as told')
            for place, unit in enumerate(('wall, s', 'processor, s', 'memory at most, MB')): row(unit, [min(it[place] for it in side) for side in found])

def grow():
    rounds = (500, 1_000, 2_000) if WORDS.small else (25_000, 50_000, 100_000)
    found = {(many, side): spent([PROGRAMS[side], 'grow', str(many)]) for many in rounds for side in (0, 1)}
    print('\n| `grow` | before, s | of half as many | after, s | of half as many | before, MB | of half as many | after, MB | of half as many |' + '\n' + '|---' * 9 + '|')
    for many in rounds:
        cells = []
        for place in (1, 2):
            for side in (0, 1):
                half = found.get((many // 2, side))
                cells += [shown(found[many, side][place]), f'{found[many, side][place] / half[place]:.2f}' if half else '']
        print(f'| {many:,} | ' + ' | '.join(cells) + ' |', flush=True)

# ---- waiting

def silence():
    with tempfile.TemporaryDirectory(dir=WORDS.memory) as folder:
        servers = both(made(folder, USERS, letters_of(1_000)), folder)
        links = [it.reader() for it in servers]
        head('NOOP after a silence, no other connection: the middle', 'ms')
        for quiet, times in ((.1, 20), (.5, 10), (2, 1 if WORDS.small else 5)):
            found = [], []
            for number in range(times):
                time.sleep(quiet)
                for side in turns(number): found[side].append(1000 * timed(lambda: asks(links[side], 'NOOP')))
            row(f'{quiet} s', list(map(statistics.median, found)))
            row(f'{quiet} s, the longest of {times}', list(map(max, found)))
        seconds, held = 2 if WORDS.small else 5, []
        for count in (0, 500, 900):
            for it in servers:
                while sum(1 for one in held if one[0] is it) < count: held.append((it, joined(it.ports[len(held) % 2])))
            time.sleep(1)
            before = [it.used() for it in servers]
            time.sleep(seconds)
            row(f'{count} silent connections beside it: of a hundred of a processor, over {seconds} s', [100 * (it.used() - was) / seconds for it, was in zip(servers, before)])
            found = [], []
            for number in range(10):
                time.sleep(.5)
                for side in turns(number): found[side].append(1000 * timed(lambda: asks(links[side], 'NOOP')))
            row(f'{count} silent connections: NOOP after half a second, the middle, ms', list(map(statistics.median, found)))
            row(f'{count} silent connections: NOOP after half a second, the longest of 10, ms', list(map(max, found)))
        for it in servers: it.__exit__()

def noops():
    head('NOOP over so many messages, the middle of 200', 'ms')
    with tempfile.TemporaryDirectory(dir=WORDS.memory) as folder:
        for count in (100, 1_000) if WORDS.small else (100, 10_000, 20_000, 40_000, 80_000):
            servers = both(made(folder, USERS, letters_of(count)), folder)
            links, others = [it.reader() for it in servers], [it.reader() for it in servers]
            for what, first in (('', None), (', behind a FETCH of one\'s flags', 'FETCH 1 FLAGS'), (', behind another client\'s STORE', 'STORE 1 +FLAGS (\\Seen)')):
                found = [], []
                for number in range(200):
                    for side in turns(number):
                        if first: asks((others if 'another' in what else links)[side], first)
                        found[side].append(1000 * timed(lambda: asks(links[side], 'NOOP')))
                row(f'{count:,}{what}', list(map(statistics.median, found)))
            for it in servers: it.__exit__()

PARTS = letters, search, texts, cycles, memory, opening, grow, silence, noops

def main():
    global WORDS, PROGRAMS
    words = argparse.ArgumentParser(description=__doc__, formatter_class=argparse.RawDescriptionHelpFormatter)
    words.add_argument('programs', nargs=2)
    words.add_argument('--only', default=','.join(it.__name__ for it in PARTS))
    words.add_argument('--disk', default='/tmp')
    words.add_argument('--memory', default='/dev/shm')
    words.add_argument('--rounds', type=int, default=2)
    words.add_argument('--seconds', type=float, default=1)
    words.add_argument('--items', type=int, default=300_000, help='of the store whose memory is measured')
    words.add_argument('--small', action='store_true')
    WORDS = words.parse_args()
    PROGRAMS = [os.path.abspath(it) for it in WORDS.programs]
    if WORDS.small: WORDS.rounds, WORDS.seconds = 1, .3
    for part in PARTS:
        if part.__name__ in WORDS.only.split(','):
            print(f'\n## {part.__name__} ({time.strftime("%H:%M:%S")}, load {os.getloadavg()[0]:.1f})', flush=True)
            took = timed(part)
            print(f'\n{part.__name__}: {took:.0f} s', file=sys.stderr, flush=True)

if __name__ == '__main__': main()
