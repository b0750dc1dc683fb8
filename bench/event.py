#!/usr/bin/env python3
"""What pipelined commands cost: as many short ones as go into 60 KB, sent in one piece over a socket of `undomail serve`, which hears 4,096 octets in one event.

usage: bench/event.py PROGRAM [-d FOLDER] [COUNT..]      COUNT: messages of the mailbox, 10000 and 100000 by default

A mailbox of so many messages is made by `init` and by deliveries that are appended to the store, as docs/FORMATS.md spells their records. Each row is a
kind of command: how many went into the piece, the octets of their answers, the seconds until the last answer was there, those in which the server used a
processor, and how long another client, who asked for a NOOP just after, waited for it. Commands that are
recorded seal an item each, with two syncs: in a memory file system (-d /dev/shm) these cost nothing, and on a disk most. One row for each kind, in this
order; the store grows meanwhile, and behind 1,024 items comes a snapshot. Below them single commands that are long: their parts, beside what they are
compared with, so that a row twice as large tells whether a command costs the product of the two.
"""
import os, socket, subprocess, sys, tempfile, threading, time

sys.path.insert(0, os.path.dirname(os.path.abspath(__file__)))
from journals import CLOSED, OPEN, delivery, text

HOUSE = b'host = "mail.test"\ndomains = ["mail.test"]\npostmaster = "ann"\n[[user]]\nname = "ann"\npassword = "a1"\n'
FIRST, OCTETS, MOST = 2, 61_440, 600
KINDS = ('CAPABILITY', 'NOOP', 'CHECK', 'STATUS INBOX (MESSAGES)', 'STATUS INBOX (UNSEEN)', 'SELECT INBOX', 'EXPUNGE', 'FETCH 1 FLAGS', 'FETCH 1 BODY.PEEK[]',
         'STORE 1 +FLAGS.SILENT (\\Flagged)', 'UID STORE 1 +FLAGS.SILENT (\\Flagged)', 'SEARCH FLAGGED', 'SEARCH UID 1', 'LIST "" *', 'COPY 1 Other', 'NOOP')

# Two messages that are appended: one of so many header fields, one of a text that repeats the front of the string that is searched.
FIELDS, LETTERS = 25_000, 200_000

def long_ones(count):
    """Single commands over the last two of the messages, or over all, and what they are."""
    for many in (1_450, 2_900, 5_800):
        ranges = b','.join(b'%d' % (4_294_900_000 + n) for n in range(many))
        yield f'SEARCH, {many} ranges of none', b'SEARCH UID ' + ranges
        yield f'UID FETCH, {many} ranges of none', b'UID FETCH ' + ranges + b' FLAGS'
    for many in (3_000, 6_000, 12_000): yield f'FETCH of {many} fields, of {FIELDS}', b'FETCH %d BODY.PEEK[HEADER.FIELDS (%s)]' % (count + 1, b' '.join([b'x'] * many))
    for many in (1_000, 2_000, 4_000): yield f'SEARCH of {many} letters, in {LETTERS}', b'SEARCH %d TEXT {%d}\r\n%sb' % (count + 2, many + 1, b'a' * many)

def filled(path, count):
    """So many deliveries to ann behind the last record."""
    with open(path, 'r+b') as out:
        out.seek(-1, 2)
        if out.read(1) != CLOSED: sys.exit("the store doesn't end with a closed gate")
        out.seek(-1, 2)
        for n in range(count): out.write(OPEN + text(delivery(FIRST + n)))
        out.write(CLOSED)

def free_port():
    with socket.socket() as it:
        it.bind(('127.0.0.1', 0))
        return it.getsockname()[1]

def used(pid):
    """Seconds of a processor."""
    with open(f'/proc/{pid}/stat') as it: fields = it.read().rsplit(')', 1)[1].split()
    return (int(fields[11]) + int(fields[12])) / os.sysconf('SC_CLK_TCK')

def memory(pid, what):
    with open(f'/proc/{pid}/status') as it: return next(int(line.split()[1]) / 1000 for line in it if line.startswith(what))

def joined(port):
    for _ in range(1200):
        try: it = socket.create_connection(('127.0.0.1', port), timeout=MOST); break
        except OSError: time.sleep(.1)
    else: sys.exit('it does not serve')
    it.setsockopt(socket.IPPROTO_TCP, socket.TCP_NODELAY, 1)
    it.recv(4096)
    return it

def answers(link, tag):
    """The octets until the line of a tag has come; nothing else is kept of them."""
    count, last = 0, b''
    while True:
        piece = link.recv(1 << 20)
        if not piece: sys.exit('the server closed')
        count, last = count + len(piece), (last + piece)[-300:]
        if last.endswith(b'\r\n') and last[:-2].rsplit(b'\r\n', 1)[-1].startswith(tag + b' '):
            if not last[:-2].rsplit(b'\r\n', 1)[-1].startswith(tag + b' OK'): sys.exit(f'refused: {last[-80:]!r}')
            return count

def asks(link, command):
    link.sendall(b'q ' + command.encode() + b'\r\n')
    return answers(link, b'q')

def pipelined(command):
    """As many of a command as go into the octets of a piece, the last under a tag of its own, and how many they are."""
    one = b'a ' + command.encode() + b'\r\n'
    many = OCTETS // len(one)
    return one * (many - 1) + b'z' + one[1:], many

def waited(other):
    asked = time.perf_counter()
    asks(other, 'NOOP')
    return time.perf_counter() - asked

def row(pid, link, other, command):
    said, many = pipelined(command)
    before, begun = used(pid), time.perf_counter()
    link.sendall(said)
    time.sleep(.002)
    waits = threading.Thread(target=lambda: times.append(waited(other)))
    times = []
    waits.start()
    octets = answers(link, b'z')
    all_ = time.perf_counter() - begun
    waits.join()
    print(f'{command:40} {many:6} {octets:10} {all_:9.3f} {used(pid) - before:9.2f} {times[0]:9.3f}', flush=True)

def long_row(pid, link, what, command):
    before, begun = used(pid), time.perf_counter()
    link.sendall(b'z ' + command + b'\r\n')
    octets = answers(link, b'z')
    print(f'{what:40} {1:6} {octets:10} {time.perf_counter() - begun:9.3f} {used(pid) - before:9.2f}', flush=True)

def measured(program, folder, count):
    store, ports = os.path.join(folder, f'store-{count}'), [free_port() for _ in range(3)]
    subprocess.run([program, 'init', store], input=HOUSE, check=True)
    filled(store, count)
    server = subprocess.Popen([program, 'serve', store, *map(str, ports)], stdin=subprocess.DEVNULL, stdout=subprocess.DEVNULL)
    try:
        link, other = joined(ports[1]), joined(ports[1])
        for it in (link, other): asks(it, 'LOGIN ann a1')
        asks(link, 'CREATE Other')
        asks(link, 'SELECT INBOX')
        print(f'{count} messages: commands, octets of answers, seconds until all are there, of a processor, and that another waits')
        for command in KINDS: row(server.pid, link, other, command)
        for body in (b'b:\r\n' * FIELDS + b'\r\n', b'a' * LETTERS): asks(link, f'APPEND INBOX {{{len(body)}}}\r\n{body.decode()}')
        for what, command in long_ones(count): long_row(server.pid, link, what, command)
        print(f'memory {memory(server.pid, "VmRSS"):.1f} MB, at most {memory(server.pid, "VmHWM"):.1f}')
    finally:
        server.kill(); server.wait(); os.remove(store)

def main():
    words, where = sys.argv[1:], None
    if '-d' in words: at = words.index('-d'); where = words[at + 1]; del words[at:at + 2]
    if not words: sys.exit(__doc__)
    with tempfile.TemporaryDirectory(dir=where) as folder:
        for count in map(int, words[1:] or ('10000', '100000')): measured(os.path.abspath(words[0]), folder, count)

if __name__ == '__main__': main()
