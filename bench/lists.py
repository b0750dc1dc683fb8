#!/usr/bin/env python3
"""LIST over names in a tree: what an answer costs of 10 names, of 1,000 that stand flat, and of 1,000 that stand three deep, on an upgraded store.

usage: bench/lists.py PROGRAM [COUNT]      COUNT: how often each is asked in a round (20)

Four users of one store below /dev/shm, since a LIST is recorded, with two syncs. For each pattern the first three are asked by turns, in three rounds: milliseconds of a
processor that the program has for an answer (of each round), the names and octets of the answer, and how many times the cost of 10 names it is, by the least of each.
Then patterns that are dear to look for in 998 names of 200 octets: the milliseconds of one LIST, the least of three.
"""
import os, signal, socket, sys, tempfile

TOP = os.path.dirname(os.path.dirname(os.path.abspath(__file__)))
sys.dont_write_bytecode = True
sys.path.insert(0, os.path.join(TOP, 'tests'))
import stores  # noqa: E402
from stores import Store, Wrong  # noqa: E402

TREES = {
    'few': [f'Folder{n}' for n in range(8)],                                                               # and the two that each user has
    'flat': [f'Folder{n}' for n in range(998)],
    'deep': [f'Work{a}/Year{b}/Month{c}' for a in range(10) for b in range(10) for c in range(9)][:888],   # 10 tops, 100 below them
    'long': [f'{n:03}' + 'a' * 197 for n in range(998)],
}
ALL = 'LIST "" *'
PATTERNS = ['%', '%/%', '%/%/%', '*', '""', 'Work3/%', 'Work3/Year3/%', '*/%/*', '%h8']
WORST = ['*', '%', '*a*b', '*a' * 20 + 'b', '*a' * 199 + 'b', '%a' * 199 + 'b', '*%' * 30000 + 'b']   # what has more letters than a name is not looked for in it

class Reader:
    def __init__(self, store, user):
        self.link = socket.create_connection(('127.0.0.1', store.imap), timeout=1200)
        self.link.setsockopt(socket.IPPROTO_TCP, socket.TCP_NODELAY, 1)
        self.link.recv(100)
        self.asks(f'LOGIN {user} pw')
    def asks(self, *commands):
        self.link.sendall(b''.join(b'a %s\r\n' % it.encode() for it in commands))
        got, count = [], 0
        while count < len(commands):
            got.append(self.link.recv(1 << 18))
            count += got[-1].count(b' done.\r\n')
            if b'\r\na NO' in got[-1] or b'\r\na BAD' in got[-1] or not got[-1]: raise Wrong(f'{commands[0]}: {got[-1][-200:]}')
        return b''.join(got)

def own(pid):
    """Milliseconds of a processor that a program has had."""
    return int(open(f'/proc/{pid}/schedstat').read().split()[0]) / 1e6

def cost(store, it, pattern, count):
    """Of one LIST, asked so often: the program's milliseconds, and what it answers."""
    begun = own(store.process.pid)
    for _ in range(count): said = it.asks(f'LIST "" {pattern}')
    return (own(store.process.pid) - begun) / count, said

def makes(store, user):
    it, names = Reader(store, user), TREES[user]
    for at in range(0, len(names), 50): it.asks(*(f'CREATE {name}' for name in names[at:at + 50]))
    print(f'{user}: {it.asks(ALL).count(b"* LIST ")} names', flush=True)

def by_turns(store, count):
    them = {user: Reader(store, user) for user in ('few', 'flat', 'deep')}
    for pattern in PATTERNS:
        took, said = {user: [] for user in them}, {}
        for _ in range(3):
            for user, it in them.items():
                one, said[user] = cost(store, it, pattern, count)
                took[user].append(one)
        print(f'LIST "" {pattern}: ' + '; '.join(f'{user} {", ".join(f"{it:.2f}" for it in took[user])} ms, {said[user].count(b"* LIST ")} names, {len(said[user]):,} octets, {min(took[user]) / min(took["few"]):.1f} times' for user in them), flush=True)

def worst(store):
    it = Reader(store, 'long')
    for pattern in WORST:
        took, said = zip(*(cost(store, it, pattern, 1) for _ in range(3)))
        print(f'998 names of 200 octets, a pattern of {len(pattern):,}, {pattern[:6]}: {min(took):.1f} ms, {said[0].count(b"* LIST ")} names', flush=True)

def main():
    if len(sys.argv) < 2: sys.exit(__doc__)
    stores.PROGRAM, count = os.path.abspath(sys.argv[1]), int(sys.argv[2]) if len(sys.argv) > 2 else 20
    with tempfile.TemporaryDirectory(prefix='lists-', dir='/dev/shm') as folder:
        store = Store(folder, text=stores.house([(name, 'pw') for name in TREES]).replace('"ann"', '"few"').replace('"bob"', '"flat"')).start()
        try:
            store.asks('/upgrade', {})
            for user in TREES: makes(store, user)
            by_turns(store, count)
            worst(store)
        finally: store.kill()

if __name__ == '__main__':
    signal.signal(signal.SIGTERM, lambda *_: sys.exit(143))   # so that what was started is stopped
    main()
