#!/usr/bin/env python3
"""What the largest requests for a cycle cost: of each kind as many parts as go into a quarter, a half and the whole of 4,194,304 octets.

usage: bench/requests.py PROGRAM [-d FOLDER] [KIND..]      KIND: a word of the rows that are wanted, all by default

Each is asked of `undomail serve` over a socket, over a store of its own: first as a try, then as a cycle, and then the store is opened again by `check`.
A row: the kind, its parts, the octets of the request, the seconds until each of the two answers is whole, and then processor seconds of the try, of the
cycle and of the opening (less that of the store before), beside each of which stands how often that of half as many it is (two, where it grows as the
parts do; four, where as their square). The script ends with status 1 where a whole request takes more than MOST processor seconds as a try, as a cycle or
at an opening. Use a memory file system (-d /dev/shm): a cycle is one record and two syncs, but the record is large.
"""
import os, random, resource, socket, subprocess, sys, tempfile, time

sys.path.insert(0, os.path.dirname(os.path.abspath(__file__)))
from event import HOUSE, filled, free_port, joined, used

OCTETS, FIRST, MOST, PATIENCE = 4_194_304, 2, 2, 600

def mixed(parts):
    parts = list(parts)
    random.Random(1).shuffle(parts)
    return parts

def replaced(numbers, body=b''): return [b'{"body":"%s","item":%d}' % (body, number) for number in numbers]
def aliases(numbers): return [b'{"act":"alias","local":"x%06d","users":["ann"]}' % number for number in numbers]
def filters(numbers): return [b'{"act":"filter","file":null,"name":"x%06d","needle":"n"}' % number for number in numbers]
def gifts(count): return count * [b'{"act":"give","body":"","box":"INBOX","user":"ann"}']
def removals(numbers): return [b'{"act":"remove","box":"INBOX","index":0,"item":%d,"user":"ann"}' % number for number in numbers]
def undone(what, by, numbers): return [part for number in numbers for part in (what([number])[0], by % number)]

# A kind: its name, the member of the request, how many octets each part takes with its comma, the parts of so many, how many deliveries stand in the
# store for so many parts, and the point of the cycle, where it is not 0.
KINDS = (
    ('replacements of no items, by falling numbers', b'replace', 26, lambda count: replaced(range(999_999, 999_999 - count, -1)), lambda count: 0),
    ('replacements of deliveries, by falling numbers', b'replace', 26, lambda count: replaced(range(FIRST + count - 1, FIRST - 1, -1)), lambda count: count),
    ('replacements of deliveries, mixed', b'replace', 26, lambda count: replaced(mixed(range(FIRST, FIRST + count))), lambda count: count),
    ('replacements of one delivery', b'replace', 25, lambda count: replaced([FIRST] * count, b'YQ=='), lambda count: 1),
    ('acts that set aliases, by rising names', b'insert', 50, lambda count: aliases(range(count)), lambda count: 10),
    ('acts that set aliases, by falling names', b'insert', 50, lambda count: aliases(range(count - 1, -1, -1)), lambda count: 10),
    ('acts that set aliases, mixed', b'insert', 50, lambda count: aliases(mixed(range(count))), lambda count: 10),
    ('acts that set and drop aliases', b'insert', 43, lambda count: undone(aliases, b'{"act":"unalias","local":"x%06d"}', mixed(range(count // 2))), lambda count: 10),
    ('acts that set filters, by rising names', b'insert', 59, lambda count: filters(range(count)), lambda count: 0),
    ('acts that set filters, mixed', b'insert', 59, lambda count: filters(mixed(range(count))), lambda count: 0),
    ('acts that set and drop filters', b'insert', 48, lambda count: undone(filters, b'{"act":"unfilter","name":"x%06d"}', mixed(range(count // 2))), lambda count: 0),
    ('acts that give', b'insert', 52, gifts, lambda count: 0),
    ('acts that remove, mixed', b'insert', 67, lambda count: removals(mixed(range(FIRST, FIRST + count))), lambda count: count, lambda count: FIRST + count - 1),
    ('drops of no items, mixed', b'drop', 8, lambda count: [b'%d' % number for number in mixed(range(1_000_000, 1_000_000 + count))], lambda count: 0),
    ('drops of deliveries, mixed', b'drop', 8, lambda count: [b'%d' % number for number in mixed(range(FIRST, FIRST + count))], lambda count: count),
)

def request(member, parts, point): return b'{"key":"k","point":%d,"%s":[%s]}' % (point, member, b','.join(parts))

def answered(port, route, body):
    """The answer to a POST, and the seconds until it is whole."""
    begun = time.perf_counter()
    with socket.create_connection(('127.0.0.1', port), timeout=PATIENCE) as it:
        it.sendall(b'POST %s HTTP/1.1\r\nContent-Length: %d\r\n\r\n' % (route, len(body)) + body)
        said = b''.join(iter(lambda: it.recv(1 << 20), b''))
    return said, time.perf_counter() - begun

def checked(program, store):
    before = resource.getrusage(resource.RUSAGE_CHILDREN)
    subprocess.run([program, 'check', store], stdout=subprocess.DEVNULL, check=True)
    after = resource.getrusage(resource.RUSAGE_CHILDREN)
    return after.ru_utime + after.ru_stime - before.ru_utime - before.ru_stime

def asked(program, folder, member, parts, deliveries, point):
    """The octets, the seconds until the try and the cycle are answered, and the processor seconds of both and of an opening, without that of the store before."""
    store, ports = os.path.join(folder, 'store'), [free_port() for _ in range(3)]
    subprocess.run([program, 'init', store], input=HOUSE, check=True)
    if deliveries: filled(store, deliveries)
    first, body = checked(program, store), request(member, parts, point)
    if len(body) > OCTETS: sys.exit(f'{len(body)} octets are too many')
    server = subprocess.Popen([program, 'serve', store, *map(str, ports)], stdin=subprocess.DEVNULL, stdout=subprocess.DEVNULL, stderr=subprocess.DEVNULL)
    try:
        joined(ports[1]).close()
        marks = [used(server.pid)]
        tried, of_try = answered(ports[2], b'/try', body)
        marks.append(used(server.pid))
        cycled, of_cycle = answered(ports[2], b'/cycle', body)
        marks.append(used(server.pid))
        for said in (tried, cycled):
            if not said.startswith(b'HTTP/1.1 200 '): sys.exit(f'{said[:300]}')
        if tried.split(b'\r\n\r\n', 1)[1] != cycled.split(b'\r\n\r\n', 1)[1]: sys.exit('a try and its cycle differ')
    finally:
        server.kill(); server.wait()
    last = checked(program, store)
    os.remove(store)
    return len(body), of_try, of_cycle, (marks[1] - marks[0], marks[2] - marks[1], max(last - first, 0))

def times(now, before): return f'{now:7.2f} ' + (f'{now / before:4.1f}' if before >= .02 else '   -')

def main():
    words, where = sys.argv[1:], None
    if '-d' in words: at = words.index('-d'); where = words[at + 1]; del words[at:at + 2]
    if not words: sys.exit(__doc__)
    program, wanted, slow = os.path.abspath(words[0]), words[1:], []
    print(f'{"":48} {"parts":>7} {"octets":>8} {"try":>7} {"cycle":>7} {"of try":>12} {"of cycle":>12} {"of opening":>12}')
    with tempfile.TemporaryDirectory(dir=where) as folder:
        for kind, member, size, parts, deliveries, *at in KINDS:
            if wanted and not any(word in kind for word in wanted): continue
            before = 0, 0, 0
            for part in (4, 2, 1):
                count = (OCTETS - 40) // size // part // 2 * 2
                octets, of_try, of_cycle, spent = asked(program, folder, member, parts(count), deliveries(count), at[0](count) if at else 0)
                rows = ' '.join(times(now, was) for now, was in zip(spent, before))
                print(f'{kind:48} {count:7} {octets:8} {of_try:7.2f} {of_cycle:7.2f} {rows}', flush=True)
                before = spent
            if max(before) > MOST: slow.append(kind)
    if slow: sys.exit(f'over {MOST} seconds: {", ".join(slow)}')

if __name__ == '__main__': main()
