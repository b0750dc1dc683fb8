#!/usr/bin/env python3
"""Times withdrawals of cycles beside these cycles, and finds what a cycle keeps so that it can be withdrawn.

usage: bench/withdraw.py [-d FOLDER] [-n ITEMS] [-r ROUNDS] PROGRAM..

A store has so many items (100,000) of three users: of ten, five deliveries, a read, a copy, marks, an expunge and a count, with the snapshots that are
taken by themselves. Cycles are at its last item, 1,000 items before its end, and at the beginning, each with an act that comes in. Processor seconds of
a run of `script` with so many cycles, each followed by its withdrawal, less those with the cycles alone, which are those less a run without any: the
least of so many rounds (3). Memory is what a server holds (VmRSS) behind a cycle and behind its withdrawal, less what it held when it had opened the store,
and the most that it held, by octets for each item of the store. The stores are made in FOLDER (/dev/shm). Prints tables for docs/SPEED.md; a program
that knows no withdrawal has `-` there.
"""
import argparse, contextlib, json, os, re, shutil, socket, subprocess, sys, tempfile, time

HOUSE = os.path.join(os.path.dirname(os.path.dirname(os.path.abspath(__file__))), 'examples', 'house.toml')
USERS = ('ann', 'a1'), ('bob', 'b2'), ('carl', 'c3')
PLACES = ('the last item', 20, lambda numbers: numbers[-1]), ('1,000 items before the end', 10, lambda numbers: numbers[max(-len(numbers), -1001)]), ('the beginning', 2, lambda numbers: 0)

def day(items):
    """The lines of a day of so many items behind the first six, ten of which are a round."""
    lines = ['at 1105092000', 'open 1 smtp', 'line 1 HELO client.test']
    for conn, (user, password) in enumerate(USERS, 2):
        lines += [f'open {conn} imap', f'line {conn} a LOGIN {user} {password}', f'line {conn} b CREATE Keep', f'line {conn} c SELECT INBOX']
    for round in range(items // 10):
        conn, uid = round % 3 + 2, round // 3 * 5
        lines += ['line 1 MAIL FROM:<joe@far.test>', f'line 1 RCPT TO:<{USERS[conn - 2][0]}@mail.test>', 'line 1 DATA', f'line 1 Subject: round {round}', 'line 1', 'fill 1 10 60', 'line 1 .'] * 5
        lines += [f'line {conn} d NOOP', f'line {conn} e UID FETCH {uid + 5} (FLAGS BODY.PEEK[])', f'line {conn} f UID COPY {uid + 5} Keep',
                  f'line {conn} g UID STORE {uid + 1}:{uid + 4} +FLAGS.SILENT (\\Deleted)', f'line {conn} h EXPUNGE', f'line {conn} i STATUS Keep (MESSAGES)']
    return lines

def posted(conn, path, asked):
    body = json.dumps(asked, separators=(',', ':'))
    return [f'open {conn} http', f'data {conn} POST {path} HTTP/1.1~r~nContent-Length: {len(body)}~r~n~r~n{body}']

ACT = {'act': 'alias', 'local': 'desk', 'users': ['carl']}

def asked(point, times, following, taken_back):
    """So many cycles at a point, each with an act that comes in, and each taken back or none."""
    lines = ['at 1105092000']
    for n in range(times):
        lines += posted(9, '/cycle', {'insert': [ACT], 'key': f'k{n}', 'point': point})
        if taken_back: lines += posted(9, '/withdraw', {'key': f'w{n}', 'of': following})
        following += 3 if taken_back else 2   # the cycle and its act, and the withdrawal; nobody is told anything
    return lines

def made(program, folder, items):
    """A store of so many items, the numbers of which go from 2 on."""
    store, given = os.path.join(folder, 'store'), os.path.join(folder, 'day')
    if os.path.exists(store): os.remove(store)
    with open(HOUSE, 'rb') as house: subprocess.run([program, 'init', store], stdin=house, check=True)
    with open(given, 'w') as out: out.write('\n'.join(day(items)) + '\n')
    with open(given, 'rb') as said: subprocess.run([program, 'script', store], stdin=said, stdout=subprocess.DEVNULL, check=True)
    told = subprocess.run([program, 'check', store], stdout=subprocess.PIPE, check=True).stdout.decode()
    return store, int(re.search(r'items (\d+)', told)[1]), int(re.search(r'next (\d+)', told)[1])

def spent(program, store, lines, answers):
    """Processor seconds of a run over a copy of the store; none where it does not answer so many requests with 200."""
    copy, given, told = store + '.copy', store + '.given', store + '.told'
    shutil.copyfile(store, copy)
    with open(given, 'w') as out: out.write('\n'.join(lines) + '\n')
    with open(given, 'rb') as said, open(told, 'wb') as out:
        run = subprocess.Popen([program, 'script', copy], stdin=said, stdout=out)
        _, status, used = os.wait4(run.pid, 0)
    if status: sys.exit(f'{program}: status {status >> 8}')
    with open(told, 'rb') as it:
        if it.read().count(b'HTTP/1.1 200 OK') != answers: return None
    return used.ru_utime + used.ru_stime

def least(program, store, lines, answers):
    found = [spent(program, store, lines, answers) for _ in range(words.rounds)]
    return None if None in found else min(found)

# ---- what a server holds

class Server:
    def __init__(self, program, store):
        copy = store + '.copy'
        shutil.copyfile(store, copy)
        with contextlib.ExitStack() as stack:
            ports = [stack.enter_context(socket.create_server(('127.0.0.1', 0))).getsockname()[1] for _ in range(3)]
        self.port = ports[2]
        self.process = subprocess.Popen([program, 'serve', copy, *map(str, ports)], stdin=subprocess.DEVNULL, stdout=subprocess.DEVNULL, stderr=subprocess.DEVNULL)
        while True:
            with contextlib.suppress(OSError), socket.create_connection(('127.0.0.1', self.port)): break
            if self.process.poll() is not None: sys.exit(f'{program}: the server ends with {self.process.returncode}')
            time.sleep(.05)
    def post(self, path, asked):
        body = json.dumps(asked).encode()
        with socket.create_connection(('127.0.0.1', self.port)) as link:
            link.sendall(b'POST %b HTTP/1.1\r\nContent-Length: %d\r\n\r\n%b' % (path.encode(), len(body), body))
            said = b''.join(iter(lambda: link.recv(65536), b''))
        return said.startswith(b'HTTP/1.1 200 ')
    def holds(self, name):
        with open(f'/proc/{self.process.pid}/status') as it: return int(re.search(rf'{name}:\s*(\d+) kB', it.read())[1]) * 1024
    def __enter__(self): return self
    def __exit__(self, *_):
        self.post('/stop', {})
        self.process.wait()

def held(program, store, point, following, items):
    """What is held behind a cycle, behind its withdrawal, and at most, by octets for each item."""
    with Server(program, store) as it:
        opened = it.holds('VmRSS')
        if not it.post('/cycle', {'insert': [ACT], 'key': 'k', 'point': point}): sys.exit('the cycle is refused')
        behind = it.holds('VmRSS')
        back = it.post('/withdraw', {'key': 'w', 'of': following})
        return [(now - opened) / items for now in (behind, it.holds('VmRSS') if back else None, it.holds('VmHWM')) if now is not None], back

def shown(value, form): return '-' if value is None else form % value

def main():
    global words
    words = argparse.ArgumentParser(description=__doc__, formatter_class=argparse.RawDescriptionHelpFormatter)
    words.add_argument('-d', dest='folder', default='/dev/shm')
    words.add_argument('-n', dest='items', type=int, default=100_000)
    words.add_argument('-r', dest='rounds', type=int, default=3)
    words.add_argument('programs', nargs='+')
    words = words.parse_args()
    with tempfile.TemporaryDirectory(dir=words.folder) as folder:
        for program in map(os.path.abspath, words.programs):
            store, items, following = made(program, folder, words.items)
            numbers = range(2, following)
            none = least(program, store, ['at 1105092000'], 0)
            print(f'{items:,} items, {os.path.getsize(store):,} octets; opened in {none:.2f} s\n\n| A cycle at | it takes | its withdrawal | of the cycle |\n|---|---|---|---|', flush=True)
            for name, times, place in PLACES:
                cycles = (least(program, store, asked(place(numbers), times, following, False), times) - none) / times
                both = least(program, store, asked(place(numbers), times, following, True), 2 * times)
                back = None if both is None else (both - none) / times - cycles
                print(f'| {name} | {cycles * 1000:.1f} ms | {shown(back and back * 1000, "%.1f ms")} | {shown(back and back / cycles, "%.2f")} |', flush=True)
            print('\n| Octets for each item, more than when it was opened | behind the cycle | behind its withdrawal | at most |\n|---|---|---|---|')
            for name, _, place in PLACES:
                found, back = held(program, store, place(numbers), following, items)
                print(f'| {name} | {found[0]:.1f} | {shown(found[1] if back else None, "%.1f")} | {found[-1]:.1f} |', flush=True)

main()
