#!/usr/bin/env python3
"""What GET /timeline costs over items that show much, and what an act costs over a large table of aliases.

usage: bench/tables.py PROGRAM..      for each PROGRAM by turns, three rounds

First a store of 2,000 deliveries and behind them 1,000 FETCHes of each of them, as docs/FORMATS.md spells their records: milliseconds from the request
`GET /timeline/2000` to the end of its answer, over a socket, and how much more memory the server had at its most than before. Then processor seconds of
`play` with so many acts, each of which sets an alias that was not there.
"""
import os, resource, subprocess, sys, tempfile, time, socket

sys.path.insert(0, os.path.dirname(os.path.abspath(__file__)))
from event import HOUSE, free_port, joined, memory
from stores import FIRST, fetch, written

MESSAGES, ITEMS = 2_000, 1_000

def timeline(program, folder):
    store, ports = os.path.join(folder, 'store'), [free_port() for _ in range(3)]
    subprocess.run([program, 'init', store], input=HOUSE, check=True)
    written(store, MESSAGES, [fetch(FIRST + MESSAGES + n, range(FIRST, FIRST + MESSAGES)) for n in range(ITEMS)])
    server = subprocess.Popen([program, 'serve', store, *map(str, ports)], stdin=subprocess.DEVNULL, stdout=subprocess.DEVNULL)
    try:
        joined(ports[1]).close()
        before = memory(server.pid, 'VmHWM')
        begun = time.perf_counter()
        with socket.create_connection(('127.0.0.1', ports[2]), timeout=60) as it:
            it.sendall(b'GET /timeline/%d HTTP/1.1\r\n\r\n' % MESSAGES)
            octets = len(b''.join(iter(lambda: it.recv(1 << 20), b'')))
        print(f'GET /timeline of {ITEMS} FETCHes of {MESSAGES} messages: {(time.perf_counter() - begun) * 1000:.1f} ms, {memory(server.pid, "VmHWM") - before:.1f} MB, {octets} octets', flush=True)
    finally:
        server.kill(); server.wait(); os.remove(store)

def acts(program, folder, count):
    house, script = os.path.join(folder, 'house'), ['at 1105092000']
    for n in range(count):
        body = '{"act":"alias","local":"x%d","users":["ann"]}' % n
        script += ['open 9 http', f'data 9 POST /act HTTP/1.1~r~nContent-Length: {len(body)}~r~n~r~n{body}']
    before = resource.getrusage(resource.RUSAGE_CHILDREN)
    done = subprocess.run([program, 'play'], input='\n'.join(script + ['']).encode(), stdout=subprocess.PIPE, check=True)
    after = resource.getrusage(resource.RUSAGE_CHILDREN)
    if done.stdout.count(b'200 OK') != count: sys.exit(f'{done.stdout[-300:]}')
    print(f'{count} acts that set an alias: {after.ru_utime + after.ru_stime - before.ru_utime - before.ru_stime:.2f} s', flush=True)

def main():
    if len(sys.argv) < 2: sys.exit(__doc__)
    for _ in range(3):
        for program in map(os.path.abspath, sys.argv[1:]):
            print(program, flush=True)
            with tempfile.TemporaryDirectory(dir='/dev/shm') as folder:
                timeline(program, folder)
                for count in (1000, 2000, 4000): acts(program, folder, count)

if __name__ == '__main__': main()
