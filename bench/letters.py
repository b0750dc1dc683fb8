#!/usr/bin/env python3
"""Deliveries a second of short and long letters from several connections at once, over the sockets of `undomail serve`.

usage: bench/letters.py FOLDER PROGRAM..      the folder decides which disk is measured; for each PROGRAM by turns, three rounds

Each row: how many connections, octets of a letter, deliveries a second, and milliseconds of a processor that the server used for each. Each delivery is
sealed with two syncs, one after the other, before it is answered.
"""
import os, socket, subprocess, sys, tempfile, threading, time

sys.path.insert(0, os.path.dirname(os.path.abspath(__file__)))
from event import HOUSE, free_port, joined, used

def until(link, word):
    got = b''
    while not got.endswith(word + b'\r\n'):
        piece = link.recv(1 << 16)
        if not piece: sys.exit('the server closed')
        got = (got + piece)[-200:]

def sends(port, letter, count):
    with socket.create_connection(('127.0.0.1', port), timeout=300) as it:
        it.setsockopt(socket.IPPROTO_TCP, socket.TCP_NODELAY, 1)
        it.recv(4096)
        it.sendall(b'HELO x\r\n'); it.recv(4096)
        for _ in range(count):
            it.sendall(b'MAIL FROM:<a@b>\r\nRCPT TO:<ann@mail.test>\r\nDATA\r\n')
            got = b''
            while b'354' not in got: got += it.recv(4096)
            it.sendall(letter + b'\r\n.\r\n')
            it.recv(4096)

def measured(program, folder, links, octets, count):
    store, ports = os.path.join(folder, 'store'), [free_port() for _ in range(3)]
    subprocess.run([program, 'init', store], input=HOUSE, check=True)
    server = subprocess.Popen([program, 'serve', store, *map(str, ports)], stdin=subprocess.DEVNULL, stdout=subprocess.DEVNULL)
    letter = b'Subject: s\r\n\r\n' + b'\r\n'.join([b'x' * 70] * (octets // 72))
    try:
        joined(ports[1]).close()
        all_ = [threading.Thread(target=sends, args=(ports[0], letter, count)) for _ in range(links)]
        before, begun = used(server.pid), time.perf_counter()
        for it in all_: it.start()
        for it in all_: it.join()
        took, many = time.perf_counter() - begun, links * count
        print(f'{links:4} connections {octets:7} octets: {many / took:8.1f} a second, {(used(server.pid) - before) * 1000 / many:6.2f} ms', flush=True)
    finally:
        server.kill(); server.wait(); os.remove(store)

def main():
    if len(sys.argv) < 3: sys.exit(__doc__)
    for _ in range(3):
        for program in map(os.path.abspath, sys.argv[2:]):
            print(program, flush=True)
            with tempfile.TemporaryDirectory(dir=sys.argv[1]) as folder:
                for links, octets, count in ((1, 1000, 300), (50, 1000, 10), (1, 100_000, 60), (50, 100_000, 4), (100, 100_000, 2)): measured(program, folder, links, octets, count)

if __name__ == '__main__': main()
