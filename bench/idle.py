#!/usr/bin/env python3
"""What an idle `undomail serve` uses of a processor, with so many connections that say nothing (half of SMTP, half of IMAP).

usage: bench/idle.py PROGRAM [CONNECTIONS]      500 by default; shares over 5, 20, 40, 20 and 20 seconds, one behind the other
"""
import os, socket, subprocess, sys, tempfile, time

HOUSE = b'host = "mail.test"\ndomains = ["mail.test"]\npostmaster = "ann"\n[[user]]\nname = "ann"\npassword = "a1"\n'

def free_port():
    with socket.socket() as it:
        it.bind(('127.0.0.1', 0))
        return it.getsockname()[1]

def used(pid):
    with open(f'/proc/{pid}/stat') as f: fields = f.read().rsplit(')', 1)[1].split()
    return (int(fields[11]) + int(fields[12])) / os.sysconf('SC_CLK_TCK')

def main():
    if len(sys.argv) < 2: sys.exit(__doc__)
    program, count = sys.argv[1], int(sys.argv[2]) if len(sys.argv) > 2 else 500
    with tempfile.TemporaryDirectory() as folder:
        store, ports = folder + '/store', [free_port() for _ in range(3)]
        subprocess.run([program, 'init', store], input=HOUSE, check=True)
        server = subprocess.Popen([program, 'serve', store, *map(str, ports)])
        try:
            time.sleep(1)
            held = [socket.create_connection(('127.0.0.1', ports[n % 2])) for n in range(count)]
            time.sleep(2)
            for seconds in (5, 20, 40, 20, 20):
                start, before = time.time(), used(server.pid)
                time.sleep(seconds)
                print(f'{seconds:2} s: {100 * (used(server.pid) - before) / (time.time() - start):.2f}% of a processor ({len(held)} connections)', flush=True)
        finally: server.kill()

main()
