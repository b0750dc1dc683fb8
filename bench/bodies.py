#!/usr/bin/env python3
"""What bench/bodies.sh runs.

Usage: bodies.py [-d FOLDER] [-n COUNT] PROGRAM ..
"""
import argparse
import http.client
import os
import resource
import socket
import subprocess
import sys
import tempfile
import threading
import time

HOUSE = b"""host = "mail.test"
domains = ["mail.test"]
postmaster = "ann"
[[user]]
name = "ann"
password = "a1"
"""
OCTETS = 10000
LINE = b"A line of ninety-eight octets, as it stands in a letter that somebody wrote and sent to ann today.\r\n"
MESSAGE = (b"Subject: hello\r\n\r\n" + LINE * (OCTETS // len(LINE) + 1))[: OCTETS - 2] + b"\r\n"
LOOPBACK = "127.0.0.1"
FETCHED, ROUNDS, SENDERS = 1000, 5, 8


def free_ports(count):
    sockets = [socket.create_server((LOOPBACK, 0)) for _ in range(count)]
    ports = [s.getsockname()[1] for s in sockets]
    for s in sockets:
        s.close()
    return ports


class Server:
    """A served store, until the block ends with `/stop`."""

    def __init__(self, program, store):
        self.smtp, self.imap, self.http = free_ports(3)
        start = time.monotonic()
        self.process = subprocess.Popen([program, "serve", store, str(self.smtp), str(self.imap), str(self.http)])
        while True:
            try:
                client = socket.create_connection((LOOPBACK, self.smtp))
                break
            except ConnectionRefusedError:
                if self.process.poll() is not None or time.monotonic() > start + 600:
                    sys.exit("the server does not listen")
                time.sleep(0.02)
        # It listens before the store is open, and greets afterwards.
        client.recv(1)
        client.close()
        self.opening = time.monotonic() - start

    def __enter__(self):
        return self

    def __exit__(self, *_):
        try:
            console = http.client.HTTPConnection(LOOPBACK, self.http)
            console.request("POST", "/stop")
            console.getresponse().read()
            if self.process.wait(120):
                sys.exit(f"the server ends with {self.process.returncode}")
        finally:
            self.process.kill()

    def memory(self):
        """Memory now and at most, in MB."""
        with open(f"/proc/{self.process.pid}/status") as status:
            found = dict(line.split(":", 1) for line in status)
        return tuple(int(found[name].split()[0]) * 1024 / 1e6 for name in ("VmRSS", "VmHWM"))


class Client:
    def __init__(self, port):
        self.socket = socket.create_connection((LOOPBACK, port))
        self.socket.setsockopt(socket.IPPROTO_TCP, socket.TCP_NODELAY, 1)
        self.lines = self.socket.makefile("rb")

    def ask(self, octets, answers, good):
        self.socket.sendall(octets)
        for _ in range(answers):
            line = self.lines.readline()
        if not line.startswith(good):
            sys.exit(f"the server says {line!r}")


def send(port, count):
    client = Client(port)
    client.ask(b"HELO client.test\r\n", 2, b"250")
    for _ in range(count):
        client.ask(b"MAIL FROM:<joe@far.test>\r\nRCPT TO:<ann@mail.test>\r\nDATA\r\n", 3, b"354")
        client.ask(MESSAGE + b".\r\n", 1, b"250")
    client.socket.close()


def deliver(server, count):
    """Deliveries a second over several connections."""
    start = time.monotonic()
    senders = [threading.Thread(target=send, args=(server.smtp, count // SENDERS)) for _ in range(SENDERS)]
    for sender in senders:
        sender.start()
    for sender in senders:
        sender.join()
    return count / (time.monotonic() - start)


def fetch(server):
    """A FETCH of whole messages, in MB a second; the answer is not read apart."""
    client = Client(server.imap)
    for command in (b"a LOGIN ann a1\r\n", b"b SELECT INBOX\r\n"):
        client.socket.sendall(command)
        until(client.socket, command[:1] + b" OK")
    start = time.monotonic()
    client.socket.sendall(b"c FETCH 1:%d (BODY.PEEK[])\r\n" % FETCHED)
    octets = until(client.socket, b"c OK")
    seconds = time.monotonic() - start
    client.socket.close()
    if octets < FETCHED * OCTETS:
        sys.exit(f"only {octets} octets came")
    return octets / seconds / 1e6


def until(client, mark):
    """Reads through the line that begins with the mark; gives how many octets came."""
    octets, tail = 0, b"\r\n"
    while True:
        piece = client.recv(1 << 20)
        if not piece:
            sys.exit("the server closed")
        octets += len(piece)
        tail = (tail + piece)[-4096:]
        if b"\r\n" + mark in tail and tail.endswith(b"\r\n"):
            return octets


def check(program, store):
    """`check` of a store: MB a second, and its memory at most in MB. It ends before this process has another child."""
    start = time.monotonic()
    process = subprocess.Popen([program, "check", store], stdout=subprocess.DEVNULL)
    _, status, used = os.wait4(process.pid, 0)
    process.returncode = os.waitstatus_to_exitcode(status)
    if process.returncode:
        sys.exit(f"check ends with {process.returncode}")
    return os.path.getsize(store) / (time.monotonic() - start) / 1e6, used.ru_maxrss * 1024 / 1e6


def read(store):
    """The file read once, in MB a second."""
    start = time.monotonic()
    with open(store, "rb", buffering=0) as file:
        while file.read(1 << 20):
            pass
    return os.path.getsize(store) / (time.monotonic() - start) / 1e6


def row(name, values, unit):
    parts = "".join(f"  {value / values[0]:5.2f}x" for value in values[1:])
    print(f"{name:48}" + "".join(f"{value:10.1f}" for value in values) + f"  {unit}{parts}", flush=True)


def best(name, measures, unit):
    """The best of some rounds; in each round every program has its turn."""
    rounds = [[measure() for measure in measures] for _ in range(ROUNDS)]
    row(name, [max(it[n] for it in rounds) for n in range(len(measures))], unit)


def main():
    words = argparse.ArgumentParser()
    words.add_argument("-d", dest="folder")
    words.add_argument("-n", dest="count", type=int, default=100000)
    words.add_argument("programs", nargs="+")
    asked = words.parse_args()
    programs = [os.path.abspath(it) for it in asked.programs]
    limit = resource.getrlimit(resource.RLIMIT_NOFILE)[1]
    resource.setrlimit(resource.RLIMIT_NOFILE, (min(4096, limit), limit))
    with tempfile.TemporaryDirectory(dir=asked.folder) as folder:
        stores = [os.path.join(folder, f"store-{n}") for n in range(len(programs))]
        for program, store in zip(programs, stores):
            subprocess.run([program, "init", store], input=HOUSE, check=True)
        print(f"{asked.count} deliveries of {len(MESSAGE)} octets; " + ", ".join(programs))
        told = []
        for program, store in zip(programs, stores):
            with Server(program, store) as server:
                rate = deliver(server, asked.count)
                told.append((rate, *server.memory()))
        row("deliveries a second, all of them", [it[0] for it in told], "1/s")
        row("memory after them", [it[1] for it in told], "MB")
        row("memory at most", [it[2] for it in told], "MB")
        opened = []
        for program, store in zip(programs, stores):
            with Server(program, store) as server:
                opened.append((server.opening, *server.memory()))
        row("opening the store again", [it[0] for it in opened], "s")
        row("memory after it", [it[1] for it in opened], "MB")
        row("memory at most", [it[2] for it in opened], "MB")
        servers = []
        try:
            for program, store in zip(programs, stores):
                servers.append(Server(program, store).__enter__())
            best(f"FETCH of {FETCHED} whole messages", [lambda it=it: fetch(it) for it in servers], "MB/s")
            few = max(SENDERS, asked.count // 50)
            best(f"deliveries a second, {few} in a round", [lambda it=it: deliver(it, few) for it in servers], "1/s")
        finally:
            for server in servers:
                server.__exit__()
        print(f"a store of {os.path.getsize(stores[0]) / 1e6:.0f} MB")
        checked = [check(program, store) for program, store in zip(programs, stores)]
        row("check", [it[0] for it in checked], "MB/s")
        row("memory of check at most", [it[1] for it in checked], "MB")
        best("the file read once", [lambda it=it: read(it) for it in stores], "MB/s")


main()
