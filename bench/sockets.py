#!/usr/bin/env python3
"""Measures `undomail serve` over real sockets: deliveries a second from one and from eight connections, beside what the
disk allows; a FETCH of 10,000 messages; processor use and memory of an idle server with 0 and with 1,000 connections.

Usage: bench/sockets.py PROGRAM [FOLDER] (the built program, as `rt run` in crates/undomail leaves it under out/; the
folder, where the store is made, decides which disk is measured)
"""
import http.client
import imaplib
import os
import resource
import smtplib
import socket
import subprocess
import sys
import tempfile
import threading
import time

HOUSE = b"""host = "mail.test"
domains = ["mail.test"]
postmaster = "ann"
[[user]]
name = "ann"
password = "a1"
"""
MESSAGE = b"Subject: hello\r\n\r\n" + b"A line of some fifty octets, as in a short letter.\r\n" * 20
LOOPBACK = "127.0.0.1"


def free_ports(count):
    sockets = [socket.create_server((LOOPBACK, 0)) for _ in range(count)]
    ports = [s.getsockname()[1] for s in sockets]
    for s in sockets:
        s.close()
    return ports


class Server:
    """A served store, until the block ends with `/stop`."""

    def __init__(self, program, store):
        self.smtp, self.imap, self.http = free_ports(3)
        words = [program, "serve", store, str(self.smtp), str(self.imap), str(self.http)]
        self.process = subprocess.Popen(words)
        for _ in range(600):
            try:
                socket.create_connection((LOOPBACK, self.smtp)).close()
                return
            except ConnectionRefusedError:
                time.sleep(0.1)
        sys.exit("the server does not listen")

    def __enter__(self):
        return self

    def __exit__(self, *_):
        try:
            console = http.client.HTTPConnection(LOOPBACK, self.http)
            console.request("POST", "/stop")
            print("stop:", console.getresponse().read().decode(), "status", self.process.wait(60))
        finally:
            self.process.kill()

    def processor_seconds(self):
        with open(f"/proc/{self.process.pid}/stat") as stat:
            fields = stat.read().rsplit(")", 1)[1].split()
        return (int(fields[11]) + int(fields[12])) / os.sysconf("SC_CLK_TCK")

    def memory(self):
        with open(f"/proc/{self.process.pid}/status") as status:
            return next(line for line in status if line.startswith("VmRSS")).split()[1]


def send(port, count):
    with smtplib.SMTP(LOOPBACK, port) as client:
        for _ in range(count):
            client.sendmail("joe@far.test", ["ann@mail.test"], MESSAGE)


def deliveries(server, connections, each):
    start = time.monotonic()
    senders = [threading.Thread(target=send, args=(server.smtp, each)) for _ in range(connections)]
    for sender in senders:
        sender.start()
    for sender in senders:
        sender.join()
    seconds = time.monotonic() - start
    print(f"{connections} connections: {connections * each / seconds:.0f} deliveries a second")


def seals(folder, seconds=3.0):
    """Two writes and two syncs for each record, as a seal makes them."""
    path = os.path.join(folder, "seals")
    file = os.open(path, os.O_RDWR | os.O_CREAT)
    record, count, place, start = b"m" * (len(MESSAGE) + 200), 0, 0, time.monotonic()
    while time.monotonic() < start + seconds:
        os.pwrite(file, record, place + 1)
        os.fsync(file)
        os.pwrite(file, b"U", place)
        os.fsync(file)
        place += len(record)
        count += 1
    os.close(file)
    os.unlink(path)
    print(f"the disk: {count / (time.monotonic() - start):.0f} records a second, each of two writes and two syncs")


def fetch(server, rounds=3):
    client = imaplib.IMAP4(LOOPBACK, server.imap)
    client.login("ann", "a1")
    count = int(client.select()[1][0])
    for _ in range(rounds):
        start = time.monotonic()
        answer = client.fetch("1:*", "(BODY.PEEK[])")[1]
        seconds = time.monotonic() - start
        octets = sum(len(part[1]) for part in answer if isinstance(part, tuple))
        print(f"FETCH of {count} messages by imaplib: {octets / seconds / 1e6:.1f} MB/s ({octets} octets)")
    fetch_plain(server, rounds)
    client.logout()


def fetch_plain(server, rounds):
    """The same without a library's reading of the answer."""
    client = socket.create_connection((LOOPBACK, server.imap))
    client.recv(65536)
    for command in (b"a LOGIN ann a1\r\n", b"b SELECT INBOX\r\n"):
        client.sendall(command)
        until(client, command[:1] + b" OK")
    for _ in range(rounds):
        start = time.monotonic()
        client.sendall(b"c FETCH 1:* (BODY.PEEK[])\r\n")
        octets = until(client, b"c OK")
        seconds = time.monotonic() - start
        print(f"the same by a plain socket: {octets / seconds / 1e6:.1f} MB/s ({octets} octets)")
    client.close()


def until(client, mark):
    """Reads through the line that begins with the mark; gives how many octets came."""
    octets, tail = 0, b"\r\n"
    while True:
        piece = client.recv(1 << 20)
        if not piece:
            sys.exit("the server closed")
        octets += len(piece)
        tail = (tail + piece)[-4096:]
        if b"\r\n" + mark in tail and tail.endswith(b"\r\n"):
            return octets


def idle(server, connections, seconds=10):
    clients = [socket.create_connection((LOOPBACK, server.imap)) for _ in range(connections)]
    for client in clients:
        client.recv(65536)
    time.sleep(1)
    before = server.processor_seconds()
    time.sleep(seconds)
    used = server.processor_seconds() - before
    print(f"idle with {connections} connections: {100 * used / seconds:.1f}% of a processor, {server.memory()} kB")
    for client in clients:
        client.close()
    time.sleep(1)


def main():
    program = os.path.abspath(sys.argv[1])
    limit = resource.getrlimit(resource.RLIMIT_NOFILE)[1]
    resource.setrlimit(resource.RLIMIT_NOFILE, (min(4096, limit), limit))
    with tempfile.TemporaryDirectory(dir=sys.argv[2] if len(sys.argv) > 2 else None) as folder:
        store = os.path.join(folder, "store")
        subprocess.run([program, "init", store], input=HOUSE, check=True)
        with Server(program, store) as server:
            seals(folder)
            deliveries(server, 1, 500)
            deliveries(server, 8, 250)
            seals(folder)
            idle(server, 0)
            idle(server, 1000)
        many = os.path.join(folder, "many")
        subprocess.run([program, "init", many], input=HOUSE, check=True)
        journals = os.path.join(os.path.dirname(os.path.abspath(__file__)), "journals.py")
        subprocess.run([journals, many, "2", "10000"], check=True)
        with Server(program, many) as server:
            fetch(server)


main()
