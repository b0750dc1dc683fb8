"""The console of a running server: one request a connection; and the items in force, read by pages."""
from __future__ import annotations

import collections
import dataclasses
import json
import re
import socket
import time
from typing import Any, Callable, Iterable, Iterator, NamedTuple, Optional

from .formats import LARGEST_REQUEST, LAST_NUMBER, PAGE_OF_ITEMS
from .troubles import DISK_FAULT, NO_MEMORY, NO_SERVER, NOTHING_FOUND, REFUSED, Trouble


class Answer(NamedTuple):
    status: int
    body: bytes

    def json(self) -> Any:
        try:
            return json.loads(self.body)
        except ValueError:
            raise Trouble(NO_SERVER, 'What answers at this port is no Undomail console: its answer is no JSON.') from None


class Console:
    """The console of a running server: one request a connection, at a port of 127.0.0.1 or at a Unix socket."""

    AHEAD = 16  # requests that are under way at a time where many are sent: so many answers the server may have to hold

    def __init__(self, port: int, patience: float = 600.0, tell: Callable[[str], None] = lambda said: None, path: Optional[str] = None) -> None:
        self.port, self.patience, self.tell, self.path = port, patience, tell, path
        self.where = f'127.0.0.1:{port}' if path is None else path

    def get(self, path: str) -> Answer:
        return self._received(self._sent('GET', path, b''), f'GET {path}')

    def post(self, path: str, body: bytes) -> Answer:
        return self._received(self._sent('POST', path, body), f'POST {path}')

    def get_each(self, paths: Iterable[str]) -> Iterator[Answer]:
        """The answers of many requests, in order. A few are sent ahead, so that none waits for the one before it."""
        waiting: collections.deque[tuple[socket.socket, str]] = collections.deque()
        try:
            for path in paths:
                waiting.append((self._sent('GET', path, b''), path))
                if len(waiting) == self.AHEAD:
                    link, asked = waiting.popleft()
                    yield self._received(link, f'GET {asked}')
            while waiting:
                link, asked = waiting.popleft()
                yield self._received(link, f'GET {asked}')
        finally:
            for link, _ in waiting:
                link.close()

    def _sent(self, method: str, path: str, body: bytes) -> socket.socket:
        host = f'127.0.0.1:{self.port}' if self.path is None else 'localhost'
        head = f'{method} {path} HTTP/1.1\r\nHost: {host}\r\nContent-Length: {len(body)}\r\n\r\n'
        link = socket.socket(socket.AF_INET if self.path is None else socket.AF_UNIX, socket.SOCK_STREAM)
        link.settimeout(min(20.0, self.patience))
        try:
            link.connect(('127.0.0.1', self.port) if self.path is None else self.path)
        except OSError as fault:
            link.close()
            asks = 'Is `undomail serve` running, and is this its third port?' if self.path is None else 'Is the service running, and may you use its socket?'
            raise Trouble(NO_SERVER, f'No server answers at {self.where} ({fault.strerror or fault}). {asks}') from None
        try:
            link.settimeout(self.patience)
            link.sendall(head.encode('ascii') + body)
        except OSError:
            pass  # it may have answered already and closed: what it said is read in _received
        return link

    def _received(self, link: socket.socket, asked: str) -> Answer:
        """Reads to the end; while it waits it tells how long."""
        pieces: list[bytes] = []
        came, began = 0, time.monotonic()
        link.settimeout(1.0)
        with link:
            while True:
                try:
                    piece = link.recv(1 << 18)
                except socket.timeout:
                    waited = time.monotonic() - began
                    if waited > self.patience:
                        raise Trouble(NO_SERVER, f'The server did not answer {asked} within {self.patience:.0f} seconds.') from None
                    self.tell(f'{asked}: {waited:.0f} s, {came:,} octets')
                    continue
                except OSError:
                    piece = b''
                if not piece:
                    return self._read(b''.join(pieces), asked)
                pieces.append(piece)
                came += len(piece)

    def _read(self, whole: bytes, asked: str) -> Answer:
        if not whole:
            raise Trouble(NO_SERVER, f'The server closed the connection without an answer to {asked}. It may have stopped.')
        head, _, body = whole.partition(b'\r\n\r\n')
        first = re.match(rb'HTTP/1\.1 (\d{3}) ', head)
        length = re.search(rb'(?i)\r\ncontent-length: (\d+)', head)
        if not first or not length:
            raise Trouble(NO_SERVER, f'What answers at {self.where} is no Undomail console.')
        if len(body) != int(length[1]):
            raise Trouble(NO_SERVER, f'The answer to {asked} broke off after {len(body):,} of {int(length[1]):,} octets. The server may have stopped.')
        return Answer(int(first[1]), body)


def accepted(answer: Answer, not_there: str = 'The console does not have this page.') -> Any:
    """The JSON of an answer with status 200; for any other the sentence that says what it means."""
    if answer.status == 200:
        return answer.json()
    raise refusal(answer, not_there)


def refusal(answer: Answer, not_there: str) -> Trouble:
    said = answer.json() if answer.body.startswith(b'{') else {}
    if answer.status == 404:
        return Trouble(REFUSED, not_there)
    if answer.status == 413:
        return Trouble(REFUSED, f'The console refuses the request as too large (413): more than {LARGEST_REQUEST:,} octets.')
    if answer.status == 422 and said.get('error') == 'cycle':
        return Trouble(REFUSED, f'Cycle {said.get("given")} can\'t be taken back (422): only the last of all cycles and withdrawals can, where it is a cycle.')
    if answer.status == 422:
        return Trouble(REFUSED, f'The timeline does not have the point {said.get("given")} (422): a point is 0 or the number of an item in force.')
    if answer.status == 507:
        return Trouble(REFUSED, f'Too few numbers are left (507): the next is {said.get("next")}, the last {LAST_NUMBER}, and a cycle wants one for itself, '
                       'one for each act that comes in and one for each user of the house.')
    if answer.status == 400:
        return Trouble(REFUSED, 'The console does not read this request (400): some user or mailbox in it is none, or it is no request for a cycle.')
    if answer.status == 500:
        return Trouble(DISK_FAULT, 'The server could not write its disk (500) and has ended. The record may stand in the store or not: '
                       "do not just start it again, see docs/OPERATING.md, 'What each status means'.")
    if answer.status == 503:
        return Trouble(NO_MEMORY, 'The server found no memory for this request (503), or no room on its disk. Nothing was done: it can be sent again.')
    return Trouble(NO_SERVER, f'The console answers with a status that this tool does not know: {answer.status}.')


# ---- the timeline ----


class Item(NamedTuple):
    number: int
    at: int
    by: str
    verb: str
    box: str


def items_of(answer: Answer) -> list[Item]:
    return [Item(row['number'], row['at'], row['by'], row['verb'], row['box']) for row in accepted(answer)['items']]


class Timeline:
    """The items of a store, read in pages."""

    def __init__(self, console: Console) -> None:
        self.console = console

    def counts(self) -> dict[str, int]:
        return accepted(self.console.get('/status'))

    def whole(self, tries: int = 3) -> list[Item]:
        """All items. A cycle that runs between two pages moves items, so then they are read anew."""
        for _ in range(tries):
            before = self.counts()
            items = self._between(0, before['items'])
            if self.counts()['cycles'] == before['cycles']:
                return items
        raise Trouble(NO_SERVER, 'The store is rewound again and again while its timeline is read.')

    def last(self, count: int) -> list[Item]:
        there = self.counts()['items']
        return self._between(max(0, there - count), there)

    def item(self, number: int) -> Item:
        """One item: most often it lies as many places before its number as numbers were given to none."""
        there = self.counts()['items']
        guess = max(0, min(number - 2, there - 1) - PAGE_OF_ITEMS // 2)
        near = items_of(self.console.get(f'/timeline/{guess}'))
        found = next((item for item in near if item.number == number), None) or next((item for item in self.whole() if item.number == number), None)
        if found is None:
            raise Trouble(NOTHING_FOUND, f'The timeline has no item {number}: it was never there, a cycle dropped it, or it is the number of a cycle.')
        return found

    def _between(self, start: int, end: int) -> list[Item]:
        items: list[Item] = []
        for place in range(start, end, PAGE_OF_ITEMS):
            items += items_of(self.console.get(f'/timeline/{place}'))
            if end - start > 5 * PAGE_OF_ITEMS:
                self.console.tell(f'{len(items):,} of {end - start:,} items')
        return items


@dataclasses.dataclass(frozen=True)
class Wanted:
    """Which items are asked for; None asks for all."""

    users: Optional[list[str]] = None
    verbs: Optional[list[str]] = None
    boxes: Optional[list[str]] = None
    since: Optional[int] = None
    until: Optional[int] = None

    def has(self, item: Item) -> bool:
        return ((self.users is None or item.by in self.users)
                and (self.verbs is None or item.verb in self.verbs)
                and (self.boxes is None or item.box in self.boxes)
                and (self.since is None or item.at >= self.since)
                and (self.until is None or item.at <= self.until))
