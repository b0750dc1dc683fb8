"""The file that says which stores there are (`undo --stores`, operate/front): a line for each, its name, its file, its ports of SMTP and IMAP, its console, and its port of POP3 where it has one."""
from __future__ import annotations

import re
from typing import Callable, NamedTuple, Optional

from .console import Console, accepted
from .files import octets_from
from .journal import Format, Journal
from .troubles import DAMAGED, WRONG_WORDS, Trouble

SHAPE = 'a line is NAME STORE SMTP IMAP CONSOLE [POP]: a name of a to z, 0 to 9, "-" and "_", the store\'s file, two ports, the console\'s port or the path of its Unix socket, and a port of POP3 where it has one'


class Served(NamedTuple):
    """A store that is served, and where."""

    name: str
    store: str
    smtp: int
    imap: int
    console: str
    pop: Optional[int] = None

    def ports(self) -> list[int]:
        """Those that others may not have too."""
        return [self.smtp, self.imap, *([self.pop] if self.pop else [])]

    def asks(self, tell: Callable[[str], None] = lambda said: None) -> Console:
        return Console(int(self.console), tell=tell) if self.console.isdecimal() else Console(0, tell=tell, path=self.console)

    def house(self) -> Format:
        """The store's own configuration: the first record of its file."""
        with _opened(self.store) as journal:
            for frame in journal.frames():
                found = journal.record(frame)
                if isinstance(found, Format):
                    return found
                break
        raise Trouble(DAMAGED, f'{self.store} is no store: its first record is no configuration. Make it by `undomail init`.')

    def aliases(self) -> Optional[dict[str, list[str]]]:
        """The aliases in force, by the console; none where it does not answer."""
        try:
            return accepted(self.asks().get('/conf'))['aliases']
        except Trouble:
            return None


def _opened(path: str) -> Journal:
    try:
        return Journal(path)
    except OSError as fault:
        raise Trouble(WRONG_WORDS, f'The store {path} cannot be read: {fault.strerror}. Run this as its owner, or as root.') from None


def is_port(text: str) -> bool:
    return re.fullmatch(r'[1-9]\d{0,4}', text) is not None and int(text) <= 65535


def served_from(path: str) -> list[Served]:
    """The stores of a file, in its order."""
    found: list[Served] = []
    for number, line in enumerate(octets_from(path).decode('utf-8', 'replace').splitlines(), 1):
        words = line.partition('#')[0].split()
        if not words:
            continue
        if len(words) not in (5, 6) or not re.fullmatch(r'[a-z0-9_-]{1,32}', words[0]) or not all(map(is_port, words[2:4] + words[5:])) or not (is_port(words[4]) or words[4].startswith('/')):
            raise Trouble(WRONG_WORDS, f'{path}, line {number}: {SHAPE}.')
        found.append(Served(words[0], words[1], int(words[2]), int(words[3]), words[4], *map(int, words[5:])))
    if not found:
        raise Trouble(WRONG_WORDS, f'{path} names no store: {SHAPE}.')
    for what, values in (('name', [it.name for it in found]), ('file', [it.store for it in found]), ('port', [port for it in found for port in it.ports()]), ('console', [it.console for it in found])):
        twice = sorted({str(it) for it in values if values.count(it) > 1})
        if twice:
            raise Trouble(WRONG_WORDS, f'{path}: the {what} {twice[0]} stands twice; each store has its own.')
    return found
