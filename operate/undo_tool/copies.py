"""Copies of a journal: what was sealed in it at one moment, and what was sealed since.

A record that was sealed never changes, so a copy is the octets up to the last gate, and a closed gate. What comes later is put behind
that as the server seals a record: all of it behind the closed gate, a sync, and then that gate is opened. So a copy opens at every
moment, also where this ends in the middle."""
from __future__ import annotations

import contextlib
import fcntl
import hashlib
import itertools
import os
from typing import Any, BinaryIO, Callable, Iterator, Optional

from .files import new_beside, put_new, sync_folder, write_whole
from .history import damage, opened
from .journal import OPEN_GATE, Damaged, Journal, NoStore
from .model import Past
from .troubles import DAMAGED, FILE_FAULT, REFUSED, Trouble

PIECE = 1 << 20


def end_of(journal: Journal, gate: int = 0) -> int:
    """The last gate, the one that is not open, from a gate on that is known."""
    journal.end = gate
    try:
        for _ in journal.frames(gate):
            pass
    except NoStore:
        raise Trouble(DAMAGED, f'{journal.path} is no store: it is empty, or does not begin with an open gate.') from None
    except Damaged as fault:
        raise Trouble(DAMAGED, damage(journal, fault)) from None
    return journal.end


def pieces(descriptor: int, start: int, end: int) -> Iterator[bytes]:
    while start < end:
        piece = os.pread(descriptor, min(PIECE, end - start), start)
        if not piece:
            raise Trouble(FILE_FAULT, f'The file ends at {start}, before {end}: it became shorter while it was read.')
        yield piece
        start += len(piece)


def copied(store: str, path: str) -> int:
    """A copy of what is sealed by now, as a new file: 0600, and whole or absent. Answers how many octets it has."""
    with opened(store) as journal:
        end = end_of(journal)
        try:
            write_whole(path, itertools.chain(pieces(journal.octets.descriptor, 0, end), [b'\0']))
        except OSError as fault:
            raise Trouble(FILE_FAULT, f'{path} cannot be written: {fault.strerror}.') from None
    return end + 1


def looked_at(path: str, tell: Callable[[str], None] = lambda said: None) -> dict[str, Any]:
    """What a copy leaves, as `undomail check` tells it; read to its end by the tool's own decoder."""
    with opened(path) as journal:
        past = Past(journal)
        try:
            past.read(None, tell)
        except NoStore:
            raise Trouble(DAMAGED, f'{path} is no store: it is empty, or does not begin with an open gate.') from None
        except Damaged as fault:
            raise Trouble(DAMAGED, damage(journal, fault)) from None
        return {**past.counts(), 'digest': past.digest()}


@contextlib.contextmanager
def unserved(store: str) -> Iterator[None]:
    """Holds the lock that a server would want; refuses where somebody has it."""
    try:
        descriptor = os.open(store, os.O_RDONLY | os.O_CLOEXEC)
    except FileNotFoundError:
        yield
        return
    except OSError as fault:
        raise Trouble(FILE_FAULT, f'{store} cannot be opened: {fault.strerror}.') from None
    try:
        try:
            fcntl.flock(descriptor, fcntl.LOCK_EX | fcntl.LOCK_NB)
        except OSError:
            raise Trouble(REFUSED, f'{store} is in use: stop the server first. Nothing was changed.') from None
        yield
    finally:
        os.close(descriptor)


# ---- following ----


class Copy:
    """A copy that follows a journal. A new one gets its name once its first records are in it, so what is at the path opens."""

    def __init__(self, path: str) -> None:
        self.path, self.end = path, 0
        self.beside: Optional[str] = None
        try:
            if os.path.exists(path) and os.path.getsize(path):
                self.descriptor = os.open(path, os.O_RDWR | os.O_CLOEXEC)
                os.fchmod(self.descriptor, 0o600)
                self._find_end()
            else:
                self.descriptor, self.beside = new_beside(path)
                self._lock()
        except BlockingIOError:
            raise Trouble(REFUSED, f'{path} is in use: something serves it, or follows into it.') from None
        except OSError as fault:
            raise Trouble(FILE_FAULT, f'{path} cannot be opened: {fault.strerror}.') from None

    def _lock(self) -> None:
        fcntl.flock(self.descriptor, fcntl.LOCK_SH | fcntl.LOCK_NB)  # `check` may look at it, and nobody serve it
        fcntl.lockf(self.descriptor, fcntl.LOCK_EX | fcntl.LOCK_NB)  # nor another follow into it

    def _find_end(self) -> None:
        """Reads to the last gate, and locks then: closing a file that was opened to be read would take the second lock away."""
        size = os.fstat(self.descriptor).st_size
        with opened(self.path) as journal:
            self.end = end_of(journal)
        self._lock()
        if os.fstat(self.descriptor).st_size != size:
            raise BlockingIOError

    def close(self) -> None:
        """Leaves nothing behind where no record came."""
        os.close(self.descriptor)
        if self.beside is not None:
            os.unlink(self.beside)

    def digest(self) -> str:
        found = hashlib.sha256()
        for piece in pieces(self.descriptor, 0, self.end):
            found.update(piece)
        return found.hexdigest()

    def append(self, octets: bytes) -> int:
        """Whole records behind the end, the first gate with them; they are there all at once. Answers the new end."""
        if octets[:1] != bytes([OPEN_GATE]):
            raise Trouble(DAMAGED, 'What came is no record.')
        if self.beside is not None:
            self._begin(octets + b'\0', self.beside)
        else:
            self._write(self.end + 1, octets[1:] + b'\0')
            os.fdatasync(self.descriptor)
            self._write(self.end, bytes([OPEN_GATE]))
            os.fdatasync(self.descriptor)
        self.end += len(octets)
        return self.end

    def _begin(self, octets: bytes, beside: str) -> None:
        """The first records, and then the copy's name."""
        self._write(0, octets)
        os.fsync(self.descriptor)
        try:
            if os.path.exists(self.path):
                os.replace(beside, self.path)  # an empty file
            else:
                put_new(beside, self.path)
            sync_folder(os.path.dirname(os.path.abspath(self.path)))
        except OSError as fault:
            raise Trouble(FILE_FAULT, f'{self.path} cannot be made: {fault.strerror}.') from None
        self.beside = None

    def _write(self, place: int, octets: bytes) -> None:
        try:
            while octets:
                written = os.pwrite(self.descriptor, octets, place)
                place, octets = place + written, octets[written:]
        except OSError as fault:
            raise Trouble(FILE_FAULT, f'{self.path} cannot be written: {fault.strerror}.') from None


def news(journal: Journal, start: int, most: int = 1 << 26) -> bytes:
    """The records behind a gate, as many as make no more than so many octets, or one; none where nothing was sealed since."""
    journal.octets.block = b''  # what was read before the gate was opened is old
    end = start
    try:
        for frame in journal.frames(start):
            following = frame.place + frame.length
            if following - start > most and end > start:
                break
            end = following
    except Damaged as fault:
        raise Trouble(DAMAGED, damage(journal, fault)) from None
    return b''.join(pieces(journal.octets.descriptor, start, end))


def prefix_digest(journal: Journal, end: int) -> str:
    found = hashlib.sha256()
    for piece in pieces(journal.octets.descriptor, 0, end):
        found.update(piece)
    return found.hexdigest()


def receive(path: str, into: BinaryIO, out: BinaryIO) -> None:
    """The other end of a follower: tells where its copy ends and the digest up to there, and appends what comes."""
    with contextlib.closing(Copy(path)) as copy:
        out.write(f'{copy.end} {copy.digest()}\n'.encode('ascii'))
        out.flush()
        while True:
            head = into.read(16)
            if len(head) < 16:
                return
            place, length = int.from_bytes(head[:8], 'big'), int.from_bytes(head[8:], 'big')
            octets = into.read(length)
            if len(octets) < length:
                return
            if place != copy.end:
                raise Trouble(REFUSED, f'{path} ends at {copy.end}, and what came is from {place} on.')
            out.write(f'{copy.append(octets)}\n'.encode('ascii'))
            out.flush()


class Near:
    """A copy on this machine."""

    def __init__(self, path: str) -> None:
        self.copy = Copy(path)
        self.end, self.where = self.copy.end, path

    def digest(self) -> str:
        return self.copy.digest()

    def append(self, octets: bytes) -> None:
        self.end = self.copy.append(octets)

    def close(self) -> None:
        self.copy.close()


class Far:
    """A copy behind a command, as `ssh HOST backup --receive PATH`."""

    def __init__(self, link: Any, where: str) -> None:
        self.link, self.where = link, where
        said = link.stdout.readline().split()
        if len(said) != 2:
            raise Trouble(FILE_FAULT, f'{where} does not tell where its copy ends.')
        self.end, self.its_digest = int(said[0]), said[1].decode('ascii')

    def digest(self) -> str:
        return self.its_digest

    def append(self, octets: bytes) -> None:
        try:
            self.link.stdin.write(self.end.to_bytes(8, 'big') + len(octets).to_bytes(8, 'big') + octets)
            self.link.stdin.flush()
        except OSError:
            raise Trouble(FILE_FAULT, f'{self.where} ended.') from None
        said = self.link.stdout.readline()
        if not said:
            raise Trouble(FILE_FAULT, f'{self.where} ended.')
        self.end = int(said)

    def close(self) -> None:
        self.link.stdin.close()
        self.link.wait()
        self.link.stdout.close()


def same_file(journal: Journal) -> bool:
    """Whether the file that is open is still the one of its name."""
    with contextlib.suppress(OSError):
        here, there = os.fstat(journal.octets.descriptor), os.stat(journal.path)
        return (here.st_dev, here.st_ino) == (there.st_dev, there.st_ino)
    return False


def follow(journal: Journal, copy: Any, wait: Callable[[], None], told: Callable[[str], None], once: bool = False) -> None:
    """Appends to the copy what is sealed in the journal, over and over."""
    if copy.end and (copy.end > end_of(journal) or prefix_digest(journal, copy.end) != copy.digest()):
        raise Trouble(REFUSED, f'{copy.where} is no copy of the beginning of {journal.path}. Nothing was changed: give another place for the copy.')
    begun = False
    while True:
        found = news(journal, copy.end)
        if found:
            copy.append(found)
            continue
        if not begun:
            told(f'{copy.where} has {copy.end:,} octets of {journal.path}')
            begun = True
        if once:
            return
        if not same_file(journal):
            raise Trouble(REFUSED, f'{journal.path} is another file now. The copy is as it was.')
        wait()
