"""The journal's file: gates, frames and records (docs/FORMATS.md, 'The journal's file' and 'Records'). It is read and never written.

A store may be served meanwhile: the server writes a frame before it opens the gate in front of it, so what stands behind an open
gate is whole and stays as it is. What is read is the journal as it stood at one moment.

What is not as docs/FORMATS.md says is refused at its place, and nothing is guessed.
"""
from __future__ import annotations

import os
import re
import struct
from copy import copy as shallow_copy
from typing import Any, Callable, Iterator, NamedTuple, Optional, Union

from .formats import BODY, SCOPES

OPEN_GATE = 0x55
LAST_NUMBER = 4_194_303
LATEST_MOMENT = 253_402_300_799
MOST_USERS, MOST_RECIPIENTS, MOST_KEYS, LARGEST_BODY = 200, 1000, 65_536, 1_052_672
NOBODY = 255

ANSWERED, FLAGGED, DELETED, SEEN, DRAFT = 1, 2, 4, 8, 16
REPLACE_FLAGS, ADD_FLAGS, TAKE_FLAGS = range(3)
PLAINLY, NO_SOURCE, MERGED = range(3)
WHOLE, FIELD = 0, 1  # of the scopes, as records have them


class Damaged(Exception):
    """What is no journal: where, in octets of the file from 0, and why. `gate` is the open gate before it, as `undomail check` tells it."""

    def __init__(self, gate: int, place: int, why: str) -> None:
        super().__init__(f'damaged at {gate}: {why} (octet {place})')
        self.gate, self.place, self.why = gate, place, why


class NoStore(Exception):
    """The file is empty, or its first octet is no open gate."""


class Refused(Exception):
    """Octets that spell no record: where in the payload, and why."""

    def __init__(self, at: int, why: str) -> None:
        super().__init__(why)
        self.at, self.why = at, why


# ---- what records hold ----


class Account(NamedTuple):
    name: str
    password: str


class Filter(NamedTuple):
    name: str
    needle: str
    file: Optional[str]  # the mailbox; none discards
    scope: str = BODY  # where it looks
    field: Optional[str] = None  # the header field, where the scope is a header's


class Key(NamedTuple):
    """A message: the item that made it, and an index."""

    item: int
    index: int


class Body(NamedTuple):
    """A text, and where it stands in the payload that it was read from."""

    octets: bytes
    at: int


class Deliver(NamedTuple):
    sender: bytes
    recipients: tuple[str, ...]
    body: Body


class Append(NamedTuple):
    box: str
    flags: int
    moment: int
    body: Body
    shown: bool  # whether it went to Lost+Found


class Fetch(NamedTuple):
    box: str
    keys: bytes
    sets_seen: bool
    shows_body: bool
    shown: bytes  # keys with revs


class Store(NamedTuple):
    box: str
    keys: bytes
    how: int
    flags: int
    shown: bytes  # keys


class Copy(NamedTuple):
    box: str
    keys: bytes
    target: str
    shown: tuple[bytes, bool]  # the keys that were copied, and whether they went to Lost+Found


class List(NamedTuple):
    pattern: bytes
    shown: tuple[str, ...]


class Status(NamedTuple):
    box: str
    shown: Optional[int]


class Select(NamedTuple):
    box: str
    shown: Optional[int]


class Expunge(NamedTuple):
    box: str
    keys: bytes
    shown: bytes  # the keys that were left


class Close(NamedTuple):
    box: str
    keys: bytes
    shown: bytes


class Create(NamedTuple):
    box: str
    shown: None


class Rename(NamedTuple):
    box: str
    target: str
    shown: int


class Delete(NamedTuple):
    box: str
    keys: bytes
    shown: bytes  # the keys that were moved to Lost+Found


class SetAlias(NamedTuple):
    local: str
    users: tuple[int, ...]


class DropAlias(NamedTuple):
    local: str


class SetFilter(NamedTuple):
    filter: Filter


class DropFilter(NamedTuple):
    name: str


class Remove(NamedTuple):
    user: int
    box: str
    key: int  # as in `keys_in`


class Give(NamedTuple):
    user: int
    box: str
    body: Body


class Notice(NamedTuple):
    """A notice of a cycle: it stands in no record but that of an item that a cut kept."""

    user: int
    body: Body


Deed = Union[Deliver, Append, Fetch, Store, Copy, List, Status, Select, Expunge, Close, Create, Rename, Delete, SetAlias, DropAlias, SetFilter, DropFilter, Remove, Give, Notice]


class Format(NamedTuple):
    host: str
    domains: tuple[str, ...]
    first: int
    accounts: tuple[Account, ...]
    postmaster: int
    aliases: tuple[tuple[str, tuple[int, ...]], ...]


class Verb(NamedTuple):
    number: int
    at: int
    by: Optional[int]
    deed: Deed


class Operator(NamedTuple):
    number: int
    at: int
    deed: Deed


class Replacement(NamedTuple):
    item: int
    body: Body


class Cycle(NamedTuple):
    number: int
    at: int
    key: str
    point: int
    drops: tuple[int, ...]
    replaces: tuple[Replacement, ...]
    inserts: tuple[Deed, ...]


class Upgrade(NamedTuple):
    at: int


class Withdraw(NamedTuple):
    number: int
    at: int
    key: str
    of: int


class SnapshotBox(NamedTuple):
    user: int
    name: str
    following: int
    entries: bytes  # each of 31 octets, see ENTRY


class Snapshot(NamedTuple):
    count: int
    aliases: tuple[tuple[str, tuple[int, ...]], ...]
    filters: tuple[Filter, ...]
    boxes: tuple[SnapshotBox, ...]


class Stamp(NamedTuple):
    user: int
    name: str
    stamp: int


class BrokenRow(NamedTuple):
    """An item whose answer no longer held: the deed's byte, the mailbox that it names first, and the reason's place among REASONS."""

    number: int
    user: int
    verb: int
    box: Optional[str]
    reason: int


class Told(NamedTuple):
    """The report of a cycle or a withdrawal, as a Base has it."""

    cycle: int
    point: int
    kept: int
    broken: tuple[BrokenRow, ...]
    notices: tuple[int, ...]
    renewed: tuple[Stamp, ...]
    unmatched: tuple[int, ...]


class Base(NamedTuple):
    """The store that a cut left as the beginning, and what was in force beside it: names are those of a Snapshot where they mean the same."""

    following: int
    deep: bool
    aliases: tuple[tuple[str, tuple[int, ...]], ...]
    filters: tuple[Filter, ...]
    boxes: tuple[SnapshotBox, ...]
    stamps: tuple[Stamp, ...]
    reports: tuple[tuple[str, Told], ...]


class Text(NamedTuple):
    """The text of messages of the base, by the item that brought it and its rev."""

    origin: int
    rev: int
    body: Body


class Kept(NamedTuple):
    """An item that a cut kept, as it was in force."""

    number: int
    at: int
    by: Optional[int]
    rev: int
    deed: Deed


Record = Union[Format, Verb, Operator, Cycle, Snapshot, Upgrade, Withdraw, Base, Text, Kept]

U32, KEY, SIGHT, ENTRY = struct.Struct('>I'), struct.Struct('>IH'), struct.Struct('>IHI'), struct.Struct('>QIHIIBQ')
VERB_HEAD = struct.Struct('>IQBB')  # number, moment, actor and the deed's byte, behind the kind


def keys_in(octets: bytes) -> list[int]:
    """Keys as numbers: the item, and its index in the low 16 bits."""
    return [item << 16 | index for item, index in KEY.iter_unpack(octets)]


def keys_as(keys: list[int]) -> bytes:
    return b''.join(key.to_bytes(6, 'big') for key in keys)


def sights_in(octets: bytes) -> list[tuple[int, int]]:
    """Keys with the revs of their texts."""
    return [(item << 16 | index, rev) for item, index, rev in SIGHT.iter_unpack(octets)]


# ---- reading fields ----


class Fields:
    """Fields of a payload, from left to right."""

    __slots__ = ('octets', 'at')

    def __init__(self, octets: bytes) -> None:
        self.octets, self.at = octets, 0

    def take(self, count: int) -> bytes:
        at = self.at
        found = self.octets[at:at + count]
        if len(found) < count:
            raise Refused(at, 'a field is cut')
        self.at = at + count
        return found

    def u8(self) -> int:
        at = self.at
        try:
            found = self.octets[at]
        except IndexError:
            raise Refused(at, 'a field is cut') from None
        self.at = at + 1
        return found

    def u32(self) -> int:
        at = self.at
        try:
            found, = U32.unpack_from(self.octets, at)
        except struct.error:
            raise Refused(at, 'a field is cut') from None
        self.at = at + 4
        return found

    def u64(self) -> int:
        return int.from_bytes(self.take(8), 'big')

    def up_to(self, most: int, what: str) -> int:
        at, found = self.at, self.u8()
        if found > most:
            raise Refused(at, f'{what} {found} is over {most}')
        return found

    def flag(self) -> bool:
        return self.up_to(1, 'a choice of no and yes') == 1

    def moment(self) -> int:
        at, found = self.at, self.u64()
        if found > LATEST_MOMENT:
            raise Refused(at, f'the moment {found} is past the year 9999')
        return found

    def user(self) -> int:
        return self.up_to(MOST_USERS - 1, 'a user')

    def actor(self) -> Optional[int]:
        at, found = self.at, self.u8()
        if MOST_USERS <= found < NOBODY:
            raise Refused(at, f'an actor {found} is neither a user nor nobody')
        return None if found == NOBODY else found

    def name(self) -> str:
        at = self.at
        count = self.u8()
        if not 1 <= count <= 200:
            raise Refused(at, f'a name of {count} octets')
        end = at + 1 + count
        found = self.octets[at + 1:end].decode('latin-1')
        if len(found) < count:
            raise Refused(at, 'a field is cut')
        if not (found.isascii() and found.isprintable()):
            raise Refused(at, 'a name that is not printable')
        self.at = end
        return found

    def text(self, most: Optional[int] = None) -> Body:
        at = self.at
        count = self.u32()
        if most is not None and count > most:
            raise Refused(at, f'a text of {count:,} octets, and the most is {most:,}')
        begin = at + 4
        found = self.octets[begin:begin + count]
        if len(found) < count:
            raise Refused(at, 'a field is cut')
        self.at = begin + count
        return Body(found, begin)

    def count(self, most: Optional[int] = None) -> int:
        at, found = self.at, self.u32()
        if most is not None and found > most:
            raise Refused(at, f'a list of {found:,}, and the most is {most:,}')
        return found

    def each(self, one: Callable[[], Any], most: Optional[int] = None) -> tuple[Any, ...]:
        count = self.count(most)
        if count == 1:
            return (one(),)
        found = []
        for _ in range(count):
            found.append(one())
        return tuple(found)

    def of_size(self, size: int, most: Optional[int] = None) -> bytes:
        """A list of elements that all have this size."""
        count = self.count(most)
        at, end = self.at, self.at + count * size
        found = self.octets[at:end]
        if len(found) < end - at:
            raise Refused(at + len(found) // size * size, 'a field is cut')
        self.at = end
        return found

    def keys(self) -> bytes:
        return self.of_size(6, MOST_KEYS)

    # a message's text, and what was shown

    def body(self) -> Body:
        return self.text(LARGEST_BODY)

    def shown_keys(self) -> bytes:
        return self.keys()

    def sights(self) -> bytes:
        return self.of_size(10, MOST_KEYS)

    def option(self, one: Callable[[], Any]) -> Any:
        return one() if self.flag() else None

    def filter(self) -> Filter:
        return Filter(self.name(), self.name(), self.option(self.name))

    def field_name(self) -> str:
        at, found = self.at, self.name()
        if re.fullmatch('[A-Za-z0-9_-]{1,64}', found) is None:
            raise Refused(at, 'a name that no header field can have')
        return found

    def scope(self, least: int) -> tuple[str, Optional[str]]:
        """Where a filter looks, and the header field."""
        at, found = self.at, self.up_to(len(SCOPES) - 1, 'a scope')
        if found < least:
            raise Refused(at, f'a scope {found} is under {least}')
        return SCOPES[found], self.field_name() if found == FIELD else None

    def scoped(self, least: int) -> Filter:
        """A filter, and behind it where it looks."""
        return Filter(*self.filter()[:3], *self.scope(least))

    def scoped_filters(self) -> tuple[Filter, ...]:
        """Filters of which some looks elsewhere than in the whole text."""
        at, found = self.at, self.each(lambda: self.scoped(WHOLE))
        if all(it.scope == BODY for it in found):
            raise Refused(at, 'each filter looks at the whole text, so the record is to be one without scopes')
        return found

    def alias(self) -> tuple[str, tuple[int, ...]]:
        return self.name(), self.each(self.user)

    def flags(self) -> int:
        return self.up_to(31, 'flags')

    def shown(self, form: int) -> None:
        at, found = self.at, self.u8()
        if found != form:
            raise Refused(at, f'what is shown has the form {found}, and that of this deed is {form}')


class KeptFields(Fields):
    """Those of an item that a cut kept: its texts and what it showed have no range but that of their counts."""

    __slots__ = ()

    def body(self) -> Body:
        return self.text()

    def shown_keys(self) -> bytes:
        return self.of_size(6)

    def sights(self) -> bytes:
        return self.of_size(10)


# ---- records ----


def deliver(it: Fields) -> Deliver:
    found = Deliver(it.text().octets, it.each(it.name, MOST_RECIPIENTS), it.body())
    it.shown(0)
    return found


def append(it: Fields) -> Append:
    box, flags, moment, body = it.name(), it.flags(), it.moment(), it.body()
    it.shown(6)
    return Append(box, flags, moment, body, it.flag())


def fetch(it: Fields) -> Fetch:
    box, keys, seen, looks = it.name(), it.keys(), it.flag(), it.flag()
    it.shown(1)
    return Fetch(box, keys, seen, looks, it.sights())


def store(it: Fields) -> Store:
    box, keys, how, flags = it.name(), it.keys(), it.up_to(2, 'how flags change'), it.flags()
    it.shown(4)
    return Store(box, keys, how, flags, it.shown_keys())


def copy(it: Fields) -> Copy:
    box, keys, target = it.name(), it.keys(), it.name()
    it.shown(5)
    return Copy(box, keys, target, (it.shown_keys(), it.flag()))


def names(it: Fields) -> List:
    pattern = it.text().octets
    it.shown(2)
    return List(pattern, it.each(it.name))


def counted(form: Callable[..., Deed]) -> Callable[[Fields], Deed]:
    def reads(it: Fields) -> Deed:
        box = it.name()
        it.shown(3)
        return form(box, it.option(it.u32))
    return reads


def keyed(form: Callable[..., Deed], shown: int) -> Callable[[Fields], Deed]:
    def reads(it: Fields) -> Deed:
        box, keys = it.name(), it.keys()
        it.shown(shown)
        return form(box, keys, it.shown_keys())
    return reads


def create(it: Fields) -> Create:
    box = it.name()
    it.shown(0)
    return Create(box, None)


def rename(it: Fields) -> Rename:
    box, target = it.name(), it.name()
    it.shown(8)
    return Rename(box, target, it.up_to(2, 'the way of a RENAME'))


DEEDS: dict[int, Callable[[Fields], Deed]] = {
    1: deliver, 2: append, 3: fetch, 4: store, 5: copy, 6: names, 7: counted(Status), 8: counted(Select), 9: keyed(Expunge, 7), 10: keyed(Close, 7), 11: create, 12: rename,
    13: keyed(Delete, 9),
}
ACTS: dict[int, Callable[[Fields], Deed]] = {
    1: lambda it: SetAlias(*it.alias()), 2: lambda it: DropAlias(it.name()), 3: lambda it: SetFilter(it.filter()), 4: lambda it: DropFilter(it.name()),
    5: lambda it: Remove(it.user(), it.name(), int.from_bytes(it.take(6), 'big')), 6: lambda it: Give(it.user(), it.name(), it.body()),
    7: lambda it: SetFilter(it.scoped(FIELD)),
}


def one_of(it: Fields, table: dict[int, Callable[[Fields], Any]], what: str) -> Any:
    at, found = it.at, it.u8()
    if found not in table:
        raise Refused(at, f'{what} {found} is none that docs/FORMATS.md has')
    return table[found](it)


def act(it: Fields) -> Deed:
    return one_of(it, ACTS, 'the act')


def the_format(it: Fields) -> Format:
    return Format(it.name(), it.each(it.name), it.u32(), it.each(lambda: Account(it.name(), it.name()), MOST_USERS), it.user(), it.each(it.alias))


def verb(it: Fields) -> Verb:
    if len(it.octets) > VERB_HEAD.size:  # the fields in front at once, where each is in its range
        number, at, actor, kind = VERB_HEAD.unpack_from(it.octets, 1)
        reads = DEEDS.get(kind)
        if reads is not None and at <= LATEST_MOMENT and (actor < MOST_USERS or actor == NOBODY):
            it.at = 1 + VERB_HEAD.size
            return Verb(number, at, None if actor == NOBODY else actor, reads(it))
    return Verb(it.u32(), it.moment(), it.actor(), one_of(it, DEEDS, 'the deed'))


def cycle(it: Fields) -> Cycle:
    return Cycle(it.u32(), it.moment(), it.name(), it.u32(), it.each(it.u32), it.each(lambda: Replacement(it.u32(), it.text(LARGEST_BODY))), it.each(lambda: act(it)))


def entries(it: Fields) -> bytes:
    """The entries of a mailbox, whose flags and moments are looked at."""
    at, found = it.at + 4, it.of_size(ENTRY.size)
    if max(found[22::31], default=0) > 31 or any(found[23::31]) or any(found[24::31]) or any(found[25::31]) or max(found[26::31], default=0) >= LATEST_MOMENT >> 32:
        for place, (_, _, _, _, _, flags, moment) in enumerate(ENTRY.iter_unpack(found)):
            if flags > 31:
                raise Refused(at + place * ENTRY.size + 22, f'flags {flags} is over 31')
            if moment > LATEST_MOMENT:
                raise Refused(at + place * ENTRY.size + 23, f'the moment {moment} is past the year 9999')
    return found


def snapshot_box(it: Fields) -> SnapshotBox:
    return SnapshotBox(it.user(), it.name(), it.u64(), entries(it))


def snapshot(it: Fields, scoped: bool) -> Snapshot:
    return Snapshot(it.u32(), it.each(it.alias), it.scoped_filters() if scoped else it.each(it.filter), it.each(lambda: snapshot_box(it)))


KEPT_ACT, KEPT_NOTICE = 14, 15


def unshown(reads: Callable[[Fields], Deed]) -> Callable[[Fields], Deed]:
    """A deed that shows nothing."""
    def both(it: Fields) -> Deed:
        found = reads(it)
        it.shown(0)
        return found
    return both


KEPT_DEEDS = {**DEEDS, KEPT_ACT: unshown(act), KEPT_NOTICE: unshown(lambda it: Notice(it.user(), it.body()))}


def kept(it: Fields) -> Kept:
    its = KeptFields(it.octets)
    its.at = it.at
    found = Kept(its.u32(), its.moment(), its.actor(), its.u32(), one_of(its, KEPT_DEEDS, 'the deed'))
    it.at = its.at
    return found


def stamp(it: Fields) -> Stamp:
    return Stamp(it.user(), it.name(), it.u32())


def broken_row(it: Fields) -> BrokenRow:
    return BrokenRow(it.u32(), it.user(), one_of_deeds(it), it.option(it.name), it.up_to(REASONS - 1, 'a reason'))


def one_of_deeds(it: Fields) -> int:
    at, found = it.at, it.u8()
    if found not in DEEDS:
        raise Refused(at, f'the deed {found} is none that docs/FORMATS.md has')
    return found


def told(it: Fields) -> Told:
    return Told(it.u32(), it.u32(), it.u32(), it.each(lambda: broken_row(it)), it.each(it.u32), it.each(lambda: stamp(it)), it.each(it.u32))


def base(it: Fields) -> Base:
    following, deep, aliases, filters, boxes = it.u32(), it.flag(), it.each(it.alias), it.each(lambda: it.scoped(WHOLE)), it.each(lambda: snapshot_box(it))
    return Base(following, deep, aliases, filters, boxes, it.each(lambda: stamp(it)), it.each(lambda: (it.name(), told(it))))


FORMAT, VERB, OPERATOR, CYCLE, SNAPSHOT, UPGRADE, SCOPED_SNAPSHOT, WITHDRAW, BASE, TEXT, KEPT = range(11)
REASONS = 9
SNAPSHOTS = (SNAPSHOT, SCOPED_SNAPSHOT)
KINDS: dict[int, Callable[[Fields], Record]] = {
    FORMAT: the_format, VERB: verb, OPERATOR: lambda it: Operator(it.u32(), it.moment(), act(it)), CYCLE: cycle, SNAPSHOT: lambda it: snapshot(it, False),
    UPGRADE: lambda it: Upgrade(it.moment()), SCOPED_SNAPSHOT: lambda it: snapshot(it, True), WITHDRAW: lambda it: Withdraw(it.u32(), it.moment(), it.name(), it.u32()),
    BASE: base, TEXT: lambda it: Text(it.u32(), it.u32(), it.text()), KEPT: kept,
}


def record_of(payload: bytes) -> Record:
    """The record that a payload spells; or where it spells none, and why."""
    it = Fields(payload)
    found = one_of(it, KINDS, 'the kind')
    if it.at != len(payload):
        raise Refused(it.at, f'{len(payload) - it.at:,} octets stand behind the last field')
    return found


# ---- the file ----


class Frame(NamedTuple):
    """A payload: where it begins, 5 octets behind its gate, how long it is, and the first octet, its kind."""

    place: int
    length: int
    kind: int


class Octets:
    """The octets of a file that may grow while it is read."""

    BLOCK = 1 << 20

    def __init__(self, path: str) -> None:
        self.file = open(path, 'rb', buffering=0)  # it is closed where nothing refers to it any more
        self.descriptor = self.file.fileno()
        self.start, self.block = 0, b''

    def close(self) -> None:
        self.file.close()

    def beside(self) -> Octets:
        """The same file for another thread: what is at hand of it is its own."""
        found = shallow_copy(self)
        found.start, found.block = 0, b''
        return found

    def length(self) -> int:
        return os.fstat(self.descriptor).st_size

    def at(self, place: int, count: int) -> bytes:
        """So many octets at a place; fewer where the file ends."""
        begin = place - self.start
        if begin < 0 or begin + count > len(self.block):
            self.start, begin = place, 0
            self.block = os.pread(self.descriptor, max(count, self.BLOCK), place)
            while len(self.block) < count:
                more = os.pread(self.descriptor, count - len(self.block), place + len(self.block))
                if not more:
                    break
                self.block += more
        return self.block[begin:begin + count]

    def apart(self, place: int, count: int) -> bytes:
        """The same, and what was read in order stays at hand."""
        begin = place - self.start
        return self.block[begin:begin + count] if begin >= 0 and begin + count <= len(self.block) else os.pread(self.descriptor, count, place)


class Journal:
    """A journal's file, open for reading."""

    def __init__(self, path: str) -> None:
        self.path, self.octets = path, Octets(path)
        self.end = 0  # the last gate that was read: the one that is not open

    def __enter__(self) -> Journal:
        return self

    def __exit__(self, *_: Any) -> None:
        self.octets.close()

    def beside(self) -> Journal:
        """The same file for another thread."""
        found = shallow_copy(self)
        found.octets = self.octets.beside()
        return found

    def frames(self, gate: int = 0) -> Iterator[Frame]:
        """The payloads behind the open gates, in order, up to the first gate that is not open."""
        known, at = 0, self.octets.at
        while True:
            head = at(gate, 6)
            if not head and gate:
                raise Damaged(gate, gate, 'the file ends before a gate')
            if not head or head[0] != OPEN_GATE:
                if not gate:
                    raise NoStore
                self.end = gate
                return
            length = int.from_bytes(head[1:5], 'big')
            following = gate + 5 + length
            if following >= known:
                known = self.octets.length()
            if len(head) < 5 or following >= known:
                raise Damaged(gate, known, 'the file ends inside the record behind this open gate')
            yield Frame(gate + 5, length, head[5] if length else -1)
            gate = following

    def record(self, frame: Frame, apart: bool = False) -> Record:
        octets = self.octets.apart(frame.place, frame.length) if apart else self.octets.at(frame.place, frame.length)
        try:
            return record_of(octets)
        except Refused as fault:
            raise Damaged(frame.place - 5, frame.place + fault.at, fault.why) from None
