"""What items and cycles do to a store, by docs/MODEL.md ('The store', 'A cycle'), so that a journal can be read to its end.

It is written anew from the documents and shares nothing with the program; that both come to the same is tested (tests/undo compares
counts, digests and reports), and where a report of the console can be had it is compared with the one found here.
"""
from __future__ import annotations

import dataclasses
import datetime
import gc
import hashlib
import re
from array import array
from bisect import bisect_left
from copy import copy as shallow_copy
from typing import Any, Callable, Container, Iterable, Iterator, NamedTuple, Optional, Union

from . import journal
from .formats import BODY, HEADER, LONGEST_NAME, SENDER
from .journal import (ADD_FLAGS, DELETED, ENTRY, LAST_NUMBER, MERGED, NO_SOURCE, PLAINLY, REPLACE_FLAGS, SEEN, Append, Base, Body, BrokenRow, Close, Copy, Create, Cycle, Damaged, Deed,
                      Delete, Deliver, DropAlias, DropFilter, Expunge, Fetch, Filter, Format, Frame, Give, Journal, Kept, List, NoStore, Notice, Operator, Remove, Rename, Select, SetAlias,
                      SetFilter, Snapshot, Stamp, Status, Store, Text, Told, Upgrade, Verb, Withdraw, keys_as, keys_in, sights_in)
from .spelling import spelled_aliases, spelled_filters, spelled_name, u32

INBOX, LOST_FOUND = 'INBOX', 'Lost+Found'
FIXED = (INBOX, LOST_FOUND)
SNAPSHOT_HEAD = 5
KEPT_DEED = 18  # where the byte of its deed stands in a Kept
LONG_AGO = 0  # since when names may have superiors, where a base tells that they may
OF_NOBODY = (SetAlias, DropAlias, SetFilter, DropFilter, Remove, Give, Notice)

VERBS = {Deliver: 'DELIVER', Append: 'APPEND', Fetch: 'FETCH', Store: 'STORE', Copy: 'COPY', List: 'LIST', Status: 'STATUS', Select: 'SELECT', Expunge: 'EXPUNGE', Close: 'CLOSE',
         Create: 'CREATE', Rename: 'RENAME', Delete: 'DELETE', SetAlias: 'ALIAS', DropAlias: 'UNALIAS', SetFilter: 'FILTER', DropFilter: 'UNFILTER', Remove: 'REMOVE', Give: 'GIVE',
         Notice: 'NOTICE'}

REASONS = MISSING, CHANGED, NO_NAME, FEWER, REDIRECTED, LEFT, RENAMED, MOVED, WITHDRAWN = (
    'a message is missing', 'a message was changed', 'a mailbox is missing', 'fewer messages', 'the mail went to Lost+Found', 'a message was kept',
    'the mailbox was not renamed', 'mail that you had not seen was kept', 'withdrawn by the operator')


BYTE_OF = {form: byte for byte, form in enumerate((Deliver, Append, Fetch, Store, Copy, List, Status, Select, Expunge, Close, Create, Rename, Delete), 1)}
VERB_OF = {byte: VERBS[form] for form, byte in BYTE_OF.items()}


class Item(NamedTuple):
    number: int
    at: int
    by: Optional[int]
    rev: int
    deed: Deed

    @property
    def verb(self) -> str:
        return VERBS[type(self.deed)]

    @property
    def body(self) -> Optional[Body]:
        return getattr(self.deed, 'body', None)


# ---- mailboxes: an entry is one number of UID, the text (rev and origin), moment and flags ----

FLAG_BITS, MOMENT_BITS, NUMBER_BITS = 5, 38, 22
FLAG_MASK, MOMENT_MASK, NUMBER_MASK = (1 << FLAG_BITS) - 1, (1 << MOMENT_BITS) - 1, (1 << NUMBER_BITS) - 1
TEXT_SHIFT = FLAG_BITS + MOMENT_BITS
REV_SHIFT, UID_SHIFT = TEXT_SHIFT + NUMBER_BITS, TEXT_SHIFT + 2 * NUMBER_BITS
TEXT_MASK, MAIL_MASK = (1 << 2 * NUMBER_BITS) - 1, (1 << UID_SHIFT) - 1


def mail_of(origin: int, rev: int, at: int, flags: int) -> int:
    """What an entry has but for its UID."""
    return rev << REV_SHIFT | origin << TEXT_SHIFT | at << FLAG_BITS | flags


def rev_in(mail: int) -> int:
    return mail >> REV_SHIFT & NUMBER_MASK


class Entry(NamedTuple):
    uid: int
    key: int
    origin: int
    rev: int
    flags: int
    at: int


class Box:
    """A mailbox: its entries by key, in the order of their UIDs, and the next UID."""

    __slots__ = ('following', 'mail')

    def __init__(self) -> None:
        self.following, self.mail = 1, {}  # type: int, dict[int, int]

    def put(self, key: int, mail: int) -> None:
        self.mail[key] = self.following << UID_SHIFT | mail
        self.following += 1

    def put_all(self, found: Iterable[tuple[int, int]]) -> None:
        for key, entry in found:
            self.put(key, entry & MAIL_MASK)

    def entries(self) -> Iterator[Entry]:
        for key, it in self.mail.items():
            yield Entry(it >> UID_SHIFT, key, it >> TEXT_SHIFT & NUMBER_MASK, rev_in(it), it & FLAG_MASK, it >> FLAG_BITS & MOMENT_MASK)


class Outcome(NamedTuple):
    """What an item did: the filter that decided, the messages that it put somewhere (user, mailbox, key), and those that it took out."""

    filter: Optional[Filter] = None
    put: tuple[tuple[int, str, int], ...] = ()
    taken: tuple[tuple[int, str, int], ...] = ()


NOTHING = Outcome()


class House:
    """Who there is."""

    def __init__(self, it: Format) -> None:
        self.domains, self.first, self.postmaster, self.host = it.domains, it.first, it.postmaster, it.host
        self.users = [account.name for account in it.accounts]
        self.numbers = {name: number for number, name in enumerate(self.users)}


def is_inferior(name: str, other: str) -> bool:
    """Whether the other stands below the name in the hierarchy."""
    return name != '' and other.startswith(name + '/')


def with_superiors(name: str) -> list[str]:
    """The name behind its superiors, the shortest first."""
    return [name[:at] for at in range(1, len(name)) if name[at] == '/'] + [name]


def header_values(text: bytes) -> dict[bytes, list[bytes]]:
    """The values of a text's header fields, by their names in lower case. A field is a line and those after it that begin with a space or a tab; one without a colon has no name."""
    found: dict[bytes, list[bytes]] = {}
    header = b'' if text.startswith(b'\r\n') else text.partition(b'\r\n\r\n')[0]
    for field in re.split(rb'\r\n(?![ \t])', header):
        name, colon, value = field.partition(b':')
        if colon:
            found.setdefault(name.rstrip(b' \t').lower(), []).append(value)
    return found


class Decider:
    """Which of a store's filters decides where a delivery's message goes: the first whose needle stands where the filter looks."""

    def __init__(self, filters: list[Filter]) -> None:
        self.rows = [(it, it.needle.encode('ascii'), (it.field or '').encode('ascii').lower()) for it in filters]
        self.reads_header = any(it.scope == HEADER for it in filters)

    def decides(self, deed: Deliver) -> Optional[Filter]:
        values = header_values(deed.body.octets) if self.reads_header else {}
        for it, needle, field in self.rows:
            if it.scope == BODY:
                met = needle in deed.body.octets
            elif it.scope == HEADER:
                met = any(needle in value for value in values.get(field, ()))
            elif it.scope == SENDER:
                met = needle in deed.sender
            else:
                met = any(it.needle in local for local in deed.recipients)
            if met:
                return it
        return None


def is_listed(pattern: bytes, name: str) -> bool:
    """Whether a LIST gives this name: `*` matches any run, `%` one without `/`, and INBOX as the first part is compared in any case."""
    octets = name.encode('ascii')
    in_any_case = len(INBOX) if octets.split(b'/')[0] == INBOX.encode('ascii') else 0
    places = {0}  # the ends of what the pattern's front matches
    for letter in pattern:
        if letter == ord('*'):
            places = set(range(min(places), len(octets) + 1)) if places else places
        elif letter == ord('%'):
            places = {end for at in places for end in range(at, (octets.find(b'/', at) if b'/' in octets[at:] else len(octets)) + 1)}
        else:
            places = {at + 1 for at in places if at < len(octets) and (bytes([letter]).upper()[0] if at < in_any_case else letter) == octets[at]}
    return len(octets) in places


class MailStore:
    """A house's aliases and filters in force, and its mailboxes with their stamps (UIDVALIDITY)."""

    def __init__(self, house: House, aliases: Iterable[tuple[str, tuple[int, ...]]]) -> None:
        self.house = house
        self.aliases = list(aliases)  # by local part, unless a base had them otherwise
        self.rises = all(one[0] <= two[0] for one, two in zip(self.aliases, self.aliases[1:]))
        self.by_local: Optional[dict[str, tuple[int, ...]]] = None  # of each local part the first, found when it is asked for
        self.filters: list[Filter] = []
        self.decider = Decider([])
        self.boxes: list[dict[str, Box]] = [{INBOX: Box(), LOST_FOUND: Box()} for _ in house.users]
        self.meant: dict[str, tuple[int, ...]] = {}

    # whom a local part means

    def resolved(self, local: str) -> tuple[int, ...]:
        """The users that a local part means; none where it means nobody."""
        found = self.meant.get(local)
        if found is None:
            name = local.lower()
            user = self.house.numbers.get(name)
            found = (user,) if user is not None else (self.house.postmaster,) if name == 'postmaster' else self.users_of(name)
            self.meant[local] = found
        return found

    def users_of(self, local: str) -> tuple[int, ...]:
        if self.by_local is None:
            self.by_local = dict(reversed(self.aliases))
        return self.by_local.get(local, ())

    def with_aliases(self, aliases: list[tuple[str, tuple[int, ...]]]) -> Outcome:
        self.aliases, self.by_local, self.meant = aliases, None, {}
        return NOTHING

    # one item

    def perform(self, item: Item) -> Outcome:
        return PERFORM[type(item.deed)](self, item, item.deed)

    def deliver(self, item: Item, deed: Deliver) -> Outcome:
        decided = self.decider.decides(deed)
        if decided is not None and decided.file is None:
            return Outcome(decided)
        name = INBOX if decided is None else decided.file
        users: set[int] = set()
        unknown = False
        for local in deed.recipients:
            meant = self.resolved(local)
            users.update(meant)
            unknown = unknown or not meant
        key, mail = item.number << 16, mail_of(item.number, item.rev, item.at, 0)
        put = []
        for user in sorted(users):
            boxes = self.boxes[user]
            its = name if name in boxes else INBOX
            boxes[its].put(key, mail)
            put.append((user, its, key))
        if unknown:
            self.boxes[self.house.postmaster][LOST_FOUND].put(key | 1, mail)
            put.append((self.house.postmaster, LOST_FOUND, key | 1))
        return Outcome(decided, tuple(put))

    def bring(self, item: Item, user: int, name: str, other: str, flags: int, at: int) -> Outcome:
        """One message, into this mailbox or where it is missing into the other."""
        its = name if name in self.boxes[user] else other
        self.boxes[user][its].put(item.number << 16, mail_of(item.number, item.rev, at, flags))
        return Outcome(None, ((user, its, item.number << 16),))

    def fetch(self, item: Item, deed: Fetch) -> Outcome:
        return self.reflag(item.by, deed.box, deed.keys, ADD_FLAGS, SEEN) if deed.sets_seen else NOTHING

    def reflag(self, user: int, name: str, keys: bytes, how: int, flags: int) -> Outcome:
        box = self.boxes[user].get(name)
        if box is not None:
            mail = box.mail
            for key in keys_in(keys):
                it = mail.get(key)
                if it is not None:
                    mail[key] = it & ~FLAG_MASK | flags if how == REPLACE_FLAGS else it | flags if how == ADD_FLAGS else it & ~flags
        return NOTHING

    def copy(self, item: Item, deed: Copy) -> Outcome:
        user = item.by
        boxes = self.boxes[user]
        source = boxes.get(deed.box)
        its = deed.target if deed.target in boxes else LOST_FOUND
        if source is None:
            return NOTHING
        found = [(item.number << 16 | place, source.mail[key]) for place, key in enumerate(keys_in(deed.keys)) if key in source.mail]
        boxes[its].put_all(found)
        return Outcome(None, tuple((user, its, key) for key, _ in found))

    def expunge(self, item: Item, deed: Any) -> Outcome:
        box = self.boxes[item.by].get(deed.box)
        if box is None:
            return NOTHING
        gone = [key for key in dict.fromkeys(keys_in(deed.keys)) if box.mail.get(key, 0) & DELETED]
        for key in gone:
            del box.mail[key]
        return Outcome(None, (), tuple((item.by, deed.box, key) for key in gone))

    def has_inferior(self, user: int, name: str) -> bool:
        return any(is_inferior(name, it) for it in self.boxes[user])

    def create(self, item: Item, deed: Create) -> Outcome:
        if deed.box not in self.boxes[item.by]:
            self.create_all(item.by, with_superiors(deed.box))
        return NOTHING

    def create_all(self, user: int, names: list[str]) -> None:
        for name in names:
            self.boxes[user].setdefault(name, Box())

    def way_of(self, user: int, source: str, target: str) -> int:
        boxes = self.boxes[user]
        if target == '' or source == LOST_FOUND or target in FIXED or source == target or source not in boxes:
            return NO_SOURCE
        if source != INBOX and is_inferior(source, target):
            return NO_SOURCE
        if target in boxes:
            return MERGED
        if source != INBOX and any(is_inferior(source, it) and len(target) + len(it) - len(source) > LONGEST_NAME for it in boxes):
            return NO_SOURCE
        return PLAINLY

    def leave(self, user: int, name: str) -> None:
        """INBOX is emptied, and a mailbox that has an inferior; another goes."""
        if name == INBOX or self.has_inferior(user, name):
            self.boxes[user][name].mail = {}
        else:
            del self.boxes[user][name]

    def rename(self, item: Item, deed: Rename) -> Outcome:
        boxes, way = self.boxes[item.by], self.way_of(item.by, deed.box, deed.target)
        if way == NO_SOURCE:
            return NOTHING
        if way == PLAINLY:
            self.create_all(item.by, with_superiors(deed.target)[:-1])
            if deed.box != INBOX:
                moving = {name: box for name, box in boxes.items() if name == deed.box or is_inferior(deed.box, name)}
                for name in moving:
                    del boxes[name]
                for name, box in moving.items():
                    boxes[deed.target + name[len(deed.box):]] = box
                return NOTHING
        target = boxes.setdefault(deed.target, Box())
        target.put_all(boxes[deed.box].mail.items())
        self.leave(item.by, deed.box)
        return NOTHING

    def delete(self, item: Item, deed: Delete) -> Outcome:
        boxes = self.boxes[item.by]
        if deed.box in FIXED or deed.box not in boxes:
            return NOTHING
        keys, mail = set(keys_in(deed.keys)), boxes[deed.box].mail
        self.leave(item.by, deed.box)
        boxes[LOST_FOUND].put_all((key, it) for key, it in mail.items() if key not in keys)
        return Outcome(None, (), tuple((item.by, deed.box, key) for key in mail if key in keys))

    def set_alias(self, item: Item, deed: SetAlias) -> Outcome:
        place = bisect_left(self.aliases, (deed.local,)) if self.rises else next((at for at, (local, _) in enumerate(self.aliases) if local >= deed.local), len(self.aliases))
        behind = place + 1 if place < len(self.aliases) and self.aliases[place][0] == deed.local else place
        self.aliases[place:behind] = [(deed.local, tuple(sorted(set(deed.users))))]
        return self.with_aliases(self.aliases)

    def drop_alias(self, item: Item, deed: DropAlias) -> Outcome:
        return self.with_aliases([it for it in self.aliases if it[0] != deed.local])

    def with_filters(self, filters: list[Filter]) -> Outcome:
        self.filters, self.decider = filters, Decider(filters)
        return NOTHING

    def set_filter(self, item: Item, deed: SetFilter) -> Outcome:
        there = [place for place, it in enumerate(self.filters) if it.name == deed.filter.name]
        filters = list(self.filters)
        if there:
            filters[there[0]] = deed.filter
        else:
            filters.append(deed.filter)
        return self.with_filters(filters)

    def drop_filter(self, item: Item, deed: DropFilter) -> Outcome:
        return self.with_filters([it for it in self.filters if it.name != deed.name])

    def remove(self, item: Item, deed: Remove) -> Outcome:
        box = self.boxes[deed.user].get(deed.box)
        return Outcome(None, (), ((deed.user, deed.box, deed.key),)) if box is not None and box.mail.pop(deed.key, None) is not None else NOTHING

    # what an item would show, on the store before it

    def shows(self, item: Item) -> Any:
        return SHOWS[type(item.deed)](self, item.by, item.deed)

    def mail_at(self, user: int, name: str) -> dict[int, int]:
        box = self.boxes[user].get(name)
        return {} if box is None else box.mail

    def shows_fetch(self, user: int, deed: Fetch) -> bytes:
        mail = self.mail_at(user, deed.box)
        return b''.join(key.to_bytes(6, 'big') + rev_in(mail[key]).to_bytes(4, 'big') for key in keys_in(deed.keys) if key in mail)

    def there(self, user: int, name: str, keys: bytes) -> bytes:
        mail = self.mail_at(user, name)
        return keys_as([key for key in keys_in(keys) if key in mail])

    def shows_left(self, user: int, deed: Any) -> bytes:
        mail = self.mail_at(user, deed.box)
        return keys_as([key for key in keys_in(deed.keys) if key in mail and not mail[key] & DELETED])

    def shows_moved(self, user: int, deed: Delete) -> bytes:
        keys = set(keys_in(deed.keys))
        return b'' if deed.box in FIXED else keys_as([key for key in self.mail_at(user, deed.box) if key not in keys])

    def shows_count(self, user: int, deed: Any) -> Optional[int]:
        box = self.boxes[user].get(deed.box)
        return None if box is None else len(box.mail)

    # as a snapshot has it

    def snapshot(self, count: int) -> Iterator[bytes]:
        """The payload of the Snapshot record of this store, behind so many items, in pieces. Where each filter looks at the whole text it tells no scopes."""
        scoped = any(it.scope != BODY for it in self.filters)
        yield bytes([journal.SCOPED_SNAPSHOT if scoped else journal.SNAPSHOT]) + u32(count) + spelled_aliases(self.aliases)
        yield spelled_filters(self.filters, scoped)
        yield from self.rows()

    def rows(self) -> Iterator[bytes]:
        """The mailboxes, as a record lists them."""
        yield u32(sum(len(boxes) for boxes in self.boxes))
        pack = ENTRY.pack
        for user, boxes in enumerate(self.boxes):
            for name in sorted(boxes):
                box = boxes[name]
                yield bytes([user]) + spelled_name(name) + box.following.to_bytes(8, 'big') + u32(len(box.mail))
                for key, it in box.mail.items():
                    yield pack(it >> UID_SHIFT, key >> 16, key & 0xffff, it >> TEXT_SHIFT & NUMBER_MASK, rev_in(it), it & FLAG_MASK, it >> FLAG_BITS & MOMENT_MASK)

    def digest(self, count: int) -> str:
        found = hashlib.sha256()
        for piece in self.snapshot(count):
            found.update(piece)
        return found.hexdigest()

    @classmethod
    def of_rows(cls, house: House, it: Union[Snapshot, Base]) -> MailStore:
        found = cls(house, it.aliases)
        found.with_filters(list(it.filters))
        found.boxes = [{} for _ in house.users]
        for row in it.boxes:
            box = found.boxes[row.user][row.name] = Box()
            box.following = row.following
            mail = box.mail
            for uid, item, index, origin, rev, flags, at in ENTRY.iter_unpack(row.entries):
                mail[item << 16 | index] = uid << UID_SHIFT | mail_of(origin, rev, at, flags)
        return found

    def messages(self) -> int:
        return sum(len(box.mail) for boxes in self.boxes for box in boxes.values())


PERFORM: dict[type, Callable[[MailStore, Item, Any], Outcome]] = {
    Deliver: MailStore.deliver, Fetch: MailStore.fetch, Copy: MailStore.copy, Expunge: MailStore.expunge, Close: MailStore.expunge, Create: MailStore.create, Rename: MailStore.rename,
    Delete: MailStore.delete, SetAlias: MailStore.set_alias, DropAlias: MailStore.drop_alias, SetFilter: MailStore.set_filter, DropFilter: MailStore.drop_filter, Remove: MailStore.remove,
    Append: lambda store, item, deed: store.bring(item, item.by, deed.box, LOST_FOUND, deed.flags, deed.moment),
    Give: lambda store, item, deed: store.bring(item, deed.user, deed.box, LOST_FOUND, 0, item.at),
    Notice: lambda store, item, deed: store.bring(item, deed.user, INBOX, INBOX, 0, item.at),
    Store: lambda store, item, deed: store.reflag(item.by, deed.box, deed.keys, deed.how, deed.flags),
    List: lambda store, item, deed: NOTHING, Status: lambda store, item, deed: NOTHING, Select: lambda store, item, deed: NOTHING,
}
SHOWS: dict[type, Callable[[MailStore, int, Any], Any]] = {
    Fetch: MailStore.shows_fetch, Expunge: MailStore.shows_left, Close: MailStore.shows_left, Delete: MailStore.shows_moved, Status: MailStore.shows_count, Select: MailStore.shows_count,
    Store: lambda store, user, deed: store.there(user, deed.box, deed.keys),
    Copy: lambda store, user, deed: (store.there(user, deed.box, deed.keys), deed.target not in store.boxes[user]),
    Append: lambda store, user, deed: deed.box not in store.boxes[user],
    List: lambda store, user, deed: tuple(name for name in sorted(store.boxes[user]) if is_listed(deed.pattern, name)),
    Rename: lambda store, user, deed: store.way_of(user, deed.box, deed.target),
    Create: lambda store, user, deed: None,
}


def broken(deed: Deed, shown: Any, now: Any) -> Optional[str]:
    """Why what was shown no longer holds, where the same item would show this now; none where it holds."""
    kind = type(deed)
    if kind is Fetch:
        was, is_now = sights_in(shown), dict(sights_in(now))
        if any(key not in is_now for key, _ in was):
            return MISSING
        return CHANGED if deed.shows_body and any(is_now[key] != rev for key, rev in was) else None
    if kind is List:
        return NO_NAME if set(shown) - set(now) else None
    if kind in (Status, Select):
        return FEWER if shown is not None and (now is None or now < shown) else None
    if kind is Store:
        return MISSING if set(keys_in(shown)) - set(keys_in(now)) else None
    if kind is Copy:
        if set(keys_in(shown[0])) - set(keys_in(now[0])):
            return MISSING
        return REDIRECTED if now[1] and not shown[1] else None
    if kind is Append:
        return REDIRECTED if now and not shown else None
    if kind in (Expunge, Close):
        return LEFT if set(keys_in(now)) - set(keys_in(shown)) else None
    if kind is Rename:
        return RENAMED if now != PLAINLY and now != shown else None
    if kind is Delete:
        return MOVED if set(keys_in(now)) - set(keys_in(shown)) else None
    return None


def mail_date(at: int) -> str:
    when = datetime.datetime(1970, 1, 1) + datetime.timedelta(seconds=at)
    months = ('Jan', 'Feb', 'Mar', 'Apr', 'May', 'Jun', 'Jul', 'Aug', 'Sep', 'Oct', 'Nov', 'Dec')
    return f'{when.day} {months[when.month - 1]} {when.year} {when:%H:%M:%S} +0000'


def box_named(deed: Deed) -> Optional[str]:
    """The mailbox that an item names first."""
    return getattr(deed, 'box', None)


def notice_text(house: House, user: int, cycle: int, at: int, rows: list[tuple[Item, str]]) -> bytes:
    domain = house.domains[0]
    lines = [f'From: undomail <postmaster@{domain}>', f'To: <{house.users[user]}@{domain}>', f'Subject: Mail rewound and replayed, cycle {cycle}', f'Date: {mail_date(at)}', '',
             'These answers that you were given no longer hold:']
    for item, reason in rows:
        box = box_named(item.deed)
        lines.append(f'{item.number} {item.verb}{"" if box is None else " " + box}: {reason}')
    return ''.join(line + '\r\n' for line in lines).encode('ascii')


# ---- a journal, read to its end ----


@dataclasses.dataclass
class Ask:
    """A request for a cycle, as a Cycle record has it; texts by item, of two the last."""

    point: int
    drops: tuple[int, ...]
    replaces: dict[int, Body]
    asked: tuple[int, ...]  # the items of `replaces`, in order and as often as asked
    inserts: tuple[Deed, ...]
    place: int = 0  # of the record's payload


@dataclasses.dataclass
class Done:
    """What a cycle leaves, and its report as the console has it."""

    report: dict[str, Any]
    store: MailStore
    stamps: dict[tuple[int, str], int]
    timeline: array
    made: list[Item]
    replaced: dict[int, Body]
    answers: dict[int, Any]
    place: int
    following: int
    broken: list[tuple[Item, str]]
    withdraws: bool = False


@dataclasses.dataclass
class Undone:
    """What the last cycle put away: what stood behind its point before, and how many items stood before its notices after it."""

    cycle: int
    point: int
    position: int
    later: array
    placed: int
    texts: dict[int, Optional[tuple[int, Body]]]  # rev and text that items had whose text it replaced; none where it was their first


@dataclasses.dataclass
class Front:
    """A base and the texts and kept items behind it, while they are read: whether the base can stand is known behind the last of them."""

    gate: int
    base: Base
    bodies: set[tuple[int, int]]  # that its entries name
    numbers: set[int]  # the items of its keys, and the origins of its bodies
    last: type = Base


class NoPoint(Exception):
    """The timeline does not have the point of a cycle."""


class NoCycle(Exception):
    """There is no cycle to be withdrawn, or it is another one."""


class NoNumbers(Exception):
    """Too few numbers are left for a cycle."""


class Past:
    """A journal, as far as it was read: what is in force, the store that it leads to, and where each item stands.

    Texts stay in the file: of an item the place of its record is known."""

    def __init__(self, opened: Journal) -> None:
        self.journal = opened
        self.records = 0
        self.house: House
        self.timeline = array('I')
        self.drawn = 0  # the first number that this journal draws
        self.places, self.lengths = array('Q'), array('I')  # of the records of these numbers
        self.front: Optional[Front] = None
        self.kept: dict[int, Frame] = {}  # items that a cut kept
        self.texts: dict[tuple[int, int], Frame] = {}  # the texts of the base, by item and rev
        self.made: dict[int, Item] = {}  # acts that cycles brought in, and notices
        self.replaced: dict[int, tuple[int, Body]] = {}  # rev and text of items whose text a cycle replaced
        self.acts: dict[int, Deed] = {}  # what the operator did, by number
        self.answers: dict[int, Any] = {}  # what items of users show since a cycle broke what they showed
        self.stamps: dict[tuple[int, str], int] = {}
        self.store: MailStore
        self.base: Callable[[], MailStore]
        self.following = 0
        self.reports: dict[str, dict[str, Any]] = {}
        self.spelled: dict[str, Told] = {}  # the same, as a base has them
        self.marks: list[tuple[int, Frame]] = []  # snapshots from which a cycle can begin, by how many items they are of
        self.snapshots = 0
        self.undone: Optional[Undone] = None  # what the last cycle put away, until it is withdrawn
        self.upgraded: Optional[int] = None  # since when names may have superiors
        self.allowance = 1 << 22  # octets of snapshots that are still compared: so many more with each item, so that reading takes steps by items

    # reading

    def read(self, seen: Optional[Callable[[Any, Frame, Any], None]] = None, tell: Callable[[str], None] = lambda said: None) -> Past:
        """Reads to the end as it stands, from where it was read to before. `seen` is told each record, its frame and what it did: an Outcome, or a cycle's Done."""
        collects = gc.isenabled()
        gc.disable()  # nothing here refers to itself, and there are millions of objects
        try:
            return self.read_records(seen, tell)
        finally:
            if collects:
                gc.enable()

    def read_records(self, seen: Optional[Callable[[Any, Frame, Any], None]], tell: Callable[[str], None]) -> Past:
        self.journal.octets.block = b''  # what was read before the last gate was opened is old
        for frame in self.journal.frames(self.journal.end):
            self.records += 1
            if self.records & 0x3fff == 0:
                tell(f'{self.records:,} records')
            if self.records == 1:
                self.begin(frame)
                if seen:
                    seen(self.format, frame, NOTHING)
            elif frame.kind in journal.SNAPSHOTS:
                if self.front:
                    self.journal.record(frame)  # what spells no record is told before the base
                    self.settle()
                self.take_snapshot(frame, seen)
            else:
                found = self.journal.record(frame)
                if self.front and type(found) not in (Text, Kept):
                    self.settle()
                outcome = getattr(self, TAKES[type(found)])(found, frame)
                if seen:
                    seen(found, frame, outcome)
        if self.front:
            self.settle()
        return self

    def begin(self, frame: Frame) -> None:
        it = self.journal.record(frame)
        if type(it) is not Format:
            raise Damaged(frame.place - 5, frame.place, 'the first record is no Format')
        users = len(it.accounts)
        if not is_house(it):
            raise Damaged(frame.place - 5, frame.place, 'the Format record is no house')
        self.head, self.format, self.house, self.following, self.drawn, self.users = frame, it, House(it), it.first, it.first, users
        self.base = lambda: MailStore(self.house, it.aliases)
        self.store = self.base()
        self.stamps = {(user, name): it.first - 1 for user in range(users) for name in FIXED}

    def begin_again(self, it: Format, frame: Frame) -> Outcome:
        raise Damaged(frame.place - 5, frame.place, 'a second Format record')

    def upgrade(self, it: Upgrade, frame: Frame) -> Outcome:
        if self.upgraded is not None:
            raise Damaged(frame.place - 5, frame.place, 'a second Upgrade record')
        self.upgraded = it.at
        return NOTHING

    # what a cut left: a base, the texts of its messages, and the items behind it

    def begin_from(self, it: Base, frame: Frame) -> Outcome:
        if self.records != 2:
            raise Damaged(frame.place - 5, frame.place, 'a Base record is the second or none')
        entries = [row for box in it.boxes for row in ENTRY.iter_unpack(box.entries)]
        keys = [(box.user, key[1:3]) for box in it.boxes for key in ENTRY.iter_unpack(box.entries)]
        front = Front(frame.place - 5, it, {(row[3], row[4]) for row in entries}, {number for row in entries for number in (row[1], row[3])})
        highest = max([number for row in entries for number in (row[1], row[3], row[4])] + [row.stamp for row in it.stamps], default=-1)
        named = [row.user for row in it.stamps] + [row.user for _, told in it.reports for row in (*told.broken, *told.renewed)]
        why = ('a Base has a number that is not below its next' if highest >= it.following else 'a next number that no journal has' if it.following > LAST_NUMBER + 1
               else 'a Base names a user that the house does not have' if max(named, default=0) >= self.users
               else 'the stamps or the keys of reports of a Base do not rise' if not (are_rising([row[:2] for row in it.stamps]) and are_rising([key for key, _ in it.reports]))
               else 'a user has a message twice' if len(set(keys)) < len(keys) else None if self.makes_store(it) else 'the base is no store of this house')
        if why:
            raise Damaged(frame.place - 5, frame.place, why)
        self.front, self.following, self.drawn, self.upgraded = front, it.following, it.following, LONG_AGO if it.deep else None
        self.base = lambda: MailStore.of_rows(self.house, self.journal.record(frame, apart=True))
        self.store = MailStore.of_rows(self.house, it)
        self.stamps = {(row.user, row.name): row.stamp for row in it.stamps}
        self.spelled = dict(it.reports)
        self.reports = {key: self.report_of(told) for key, told in it.reports}
        return NOTHING

    def report_of(self, it: Told) -> dict[str, Any]:
        """A report of a base as the console has it."""
        users = self.house.users
        return {
            'broken': [{'item': row.number, 'reason': REASONS[row.reason], 'user': users[row.user], 'verb': VERB_OF[row.verb]} for row in it.broken],
            'cycle': it.cycle, 'kept': it.kept, 'notices': list(it.notices), 'point': it.point,
            'renewed': [{'box': row.name, 'stamp': row.stamp, 'user': users[row.user]} for row in it.renewed], 'unmatched': list(it.unmatched),
        }

    def take_text(self, it: Text, frame: Frame) -> Outcome:
        front, body = self.front, (it.origin, it.rev)
        if not front or front.last is Kept:
            raise Damaged(frame.place - 5, frame.place, 'a Text stands behind neither a Base nor a Text')
        if body not in front.bodies or body in self.texts:
            raise Damaged(frame.place - 5, frame.place + 1, 'a Text of no message of the base, or a second one')
        front.last, self.texts[body] = Text, frame
        return NOTHING

    def keep(self, it: Kept, frame: Frame) -> Outcome:
        front, deed = self.front, it.deed
        kind = type(deed)
        if not front:
            raise Damaged(frame.place - 5, frame.place, 'a Kept stands behind neither a Base nor a Text nor a Kept')
        if it.number >= self.following or it.rev >= self.following or it.number in front.numbers or it.number in self.kept:
            raise Damaged(frame.place - 5, frame.place + 1, 'a Kept has a number that is used, or one that is not below the next')
        acts = users_in(deed) if it.by is None else (it.by,)
        if (it.by is None) != (kind is Deliver or kind in OF_NOBODY) or any(user >= self.users for user in acts):
            raise Damaged(frame.place - 5, frame.place + 13, 'who acts, or a user that is named, is none who can')
        front.last, self.kept[it.number] = Kept, frame
        if kind in OF_NOBODY and kind is not Notice:
            self.acts[it.number] = without_text(deed)
        outcome = PERFORM[kind](self.store, Item(it.number, it.at, it.by, it.rev, deed), deed)
        self.timeline.append(it.number)
        self.allowance += 128
        return outcome

    def settle(self) -> None:
        """Whether the base can stand, behind the texts and items that follow it."""
        front, self.front = self.front, None
        if any(body not in self.texts for body in front.bodies):
            raise Damaged(front.gate, front.gate + 5, 'a text of the base is missing')
        if set(self.stamps) != {(user, name) for user, boxes in enumerate(self.store.boxes) for name in boxes}:
            raise Damaged(front.gate, front.gate + 5, 'the stamps of a Base are not those of the mailboxes')

    def text_before(self, origin: int, rev: int) -> Optional[Body]:
        """The text of a message of the base."""
        frame = self.texts.get((origin, rev))
        return None if frame is None else self.journal.record(frame, apart=True).body

    def text_of(self, origin: int, rev: int, in_force: Container[int]) -> Optional[Body]:
        """The text of a message: of the item in force that brought it, or else of the base."""
        item = self.item(origin) if origin in in_force else None
        return item.body if item is not None and item.rev == rev and item.body is not None else self.text_before(origin, rev)

    def take_snapshot(self, frame: Frame, seen: Any) -> None:
        head = self.journal.octets.apart(frame.place, SNAPSHOT_HEAD)
        if len(head) < SNAPSHOT_HEAD or frame.length < SNAPSHOT_HEAD:
            raise Damaged(frame.place - 5, frame.place, 'a field is cut')
        count = int.from_bytes(head[1:], 'big')
        if count != len(self.timeline):
            raise Damaged(frame.place - 5, frame.place + 1, f'the snapshot is of {count:,} items, and {len(self.timeline):,} are in force')
        self.snapshots += 1
        if frame.length <= self.allowance:
            self.allowance -= frame.length
            if self.is_true(frame):
                self.marks = [it for it in self.marks if it[0] != count] + [(count, frame)]
            else:
                self.can_keep(self.journal.record(frame, apart=True), frame)
        if seen:
            seen(Snapshot(count, (), (), ()), frame, NOTHING)

    def can_keep(self, it: Snapshot, frame: Frame) -> None:
        """Whether a snapshot that is not true makes a store of the house all the same: then it is passed, and else no record."""
        if not self.makes_store(it):
            raise Damaged(frame.place - 5, frame.place, 'the snapshot is of no store of this house')

    def makes_store(self, it: Union[Snapshot, Base]) -> bool:
        users = len(self.house.users)
        rows = [(row.user, row.name) for row in it.boxes]
        there = set(rows)
        rises = all(one < two for one, two in zip(rows, rows[1:])) and all(user < users for user, _ in rows)
        fixed = all((user, name) in there for user in range(users) for name in FIXED)
        named = all(max(meant, default=0) < users for _, meant in it.aliases)
        above = all((user, superior) in there for user, name in rows for superior in with_superiors(name)[:-1])
        return rises and fixed and named and above and all(uids_rise(row) for row in it.boxes)

    def is_true(self, frame: Frame) -> bool:
        """Whether a snapshot's octets are those of the store as it is read by now: a cycle begins from no other."""
        found = bytearray()
        for piece in self.store.snapshot(len(self.timeline)):
            found += piece
        return len(found) == frame.length and self.journal.octets.apart(frame.place, frame.length) == found

    def enter(self, it: Any, frame: Frame) -> Outcome:
        number, deed = it.number, it.deed
        kind = type(deed)
        if type(it) is Verb:
            by = it.by
            fits = kind is Deliver if by is None else by < self.users and kind is not Deliver
        else:
            by, fits = None, all(user < self.users for user in users_in(deed))
            self.acts[number] = without_text(deed)
        if number != self.following or number > LAST_NUMBER:
            raise Damaged(frame.place - 5, frame.place + 1, f'the record has the number {number}, and the next is {self.following}')
        if not fits:
            raise Damaged(frame.place - 5, frame.place + 13, 'who acts, or a user that is named, is none who can')
        outcome = PERFORM[kind](self.store, Item(number, it.at, by, 0, deed), deed)
        if kind is Create or kind is Rename or kind is Delete:
            self.restamp(number)
        self.timeline.append(number)
        self.places.append(frame.place)
        self.lengths.append(frame.length)
        self.following = number + 1
        self.allowance += 128
        return outcome

    def restamp(self, number: int) -> None:
        self.stamps = {(user, name): self.stamps.get((user, name), number) for user, boxes in enumerate(self.store.boxes) for name in boxes}

    # items

    def beside(self) -> Past:
        """The items in force as they are by now, for another thread: whoever reads on meanwhile changes nothing of them."""
        found = shallow_copy(self)
        found.journal, found.timeline, found.replaced = self.journal.beside(), array('I', self.timeline), dict(self.replaced)
        return found

    def has(self, number: int) -> bool:
        return number in self.kept or number in self.made or self.drawn <= number < self.following and self.places[number - self.drawn] != 0

    def item(self, number: int, apart: bool = True) -> Item:
        """An item as it is in force, with its text."""
        found = self.made.get(number)
        if found is None and number in self.kept:
            record = self.journal.record(self.kept[number], apart)
            found = Item(number, record.at, record.by, record.rev, record.deed)
        elif found is None:
            place = number - self.drawn
            record = self.journal.record(Frame(self.places[place], self.lengths[place], 0), apart)
            found = Item(number, record.at, record.by if type(record) is Verb else None, 0, record.deed)
        if number in self.replaced:
            rev, body = self.replaced[number]
            found = found._replace(rev=rev, deed=found.deed._replace(body=body))
        return found

    def shown(self, item: Item) -> Any:
        return self.answers[item.number] if item.number in self.answers else item.deed.shown

    # cycles

    def rewind(self, it: Cycle, frame: Frame) -> Done:
        if it.number != self.following or it.number > LAST_NUMBER:
            raise Damaged(frame.place - 5, frame.place + 1, f'the record has the number {it.number}, and the next is {self.following}')
        if it.key in self.reports:
            raise Damaged(frame.place - 5, frame.place + 13, 'an earlier cycle had this key')
        if any(user >= len(self.house.users) for deed in it.inserts for user in users_in(deed)):
            raise Damaged(frame.place - 5, frame.place, 'an act names a user that the house does not have')
        try:
            done = self.cycle(Ask(it.point, it.drops, {row.item: row.body for row in it.replaces}, tuple(row.item for row in it.replaces), it.inserts), it.at)
        except (NoPoint, NoNumbers) as fault:
            raise Damaged(frame.place - 5, frame.place, 'the point of a cycle is no item in force' if isinstance(fault, NoPoint) else 'too few numbers were left for a cycle') from None
        self.leave(it.key, done)
        return done

    def give_back(self, it: Withdraw, frame: Frame) -> Done:
        if it.number != self.following or it.number > LAST_NUMBER:
            raise Damaged(frame.place - 5, frame.place + 1, f'the record has the number {it.number}, and the next is {self.following}')
        if it.key in self.reports:
            raise Damaged(frame.place - 5, frame.place + 13, 'an earlier cycle had this key')
        try:
            done = self.withdrawn(it.of, it.at)
        except (NoCycle, NoNumbers) as fault:
            raise Damaged(frame.place - 5, frame.place, 'the cycle is not the last one' if isinstance(fault, NoCycle) else 'too few numbers were left for a withdrawal') from None
        self.leave(it.key, done)
        return done

    def leave(self, key: str, done: Done) -> None:
        """What is kept after a cycle."""
        number = self.following
        later = self.timeline[done.place:]
        self.undone = None if done.withdraws else Undone(number, done.report['point'], done.place, later, len(done.timeline) - len(done.report['notices']), {it: self.replaced.get(it) for it in done.replaced})
        self.store, self.stamps, self.timeline, self.following = done.store, done.stamps, done.timeline, done.following
        self.reports[key], self.spelled[key] = done.report, self.told_of(done)
        self.answers.update(done.answers)
        self.replaced.update({item: (number, body) for item, body in done.replaced.items()})
        self.made.update({item.number: item for item in done.made})
        self.acts.update({item.number: item.deed for item in done.made if type(item.deed) is not Notice})
        for _ in range(done.following - number):
            self.places.append(0)
            self.lengths.append(0)
        self.marks = [it for it in self.marks if it[0] <= done.place]

    def told_of(self, done: Done) -> Told:
        """A report as a base has it."""
        it, numbers = done.report, self.house.numbers
        broken = tuple(BrokenRow(item.number, item.by, BYTE_OF[type(item.deed)], box_named(item.deed), REASONS.index(reason)) for item, reason in done.broken)
        return Told(it['cycle'], it['point'], it['kept'], broken, tuple(it['notices']), tuple(Stamp(numbers[row['user']], row['box'], row['stamp']) for row in it['renewed']), tuple(it['unmatched']))

    def position(self, point: int) -> int:
        if point == 0:
            return 0
        try:
            return self.timeline.index(point) + 1
        except (ValueError, OverflowError):
            raise NoPoint from None

    def beginning(self, place: int) -> tuple[MailStore, int]:
        """A store behind some first items, no more than these."""
        usable = [it for it in self.marks if it[0] <= place]
        if not usable:
            return self.base(), 0
        count, frame = max(usable, key=lambda it: it[0])
        found = self.journal.record(frame, apart=True)
        return MailStore.of_rows(self.house, found), count

    def cycle(self, ask: Ask, at: int, tell: Callable[[str], None] = lambda said: None) -> Done:
        """What a cycle leaves that runs now, and its report. Nothing here changes."""
        number, place = self.following, self.position(ask.point)
        if number + 1 + len(ask.inserts) + len(self.house.users) > LAST_NUMBER:
            raise NoNumbers
        made = [Item(number + 1 + n, at, None, 0, deed) for n, deed in enumerate(ask.inserts)]
        drops, later = set(ask.drops), self.timeline[place:]
        kept = array('I', (it for it in later if it not in drops))
        replaced = {it: ask.replaces[it] for it in kept if it in ask.replaces and self.takes_text(it)} if ask.replaces else {}
        timeline = self.timeline[:place] + array('I', (item.number for item in made)) + kept
        unmatched = [it for it in ask.drops if it not in drops.intersection(later)] + [it for it in ask.asked if it not in replaced]
        return self.settled(ask.point, place, timeline, made, replaced, later, drops, unmatched, at, tell)

    def settled(self, point: int, place: int, timeline: array, made: list[Item], replaced: dict[int, Body], later: array, drops: set[int], unmatched: list[int], at: int, tell: Callable[[str], None]) -> Done:
        """A repaired list performed: who is told, the notices, the stamps and the report."""
        number, kept = self.following, len(timeline) - place - len(made)
        store, reasons, answers = self.replayed(timeline, place, made, replaced, tell)
        told = self.judged(later, drops, reasons)
        notices = self.notices_of(number, len(made), at, told)
        for item in notices:
            store.perform(item)
        timeline.extend(item.number for item in notices)
        stamps = self.renewed(store, number)
        report = {
            'broken': [{'item': item.number, 'reason': reason, 'user': self.house.users[item.by], 'verb': item.verb} for item, reason in told],
            'cycle': number, 'kept': kept, 'notices': [item.number for item in notices], 'point': point,
            'renewed': [{'box': name, 'stamp': number, 'user': self.house.users[user]} for user, name in sorted(stamps) if stamps[user, name] == number],
            'unmatched': unmatched,
        }
        return Done(report, store, stamps, timeline, made + notices, replaced, answers, place, number + 1 + len(made) + len(notices), told)

    def withdrawn(self, of: int, at: int, tell: Callable[[str], None] = lambda said: None) -> Done:
        """What a withdrawal of the last cycle leaves that runs now, and its report. Texts that the cycle replaced are those of before from here on."""
        last = self.undone
        if last is None or last.cycle != of:
            raise NoCycle
        if self.following + 1 + len(self.house.users) > LAST_NUMBER:
            raise NoNumbers
        for number, before in last.texts.items():
            if before is None:
                del self.replaced[number]
            else:
                self.replaced[number] = before
        timeline = self.timeline[:last.position] + last.later + self.timeline[last.placed:]
        done = self.settled(last.point, last.position, timeline, [], {}, timeline[last.position:], set(), [], at, tell)
        return dataclasses.replace(done, withdraws=True)

    def replayed(self, timeline: array, place: int, made: list[Item], replaced: dict[int, Body], tell: Callable[[str], None]) -> tuple[MailStore, dict[int, tuple[Item, str]], dict[int, Any]]:
        """The store that repaired items lead to; of later ones those that no longer hold, with why, and what they show now."""
        new = {item.number: item for item in made}
        store, begin = self.beginning(place)
        front = place + len(made)
        reasons: dict[int, tuple[Item, str]] = {}
        answers: dict[int, Any] = {}
        for position in range(begin, len(timeline)):
            it = timeline[position]
            item = new[it] if it in new else self.item(it, False)
            if it in replaced:
                item = item._replace(rev=self.following, deed=item.deed._replace(body=replaced[it]))
            if position >= front and item.by is not None:
                now = store.shows(item)
                reason = broken(item.deed, self.shown(item), now)
                if reason:
                    reasons[it], answers[it] = (item, reason), now
            store.perform(item)
            if position & 0x3fff == 0x3fff:
                tell(f'{position + 1:,} of {len(timeline):,} items')
        return store, reasons, answers

    def judged(self, later: array, drops: set[int], reasons: dict[int, tuple[Item, str]]) -> list[tuple[Item, str]]:
        """The items of users that no longer hold or were dropped, in the order of the timeline before."""
        told = []
        for it in later:
            if it in reasons:
                told.append(reasons[it])
            elif it in drops:
                item = self.item(it)
                if item.by is not None:
                    told.append((item, WITHDRAWN))
        return told

    def takes_text(self, number: int) -> bool:
        return type(self.item(number).deed) in (Deliver, Append, Give)

    def notices_of(self, cycle: int, acts: int, at: int, told: list[tuple[Item, str]]) -> list[Item]:
        by_user: dict[int, list[tuple[Item, str]]] = {}
        for item, reason in told:
            by_user.setdefault(item.by, []).append((item, reason))
        return [Item(cycle + acts + 1 + n, at, None, 0, Notice(user, Body(notice_text(self.house, user, cycle, at, by_user[user]), 0))) for n, user in enumerate(sorted(by_user))]

    def renewed(self, after: MailStore, cycle: int) -> dict[tuple[int, str], int]:
        """The stamps behind a cycle: that of before where the mailbox extends the one of before, else the cycle's number."""
        found = {}
        for user, boxes in enumerate(after.boxes):
            for name, box in boxes.items():
                old = self.store.boxes[user].get(name)
                found[user, name] = self.stamps[user, name] if old is not None and extends(old, box) else cycle
        return found

    def fold(self, seen: Callable[[Item, Outcome, MailStore], None], tell: Callable[[str], None] = lambda said: None) -> None:
        """Performs the items in force from the first on; `seen` is told each, what it did, and the store behind it."""
        store = self.base()
        for position, number in enumerate(self.timeline):
            item = self.item(number, False)
            seen(item, store.perform(item), store)
            if position & 0x3fff == 0x3fff:
                tell(f'{position + 1:,} of {len(self.timeline):,} items')

    # what is counted

    def counts(self) -> dict[str, int]:
        told = {number for number, item in self.made.items() if type(item.deed) is Notice} | {number for number, frame in self.kept.items() if self.is_notice(frame)}
        notices = sum(1 for number in self.timeline if number in told) if told else 0
        return {'cycles': len(self.reports), 'items': len(self.timeline), 'messages': self.store.messages(), 'next': self.following, 'notices': notices, 'users': len(self.house.users)}

    def is_notice(self, frame: Frame) -> bool:
        return self.journal.octets.apart(frame.place + KEPT_DEED, 1) == bytes([journal.KEPT_NOTICE])

    def digest(self) -> str:
        return self.store.digest(len(self.timeline))


def extends(old: Box, new: Box) -> bool:
    if new.following < old.following:
        return False
    for key, it in new.mail.items():
        if it >> UID_SHIFT >= old.following:
            continue
        was = old.mail.get(key)
        if was is None or was >> UID_SHIFT != it >> UID_SHIFT or was >> TEXT_SHIFT & TEXT_MASK != it >> TEXT_SHIFT & TEXT_MASK:
            return False
    return True


def is_house(it: Format) -> bool:
    """Whether this is what some configuration's text gives (docs/FORMATS.md, Configuration)."""
    def word(text: str) -> bool:
        return ' ' not in text
    def local(text: str) -> bool:
        return re.fullmatch(r'[a-z0-9._-]{1,64}', text) is not None
    names, locals_ = [account.name for account in it.accounts], [name for name, _ in it.aliases]
    return (word(it.host) and len(it.domains) >= 1 and all(word(domain) and domain == domain.lower() for domain in it.domains) and len(set(it.domains)) == len(it.domains)
            and len(names) >= 1 and all(map(local, names)) and len(set(names)) == len(names) and 'postmaster' not in names
            and 2 <= it.first <= LAST_NUMBER and it.postmaster < len(names)
            and all(map(local, locals_)) and all(one < two for one, two in zip(locals_, locals_[1:])) and not {*names, 'postmaster'} & set(locals_)
            and all(users and users[-1] < len(names) and all(one < two for one, two in zip(users, users[1:])) for _, users in it.aliases))


def uids_rise(row: journal.SnapshotBox) -> bool:
    before = 0
    for uid, *_ in ENTRY.iter_unpack(row.entries):
        if uid <= before:
            return False
        before = uid
    return before < row.following


def are_rising(rows: list[Any]) -> bool:
    return all(one < two for one, two in zip(rows, rows[1:]))


def item_of(record: Any) -> Optional[Item]:
    """The item that a record has whole; none of a record of another kind."""
    kind = type(record)
    if kind is Verb or kind is Operator:
        return Item(record.number, record.at, record.by if kind is Verb else None, 0, record.deed)
    return Item(*record) if kind is Kept else None


def without_text(deed: Deed) -> Deed:
    return Give(deed.user, deed.box, Body(b'', 0)) if type(deed) is Give else deed


def users_in(deed: Deed) -> tuple[int, ...]:
    """The users that an act or a notice names."""
    if type(deed) is SetAlias:
        return deed.users
    return (deed.user,) if type(deed) in (Remove, Give, Notice) else ()


TAKES = {Format: 'begin_again', Verb: 'enter', Operator: 'enter', Cycle: 'rewind', Withdraw: 'give_back', Upgrade: 'upgrade', Base: 'begin_from', Text: 'take_text', Kept: 'keep'}
