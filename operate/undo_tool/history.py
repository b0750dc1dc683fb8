"""What a journal tells: who got, saw and copied what, what each filter touched, and what a cycle would do to each user."""
from __future__ import annotations

import base64
import dataclasses
from typing import Any, Callable, Iterable, Iterator, NamedTuple, Optional

from .formats import BODY, HEADER, RECIPIENT, SENDER
from .journal import (NOBODY, Append, Body, Close, Copy, Create, Cycle, Damaged, Deed, Delete, Deliver, DropAlias, DropFilter, Expunge, Fetch, Filter, Format, Give, Journal, Kept, List,
                      NoStore, Notice, Operator, Remove, Rename, Select, SetAlias, SetFilter, Snapshot, Status, Store, Verb, Withdraw, keys_in, sights_in)
from .mail import Message, text_of
from .model import INBOX, LOST_FOUND, NOTHING, Ask, Done, House, Item, MailStore, NoCycle, NoNumbers, NoPoint, Outcome, Past, item_of
from .troubles import DAMAGED, FILE_FAULT, NOTHING_FOUND, REFUSED, Trouble

Tell = Callable[[str], None]


def opened(path: str) -> Journal:
    try:
        return Journal(path)
    except OSError as fault:
        raise Trouble(FILE_FAULT, f'The journal {path} cannot be read: {fault.strerror}.') from None


def read(journal: Journal, seen: Optional[Callable[[Any, Any, Any], None]] = None, tell: Tell = lambda said: None) -> Past:
    """Reads a journal to its end, as it stands by now."""
    return reading(Past(journal), seen, tell)


def reading(past: Past, seen: Optional[Callable[[Any, Any, Any], None]], tell: Tell) -> Past:
    """The same for a past that `seen` looks at meanwhile."""
    path = past.journal.path
    try:
        return past.read(seen, tell)
    except NoStore:
        raise Trouble(DAMAGED, f'{path} is no store: it is empty, or does not begin with an open gate.') from None
    except Damaged as fault:
        raise Trouble(DAMAGED, damage(past.journal, fault)) from None
    except OSError as fault:
        raise Trouble(FILE_FAULT, f'The journal {path} cannot be read: {fault.strerror}.') from None


def damage(journal: Journal, fault: Damaged) -> str:
    """What is wrong with a journal, and how it is mended where that is known."""
    said = f'{journal.path} is damaged at {fault.gate}: {fault.why}, at octet {fault.place}.'
    if fault.why.startswith('the file ends inside'):
        said += (f' So ends a copy that was cut while the store grew (by tar, say). A closed gate at {fault.gate} mends the copy, and drops the record that is cut: '
                 f"printf '\\0' | dd of={journal.path} bs=1 seek={fault.gate} conv=notrunc (docs/OPERATING.md, 'Backup and restore').")
    return said


# ---- records in words and for scripts ----


def key_text(key: int) -> str:
    """A message by its item, and its index where it is another than the first."""
    return str(key >> 16) if not key & 0xffff else f'{key >> 16}.{key & 0xffff}'


def some(them: list[str], most: int = 12) -> str:
    return ', '.join(them) if len(them) <= most else f'{", ".join(them[:most])} and {len(them) - most:,} more'


def flags_text(flags: int) -> str:
    return ' '.join(name for bit, name in enumerate(('\\Answered', '\\Flagged', '\\Deleted', '\\Seen', '\\Draft')) if flags >> bit & 1) or 'none'


LOOKS = {(False, False): 'flags', (False, True): 'sizes, headers or texts, not marked as read', (True, True): 'texts, marked as read', (True, False): 'marked as read'}
# how much of a message a FETCH may have shown, the most first
FLAGS_ALONE, LOOKED, READ = range(3)


def look_of(deed: Fetch) -> int:
    return READ if deed.sets_seen else LOOKED if deed.shows_body else FLAGS_ALONE


LOOK_WORDS = {READ: 'fetched its text, which marks it as read', LOOKED: 'fetched its size, header or text, not marked as read', FLAGS_ALONE: 'saw its flags alone'}


class Telling:
    """Items of a house in words and for scripts."""

    def __init__(self, house: House) -> None:
        self.house = house

    def user(self, number: Optional[int]) -> str:
        return '' if number is None else self.house.users[number]

    def users(self, numbers: Iterable[int]) -> list[str]:
        return [self.house.users[number] for number in numbers]

    def places(self, outcome: Outcome) -> list[dict[str, Any]]:
        return [{'user': self.user(user), 'box': box} for user, box, _ in outcome.put]

    def went(self, outcome: Outcome) -> str:
        """Where mail went, and which filter decided."""
        where = some([f'{self.user(user)} {box}' for user, box, _ in outcome.put]) or ('discarded' if outcome.filter else 'nowhere')
        return f'{where} (filter {outcome.filter.name})' if outcome.filter else where

    def data(self, item: Item, outcome: Outcome) -> dict[str, Any]:
        """All of an item, for scripts."""
        deed = item.deed
        row: dict[str, Any] = {'number': item.number, 'at': item.at, 'by': self.user(item.by), 'verb': item.verb}
        body = item.body
        if body is not None:
            head = Message(body.octets)
            row.update(octets=len(body.octets), subject=head.field('subject'), put=self.places(outcome))
        if type(deed) is Deliver:
            row.update(sender=text_of(deed.sender), recipients=list(deed.recipients), filter=outcome.filter.name if outcome.filter else None)
        elif type(deed) is Fetch:
            row.update(box=deed.box, keys=list(map(key_text, keys_in(deed.keys))), sets_seen=deed.sets_seen, shows_body=deed.shows_body,
                       shown=[{'message': key_text(key), 'rev': rev} for key, rev in sights_in(deed.shown)])
        elif type(deed) is Store:
            row.update(box=deed.box, keys=list(map(key_text, keys_in(deed.keys))), how=('replace', 'add', 'take')[deed.how], flags=flags_text(deed.flags), shown=list(map(key_text, keys_in(deed.shown))))
        elif type(deed) is Copy:
            row.update(box=deed.box, target=deed.target, keys=list(map(key_text, keys_in(deed.keys))), copied=list(map(key_text, keys_in(deed.shown[0]))), redirected=deed.shown[1])
        elif type(deed) in (Expunge, Close, Delete):
            row.update(box=deed.box, keys=list(map(key_text, keys_in(deed.keys))), kept=list(map(key_text, keys_in(deed.shown))))
        elif type(deed) is Append:
            row.update(box=deed.box, flags=flags_text(deed.flags), moment=deed.moment, redirected=deed.shown)
        elif type(deed) is List:
            row.update(pattern=text_of(deed.pattern), names=list(deed.shown))
        elif type(deed) in (Status, Select):
            row.update(box=deed.box, count=deed.shown)
        elif type(deed) is Create:
            row.update(box=deed.box)
        elif type(deed) is Rename:
            row.update(box=deed.box, target=deed.target, way=('plain', 'no source', 'merged')[deed.shown])
        elif type(deed) is SetAlias:
            row.update(local=deed.local, users=self.users(deed.users))
        elif type(deed) is DropAlias:
            row.update(local=deed.local)
        elif type(deed) is SetFilter:
            row.update(filter_data(deed.filter))
        elif type(deed) is DropFilter:
            row.update(name=deed.name)
        elif type(deed) is Remove:
            row.update(user=self.user(deed.user), box=deed.box, message=key_text(deed.key))
        elif type(deed) is Give:
            row.update(user=self.user(deed.user), box=deed.box)
        elif type(deed) is Notice:
            row.update(user=self.user(deed.user))
        return row

    def act(self, deed: Deed) -> str:
        """An act of the operator in words."""
        if type(deed) is SetAlias:
            return f'alias {deed.local}: {", ".join(self.users(deed.users))}'
        if type(deed) is DropAlias:
            return f'alias {deed.local} goes'
        if type(deed) is SetFilter:
            return filter_text(deed.filter)
        if type(deed) is DropFilter:
            return f'filter {deed.name} goes'
        if type(deed) is Remove:
            return f'message {key_text(deed.key)} goes out of {self.user(deed.user)} {deed.box}'
        return f'message for {self.user(deed.user)} {deed.box}: {subject(deed.body)}'

    def words(self, item: Item, outcome: Outcome) -> str:
        """What an item is, in one line."""
        deed = item.deed
        kind = type(deed)
        if kind is Deliver:
            return f'from {text_of(deed.sender) or "<>"} to {some(list(deed.recipients), 6)}: {subject(deed.body)}, {len(deed.body.octets):,} octets -> {self.went(outcome)}'
        if kind is Append:
            return f'into {deed.box}: {subject(deed.body)}, {len(deed.body.octets):,} octets -> {self.went(outcome)}'
        if kind is Fetch:
            return f'{deed.box}: {LOOKS[deed.sets_seen, deed.shows_body]}: {keys_text(keys_in(deed.keys))}'
        if kind is Store:
            return f'{deed.box}: flags {("are", "and", "without")[deed.how]} {flags_text(deed.flags)}: {keys_text(keys_in(deed.keys))}'
        if kind is Copy:
            return f'{deed.box} to {deed.target}: {keys_text(keys_in(deed.keys))}{" -> Lost+Found" if deed.shown[1] else ""}'
        if kind in (Expunge, Close):
            return f'{deed.box}: {keys_text(keys_in(deed.keys))} out of it'
        if kind is Delete:
            return f'{deed.box}, with {keys_text(keys_in(deed.keys))}'
        if kind is List:
            return f'{text_of(deed.pattern)}: {some(list(deed.shown))}'
        if kind in (Status, Select):
            return f'{deed.box}: {"no such mailbox" if deed.shown is None else f"{deed.shown:,} messages"}'
        if kind is Rename:
            return f'{deed.box} to {deed.target}{("", ", there was none", ", which was there")[deed.shown]}'
        if kind is Create:
            return deed.box
        if kind is Notice:
            return f'to {self.user(deed.user)}: {subject(deed.body)}'
        return self.act(deed)

    def withdrawal(self, it: Withdraw, done: Done) -> str:
        return f'"{it.key}", cycle {it.of} taken back; {self.notices(done)}'

    def cycle(self, it: Cycle, done: Done) -> str:
        parts = [f'"{it.key}", back to point {it.point}']
        if it.drops:
            parts.append(f'dropped {some([str(number) for number in it.drops])}')
        if it.replaces:
            parts.append(f'another text for {some([str(row.item) for row in it.replaces])}')
        parts += [f'brought in {item.number}: {self.act(item.deed)}' for item in done.made if type(item.deed) is not Notice]
        return '; '.join([*parts, self.notices(done)])

    def notices(self, done: Done) -> str:
        notices = [f'{item.number} to {self.user(item.deed.user)}' for item in done.made if type(item.deed) is Notice]
        return f'notices {some(notices)}' if notices else 'no notice'


def filter_data(it: Filter) -> dict[str, Any]:
    """A filter as the console has it: with its scope unless that is the body, and with the field that it names."""
    return {'name': it.name, 'needle': it.needle, 'file': it.file, **({} if it.scope == BODY else {'scope': it.scope}), **({} if it.field is None else {'field': it.field})}


def filter_of(it: dict[str, Any]) -> Filter:
    """A filter of an act, or as the console tells it."""
    return Filter(it['name'], it['needle'], it['file'], it.get('scope', BODY), it.get('field'))


def where_text(it: Filter) -> str:
    """Where a filter looks."""
    return {BODY: 'whole text', HEADER: f'header field {it.field}', SENDER: 'sender', RECIPIENT: 'recipients'}[it.scope]


def met_text(it: Filter) -> str:
    """What is said of mail that the filter decides about."""
    where = {BODY: 'what holds', HEADER: f'what has in {it.field}', SENDER: 'what is from a sender with', RECIPIENT: 'what is to a recipient with'}
    return f'{where[it.scope]} "{it.needle}"'


def filter_text(it: Filter) -> str:
    return f'filter {it.name}: {met_text(it)} is {"discarded" if it.file is None else f"filed into {it.file}"}'


def keys_text(keys: list[int]) -> str:
    return some([key_text(key) for key in keys]) if keys else 'none'


def subject(body: Body) -> str:
    said = Message(body.octets[:65536]).field('subject')
    return f'"{said}"' if said else 'no subject'


# ---- the questions ----


class Reader(NamedTuple):
    """What a user was shown of a text."""

    user: str
    number: int
    at: int
    look: int
    box: str
    message: str
    rev: int


class Holder(NamedTuple):
    user: str
    box: str
    message: str


@dataclasses.dataclass
class Read:
    """Who has, had, saw and copied the text of an item."""

    item: Item
    outcome: Outcome
    in_force: bool
    readers: list[Reader]
    copies: list[Reader]
    given: list[str]
    lies: list[Holder]

    def looks(self) -> dict[str, int]:
        """Of each user the most that he was shown."""
        found: dict[str, int] = {}
        for row in self.readers:
            found[row.user] = max(found.get(row.user, 0), row.look)
        return found

    def without(self) -> list[str]:
        """The users who had it and were shown nothing of it."""
        looks = self.looks()
        return [user for user in self.given if user not in looks]


def who_read(past: Past, number: int, tell: Tell) -> Read:
    """Who was shown the text of an item, what happened to it, and where it lies: of all that ever happened, dropped or not."""
    watched: set[int] = set()
    readers: list[Reader] = []
    copies: list[Reader] = []
    given: dict[str, None] = {}
    found: list[tuple[Item, Outcome]] = []

    def seen(record: Any, frame: Any, outcome: Any) -> None:
        kind = type(record)
        if kind is Verb or kind is Kept:
            deed = record.deed
            if record.number == number:
                found.append((item_of(record), outcome))
                note(outcome)
            elif type(deed) is Fetch and watched:
                for key, rev in sights_in(deed.shown):
                    if key in watched:
                        readers.append(Reader(past.house.users[record.by], record.number, record.at, look_of(deed), deed.box, key_text(key), rev))
            elif type(deed) is Copy and watched:
                copied = set(keys_in(deed.shown[0]))
                for place, key in enumerate(keys_in(deed.keys)):
                    if key in watched and key in copied:
                        watched.add(record.number << 16 | place)
                        copies.append(Reader(past.house.users[record.by], record.number, record.at, READ, deed.box, deed.target, 0))
        elif kind is Operator and record.number == number:
            found.append((Item(number, record.at, None, 0, record.deed), outcome))
            note(outcome)
        elif kind is Cycle or kind is Withdraw:
            for item in outcome.made:
                if item.number == number:
                    found.append((item, NOTHING))
            if found:
                for holder in holders(past.house, outcome.store, number):
                    given.setdefault(holder.user)
                watched.add(number << 16)
                watched.add(number << 16 | 1)

    def note(outcome: Outcome) -> None:
        watched.update((number << 16, number << 16 | 1))
        for user, _, _ in outcome.put:
            given.setdefault(past.house.users[user])

    reading(past, seen, tell)
    if not found:
        raise Trouble(NOTHING_FOUND, f'The journal has no item {number}: it was never there, or it is the number of a cycle.')
    item, outcome = found[0]
    in_force = number in past.timeline
    return Read(past.item(number) if in_force else item, outcome, in_force, readers, copies, list(given), list(holders(past.house, past.store, number)))


def holders(house: House, store: MailStore, number: int) -> Iterator[Holder]:
    """Where messages with the text of an item lie."""
    for user, boxes in enumerate(store.boxes):
        for name in sorted(boxes):
            for entry in boxes[name].entries():
                if entry.origin == number:
                    yield Holder(house.users[user], name, key_text(entry.key))


class Delivery(NamedTuple):
    """A delivery as it went when it came, and as it goes now; none where it is not in force. Of its text the header, and how long it is."""

    item: Item
    octets: int
    then: Outcome
    now: Optional[Outcome]


Choice = Callable[[MailStore, Item, Outcome], bool]


def deliveries(past: Past, chosen: Choice, tell: Tell) -> list[Delivery]:
    """The deliveries that are chosen by what they did when they came, or do now that cycles ran."""
    then: dict[int, Outcome] = {}
    now: dict[int, Outcome] = {}
    items: dict[int, tuple[Item, int]] = {}

    def seen(record: Any, frame: Any, outcome: Any) -> None:
        item = item_of(record)
        if item is not None and type(item.deed) is Deliver:
            if chosen(past.store, item, outcome):
                then[item.number], items[item.number] = outcome, without_text(item)

    def again(item: Item, outcome: Outcome, store: MailStore) -> None:
        if type(item.deed) is Deliver and (item.number in then or chosen(store, item, outcome)):
            now[item.number] = outcome
            items.setdefault(item.number, without_text(item))
    reading(past, seen, tell)
    if past.reports:
        past.fold(again, tell)
    return [Delivery(*items[number], then.get(number, NOTHING), now.get(number) if past.reports else then[number]) for number in sorted(items)]


def without_text(item: Item) -> tuple[Item, int]:
    """The item with the header of its text alone, since there may be many; and how long its text is."""
    body = item.deed.body
    return item._replace(deed=item.deed._replace(body=Body(Message(body.octets).head, 0))), len(body.octets)


def touched_by(past: Past, name: str, tell: Tell) -> list[Delivery]:
    """The deliveries for which a filter of this name decided, when they came or now."""
    return deliveries(past, lambda store, item, outcome: outcome.filter is not None and outcome.filter.name == name, tell)


def addressed_to(past: Past, user: str, tell: Tell) -> list[Delivery]:
    """The deliveries of which a recipient meant the user when they came, or means him now, whatever became of them."""
    def chosen(store: MailStore, item: Item, outcome: Outcome) -> bool:
        number = store.house.numbers.get(user)
        if number is None:
            raise Trouble(NOTHING_FOUND, f'{user} is no user of this house.')
        return any(number in store.resolved(local) for local in item.deed.recipients) or any(its == number for its, _, _ in outcome.put)
    return deliveries(past, chosen, tell)


# ---- what a cycle would do to each ----


class Change(NamedTuple):
    """Messages of a user that come, go, or get another text."""

    what: str  # gets, loses, other text
    user: str
    number: int  # of the item that brought the text
    box: str
    said: str


@dataclasses.dataclass
class Effects:
    """What a cycle would do to each user's mail, and of whom it would leave all as it is."""

    changes: list[Change]
    keeps: dict[str, int]
    report: dict[str, Any]

    def as_data(self) -> dict[str, Any]:
        return {'changes': [change._asdict() for change in self.changes], 'keeps': self.keeps}


def ask_of(past: Past, request: dict[str, Any]) -> Ask:
    """A request for a cycle, as a record has it."""
    replaces = [(row['item'], Body(base64.b64decode(row['body']), 0)) for row in request.get('replace', [])]
    return Ask(request['point'], tuple(request.get('drop', [])), dict(replaces), tuple(item for item, _ in replaces), tuple(deed_of(past.house, act) for act in request.get('insert', [])))


def deed_of(house: House, act: dict[str, Any]) -> Deed:
    def user(name: str) -> int:
        if name not in house.numbers:
            raise Trouble(REFUSED, f'{name} is no user of this house.')
        return house.numbers[name]

    def box(name: str) -> str:
        return INBOX if name.upper() == INBOX else name
    word = act['act']
    if word == 'alias':
        return SetAlias(act['local'], tuple(map(user, act['users'])))
    if word == 'unalias':
        return DropAlias(act['local'])
    if word == 'filter':
        return SetFilter(filter_of({**act, 'file': None if act['file'] is None else box(act['file'])}))
    if word == 'unfilter':
        return DropFilter(act['name'])
    if word == 'remove':
        return Remove(user(act['user']), box(act['box']), act['item'] << 16 | act['index'])
    return Give(user(act['user']), box(act['box']), Body(base64.b64decode(act['body']), 0))


def effects(past: Past, request: dict[str, Any], at: int, tell: Tell) -> Effects:
    """What a cycle would do if it ran now on what the journal leaves."""
    try:
        return effects_of(past, past.cycle(ask_of(past, request), at, tell))
    except NoPoint:
        raise Trouble(REFUSED, f'The timeline does not have the point {request["point"]}.') from None
    except NoNumbers:
        raise Trouble(REFUSED, 'Too few numbers are left for a cycle.') from None


def withdrawal_effects(past: Past, of: int, at: int, tell: Tell) -> Effects:
    """What a withdrawal of a cycle would do if it ran now on what the journal leaves; the past is of no use behind it."""
    try:
        return effects_of(past, past.withdrawn(of, at, tell))
    except NoCycle:
        last = f'the last one is cycle {past.undone.cycle}' if past.undone else 'there is none'
        raise Trouble(REFUSED, f'Only the last of all cycles and withdrawals can be taken back, where it is a cycle: {last}.') from None
    except NoNumbers:
        raise Trouble(REFUSED, 'Too few numbers are left for a withdrawal.') from None


def effects_of(past: Past, done: Done) -> Effects:
    """What comes of it for each user's mail."""
    new = {item.number: item for item in done.made}
    notices = {item.number for item in done.made if type(item.deed) is Notice}
    saids: dict[int, str] = {}

    def said(mail: Mail) -> str:
        number = mail.origin
        if number not in saids:
            if number in new or past.has(number):
                item = new.get(number) or past.item(number)
                body = item.body
                who = f'from {text_of(item.deed.sender) or "<>"}' if type(item.deed) is Deliver else item.verb
            else:
                who, body = 'before the cut', past.text_before(number, mail.rev)
            saids[number] = f'{who}: {subject(body) if body else ""}'
        return saids[number]
    changes, keeps = [], {}
    for user, name in enumerate(past.house.users):
        before, after = mail_of(past.store, user), mail_of(done.store, user)
        lost = [key for key in before if key not in after]
        got = [key for key in after if key not in before and key >> 16 not in notices]
        other = [key for key, it in after.items() if key in before and before[key].rev != it.rev]
        for what, keys, there in (('loses', lost, before), ('gets', got, after), ('other text', other, after)):
            changes += [Change(what, name, there[key].origin, there[key].box, said(there[key])) for key in keys]
        keeps[name] = sum(1 for key in after if key in before) - len(other)
    return Effects(changes, keeps, done.report)


class Mail(NamedTuple):
    """A message: its mailbox, and the item and rev of its text."""

    box: str
    origin: int
    rev: int


def mail_of(store: MailStore, user: int) -> dict[int, Mail]:
    """A user's messages."""
    return {entry.key: Mail(name, entry.origin, entry.rev) for name, box in store.boxes[user].items() for entry in box.entries()}


def same_report(one: dict[str, Any], other: dict[str, Any]) -> bool:
    """Whether two reports say the same."""
    return all(one[name] == other[name] for name in ('broken', 'cycle', 'kept', 'notices', 'point', 'renewed', 'unmatched'))
