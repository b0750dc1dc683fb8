"""The commands that read the journal's file: history, who-read, touched-by, to."""
from __future__ import annotations

import json
import sys
import time
from typing import Any, Callable, Optional

from .common import Words, drafted, show, store_of, wanted_of
from .console import Item as Row
from .console import Wanted
from .cutting import DAY, prospects
from .history import (FLAGS_ALONE, LOOK_WORDS, LOOKED, READ, Delivery, Read, Telling, addressed_to, opened, read, reading, some, touched_by, who_read)
from .journal import ENTRY, Base, Cycle, Format, Journal, SetFilter, Text, Upgrade, Withdraw
from .mail import Message, text_of
from .model import NOTHING, Done, Item, Outcome, Past, box_named, item_of
from .moments import local, utc
from .told import counted, cut, folded, plain, table
from .troubles import NOTHING_FOUND, Trouble


def do_history(words: Words) -> int:
    path = store_of(words, words.journal)
    with opened(path) as journal:
        return counts(words, journal) if words.counts else every(words, journal)


def counts(words: Words, journal: Journal) -> int:
    """What the journal leaves, as `undomail check` tells it, and how far it was read."""
    past = read(journal, tell=words.progress)
    data = {**past.counts(), 'digest': past.digest(), 'octets': journal.end + 1, 'snapshots': past.snapshots}
    show(words, data, '\n'.join(f'{name} {value}' for name, value in data.items()))
    return 0


WORTH_IT = 30  # of a hundred octets, that a cut is to save


def do_cuts(words: Words) -> int:
    """What cuts would leave of a journal, and whether one is worth it. Nothing is cut here: operate/cut does that."""
    with opened(store_of(words, words.journal)) as journal:
        past = read(journal, tell=words.progress)
        octets, now = journal.end + 1, int(time.time())
        found = prospects(past, now, tuple(words.days or (30, 90, 365)), words.progress)
        oldest = past.item(past.timeline[0]).at if past.timeline else None
    rows = [{'days': days, 'point': it.point, 'items': it.items, 'octets': it.octets, 'saved': round(100 * (octets - it.octets) / octets)} for days, it in found]
    best = max((row['saved'] for row in rows), default=0)
    said = [f'The journal has {octets:,} octets, and {counted(len(past.timeline), "item")} in force'
            + (f', the oldest of {local(oldest)[:10]}, {counted(max(0, now - oldest) // DAY, "day")} ago.' if oldest is not None else '.')]
    if rows:
        said += ['', table(['cut at', 'keeps the items of', 'items', 'octets', 'saves'],
                           ([row['point'], 'none' if row['days'] is None else f'the last {counted(row["days"], "day")}', f'{row["items"]:,}', f'{row["octets"]:,}', f'{row["saved"]} of a hundred'] for row in rows)), '']
        said.append(f'A cut is worth it: it saves up to {best} of a hundred octets. Next, once nobody serves the store: operate/cut STORE POINT' if best >= WORTH_IT
                    else f'A cut is hardly worth it: it saves {max(best, 0)} of a hundred octets.')
    show(words, {'octets': octets, 'items': len(past.timeline), 'oldest': oldest, 'cuts': rows, 'worth_it': best >= WORTH_IT}, '\n'.join(said))
    return 0


class Rows:
    """Each record as it happened, written while the journal is read."""

    def __init__(self, words: Words, past: Past) -> None:
        self.json, self.item, self.past = words.json, words.item, past
        self.wanted = wanted_of(words)
        self.chooses = self.wanted != Wanted() or words.item is not None
        self.shown = 0

    def seen(self, record: Any, frame: Any, outcome: Any) -> None:
        kind = type(record)
        if kind is Format:
            self.telling, self.width = Telling(self.past.house), max(map(len, self.past.house.users))
        item = item_of(record)
        if item is not None:
            self.of_item(item, outcome)
        elif kind is Cycle:
            if self.has(record.number, record.at, '', 'CYCLE', ''):
                self.write(self.cycle_data(record, outcome) if self.json else None, record.number, record.at, '', 'CYCLE', lambda: self.telling.cycle(record, outcome))
        elif kind is Withdraw:
            if self.has(record.number, record.at, '', 'WITHDRAW', ''):
                self.write(self.withdrawal_data(record, outcome) if self.json else None, record.number, record.at, '', 'WITHDRAW', lambda: self.telling.withdrawal(record, outcome))
        elif kind is Upgrade:
            if self.has_without_number(record.at, 'UPGRADE'):
                self.write({'verb': 'UPGRADE', 'at': record.at}, None, record.at, '', 'UPGRADE', lambda: 'names of mailboxes may have superiors from here on')
        elif not self.chooses and kind is not Text:
            data, words = self.without_moment(record, frame)
            self.write(data, None, None, '', data['verb'], words)

    def without_moment(self, record: Any, frame: Any) -> tuple[dict[str, Any], Callable[[], str]]:
        """A record that nobody made at a moment, and its words."""
        if type(record) is Format:
            data = self.format_data(record)
            return data, lambda: self.format_text(data)
        if type(record) is Base:
            messages = sum(len(box.entries) // ENTRY.size for box in record.boxes)
            data = {'verb': 'BASE', 'messages': messages, 'mailboxes': len(record.boxes), 'reports': len(record.reports), 'next': record.following, 'upgraded': record.deep}
            return data, lambda: f'the past was cut off: {messages:,} messages in {len(record.boxes):,} mailboxes, {len(record.reports):,} cycles, next number {record.following}'
        return {'verb': 'SNAPSHOT', 'items': record.count, 'octets': frame.length}, lambda: f'of the store behind {record.count:,} items, {frame.length:,} octets'

    def has(self, number: int, at: int, by: str, verb: str, box: str) -> bool:
        return not self.chooses or ((self.item is None or self.item == number) and self.wanted.has(Row(number, at, by, verb, box)))

    def has_without_number(self, at: int, verb: str) -> bool:
        return self.item is None and self.has(0, at, '', verb, '')

    def of_item(self, item: Item, outcome: Outcome) -> None:
        by = self.telling.user(item.by)
        if self.has(item.number, item.at, by, item.verb, box_named(item.deed) or ''):
            self.write(self.telling.data(item, outcome) if self.json else None, item.number, item.at, by, item.verb, lambda: self.telling.words(item, outcome))

    def write(self, data: Any, number: Optional[int], at: Optional[int], by: str, verb: str, words: Callable[[], str]) -> None:
        self.shown += 1
        if self.json:
            sys.stdout.write(('[' if self.shown == 1 else ',\n') + json.dumps(data, sort_keys=True))
        else:
            sys.stdout.write(f'{"" if number is None else number:>8}  {"" if at is None else local(at):<25}  {by:<{self.width}}  {verb:<8}  {plain(words())}\n')

    def cycle_data(self, record: Cycle, done: Done) -> dict[str, Any]:
        return {'number': record.number, 'at': record.at, 'verb': 'CYCLE', 'by': '', 'key': record.key, 'report': done.report, 'drops': list(record.drops),
                'replaces': [{'item': it.item, 'octets': len(it.body.octets)} for it in record.replaces], 'made': [self.telling.data(item, NOTHING) for item in done.made]}

    def withdrawal_data(self, record: Withdraw, done: Done) -> dict[str, Any]:
        return {'number': record.number, 'at': record.at, 'verb': 'WITHDRAW', 'by': '', 'key': record.key, 'of': record.of, 'report': done.report, 'made': [self.telling.data(item, NOTHING) for item in done.made]}

    def format_data(self, record: Format) -> dict[str, Any]:
        users = self.past.house.users
        return {'verb': 'FORMAT', 'host': record.host, 'domains': list(record.domains), 'first': record.first, 'users': users, 'postmaster': users[record.postmaster],
                'aliases': {name: [users[user] for user in meant] for name, meant in record.aliases}}

    def format_text(self, data: dict[str, Any]) -> str:
        aliases = '; '.join(f'{name}: {", ".join(users)}' for name, users in data['aliases'].items())
        return f'{data["host"]} for {", ".join(data["domains"])}; users {some(data["users"], 30)}; postmaster {data["postmaster"]}; first number {data["first"]}; {f"aliases {aliases}" if aliases else "no alias"}'


def every(words: Words, journal: Journal) -> int:
    past = Past(journal)
    rows = Rows(words, past)
    reading(past, rows.seen, words.progress)
    words.progress.end()
    if words.json:
        sys.stdout.write(']\n' if rows.shown else '[]\n')
    elif not rows.shown:
        print('No record is as asked.')
    return 0 if rows.shown else NOTHING_FOUND


def do_who_read(words: Words) -> int:
    with opened(store_of(words)) as journal:
        past = Past(journal)
        found = who_read(past, words.number, words.progress)
        telling, item, looks, without = Telling(past.house), found.item, found.looks(), found.without()
        data = {'item': telling.data(item, found.outcome), 'in_force': found.in_force, 'given': found.given, 'looks': {user: LOOK_WORDS[look] for user, look in looks.items()}, 'not_shown': without,
                'shown': [{**row._asdict(), 'look': LOOK_WORDS[row.look]} for row in found.readers],
                'copies': [{'user': row.user, 'number': row.number, 'at': row.at, 'box': row.box, 'target': row.message} for row in found.copies], 'lies': [row._asdict() for row in found.lies]}
        show(words, data, who_read_text(telling, found, words.all))
        if words.draft:
            if not found.in_force:
                raise Trouble(NOTHING_FOUND, f'Item {item.number} is not in force: a cycle dropped it, so there is nothing to be drafted.')
            drafted(words, before(past, {item.number}), [item.number], f'item {item.number}')
    return 0


def who_read_text(telling: Telling, found: Read, everything: bool) -> str:
    item, looks, without = found.item, found.looks(), found.without()
    lines = [f'item {item.number}, {local(item.at)}: {item.verb}{f" by {telling.user(item.by)}" if item.by is not None else ""} {plain(telling.words(item, found.outcome))}',
             'It is in force.' if found.in_force else 'It is not in force: a cycle dropped it.', '']
    for look in (READ, LOOKED, FLAGS_ALONE):
        users = [user for user, most in looks.items() if most == look]
        if users:
            lines.append(f'{", ".join(users)} {LOOK_WORDS[look]}.')
    lines.append(f'{", ".join(without)} had it and was shown nothing of it.' if len(without) == 1 else f'{", ".join(without)} had it and were shown nothing of it.' if without else 'Each user who had it was shown something of it.' if looks else 'Nobody ever had it.')
    lines += folded([f'{row.user} copied it from {plain(row.box)} to {plain(row.message)}, item {row.number}, {local(row.at)}.' for row in found.copies], everything, '')
    lines.append(f'It lies in {some([f"{row.user} {plain(row.box)}" for row in found.lies])}.' if found.lies else 'It lies in no mailbox.')
    if found.readers:
        rows = table(['item', 'local time', 'UTC', 'user', 'mailbox', 'message', 'what was shown'],
                     ([row.number, local(row.at), utc(row.at), row.user, row.box, row.message, LOOK_WORDS[row.look] + (f' (the text of cycle {row.rev})' if row.rev else '')] for row in found.readers)).split('\n')
        lines += ['', *folded(rows, everything, '', 41)]
    return '\n'.join(lines)


def before(past: Past, numbers: set[int]) -> int:
    """The last item in force before the first of these; 0 where there is none."""
    previous = 0
    for number in past.timeline:
        if number in numbers:
            break
        previous = number
    return previous


def delivery_data(telling: Telling, it: Delivery) -> dict[str, Any]:
    head = Message(it.item.deed.body.octets)
    return {'number': it.item.number, 'at': it.item.at, 'sender': text_of(it.item.deed.sender), 'recipients': list(it.item.deed.recipients), 'subject': head.field('subject'), 'octets': it.octets,
            'then': telling.places(it.then), 'filter_then': it.then.filter.name if it.then.filter else None, 'in_force': it.now is not None,
            'now': telling.places(it.now) if it.now else [], 'filter_now': it.now.filter.name if it.now and it.now.filter else None}


def deliveries_text(telling: Telling, them: list[Delivery], everything: bool) -> str:
    rows = []
    for it in them:
        now = 'not in force' if it.now is None else 'the same' if it.now == it.then else telling.went(it.now)
        rows.append([it.item.number, local(it.item.at), cut(text_of(it.item.deed.sender) or '<>', 32), cut(', '.join(it.item.deed.recipients), 32), cut(telling.went(it.then), 48), cut(now, 48),
                     cut(Message(it.item.deed.body.octets).field('subject'), 60)])
    return '\n'.join(folded(table(['number', 'local time', 'from', 'recipients', 'went to', 'now', 'subject'], rows).split('\n'), everything, '', 101))


def do_touched_by(words: Words) -> int:
    with opened(store_of(words)) as journal:
        past = Past(journal)
        found = touched_by(past, words.name, words.progress)
        telling, sets = Telling(past.house), set_by(past, words.name)
        data = {'filter': words.name, 'set_by': sets, 'in_force': [it._asdict() for it in past.store.filters if it.name == words.name], 'deliveries': [delivery_data(telling, it) for it in found]}
        head = touched_by_head(words.name, sets, found)
        show(words, data, f'{head}\n\n{deliveries_text(telling, found, words.all)}' if found else head)
        if words.draft:
            if not sets:
                raise Trouble(NOTHING_FOUND, f'No item in force sets a filter {words.name}, so there is nothing to be drafted.')
            drafted(words, before(past, set(sets)), sets, f'what set the filter {words.name}')
    return 0 if found or sets else NOTHING_FOUND


def touched_by_head(name: str, sets: list[int], found: list[Delivery]) -> str:
    head = (f'The filter {plain(name)} was set by {"item" if len(sets) == 1 else "items"} {", ".join(map(str, sets))}, '
            f'{"which is" if len(sets) == 1 else "which are"} in force.' if sets else f'No item in force sets a filter {plain(name)}.')
    return f'{head} It decided for {counted(len(found), "delivery", "deliveries")}.'


def delivery_text(telling: Telling, it: Delivery) -> str:
    """Who sent a delivery to whom, where it went when it came, and where it is now."""
    went = f'went to {telling.went(it.then)}' if it.then.put else f'was {telling.went(it.then)}' if it.then.filter else 'went nowhere'
    now = 'which a cycle dropped' if it.now is None else 'and so now' if it.now == it.then else f'now {telling.went(it.now)}'
    return f'from {text_of(it.item.deed.sender) or "<>"} to {some(list(it.item.deed.recipients), 6)}: "{cut(Message(it.item.deed.body.octets).field("subject"), 200)}", {went}, {now}'


def set_by(past: Past, name: str) -> list[int]:
    """The items in force that set a filter of this name."""
    return [number for number in past.timeline if is_filter(past, number, name)]


def is_filter(past: Past, number: int, name: str) -> bool:
    return number in past.acts and type(past.acts[number]) is SetFilter and past.acts[number].filter.name == name


def do_to(words: Words) -> int:
    with opened(store_of(words)) as journal:
        past = Past(journal)
        found = [it for it in addressed_to(past, words.user_named, words.progress)
                 if (words.sender is None or words.sender.casefold() in text_of(it.item.deed.sender).casefold()) and (words.since is None or it.item.at >= words.since) and (words.until is None or it.item.at <= words.until)]
        telling = Telling(past.house)
        show(words, [delivery_data(telling, it) for it in found],
             f'{counted(len(found), "delivery was", "deliveries were")} for {words.user_named}.\n\n{deliveries_text(telling, found, words.all)}' if found else f'No delivery is as asked for {words.user_named}.')
        there = [it.item.number for it in found if it.now is not None]
        if words.draft and there:
            drafted(words, before(past, set(there)), there, f'these {counted(len(there), "delivery", "deliveries")}')
    return 0 if found else NOTHING_FOUND
