"""What a person reads."""
from __future__ import annotations

import re
import sys
import time
import unicodedata
from typing import Any, Iterable, Optional

from .console import Item
from .formats import MEANINGS
from .history import Effects
from .mail import Message
from .named import Named, Naming
from .moments import local, utc


def plain(text: str) -> str:
    """Text without what a terminal would obey: control characters, and those that turn the direction of writing."""
    text = text.replace('\t', ' ')
    return text if text.isascii() and text.isprintable() else ''.join(letter if unicodedata.category(letter) not in ('Cc', 'Cf', 'Cs', 'Zl', 'Zp') else f'\\u{ord(letter):04x}' for letter in text)


def cut(text: str, width: int) -> str:
    text = plain(text)
    return text if len(text) <= width else text[:width - 1] + '…'


def table(heads: list[str], rows: Iterable[Iterable[Any]]) -> str:
    """Rows under their heads; the last column is as wide as it is."""
    lines = [heads, *([plain(str(it)) for it in row] for row in rows)]
    widths = [max(len(line[column]) for line in lines) for column in range(len(heads) - 1)]
    return '\n'.join('  '.join([*(it.ljust(width) for it, width in zip(line, widths)), line[-1]]).rstrip() for line in lines)


def counted(count: int, one: str, more: Optional[str] = None) -> str:
    return f'{count:,} {one if count == 1 else more or one + "s"}'


def timeline_text(items: list[Item], said: Optional[dict[int, str]] = None) -> str:
    heads = ['number', 'local time', 'UTC', 'by', 'verb', 'mailbox', *(['what it sets'] if said else [])]
    return table(heads, ([item.number, local(item.at), utc(item.at), item.by, item.verb, item.box, *([said.get(item.number, '')] if said else [])] for item in items))


def found_text(found: list[tuple[Item, dict[str, str]]]) -> str:
    return table(['number', 'local time', 'verb', 'by', 'mailbox', 'from', 'to', 'subject'],
                 ([item.number, local(item.at), item.verb, item.by, cut(item.box, 24), cut(head['from'], 32), cut(head['to'], 32), cut(head['subject'], 60)] for item, head in found))


def by_user(report: dict[str, Any]) -> dict[str, list[dict[str, Any]]]:
    """The broken items of each user who gets a notice."""
    grouped: dict[str, list[dict[str, Any]]] = {}
    for row in report['broken']:
        grouped.setdefault(row['user'], []).append(row)
    return grouped


FOLD = 20  # rows of one list that are shown, unless all are asked for


def folded(lines: list[str], everything: bool, indent: str = '  ', most: int = FOLD) -> list[str]:
    """A list's first lines, and how many more there are."""
    if everything or len(lines) <= most:
        return lines
    return [*lines[:most], f'{indent}.. and {len(lines) - most:,} more (--all shows them)']


def report_text(report: dict[str, Any], done: bool, everything: bool = True, what: str = 'cycle') -> str:
    """A report in words: who is told, for what and why; what is read anew; what did nothing."""
    number, users, kept = report['cycle'], by_user(report), report['kept']
    would = f'A {what} would be number' if not done else f'It is {what}'
    lines = [f'{would} {number}, back to point {report["point"]}. {counted(kept, "later item")} {"stayed" if done else "stays" if kept == 1 else "stay"}.', '']
    if users:
        items = f'{"item" if len(report["notices"]) == 1 else "items"} {", ".join(map(str, report["notices"]))}'
        lines.append(f'{counted(len(users), "user gets", "users get")} a notice ({items}):')
        for user, rows in users.items():
            lines.append(f'  {user}, for {counted(len(rows), "answer")}:')
            lines += folded([f'    {row["number"]:>7} {row["verb"]:8} {row["reason"]}: {row["meaning"]}' for row in map(explained, rows)], everything, '    ')
    else:
        lines.append('Nobody gets a notice: every answer that a user was given still holds.')
    lines.append('')
    if report['renewed']:
        boxes: dict[str, list[str]] = {}
        for row in report['renewed']:
            boxes.setdefault(row['user'], []).append(row['box'])
        them = 'it' if len(report['renewed']) == 1 else 'them'
        lines.append(f'{counted(len(report["renewed"]), "mailbox is", "mailboxes are")} renewed (mail programs read {them} anew):')
        lines += folded([f'  {user}: {", ".join(plain(it) for it in names)}' for user, names in boxes.items()], everything)
    else:
        lines.append('No mailbox is renewed.')
    if report['unmatched']:
        one = len(report['unmatched']) == 1
        lines += ['', f'{"This number" if one else "These numbers"} did nothing: {", ".join(map(str, report["unmatched"]))}. {"Is it" if one else "Are they"} mistyped?']
    return '\n'.join(lines)


def naming_text(naming: Naming, everything: bool) -> str:
    """What a request drops, replaces and brings in, item by item."""
    lines = []
    for rows, one, more in ((naming.dropped(), 'item is dropped', 'items are dropped'), (naming.replaced(), 'item gets another text', 'items get another text')):
        if rows:
            lines.append(f'{counted(len(rows), one, more)}:')
            lines += folded([f'  {named_text(it)}' for it in rows], everything)
    if naming.acts:
        lines.append(f'{counted(len(naming.acts), "act comes in", "acts come in")}:')
        lines += folded([f'  {plain(it)}' for it in naming.acts], everything)
    return '\n'.join(lines) or 'Nothing is dropped or replaced, and nothing comes in.'


def named_text(it: Named) -> str:
    if it.octets is None:
        said = it.said or ' '.join(word for word in (it.by, it.box) if word) or 'what it set is told where the journal can be read (--store)'
        return f'{it.number} {local(it.at)} {it.verb} {plain(said)}'
    to = f'to {cut(", ".join(it.recipients), 60)}{"" if it.envelope else " by its header"}' if it.recipients else 'to nobody by its header'
    text = f'{it.number} {local(it.at)} {it.verb}{f" by {it.by}" if it.by else ""} from {cut(it.sender, 40) or "nobody"} {to}: "{cut(it.subject, 60)}"'
    return text if it.new is None else f'{text} -> "{cut(Message(it.new).field("subject"), 60)}", {len(it.new):,} octets'


GETS = (('gets', 'gets'), ('loses', 'loses'), ('other text', 'has another text in'))


def effects_text(effects: Effects, everything: bool) -> str:
    """Who gets mail that he had not, and who loses some."""
    lines = []
    for user in dict.fromkeys(change.user for change in effects.changes):
        rows = [change for change in effects.changes if change.user == user]
        counts = [f'{words} {counted(sum(1 for row in rows if row.what == what), "message")}' for what, words in GETS if any(row.what == what for row in rows)]
        lines.append(f'{user} {", ".join(counts)}, and keeps {counted(effects.keeps[user], "message")}:')
        lines += folded([f'  {row.what:10} {row.number:>7} {plain(row.box)}: {cut(row.said, 90)}' for row in rows], everything)
    same = [user for user in effects.keeps if all(change.user != user for change in effects.changes)]
    if same:
        lines.append(f'{"Nobody gets or loses any mail" if not lines else "All other users keep theirs"}: {cut(", ".join(same), 100)}.')
    return '\n'.join(lines)


def totals_text(naming: Naming, effects: Optional[Effects], report: dict[str, Any]) -> str:
    """What a cycle does, in numbers: what stands right above the last question."""
    users = by_user(report)
    drops, replaced = len(naming.dropped()), len(naming.replaced())
    acts = len(naming.acts)
    parts = [f'{counted(drops, "item")} dropped'] if drops else []
    parts += [f'{counted(replaced, "item")} with another text'] if replaced else []
    parts += [f'{counted(acts, "act")} that {"comes" if acts == 1 else "come"} in'] if acts else []
    parts += [f'{counted(len(users), "notice")} for {counted(len(report["broken"]), "answer")}' if users else 'no notice', f'{counted(len(report["renewed"]), "mailbox", "mailboxes")} renewed' if report['renewed'] else 'no mailbox renewed']
    lines = [f'In all: {", ".join(parts)}.']
    if effects is not None:
        sums = [f'{counted(len({change.user for change in effects.changes if change.what == what}), one, more)} {counted(sum(1 for change in effects.changes if change.what == what), "message")}'
                for what, one, more in (('gets', 'user gets', 'users get'), ('loses', 'user loses', 'users lose'), ('other text', 'user has another text in', 'users have another text in')) if any(change.what == what for change in effects.changes)]
        lines.append(f'{"; ".join(sums)}.' if sums else 'Nobody gets or loses any mail.')
    if naming.key_had is not None:
        lines.append(f'This key had its cycle before, number {naming.key_had}: nothing would be done now.')
    return '\n'.join(lines)


def explained(row: dict[str, Any]) -> dict[str, Any]:
    return {'number': row['item'], 'verb': row['verb'], 'reason': row['reason'], 'meaning': MEANINGS.get(row['reason'], 'see docs/FORMATS.md, Notices')}


LONGEST_TEXT, LONGEST_LINE = 100, 2000


def message_text(item: Item, message: Message, everything: bool) -> str:
    """A message with its header and its texts, of which the first lines are shown."""
    lines = [f'item {item.number}: {item.verb}{f" by {item.by}" if item.by else ""}{f", mailbox {plain(item.box)}" if item.box else ""}',
             f'at {local(item.at)}, {utc(item.at)}; {counted(len(message.octets), "octet")}', '']
    lines += [cut(f'{name}: {value}', 10 ** 9 if everything else LONGEST_LINE) for name, value in message.fields()]
    for said, text in message.texts():
        lines += ['', *([f'[{plain(said)}]'] if said else [])]
        lines += re.split(r'\r?\n', text.rstrip('\r\n')) if text else []
    shown = lines if everything else lines[:LONGEST_TEXT]
    told = [plain(line) if everything else cut(line, LONGEST_LINE) for line in shown]
    return '\n'.join(told if len(shown) == len(lines) else [*told, f'.. and {counted(len(lines) - len(shown), "more line", "more lines")} (--all shows them, --raw the octets)'])


class Progress:
    """Lines on standard error that a long answer is under way; only where that is a terminal."""

    def __init__(self) -> None:
        self.shown, self.before = sys.stderr.isatty(), 0.0

    def __call__(self, said: str) -> None:
        if self.shown and time.monotonic() - self.before > 0.3:
            self.before = time.monotonic()
            print(f'\r\x1b[K{said} ', end='', file=sys.stderr, flush=True)

    def end(self) -> None:
        if self.shown and self.before:
            print('\r\x1b[K', end='', file=sys.stderr, flush=True)
