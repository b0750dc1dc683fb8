"""Items found by what people have: sender, recipient, subject, time, Message-ID, digest of an attachment, words in any charset."""
from __future__ import annotations

import dataclasses
from typing import Any, NamedTuple, Optional

from . import model
from .console import Console, Item, Timeline, Wanted
from .formats import WITH_TEXT
from .history import opened, reading
from .journal import Deliver
from .mail import Message, message_of, text_of
from .model import Past, box_named


@dataclasses.dataclass(frozen=True)
class Sought:
    """What a text is to have; None asks for nothing."""

    text: Optional[str] = None
    exact: bool = False
    sender: Optional[str] = None
    recipient: Optional[str] = None
    subject: Optional[str] = None
    message_id: Optional[str] = None
    digest: Optional[str] = None
    filter: Optional[str] = None

    def anything(self) -> bool:
        return any(it is not None for it in (self.text, self.sender, self.recipient, self.subject, self.message_id, self.digest, self.filter))

    def met(self, message: Message, sender: Optional[str], recipients: list[str]) -> bool:
        """By the text, and by the envelope where that is known."""
        def within(part: Optional[str], *wholes: str) -> bool:
            return part is None or any(part.casefold() in whole.casefold() for whole in wholes)
        return (within(self.sender, sender or '', message.field('return-path'), message.field('from')) if self.sender is not None else True) \
            and (within(self.recipient, *recipients, message.field('to'), message.field('cc')) if self.recipient is not None else True) \
            and (within(self.subject, message.field('subject')) if self.subject is not None else True) \
            and (self.message_id is None or message.message_id() == self.message_id.strip('<>')) \
            and (self.digest is None or self.digest.lower() in message.digests()) \
            and (self.text is None or message.holds(self.text, self.exact))


class Found(NamedTuple):
    item: Item
    head: dict[str, str]


def find(console: Console, wanted: Wanted, sought: Sought) -> list[Found]:
    """The deliveries, APPENDs, gifts and notices in force that are as sought, by the console."""
    items = [item for item in Timeline(console).whole() if item.verb in WITH_TEXT and wanted.has(item)]
    found = []
    for place, (item, answer) in enumerate(zip(items, console.get_each(f'/body/{item.number}' for item in items)), 1):
        if answer.status != 404:  # a cycle has dropped it meanwhile
            message = message_of(answer, item.number)
            if sought.met(message, None, []):
                found.append(Found(item, message.summary()))
        if place % 1000 == 0:
            console.tell(f'{place:,} of {len(items):,} texts, {len(found):,} found')
    return found


def find_in(path: str, wanted: Wanted, sought: Sought, tell: Any) -> tuple[list[Item], list[Found]]:
    """The items in force, and those as sought, by the journal: with the recipients of the envelope, and what a filter threw away or filed."""
    found: list[Found] = []
    items: list[Item] = []

    def seen(it: Any, outcome: Any, store: Any) -> None:
        users = past.house.users
        item = Item(it.number, it.at, '' if it.by is None else users[it.by], it.verb, box_named(it.deed) or '')
        items.append(item)
        if it.verb not in WITH_TEXT or not wanted.has(item):
            return
        if sought.filter is not None and (outcome.filter is None or outcome.filter.name != sought.filter):
            return
        message = Message(it.deed.body.octets)
        sender, recipients = None, []
        if type(it.deed) is Deliver:
            sender = text_of(it.deed.sender)
            recipients = [*it.deed.recipients, *(users[user] for user, _, _ in outcome.put)]
        if sought.met(message, sender, recipients):
            head = message.summary()
            found.append(Found(item, head if sender is None else {**head, 'from': sender, 'to': ', '.join(it.deed.recipients)}))
    def happened(record: Any, frame: Any, outcome: Any) -> None:
        item = model.item_of(record)
        if item is not None:
            seen(item, outcome, past.store)
    with opened(path) as journal:
        past = Past(journal)
        reading(past, happened, tell)
        if past.reports:  # what is in force now is not what happened
            items.clear()
            found.clear()
            past.fold(seen, tell)
    return items, found


def point_before(items: list[Item], drops: set[int]) -> int:
    """The last item in force before the first of these; 0 where there is none."""
    before = 0
    for item in items:
        if item.number in drops:
            return before
        before = item.number
    return before
