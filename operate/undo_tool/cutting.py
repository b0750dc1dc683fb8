"""What `undomail cut` writes and what `undomail audit` says, found anew from the documents (docs/FORMATS.md, docs/MODEL.md).

Nothing here opens a store for writing: the octets of a cut are given to whoever asks, and an audit reads.
"""
from __future__ import annotations

from bisect import bisect_left
from typing import Any, Callable, Iterator, NamedTuple, Optional

from .journal import ENTRY, Base, Deliver, Frame, Journal, Kept, SnapshotBox, Stamp, Text, Verb
from .model import Item, MailStore, Outcome, Past
from .spelling import spelled, spelled_kept, written


# ---- a cut ----


def store_at(past: Past, place: int) -> MailStore:
    """The store behind so many items in force."""
    store, begin = past.beginning(place)
    for number in past.timeline[begin:place]:
        store.perform(past.item(number))
    return store


def boxes_of(store: MailStore) -> tuple[SnapshotBox, ...]:
    """The mailboxes by user and name."""
    def entries(mail: Any) -> bytes:
        return b''.join(ENTRY.pack(it.uid, it.key >> 16, it.key & 0xffff, it.origin, it.rev, it.flags, it.at) for it in mail.entries())
    return tuple(SnapshotBox(user, name, boxes[name].following, entries(boxes[name])) for user, boxes in enumerate(store.boxes) for name in sorted(boxes))


def base_at(past: Past, place: int) -> Base:
    """The base of a cut: the store of the point, and what is in force now beside it."""
    store = store_at(past, place)
    stamps = tuple(Stamp(user, name, past.stamps[user, name]) for user, name in sorted(past.stamps))
    return Base(past.following, past.upgraded is not None, tuple(store.aliases), tuple(store.filters), boxes_of(store), stamps, tuple(sorted(past.spelled.items())))


def bodies_of(base: Base) -> list[tuple[int, int]]:
    """The texts that the base's messages have, by item and rev."""
    return sorted({(row[3], row[4]) for box in base.boxes for row in ENTRY.iter_unpack(box.entries)})


def payloads_of_cut(past: Past, point: int) -> Iterator[bytes]:
    """The records of a cut at a point: the Format of the journal, a Base, the texts of its messages, and the later items as they are in force."""
    place = past.position(point)
    yield past.journal.octets.apart(past.head.place, past.head.length)
    base = base_at(past, place)
    yield spelled(base)
    in_force = set(past.timeline[:place])
    for origin, rev in bodies_of(base):
        yield spelled(Text(origin, rev, past.text_of(origin, rev, in_force)))
    for number in past.timeline[place:]:
        item = past.item(number)
        yield spelled_kept(Kept(*item), past.shown(item) if item.by is not None else None)


def cut(past: Past, point: int) -> bytes:
    """The file of a cut; NoPoint where the point is neither 0 nor the number of an item in force."""
    return b''.join(written(payloads_of_cut(past, point)))


# ---- what a cut would leave ----

DAY = 86_400


class Prospect(NamedTuple):
    """What a cut at a point would leave."""

    point: int
    items: int  # that stay
    octets: int  # of the file


def prospect(past: Past, place: int) -> Prospect:
    """That of a cut behind so many items in force."""
    point = past.timeline[place - 1] if place else 0
    return Prospect(point, len(past.timeline) - place, 1 + sum(5 + len(it) for it in payloads_of_cut(past, point)))


def prospects(past: Past, now: int, days: tuple[int, ...], tell: Callable[[str], None] = lambda said: None) -> list[tuple[Optional[int], Prospect]]:
    """Cuts that keep the items of so many last days, and one behind the last item (no days); each point once, the earliest first."""
    moments = [past.item(number).at for number in past.timeline]
    for place in range(1, len(moments)):
        moments[place] = max(moments[place], moments[place - 1])
    found: list[tuple[Optional[int], Prospect]] = []
    for count in (None, *days):
        place = len(moments) if count is None else bisect_left(moments, now - count * DAY)
        if place and all(len(moments) - it.items != place for _, it in found):
            tell(f'a cut behind {place:,} items')
            found.append((count, prospect(past, place)))
    return sorted(found, key=lambda it: -it[1].items)


# ---- an audit ----


class Audited(Past):
    """A journal that is read with each Verb and each Snapshot compared with what would be true in its place."""

    def __init__(self, opened: Journal) -> None:
        super().__init__(opened)
        self.false: Optional[int] = None  # the gate of the first that is not

    def judge(self, frame: Frame, is_true: bool) -> None:
        if self.false is None and not is_true:
            self.false = frame.place - 5

    def enter(self, it: Any, frame: Frame) -> Outcome:
        by_a_user = type(it) is Verb and it.by is not None and it.by < self.users and type(it.deed) is not Deliver
        true = not by_a_user or self.store.shows(Item(it.number, it.at, it.by, 0, it.deed)) == it.deed.shown
        found = super().enter(it, frame)
        self.judge(frame, true)
        return found

    def take_snapshot(self, frame: Frame, seen: Any) -> None:
        true = self.is_true(frame)
        super().take_snapshot(frame, seen)
        self.judge(frame, true)


def audit(opened: Journal) -> Optional[int]:
    """The gate of the first Verb or Snapshot that is not true; none where all are. What is damaged is refused as ever."""
    return Audited(opened).read().false
