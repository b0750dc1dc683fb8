"""What is measured of a server before it is too late: numbers and their rate, the journal's octets, the last snapshot, connections, room on the disk."""
from __future__ import annotations

import dataclasses
import os
from typing import Any, Optional

from .console import Console, Timeline, items_of
from .formats import LAST_NUMBER
from .history import opened
from .journal import LATEST_MOMENT, SNAPSHOTS, Damaged, NoStore
from .moments import local
from .told import counted
from .troubles import DAMAGED, Trouble

DAY, WEEK = 86_400, 7 * 86_400
SHARES = (95, 80, 50)  # of a hundred, at which is warned
SEATS = 1000


@dataclasses.dataclass
class Measures:
    counts: dict[str, int]
    now: int
    day: int  # numbers that were drawn in the last day
    week: int
    octets: Optional[int] = None  # of the journal
    room: Optional[int] = None  # on its disk
    disk: Optional[int] = None
    snapshot: Optional[int] = None  # items behind which the last one stands
    behind: Optional[int] = None  # items in force that entered since
    oldest: Optional[int] = None  # the moment of the first item in force
    connections: Optional[dict[int, int]] = None

    def left(self) -> int:
        return max(0, LAST_NUMBER - self.counts['next'] + 1)

    def share(self) -> float:
        return 100 * (LAST_NUMBER - self.left()) / LAST_NUMBER

    def ends(self, drawn: int, seconds: int) -> Optional[int]:
        """When no number is left if so many are drawn in so many seconds; none where none was, or past the year 9999."""
        end = int(self.now + self.left() * seconds / drawn) if drawn else LATEST_MOMENT
        return end if end < LATEST_MOMENT else None

    def lines(self) -> list[str]:
        said = [f'{self.left():,} numbers are left, {100 - self.share():.0f} of a hundred. {self.day:,} were drawn in the last day, {self.week:,} in the last week'
                + ''.join(f'; at the rate of the {name} they last until {local(end)[:10]}' for name, end in (('day', self.ends(self.day, DAY)), ('week', self.ends(self.week, WEEK))) if end) + '.']
        if self.octets is not None:
            said.append(f'The journal has {self.octets:,} octets, and its disk has {self.room:,} left of {self.disk:,}.')
        if self.octets is not None:
            said.append(f'The last snapshot is of {self.snapshot:,} items, {counted(self.behind, "item")} ago.' if self.snapshot is not None else 'There is no snapshot.')
        if self.octets is not None and self.oldest is not None:
            said.append(f'The oldest item in force is of {local(self.oldest)[:10]}: what a cut would save, `undo cuts` tells.')
        if self.connections is not None:
            said.append(f'Connections: {", ".join(f"{count} at port {port}" for port, count in self.connections.items())}; the server takes {SEATS:,}.')
        return said

    def warnings(self) -> list[str]:
        said = []
        worst = next((share for share in SHARES if self.share() >= share), None)
        if worst:
            said.append(f'{self.share():.0f} of a hundred numbers are used up ({self.left():,} are left). At the end all mail is refused and nobody can read: see docs/OPERATING.md, Numbers.')
        if self.disk:
            used = 100 * (self.disk - self.room) / self.disk
            if used >= SHARES[0] or self.room < 4 * (1 << 20):
                said.append(f'The disk of the journal is full to {used:.0f} of a hundred ({self.room:,} octets are left). A record that cannot be written ends the service.')
        if self.connections and sum(self.connections.values()) >= SEATS * 8 // 10:
            said.append(f'{sum(self.connections.values())} of {SEATS:,} connections are open; mail programs beyond 984 wait (16 are the console\'s alone).')
        return said

    def as_data(self) -> dict[str, Any]:
        return {'left': self.left(), 'share': round(self.share(), 2), 'day': self.day, 'week': self.week, 'ends_by_day': self.ends(self.day, DAY), 'ends_by_week': self.ends(self.week, WEEK),
                'octets': self.octets, 'room': self.room, 'disk': self.disk, 'snapshot': self.snapshot, 'behind': self.behind, 'oldest': self.oldest, 'connections': self.connections}

    def metrics(self) -> str:
        """Prometheus's text, version 0.0.4."""
        rows: list[tuple[str, str, Any]] = [('up', 'Whether the console answers.', 1)]
        rows += [(name, f'The count {name} of /status.', self.counts[name]) for name in ('items', 'messages', 'cycles', 'notices', 'users')]
        rows += [('next_number', 'The next number.', self.counts['next']), ('last_number', 'The last number that can be given.', LAST_NUMBER), ('numbers_left', 'Numbers that are left.', self.left()),
                 ('numbers_used_ratio', 'The share of numbers that is used up.', round(self.share() / 100, 6)),
                 ('numbers_drawn_day', 'Numbers that were drawn in the last day.', self.day), ('numbers_drawn_week', 'Numbers that were drawn in the last week.', self.week),
                 ('numbers_end_day_seconds', 'When no number is left at the rate of the last day, in seconds since 1970.', self.ends(self.day, DAY)),
                 ('numbers_end_week_seconds', 'The same at the rate of the last week.', self.ends(self.week, WEEK)),
                 ('journal_octets', 'Octets of the journal.', self.octets), ('disk_room_octets', 'Octets that are left on its disk.', self.room), ('disk_octets', 'Octets of its disk.', self.disk),
                 ('snapshot_items', 'Items behind which the last snapshot stands.', self.snapshot), ('snapshot_behind_items', 'Items that entered since.', self.behind)]
        text = ''.join(f'# HELP undomail_{name} {says}\n# TYPE undomail_{name} gauge\nundomail_{name} {value}\n' for name, says, value in rows if value is not None)
        if self.connections is not None:
            text += '# HELP undomail_connections Connections that are open.\n# TYPE undomail_connections gauge\n' + ''.join(f'undomail_connections{{port="{port}"}} {count}\n' for port, count in self.connections.items())
        return text


def measured(console: Console, store: Optional[str], ports: Optional[list[int]], now: int) -> Measures:
    timeline = Timeline(console)
    counts = timeline.counts()
    found = Measures(counts, now, drawn_since(console, counts, now - DAY), drawn_since(console, counts, now - WEEK))
    if store is not None:
        try:
            found.octets = os.stat(store).st_size
            disk = os.statvfs(os.path.dirname(os.path.abspath(store)))
        except OSError as fault:
            raise Trouble(DAMAGED, f'{store} cannot be looked at: {fault.strerror}.') from None
        found.room, found.disk = disk.f_bavail * disk.f_frsize, disk.f_blocks * disk.f_frsize
        found.snapshot = last_snapshot(store)
        found.behind = None if found.snapshot is None else max(0, counts['items'] - found.snapshot)
        first = items_of(console.get('/timeline/0')) if counts['items'] else []
        found.oldest = first[0].at if first else None
    if ports:
        found.connections = connections(ports)
    return found


def drawn_since(console: Console, counts: dict[str, int], since: int) -> int:
    """How many numbers were drawn since a moment: by the first item in force that is not older, which is found by halves."""
    low, high = 0, counts['items']
    while low < high:
        middle = (low + high) // 2
        rows = items_of(console.get(f'/timeline/{middle}'))
        if not rows or rows[0].at >= since:
            high = middle
        else:
            low = middle + sum(1 for row in rows if row.at < since) if rows[-1].at < since else middle + next(place for place, row in enumerate(rows) if row.at >= since)
            if rows[-1].at >= since:
                high = low
    if low >= counts['items']:
        return 0
    first = items_of(console.get(f'/timeline/{low}'))
    return max(0, counts['next'] - first[0].number) if first else 0


def last_snapshot(store: str) -> Optional[int]:
    """Of how many items the last snapshot in the journal is, by its frames alone."""
    found = None
    with opened(store) as journal:
        try:
            for frame in journal.frames():
                if frame.kind in SNAPSHOTS and frame.length >= 5:
                    found = int.from_bytes(journal.octets.apart(frame.place + 1, 4), 'big')
        except (NoStore, Damaged) as fault:
            raise Trouble(DAMAGED, f'{store} is no journal: {fault or "it is empty, or does not begin with an open gate"}.') from None
    return found


def connections(ports: list[int]) -> dict[int, int]:
    """Open connections to ports of this machine, as the system tells them."""
    found = dict.fromkeys(ports, 0)
    for name in ('/proc/net/tcp', '/proc/net/tcp6'):
        try:
            with open(name) as rows:
                for row in rows.readlines()[1:]:
                    here, state = int(row.split()[1].rpartition(':')[2], 16), row.split()[3]
                    if state == '01' and here in found:
                        found[here] += 1
        except OSError:
            continue
    return found
