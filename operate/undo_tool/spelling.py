"""Records as they are written (docs/FORMATS.md, 'Records'): what journal.py reads, the other way round."""
from __future__ import annotations

from typing import Any, Callable, Iterable, Optional

from . import journal
from .formats import BODY, SCOPES
from .journal import (Append, Base, Close, Copy, Create, Cycle, Deed, Delete, Deliver, DropAlias, DropFilter, Expunge, Fetch, Filter, Format, Give, Kept, List, Notice,
                      Operator, Remove, Rename, Select, SetAlias, SetFilter, Stamp, Status, Store, Text, Told, Upgrade, Verb, Withdraw)


def u8(it: int) -> bytes:
    return bytes([it])


def u32(it: int) -> bytes:
    return it.to_bytes(4, 'big')


def u64(it: int) -> bytes:
    return it.to_bytes(8, 'big')


def spelled_name(it: str) -> bytes:
    return bytes([len(it)]) + it.encode('ascii')


def spelled_text(it: bytes) -> bytes:
    return u32(len(it)) + it


def spelled_list(rows: Iterable[Any], one: Callable[[Any], bytes]) -> bytes:
    found = [one(row) for row in rows]
    return u32(len(found)) + b''.join(found)


def spelled_option(it: Any, one: Callable[[Any], bytes]) -> bytes:
    return b'\0' if it is None else b'\1' + one(it)


def spelled_keys(it: bytes) -> bytes:
    return u32(len(it) // 6) + it


# ---- configurations ----


def spelled_aliases(rows: Iterable[tuple[str, tuple[int, ...]]]) -> bytes:
    return spelled_list(rows, lambda row: spelled_name(row[0]) + spelled_list(row[1], u8))


def spelled_filter(it: Filter, scoped: bool) -> bytes:
    scope = u8(SCOPES.index(it.scope)) + (spelled_name(it.field) if it.field else b'') if scoped else b''
    return spelled_name(it.name) + spelled_name(it.needle) + spelled_option(it.file, spelled_name) + scope


def spelled_filters(filters: Iterable[Filter], scoped: bool) -> bytes:
    return spelled_list(filters, lambda it: spelled_filter(it, scoped))


# ---- deeds, and what they showed ----

DEEDS: dict[type, Callable[[Any], bytes]] = {
    Deliver: lambda it: b'\1' + spelled_text(it.sender) + spelled_list(it.recipients, spelled_name) + spelled_text(it.body.octets),
    Append: lambda it: b'\2' + spelled_name(it.box) + u8(it.flags) + u64(it.moment) + spelled_text(it.body.octets),
    Fetch: lambda it: b'\3' + spelled_name(it.box) + spelled_keys(it.keys) + u8(it.sets_seen) + u8(it.shows_body),
    Store: lambda it: b'\4' + spelled_name(it.box) + spelled_keys(it.keys) + u8(it.how) + u8(it.flags),
    Copy: lambda it: b'\5' + spelled_name(it.box) + spelled_keys(it.keys) + spelled_name(it.target),
    List: lambda it: b'\6' + spelled_text(it.pattern),
    Status: lambda it: b'\7' + spelled_name(it.box),
    Select: lambda it: b'\x08' + spelled_name(it.box),
    Expunge: lambda it: b'\x09' + spelled_name(it.box) + spelled_keys(it.keys),
    Close: lambda it: b'\x0a' + spelled_name(it.box) + spelled_keys(it.keys),
    Create: lambda it: b'\x0b' + spelled_name(it.box),
    Rename: lambda it: b'\x0c' + spelled_name(it.box) + spelled_name(it.target),
    Delete: lambda it: b'\x0d' + spelled_name(it.box) + spelled_keys(it.keys),
}
SHOWN: dict[type, Callable[[Any], bytes]] = {
    Deliver: lambda it: b'\0', Create: lambda it: b'\0',
    Fetch: lambda it: b'\1' + u32(len(it) // 10) + it,
    List: lambda it: b'\2' + spelled_list(it, spelled_name),
    Status: lambda it: b'\3' + spelled_option(it, u32), Select: lambda it: b'\3' + spelled_option(it, u32),
    Store: lambda it: b'\4' + spelled_keys(it),
    Copy: lambda it: b'\5' + spelled_keys(it[0]) + u8(it[1]),
    Append: lambda it: b'\6' + u8(it),
    Expunge: lambda it: b'\7' + spelled_keys(it), Close: lambda it: b'\7' + spelled_keys(it),
    Rename: lambda it: b'\x08' + u8(it),
    Delete: lambda it: b'\x09' + spelled_keys(it),
}
ACTS: dict[type, Callable[[Any], bytes]] = {
    SetAlias: lambda it: b'\1' + spelled_name(it.local) + spelled_list(it.users, u8),
    DropAlias: lambda it: b'\2' + spelled_name(it.local),
    SetFilter: lambda it: b'\3' + spelled_filter(it.filter, False) if it.filter.scope == BODY else b'\7' + spelled_filter(it.filter, True),
    DropFilter: lambda it: b'\4' + spelled_name(it.name),
    Remove: lambda it: b'\5' + u8(it.user) + spelled_name(it.box) + it.key.to_bytes(6, 'big'),
    Give: lambda it: b'\6' + u8(it.user) + spelled_name(it.box) + spelled_text(it.body.octets),
}


def spelled_deed(it: Deed, shown: Any) -> bytes:
    """A user's deed and what it showed."""
    return DEEDS[type(it)](it) + SHOWN[type(it)](shown)


def spelled_act(it: Deed) -> bytes:
    return ACTS[type(it)](it)


def spelled_kept_deed(it: Deed, shown: Any) -> bytes:
    if type(it) is Notice:
        return u8(journal.KEPT_NOTICE) + u8(it.user) + spelled_text(it.body.octets) + b'\0'
    return u8(journal.KEPT_ACT) + spelled_act(it) + b'\0' if type(it) in ACTS else spelled_deed(it, shown)


# ---- records ----


def spelled_actor(it: Optional[int]) -> bytes:
    return u8(journal.NOBODY if it is None else it)


def spelled_format(it: Format) -> bytes:
    accounts = spelled_list(it.accounts, lambda row: spelled_name(row.name) + spelled_name(row.password))
    return u8(journal.FORMAT) + spelled_name(it.host) + spelled_list(it.domains, spelled_name) + u32(it.first) + accounts + u8(it.postmaster) + spelled_aliases(it.aliases)


def spelled_verb(it: Verb) -> bytes:
    return u8(journal.VERB) + u32(it.number) + u64(it.at) + spelled_actor(it.by) + spelled_deed(it.deed, getattr(it.deed, 'shown', None))


def spelled_cycle(it: Cycle) -> bytes:
    replaces = spelled_list(it.replaces, lambda row: u32(row.item) + spelled_text(row.body.octets))
    return u8(journal.CYCLE) + u32(it.number) + u64(it.at) + spelled_name(it.key) + u32(it.point) + spelled_list(it.drops, u32) + replaces + spelled_list(it.inserts, spelled_act)


def spelled_stamp(it: Stamp) -> bytes:
    return u8(it.user) + spelled_name(it.name) + u32(it.stamp)


def spelled_told(it: Told) -> bytes:
    broken = spelled_list(it.broken, lambda row: u32(row.number) + u8(row.user) + u8(row.verb) + spelled_option(row.box, spelled_name) + u8(row.reason))
    return u32(it.cycle) + u32(it.point) + u32(it.kept) + broken + spelled_list(it.notices, u32) + spelled_list(it.renewed, spelled_stamp) + spelled_list(it.unmatched, u32)


def spelled_box(it: journal.SnapshotBox) -> bytes:
    return u8(it.user) + spelled_name(it.name) + u64(it.following) + u32(len(it.entries) // journal.ENTRY.size) + it.entries


def spelled_base(it: Base) -> bytes:
    store = spelled_aliases(it.aliases) + spelled_filters(it.filters, True) + spelled_list(it.boxes, spelled_box)
    return u8(journal.BASE) + u32(it.following) + u8(it.deep) + store + spelled_list(it.stamps, spelled_stamp) + spelled_list(it.reports, lambda row: spelled_name(row[0]) + spelled_told(row[1]))


def spelled_kept(it: Kept, shown: Any) -> bytes:
    return u8(journal.KEPT) + u32(it.number) + u64(it.at) + spelled_actor(it.by) + u32(it.rev) + spelled_kept_deed(it.deed, shown)


RECORDS: dict[type, Callable[[Any], bytes]] = {
    Format: spelled_format, Verb: spelled_verb, Cycle: spelled_cycle, Base: spelled_base,
    Operator: lambda it: u8(journal.OPERATOR) + u32(it.number) + u64(it.at) + spelled_act(it.deed),
    Upgrade: lambda it: u8(journal.UPGRADE) + u64(it.at),
    Withdraw: lambda it: u8(journal.WITHDRAW) + u32(it.number) + u64(it.at) + spelled_name(it.key) + u32(it.of),
    Text: lambda it: u8(journal.TEXT) + u32(it.origin) + u32(it.rev) + spelled_text(it.body.octets),
    Kept: lambda it: spelled_kept(it, getattr(it.deed, 'shown', None)),
}


def spelled(it: journal.Record) -> bytes:
    """The octets of a record but of a snapshot, which its store spells."""
    return RECORDS[type(it)](it)


# ---- the file ----


def written(payloads: Iterable[bytes]) -> Iterable[bytes]:
    """The octets of a journal with these payloads, in pieces: every gate is open but the last."""
    for payload in payloads:
        yield u8(journal.OPEN_GATE) + u32(len(payload))
        yield payload
    yield b'\0'
