"""Moments as they are written and read: seconds since 1970, local time, UTC."""
from __future__ import annotations

import argparse
import datetime
import re


def moment(text: str, late: bool = False) -> int:
    """Seconds since 1970 of a written moment, in local time where it names no zone. A day alone is its start, or where `late` its end."""
    if re.fullmatch(r'@?\d{5,12}', text):
        return int(text.lstrip('@'))
    day = re.fullmatch(r'\d{4}-\d\d-\d\d', text)
    try:
        if re.fullmatch(r'\d\d:\d\d(:\d\d)?', text):
            text = f'{datetime.date.today().isoformat()} {text}'
        found = datetime.datetime.fromisoformat(re.sub(r'Z$', '+00:00', text))
        return int(found.timestamp()) + (86399 if day and late else 59 if late and re.search(r'[ T]\d\d:\d\d$', text) else 0)
    except (ValueError, OverflowError):
        raise argparse.ArgumentTypeError(f'{text!r} is no moment: write 2026-11-28, "2026-11-28 09:20", 09:20 (today), with +01:00 or Z for a zone, or seconds since 1970') from None


def local(at: int) -> str:
    """A moment in local time with its zone; in UTC where this machine's calendar does not reach it."""
    try:
        return datetime.datetime.fromtimestamp(at).astimezone().strftime('%Y-%m-%d %H:%M:%S %z')
    except (ValueError, OverflowError, OSError):
        return utc(at)


def utc(at: int) -> str:
    return (datetime.datetime(1970, 1, 1) + datetime.timedelta(seconds=at)).strftime('%Y-%m-%d %H:%M:%SZ')
