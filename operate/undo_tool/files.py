"""Files on this side: what is read, and what is written, each 0600, and whole or absent."""
from __future__ import annotations

import base64
import contextlib
import errno
import glob
import itertools
import json
import os
import re
import secrets
import sys
import time
from typing import Any, Iterable, Optional

from .asked import refuse, shape_faults
from .moments import utc
from .troubles import FILE_FAULT, WRONG_WORDS, Trouble


def octets_from(path: str) -> bytes:
    try:
        if path == '-':
            return sys.stdin.buffer.read()
        with open(path, 'rb') as file:
            return file.read()
    except OSError as fault:
        raise Trouble(FILE_FAULT, f'{path} cannot be read: {fault.strerror}.') from None


def request_from(path: str, wants_key: bool) -> dict[str, Any]:
    try:
        request = json.loads(octets_from(path))
    except (ValueError, RecursionError) as fault:
        raise Trouble(WRONG_WORDS, f'{path} is no JSON: {fault}.') from None
    refuse(shape_faults(request, wants_key), f'{path} is no request that the console would take')
    return request


def mail_from(path: str, as_it_is: bool) -> str:
    """A file as a text of mail in base64: with CRLF behind each line, as mail has it, or as it is."""
    octets = octets_from(path)
    return base64.b64encode(octets if as_it_is else re.sub(rb'\r?\n', b'\r\n', octets)).decode()


def new_beside(path: str) -> tuple[int, str]:
    """A new empty file of its owner's alone (0600) beside a path, to be put there once it is whole."""
    beside = os.path.join(os.path.dirname(path) or '.', f'.{os.path.basename(path)}.{secrets.token_hex(4)}.new')
    return os.open(beside, os.O_RDWR | os.O_CREAT | os.O_EXCL | os.O_CLOEXEC, 0o600), beside


def write_whole(path: str, pieces: Iterable[bytes], over: bool = False) -> None:
    """A file of its owner's alone (0600), whole or absent: written beside, synced, and put in its place. Without `over` none is written over."""
    descriptor, beside = new_beside(path)
    try:
        with os.fdopen(descriptor, 'wb') as file:
            for piece in pieces:
                file.write(piece)
            file.flush()
            os.fsync(file.fileno())
        if over:
            os.replace(beside, path)
        else:
            put_new(beside, path)
    except BaseException:
        with contextlib.suppress(OSError):
            os.unlink(beside)
        raise
    sync_folder(os.path.dirname(path) or '.')


def put_new(beside: str, path: str) -> None:
    """Gives a file its name where nothing has that; also on a file system without hard links."""
    try:
        os.link(beside, path)
    except OSError as fault:
        if fault.errno not in (errno.EPERM, errno.EOPNOTSUPP, errno.ENOSYS, errno.EMLINK):
            raise
        if os.path.lexists(path):
            raise FileExistsError(errno.EEXIST, os.strerror(errno.EEXIST), path) from None
        os.rename(beside, path)
        return
    os.unlink(beside)


def sync_folder(folder: str) -> None:
    descriptor = os.open(folder, os.O_RDONLY | os.O_DIRECTORY)
    try:
        os.fsync(descriptor)
    finally:
        os.close(descriptor)


def write_new(path: str, text: str) -> None:
    """A new file with a request."""
    try:
        write_whole(path, [text.encode('ascii')])
    except OSError as fault:
        raise Trouble(FILE_FAULT, f'{path} cannot be written: {fault.strerror}.') from None


class KeptRun:
    """A file with a cycle's request and the texts that it drops or replaces, written before it is sent, and its report."""

    def __init__(self, folder: str, where: str, request: dict[str, Any], texts: list[dict[str, Any]]) -> None:
        name = re.sub(r'[^A-Za-z0-9]+', '-', request['key']).strip('-')[:40] or 'key'
        self.told = {'asked_at': int(time.time()), 'console': where, 'request': request, 'report': None, 'repeated': None, 'texts': texts}
        stamp = re.sub(r'[-:]', '', utc(self.told['asked_at'])).replace(' ', 'T')
        try:
            os.makedirs(folder, mode=0o700, exist_ok=True)
            for count in itertools.count(1):
                self.path = os.path.join(folder, f'cycle-{name}-{stamp}{"" if count == 1 else f"-{count}"}.json')
                try:
                    write_whole(self.path, [self._octets()])
                    return
                except FileExistsError:
                    continue
        except OSError as fault:
            raise Trouble(FILE_FAULT, f'The request cannot be kept in {folder} ({fault.strerror}), so it was not sent.') from None

    def keep(self, report: dict[str, Any], repeated: bool) -> Optional[str]:
        """Writes the report beside the request; the fault, where that fails."""
        self.told.update(answered_at=int(time.time()), report=report, repeated=repeated)
        try:
            write_whole(self.path, [self._octets()], over=True)
            return None
        except OSError as fault:
            return f'The report could not be kept in {self.path}: {fault.strerror}.'

    def _octets(self) -> bytes:
        return json.dumps(self.told, indent=1, sort_keys=True).encode('ascii') + b'\n'


def kept_from(path: str) -> dict[str, Any]:
    """A file as a run keeps it."""
    try:
        found = json.loads(octets_from(path))
    except (ValueError, RecursionError) as fault:
        raise Trouble(WRONG_WORDS, f'{path} is no JSON: {fault}.') from None
    if not isinstance(found, dict) or not isinstance(found.get('request'), dict) or not isinstance(found.get('texts'), list):
        raise Trouble(WRONG_WORDS, f'{path} is no file that a run kept: it has no request, or no texts.')
    return found


def kept_report(folder: str, cycle: int) -> Optional[dict[str, Any]]:
    """The report of a cycle among the runs that are kept in a folder."""
    for path in sorted(glob.glob(os.path.join(glob.escape(folder), 'cycle-*.json')), reverse=True):
        try:
            report = kept_from(path).get('report')
        except Trouble:
            continue
        if isinstance(report, dict) and report.get('cycle') == cycle:
            return report
    return None
