"""Stored texts: header, parts, charsets, and what they hold."""
from __future__ import annotations

import base64
import binascii
import email
import email.message
import hashlib
import html
import re
from typing import Iterator, NamedTuple, Optional

from .console import Answer, accepted


def text_of(octets: bytes, charset: Optional[str] = None) -> str:
    """Octets of mail as text: by the charset that they are said to have, else UTF-8, or else Latin-1, which any octets are."""
    # where only ASCII or Latin-1 is announced, octets are often of another charset that has these as its first part
    usual = {'us-ascii': None, 'ascii': None, 'iso-8859-1': 'windows-1252', 'latin-1': 'windows-1252', 'unknown-8bit': None}
    for known in (usual.get((charset or '').lower(), charset), 'utf-8', 'windows-1252' if charset else 'latin-1'):
        try:
            if known:
                return octets.decode(known)
        except (UnicodeDecodeError, LookupError, ValueError):
            continue
    return octets.decode('latin-1')


def words_of(value: str) -> str:
    """A field's value with its encoded words read (RFC 2047, 2231 for a language); a word that is broken stays as it stands.

    Words of one charset that stand side by side are read as one, since some writers cut a letter in two."""
    def octets(kind: str, text: str) -> bytes:
        it = text.encode('ascii', 'replace')
        return base64.b64decode(it) if kind in 'bB' else binascii.a2b_qp(it, header=True)

    def read(run: re.Match[str]) -> str:
        pieces: list[tuple[str, bytes]] = []
        try:
            for charset, kind, text in re.findall(WORD, run[0]):
                name = charset.partition('*')[0].lower()
                if pieces and pieces[-1][0] == name:
                    pieces[-1] = (name, pieces[-1][1] + octets(kind, text))
                else:
                    pieces.append((name, octets(kind, text)))
            return ''.join(it.decode(name) for name, it in pieces)
        except (ValueError, LookupError):
            return run[0]
    return re.sub(rf'{MARK}(?:\s+{MARK})*', read, value) if '=?' in value else value


WORD = r'=\?([^?\s]+)\?([bBqQ])\?([^?\s]*)\?='
MARK = r'=\?[^?\s]+\?[bBqQ]\?[^?\s]*\?='


class Part(NamedTuple):
    """A part of a message: what it is, its name, its octets behind their encoding, and its text, if it is one."""

    kind: str
    name: str
    octets: bytes
    text: str

    def shown(self) -> Iterator[str]:
        """Its name and its text; of a page also as it is without its entities."""
        yield from (self.name, self.text)
        if self.kind == 'text/html':
            yield html.unescape(self.text)

    def said(self) -> str:
        return f'{self.kind}, {len(self.octets):,} octets{f", named {self.name}" if self.name else ""}' if self.kind else ''


class Message:
    """A stored text: trace lines, header and what follows."""

    def __init__(self, octets: bytes) -> None:
        self.octets = octets
        end = re.search(rb'\r?\n\r?\n', octets)
        self.head = octets[:end.start()] if end else octets
        self.rest = octets[end.end():] if end else b''

    def fields(self) -> list[tuple[str, str]]:
        unfolded = re.sub(r'\r?\n[ \t]+', ' ', text_of(self.head))
        rows = [line.partition(':') for line in re.split(r'\r?\n', unfolded) if ':' in line]
        return [(name.strip(), words_of(value.strip())) for name, _, value in rows]

    def field(self, *names: str) -> str:
        """The first field of one of these names, the names in order."""
        for name in names:
            found = re.search(rb'(?im)^%s[ \t]*:([^\r\n]*(?:\r?\n[ \t]+[^\r\n]*)*)' % re.escape(name.encode('ascii')), self.head)
            if found:
                return words_of(re.sub(r'\r?\n[ \t]+', ' ', text_of(found[1])).strip())
        return ''

    def summary(self) -> dict[str, str]:
        """Whom it is from, to whom, and its subject."""
        return {'from': self.field('return-path').strip('<>') or self.field('from'), 'to': self.field('to', 'cc'), 'subject': self.field('subject')}

    def message_id(self) -> str:
        return self.field('message-id').strip().strip('<>')

    def parts(self) -> Iterator[Part]:
        """The parts of a message, those of messages within it too."""
        if not re.search(rb'(?im)^content-(type|transfer-encoding):', self.head):
            yield Part('', '', self.rest, text_of(self.rest))
            return
        for part in email.message_from_bytes(self.octets).walk():
            if not part.is_multipart():
                yield part_of(part)

    def texts(self) -> Iterator[tuple[str, str]]:
        """The parts, each as a line that says what it is and its text, if it is one."""
        return ((part.said(), part.text) for part in self.parts())

    def digests(self) -> set[str]:
        """SHA-256 of the octets of each part, as a scanner tells them of an attachment."""
        return {hashlib.sha256(part.octets).hexdigest() for part in self.parts()}

    def holds(self, text: str, exact: bool) -> bool:
        """Whether the text stands in it: `exact` as a filter's needle does, by its bytes; else in any case, and behind encodings and charsets too."""
        sought = text.encode('utf-8', 'surrogateescape')
        if exact:
            return sought in self.octets
        if sought.lower() in self.octets.lower():
            return True
        if text.isascii() and b'&' not in self.octets and not ENCODED.search(self.octets):
            return False
        folded = text.casefold()
        fields = '\n'.join(value for _, value in self.fields())
        return any(folded in it.casefold() for it in (fields, text_of(self.octets))) or any(folded in it.casefold() for part in self.parts() for it in part.shown())


# what may hide plain letters: encodings, encoded words, and charsets in which ASCII letters stand as other octets
ENCODED = re.compile(rb'(?i)=\?|content-transfer-encoding:\s*(base64|quoted-printable)|charset="?(utf-?(7|16|32)|iso-2022|hz-)|\*[0-9]*\*?=')


def part_of(part: email.message.Message) -> Part:
    try:
        octets = part.get_payload(decode=True) or b''
    except (ValueError, AssertionError):
        octets = b''
    try:
        name = words_of(part.get_filename() or '')
        charset = part.get_content_charset()
    except (ValueError, LookupError, TypeError):
        name, charset = '', None
    return Part(part.get_content_type(), name, octets, text_of(octets, charset) if part.get_content_maintype() == 'text' else '')


def message_of(answer: Answer, number: int) -> Message:
    found = accepted(answer, f'The item {number} has no text, or there is no such item.')
    return Message(base64.b64decode(found['body']))
