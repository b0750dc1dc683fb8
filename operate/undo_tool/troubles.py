"""Statuses of the tool, and the sentence that ends a command."""
from __future__ import annotations

NOTHING_FOUND, WRONG_WORDS, NO_SERVER, REFUSED, DISK_FAULT, FILE_FAULT, NOT_CONFIRMED, NO_MEMORY, DAMAGED, WARNED = range(1, 11)


class Trouble(Exception):
    """What ends a command: a sentence for the operator, and the status."""

    def __init__(self, code: int, sentence: str) -> None:
        super().__init__(sentence)
        self.code = code
