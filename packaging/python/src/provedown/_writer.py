"""Writes records."""
from __future__ import annotations

from typing import Optional, Tuple

from ._kinds import A_NUMBER, FORMAT, HEADER, IN_POOL, NOWHERE, RECORD, SIZE


class Writer:
    """Writes records, all of whose texts are in the pool."""

    def __init__(self, text_length: int) -> None:
        self._text_length = text_length
        self._rows = bytearray()
        self._pool = bytearray()

    def add(
        self, kind: int, detail: int = 0, text: Optional[bytes] = None, *, span: Tuple[int, int] = (0, 0), parts: int = 0
    ) -> None:
        """Adds a record, with its text if it has one."""
        if text is None:
            self._rows += RECORD.pack(kind, detail, NOWHERE, 0, *span, 0, 0, parts)
        else:
            self._rows += RECORD.pack(kind, detail, IN_POOL, 0, *span, len(self._pool), len(text), parts)
            self._pool += text

    def add_number(self, kind: int, detail: int, number: int) -> None:
        """Adds a record with a number below 2**64."""
        self._rows += RECORD.pack(kind, detail, A_NUMBER, 0, 0, 0, number & 0xFFFFFFFF, number >> 32, 0)

    def written(self) -> bytes:
        """Returns the records so far."""
        count = len(self._rows) // SIZE
        return HEADER.pack(FORMAT, count, count, len(self._pool), self._text_length) + self._rows + self._pool
