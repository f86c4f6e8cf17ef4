"""What records of events say."""
from __future__ import annotations

from array import array
from itertools import accumulate, compress, islice
from typing import Callable, Dict, Iterator, List, NamedTuple, Optional, Sequence, Tuple, TypeVar

from . import _elements as element
from ._elements import End, Event, LinkType, Start, Tag
from ._kinds import A_NUMBER, ALIGNMENTS, ANSWER, BARE, BARE_TAGS, CLASS, DEFINITION, DESTINATION, FIRST_PART, FORMAT, HEADER
from ._kinds import IN_POOL, IN_SOURCE, LABEL, LINK_TYPES, NAME, NOWHERE, QUESTION, QUOTES, RECORD, REPEATED, SIZE, STYLES
from ._kinds import TEXTS, TITLE, VALUE, Kind
from ._library import BadRecords

_A = TypeVar("_A")
# (a look-up less for each event)
_END = int(Kind.END)

class Record(NamedTuple):
    """A record, with the fields of `RECORD`."""

    kind: int
    detail: int
    place: int
    spare: int
    start: int
    end: int
    at: int
    length: int
    parts: int


class Definition(NamedTuple):
    """A reference definition. It spans `text[start:end]`."""

    label: str
    dest_url: str
    title: Optional[str]
    start: int
    end: int


class Columns(NamedTuple):
    """The events of a text, or rather what is counted of them: the `kinds` and the `details` (the level of a heading) are
    bytes, and event number n has `kinds[n]`, which is a `Kind`, and spans `text[starts[n]:ends[n]]`.
    """

    kinds: bytes
    details: bytes
    starts: array[int]
    ends: array[int]


class BrokenLink(NamedTuple):
    """A reference that no definition has. It spans `text[start:end]`."""

    link_type: LinkType
    label: str
    start: int
    end: int


# 1 for each byte that a character begins with: the others are 0b10xxxxxx.
_FIRST_BYTES = bytes(byte & 0xC0 != 0x80 for byte in range(256))


def characters_of(text: bytes) -> Sequence[int]:
    """Returns for each offset of bytes how many characters stand before it."""
    if text.isascii():
        return range(len(text) + 1)
    return [0, *accumulate(text.translate(_FIRST_BYTES))]


def _chosen(table: Sequence[_A], number: int) -> _A:
    if number >= len(table):
        raise BadRecords("a detail of a record is unknown")
    return table[number]


class Records:
    """Records of a text. Their header is checked here, and each of them where it is read."""

    def __init__(self, text: bytes, records: bytes) -> None:
        if len(records) < SIZE:
            raise BadRecords("records begin with a header of 24 bytes")
        form, count, entries, pool, of_text = HEADER.unpack_from(records)
        end = SIZE * (count + 1)
        if form != FORMAT:
            raise BadRecords("the bytes are no records, or of another version")
        if of_text != len(text) or entries > count or len(records) != end + pool:
            raise BadRecords("the header does not fit the records or the text")
        self.entries: int = entries
        self.kinds = records[SIZE : end : SIZE]
        self._text = text
        self._rows = memoryview(records)[SIZE:end]
        self._pool = records[end:]
        self._characters = characters_of(text)
        if not _is_utf8(self._pool):
            raise BadRecords("texts in the pool are not UTF-8")

    def events(self) -> Iterator[Event]:
        """Returns an iterator over the events."""
        opened: List[Tuple[int, int, Tag]] = []
        of_text, bare_tags, characters = TEXTS, BARE_TAGS, self._characters
        for row, parts in self._groups(0, self.entries):
            kind, start, end = row.kind, row.start, row.end
            if end >= len(characters):
                raise BadRecords("a range ends after the text")
            start, end = characters[start], characters[end]
            if kind in of_text:
                self._expect(row.detail == 0 and not parts)
                yield of_text[kind](self._text_of(row), start, end)
            elif kind in bare_tags:
                self._expect_bare(row, (0,))
                opened.append((kind, 0, bare_tags[kind]))
                yield Start(bare_tags[kind], start, end)
            elif _END < kind < QUESTION:
                self._expect_bare(row, (row.detail,))
                if not opened or opened[-1][:2] != (kind - _END, row.detail):
                    raise BadRecords("an end has no start")
                yield End(opened.pop()[2], start, end)
            elif kind in _TAGS:
                tag = _TAGS[kind](self, row, parts)
                opened.append((kind, row.detail if kind in REPEATED else 0, tag))
                yield Start(tag, start, end)
            elif kind < QUESTION:
                yield self._bare_event(row, start, end)
            else:
                self._check_no_event(row, parts)
        if opened:
            raise BadRecords("a start has no end")
        # (these are checked as they are read)
        self.definitions()

    def columns(self) -> Columns:
        """Returns the events as columns."""
        rows, characters = self._rows[: SIZE * self.entries], self._characters
        are_events = [kind < QUESTION for kind in rows[::SIZE]]
        # (x86-64 has the lowest byte of a number first, as records have)
        numbers = rows.cast("I")
        starts, ends = (compress(numbers[column :: SIZE // 4], are_events) for column in (1, 2))
        return Columns(
            bytes(compress(rows[::SIZE], are_events)),
            bytes(compress(rows[1::SIZE], are_events)),
            array("I", map(characters.__getitem__, starts)),
            array("I", map(characters.__getitem__, ends)),
        )

    def definitions(self) -> List[Definition]:
        """Returns the reference definitions."""
        return [self._definition(row, parts) for row, parts in self._groups(self.entries, len(self.kinds))]

    def asked(self, number: int) -> Tuple[BrokenLink, Tuple[int, int]]:
        """Returns what the question with this number asks, and its range in bytes."""
        row = Record._make(RECORD.unpack_from(self._rows, SIZE * number))
        return self._question(row), (row.start, row.end)

    def broken_links(self) -> List[BrokenLink]:
        """Returns what is asked of references without a definition."""
        return [self._question(row) for row, _ in self._groups(0, self.entries) if row.kind == QUESTION]

    def _question(self, row: Record) -> BrokenLink:
        self._expect(row.parts == 0)
        return BrokenLink(_chosen(LINK_TYPES, row.detail), self._text_of(row), *self._range(row))

    def _groups(self, number: int, to: int) -> Iterator[Tuple[Record, List[Record]]]:
        """Returns an iterator over records with their parts."""
        rows = map(Record._make, RECORD.iter_unpack(self._rows[SIZE * number : SIZE * to]))
        none: List[Record] = []
        for row in rows:
            parts = [*islice(rows, row.parts)] if row.parts else none
            if row.spare or row.start > row.end or len(parts) != row.parts:
                raise BadRecords("a record has a range that ends before it begins, or lacks parts")
            yield row, parts

    def _range(self, row: Record) -> Tuple[int, int]:
        if row.end > len(self._text):
            raise BadRecords("a range ends after the text")
        return self._characters[row.start], self._characters[row.end]

    def _text_of(self, row: Record) -> str:
        place, at, end = row.place, row.at, row.at + row.length
        if place == IN_SOURCE:
            source = self._text
        elif place == IN_POOL:
            source = self._pool
        else:
            raise BadRecords("a record has no text")
        if end > len(source):
            raise BadRecords("a text lies outside of what it is a part of")
        try:
            return source[at:end].decode()
        except UnicodeDecodeError:
            raise BadRecords("a text begins or ends within a character") from None

    def _part(self, row: Record) -> str:
        """Returns the text of a part."""
        self._expect(row.kind >= FIRST_PART and row.detail == 0 and row.spare == row.start == row.end == 0 and row.parts == 0)
        return self._text_of(row)

    def _texts_of_parts(self, parts: List[Record], *kinds: int) -> List[Optional[str]]:
        """Returns the text of a part of each of these kinds, or None where it is missing. The parts are in this order."""
        left = [*parts]
        texts = [self._part(left.pop(0)) if left and left[0].kind == kind else None for kind in kinds]
        self._expect(not left)
        return texts

    def _expect(self, holds: bool) -> None:
        if not holds:
            raise BadRecords("a record has fields that do not fit its kind")

    def _expect_bare(self, row: Record, details: Sequence[int]) -> None:
        """One of these details, and neither a text nor a number nor parts."""
        if row.detail not in details or row.place != NOWHERE or row.at or row.length or row.parts:
            raise BadRecords("a record has fields that do not fit its kind")

    def _bare_event(self, row: Record, start: int, end: int) -> Event:
        if row.kind == Kind.TASK_LIST_MARKER:
            self._expect_bare(row, (0, 1))
            return element.TaskListMarker(row.detail == 1, start, end)
        if row.kind not in BARE:
            raise BadRecords(f"a record of kind {row.kind:#x} is no event")
        self._expect_bare(row, (0,))
        return BARE[row.kind](start, end)

    def _check_no_event(self, row: Record, parts: List[Record]) -> None:
        """Checks a question or an answer."""
        if row.kind == QUESTION:
            self._question(row)
        elif row.kind != ANSWER:
            raise BadRecords(f"a record of kind {row.kind:#x} is no event")
        elif row.detail:
            self._expect(row.detail == 1)
            self._text_of(row)
            self._texts_of_parts(parts, TITLE)
        else:
            self._expect_bare(row, (0,))

    def _heading(self, row: Record, parts: List[Record]) -> Tag:
        self._expect(1 <= row.detail <= 6)
        name = None if row.place == NOWHERE and row.at == 0 and row.length == 0 else self._text_of(row)
        classes: List[str] = []
        attributes: List[Tuple[str, Optional[str]]] = []
        before = CLASS
        for part in parts:
            text, kind = self._part(part), part.kind
            if kind == CLASS and before == CLASS:
                classes.append(text)
            elif kind == NAME:
                attributes.append((text, None))
            elif kind == VALUE and before == NAME:
                attributes[-1] = (attributes[-1][0], text)
            else:
                raise BadRecords("a heading has parts in another order")
            before = kind
        return element.Heading(row.detail, name, tuple(classes), tuple(attributes))

    def _block_quote(self, row: Record, parts: List[Record]) -> Tag:
        self._expect_bare(row, range(len(QUOTES)))
        return element.BlockQuote(QUOTES[row.detail])

    def _code_block(self, row: Record, parts: List[Record]) -> Tag:
        if row.detail == 1:
            self._expect(not parts)
            return element.CodeBlock(self._text_of(row))
        self._expect_bare(row, (0,))
        return element.CodeBlock()

    def _list(self, row: Record, parts: List[Record]) -> Tag:
        if row.detail == 1:
            self._expect(row.place == A_NUMBER and not parts)
            return element.ItemList(row.at | row.length << 32)
        self._expect_bare(row, (0,))
        return element.ItemList()

    def _footnote_definition(self, row: Record, parts: List[Record]) -> Tag:
        self._expect(row.detail == 0 and not parts)
        return element.FootnoteDefinition(self._text_of(row))

    def _table(self, row: Record, parts: List[Record]) -> Tag:
        letters = self._text_of(row)
        self._expect(row.detail == 0 and not parts and all(letter in ALIGNMENTS for letter in letters))
        return element.Table(tuple(ALIGNMENTS[letter] for letter in letters))

    def _link_fields(self, row: Record, parts: List[Record]) -> Tuple[LinkType, str, str, str]:
        title, label = self._texts_of_parts(parts, TITLE, LABEL)
        return _chosen(LINK_TYPES, row.detail), self._text_of(row), title or "", label or ""

    def _link(self, row: Record, parts: List[Record]) -> Tag:
        return element.Link(*self._link_fields(row, parts))

    def _image(self, row: Record, parts: List[Record]) -> Tag:
        return element.Image(*self._link_fields(row, parts))

    def _metadata_block(self, row: Record, parts: List[Record]) -> Tag:
        self._expect_bare(row, range(len(STYLES)))
        return element.MetadataBlock(STYLES[row.detail])

    def _definition(self, row: Record, parts: List[Record]) -> Definition:
        self._expect(row.kind == DEFINITION and row.detail == 0)
        destination, title = self._texts_of_parts(parts, DESTINATION, TITLE)
        if destination is None:
            raise BadRecords("a definition has no destination")
        return Definition(self._text_of(row), destination, title, *self._range(row))


_TAGS: Dict[int, Callable[[Records, Record, List[Record]], Tag]] = {
    Kind.HEADING: Records._heading,
    Kind.BLOCK_QUOTE: Records._block_quote,
    Kind.CODE_BLOCK: Records._code_block,
    Kind.LIST: Records._list,
    Kind.FOOTNOTE_DEFINITION: Records._footnote_definition,
    Kind.TABLE: Records._table,
    Kind.LINK: Records._link,
    Kind.IMAGE: Records._image,
    Kind.METADATA_BLOCK: Records._metadata_block,
}


def _is_utf8(of: bytes) -> bool:
    try:
        of.decode()
    except UnicodeDecodeError:
        return False
    return True
