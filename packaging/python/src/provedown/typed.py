"""Events as values of types: what a text holds, and HTML of such events.

    from provedown.typed import Heading, Link, Start, Text, events, html

    for event in events("# A\\n[b](c)"):
        match event:
            case Start(Heading(level=level)): ..
            case Start(Link(dest_url=url)): ..
            case Text(text): ..

An event is a `Start` or an `End`, which have a tag as `Heading`, or one of its own, as `Text` or `SoftBreak`. All are frozen
dataclasses, of which `dataclasses.replace` makes changed copies. Ranges count the characters of the text.

The extensions `autolinks` and `heading-ids` change nothing here: what they add is in the HTML of a text, in its outline and
in the events of `provedown.events` alone.
"""
from __future__ import annotations

from typing import Callable, Dict, Iterable, Iterator, Optional, Sequence, Tuple, TypeVar

from ._elements import (
    Alignment,
    BlockQuote,
    Code,
    CodeBlock,
    DefinitionList,
    DefinitionListDefinition,
    DefinitionListTitle,
    DisplayMath,
    Emphasis,
    End,
    Event,
    FootnoteDefinition,
    FootnoteReference,
    HardBreak,
    Heading,
    Html,
    HtmlBlock,
    Image,
    InlineHtml,
    InlineMath,
    Item,
    ItemList,
    Link,
    LinkType,
    MetadataBlock,
    MetadataStyle,
    Paragraph,
    QuoteKind,
    Rule,
    SoftBreak,
    Start,
    Strikethrough,
    Strong,
    Subscript,
    Superscript,
    Table,
    TableCell,
    TableHead,
    TableRow,
    Tag,
    TaskListMarker,
    Text,
)
from ._kinds import ALIGNMENTS, BARE, BARE_TAGS, CLASS, LABEL, LINK_TYPES, NAME, QUOTES, STYLES, TEXTS, TITLE, VALUE, Kind
from ._library import MarkdownError, SafeRules, bits_of, encoded, html_of_records, of_safe_html, safe_html_of_records_by
from ._questions import AnswerBrokenLink, answered_records
from ._records import Records
from ._writer import Writer

__all__ = [
    "Alignment",
    "BlockQuote",
    "Code",
    "CodeBlock",
    "DefinitionList",
    "DefinitionListDefinition",
    "DefinitionListTitle",
    "DisplayMath",
    "Emphasis",
    "End",
    "Event",
    "FootnoteDefinition",
    "FootnoteReference",
    "HardBreak",
    "Heading",
    "Html",
    "HtmlBlock",
    "Image",
    "InlineHtml",
    "InlineMath",
    "Item",
    "ItemList",
    "Link",
    "LinkType",
    "MetadataBlock",
    "MetadataStyle",
    "Paragraph",
    "QuoteKind",
    "Rule",
    "SoftBreak",
    "Start",
    "Strikethrough",
    "Strong",
    "Subscript",
    "Superscript",
    "Table",
    "TableCell",
    "TableHead",
    "TableRow",
    "Tag",
    "TaskListMarker",
    "Text",
    "events",
    "events_of_records",
    "html",
    "records_of_events",
]

_A = TypeVar("_A")

_KINDS: Dict[type, int] = {
    Heading: Kind.HEADING,
    BlockQuote: Kind.BLOCK_QUOTE,
    CodeBlock: Kind.CODE_BLOCK,
    ItemList: Kind.LIST,
    FootnoteDefinition: Kind.FOOTNOTE_DEFINITION,
    Table: Kind.TABLE,
    Link: Kind.LINK,
    Image: Kind.IMAGE,
    MetadataBlock: Kind.METADATA_BLOCK,
}
for _bare_kind, _bare_tag in BARE_TAGS.items():
    _KINDS[type(_bare_tag)] = _bare_kind
_TEXT_KINDS: Dict[Callable[[str, int, int], Event], int] = {of: kind for kind, of in TEXTS.items()}
_BARE_KINDS: Dict[Callable[[int, int], Event], int] = {of: kind for kind, of in BARE.items()}
_LETTERS: Dict[Alignment, str] = {alignment: letter for letter, alignment in ALIGNMENTS.items()}


def events(
    text: str, extensions: Iterable[str] = (), *, broken_link: Optional[AnswerBrokenLink] = None
) -> Iterator[Event]:
    """Returns an iterator over the events of a text. The text is read at the call.

    `broken_link` is called at once too, in the order of the text and once for each reference without a definition that the
    text would have as a link. It returns the destination, or a pair of the destination and a title, and so makes it a link;
    or None, and it stays text. After each answer that is a link the text is read once more.
    """
    of_text = encoded(text)
    return Records(of_text, answered_records(of_text, bits_of(extensions), broken_link)).events()


def html(of: Iterable[Event], *, safe: bool = True, rules: Optional[SafeRules] = None) -> str:
    """Returns the HTML of events, which may be those of a text, changed or made: ranges mean nothing here.

    Safe HTML is for untrusted input, as that of `provedown.html`, and `rules` are its rules: raw HTML is shown as text, also
    what a caller inserts.
    """
    if rules is None:
        return html_of_records(b"", records_of_events(of), safe).decode()
    return safe_html_of_records_by(b"", records_of_events(of), of_safe_html(rules, safe)).decode()


def events_of_records(text: str, records: bytes) -> Iterator[Event]:
    """Returns an iterator over the events in the records of a text. Bytes that are none raise `BadRecords`, here or when
    the iterator comes to them.
    """
    return Records(encoded(text), bytes(records)).events()


def records_of_events(of: Iterable[Event]) -> bytes:
    """Returns records of events, without ranges: they are records of an empty text."""
    writer = Writer(0)
    for event in of:
        _write_event(writer, event)
    return writer.written()


def _number(of: _A, among: Sequence[_A]) -> int:
    if of not in among:
        raise MarkdownError(f"{of!r} is none of {', '.join(map(repr, among))}")
    return among.index(of)


def _write_event(writer: Writer, event: Event) -> None:
    if isinstance(event, Start):
        _write_start(writer, event.tag)
    elif isinstance(event, End):
        writer.add(_kind(event.tag) + Kind.END, _end_detail(event.tag))
    elif isinstance(event, TaskListMarker):
        writer.add(Kind.TASK_LIST_MARKER, bool(event.done))
    elif isinstance(event, FootnoteReference):
        writer.add(Kind.FOOTNOTE_REFERENCE, 0, encoded(event.name))
    elif isinstance(event, (SoftBreak, HardBreak, Rule)):
        writer.add(_BARE_KINDS[type(event)])
    elif isinstance(event, (Text, Code, InlineMath, DisplayMath, Html, InlineHtml)):
        writer.add(_TEXT_KINDS[type(event)], 0, encoded(event.text))
    else:
        raise TypeError(f"an event is one of provedown.typed, not {type(event).__name__}")


def _kind(tag: Tag) -> int:
    if type(tag) not in _KINDS:
        raise TypeError(f"a tag is one of provedown.typed, not {type(tag).__name__}")
    return _KINDS[type(tag)]


def _end_detail(tag: Tag) -> int:
    """Returns the detail of an End, which tells what its HTML needs."""
    if isinstance(tag, Heading):
        return _number(tag.level, range(1, 7)) + 1
    if isinstance(tag, BlockQuote):
        return _number(tag.kind, QUOTES)
    if isinstance(tag, ItemList):
        return tag.first is not None
    if isinstance(tag, MetadataBlock):
        return _number(tag.style, STYLES)
    return 0


def _write_start(writer: Writer, tag: Tag) -> None:
    kind = _kind(tag)
    if isinstance(tag, Heading):
        _write_heading(writer, tag)
    elif isinstance(tag, (Link, Image)):
        parts = [(part, encoded(text)) for part, text in ((TITLE, tag.title), (LABEL, tag.label)) if text]
        writer.add(kind, _number(tag.link_type, LINK_TYPES), encoded(tag.dest_url), parts=len(parts))
        for part, text in parts:
            writer.add(part, 0, text)
    elif isinstance(tag, CodeBlock) and tag.info is not None:
        writer.add(kind, 1, encoded(tag.info))
    elif isinstance(tag, ItemList) and tag.first is not None:
        if not 0 <= tag.first < 2**64:
            raise MarkdownError("a list begins with a number that has more than 64 bits, or is negative")
        writer.add_number(kind, 1, tag.first)
    elif isinstance(tag, FootnoteDefinition):
        writer.add(kind, 0, encoded(tag.name))
    elif isinstance(tag, Table):
        columns = (_number(it, [*_LETTERS]) for it in tag.alignments)
        writer.add(kind, 0, "".join([*_LETTERS.values()][it] for it in columns).encode())
    else:
        writer.add(kind, _end_detail(tag))


def _write_heading(writer: Writer, tag: Heading) -> None:
    parts = [(CLASS, it) for it in tag.classes]
    for name, value in tag.attributes:
        parts.append((NAME, name))
        if value is not None:
            parts.append((VALUE, value))
    writer.add(Kind.HEADING, _end_detail(tag), None if tag.id is None else encoded(tag.id), parts=len(parts))
    for part, text in parts:
        writer.add(part, 0, encoded(text))
