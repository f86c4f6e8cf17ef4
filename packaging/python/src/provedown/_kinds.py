"""The numbers of records, which include/markdown_records.h describes, and what they stand for."""
from __future__ import annotations

import struct
from enum import IntEnum
from typing import Callable, Dict, Optional, Tuple

from . import _elements as element
from ._elements import Event, LinkType, Tag

#: The number of bytes of a record, and of the header.
SIZE = 24


class Kind(IntEnum):
    """What an event is. The kind of an end is that of its start and `Kind.END`, 64 more."""

    PARAGRAPH = 0x01
    HEADING = 0x02
    BLOCK_QUOTE = 0x03
    CODE_BLOCK = 0x04
    HTML_BLOCK = 0x05
    LIST = 0x06
    ITEM = 0x07
    FOOTNOTE_DEFINITION = 0x08
    DEFINITION_LIST = 0x09
    DEFINITION_LIST_TITLE = 0x0A
    DEFINITION_LIST_DEFINITION = 0x0B
    TABLE = 0x0C
    TABLE_HEAD = 0x0D
    TABLE_ROW = 0x0E
    TABLE_CELL = 0x0F
    EMPHASIS = 0x10
    STRONG = 0x11
    STRIKETHROUGH = 0x12
    SUPERSCRIPT = 0x13
    SUBSCRIPT = 0x14
    LINK = 0x15
    IMAGE = 0x16
    METADATA_BLOCK = 0x17
    TEXT = 0x20
    CODE = 0x21
    INLINE_MATH = 0x22
    DISPLAY_MATH = 0x23
    HTML = 0x24
    INLINE_HTML = 0x25
    FOOTNOTE_REFERENCE = 0x26
    SOFT_BREAK = 0x27
    HARD_BREAK = 0x28
    RULE = 0x29
    TASK_LIST_MARKER = 0x2A
    END = 0x40


QUESTION, ANSWER, DEFINITION = 0x60, 0x61, 0x62
FIRST_PART = 0x80
TITLE, LABEL, CLASS, NAME, VALUE, DESTINATION = 0x81, 0x82, 0x83, 0x84, 0x85, 0x86
NOWHERE, IN_SOURCE, IN_POOL, A_NUMBER = 0, 1, 2, 3

LINK_TYPES: Tuple[LinkType, ...] = (
    "inline",
    "reference",
    "reference-unknown",
    "collapsed",
    "collapsed-unknown",
    "shortcut",
    "shortcut-unknown",
    "autolink",
    "email",
    "wikilink",
    "wikilink-with-text",
)
QUOTES: Tuple[Optional[element.QuoteKind], ...] = (None, "note", "tip", "important", "warning", "caution")
STYLES: Tuple[element.MetadataStyle, ...] = ("yaml", "pluses")
ALIGNMENTS: Dict[str, element.Alignment] = {"n": "none", "l": "left", "c": "center", "r": "right"}

#: The elements that hold nothing.
BARE_TAGS: Dict[int, Tag] = {
    Kind.PARAGRAPH: element.Paragraph(),
    Kind.HTML_BLOCK: element.HtmlBlock(),
    Kind.ITEM: element.Item(),
    Kind.DEFINITION_LIST: element.DefinitionList(),
    Kind.DEFINITION_LIST_TITLE: element.DefinitionListTitle(),
    Kind.DEFINITION_LIST_DEFINITION: element.DefinitionListDefinition(),
    Kind.TABLE_HEAD: element.TableHead(),
    Kind.TABLE_ROW: element.TableRow(),
    Kind.TABLE_CELL: element.TableCell(),
    Kind.EMPHASIS: element.Emphasis(),
    Kind.STRONG: element.Strong(),
    Kind.STRIKETHROUGH: element.Strikethrough(),
    Kind.SUPERSCRIPT: element.Superscript(),
    Kind.SUBSCRIPT: element.Subscript(),
}
#: The events that have a text.
TEXTS: Dict[int, Callable[[str, int, int], Event]] = {
    Kind.TEXT: element.Text,
    Kind.CODE: element.Code,
    Kind.INLINE_MATH: element.InlineMath,
    Kind.DISPLAY_MATH: element.DisplayMath,
    Kind.HTML: element.Html,
    Kind.INLINE_HTML: element.InlineHtml,
    Kind.FOOTNOTE_REFERENCE: element.FootnoteReference,
}
#: The events that have none.
BARE: Dict[int, Callable[[int, int], Event]] = {
    Kind.SOFT_BREAK: element.SoftBreak,
    Kind.HARD_BREAK: element.HardBreak,
    Kind.RULE: element.Rule,
}
#: The kinds whose ends repeat the detail of their starts.
REPEATED = {Kind.HEADING, Kind.BLOCK_QUOTE, Kind.LIST, Kind.METADATA_BLOCK}

FORMAT = b"MDR1\x01\0\x18\0"
#: Format, count, count before the definitions, bytes of the pool, and of the text.
HEADER = struct.Struct("<8sIIII")
#: Kind, detail, place, a zero, start, end, at, length and parts.
RECORD = struct.Struct("<BBBBIIIII")
