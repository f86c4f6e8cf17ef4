"""The events of a text as values of types, which `typed` offers."""
from __future__ import annotations

import sys
from dataclasses import dataclass
from functools import partial
from typing import TYPE_CHECKING, Literal, Optional, Tuple, Union

LinkType = Literal[
    "inline",
    "reference",
    "reference-unknown",
    "collapsed",
    "collapsed-unknown",
    "shortcut",
    "shortcut-unknown",
    "autolink",
    "email",
    "wikilink",
    "wikilink-with-text",
]
Alignment = Literal["none", "left", "center", "right"]
QuoteKind = Literal["note", "tip", "important", "warning", "caution"]
MetadataStyle = Literal["yaml", "pluses"]

if not TYPE_CHECKING and sys.version_info >= (3, 10):
    # (values are many: without a `__dict__` they take less memory)
    dataclass = partial(dataclass, slots=True)


@dataclass(frozen=True)
class Paragraph:
    pass


@dataclass(frozen=True)
class Heading:
    """A heading. The id, the classes and the attributes are those of `heading-attributes`."""

    level: int
    id: Optional[str] = None
    classes: Tuple[str, ...] = ()
    attributes: Tuple[Tuple[str, Optional[str]], ...] = ()


@dataclass(frozen=True)
class BlockQuote:
    """A block quote, or with a kind an alert."""

    kind: Optional[QuoteKind] = None


@dataclass(frozen=True)
class CodeBlock:
    """A code block: a fenced one with its info string, or with None an indented one."""

    info: Optional[str] = None


@dataclass(frozen=True)
class HtmlBlock:
    pass


@dataclass(frozen=True)
class ItemList:
    """A list, whose first number is None where it has bullets."""

    first: Optional[int] = None


@dataclass(frozen=True)
class Item:
    pass


@dataclass(frozen=True)
class FootnoteDefinition:
    name: str


@dataclass(frozen=True)
class DefinitionList:
    pass


@dataclass(frozen=True)
class DefinitionListTitle:
    pass


@dataclass(frozen=True)
class DefinitionListDefinition:
    pass


@dataclass(frozen=True)
class Table:
    """A table, with the alignment of each column."""

    alignments: Tuple[Alignment, ...] = ()


@dataclass(frozen=True)
class TableHead:
    pass


@dataclass(frozen=True)
class TableRow:
    pass


@dataclass(frozen=True)
class TableCell:
    pass


@dataclass(frozen=True)
class Emphasis:
    pass


@dataclass(frozen=True)
class Strong:
    pass


@dataclass(frozen=True)
class Strikethrough:
    pass


@dataclass(frozen=True)
class Superscript:
    pass


@dataclass(frozen=True)
class Subscript:
    pass


@dataclass(frozen=True)
class Link:
    """A link. The label is that of a reference, as its author wrote it, and otherwise empty."""

    link_type: LinkType
    dest_url: str
    title: str = ""
    label: str = ""


@dataclass(frozen=True)
class Image:
    """An image, with the fields of a link."""

    link_type: LinkType
    dest_url: str
    title: str = ""
    label: str = ""


@dataclass(frozen=True)
class MetadataBlock:
    style: MetadataStyle


Tag = Union[
    Paragraph,
    Heading,
    BlockQuote,
    CodeBlock,
    HtmlBlock,
    ItemList,
    Item,
    FootnoteDefinition,
    DefinitionList,
    DefinitionListTitle,
    DefinitionListDefinition,
    Table,
    TableHead,
    TableRow,
    TableCell,
    Emphasis,
    Strong,
    Strikethrough,
    Superscript,
    Subscript,
    Link,
    Image,
    MetadataBlock,
]


@dataclass(frozen=True)
class Start:
    """An element begins. It spans `text[start:end]`."""

    tag: Tag
    start: int = 0
    end: int = 0


@dataclass(frozen=True)
class End:
    """An element ends. The tag and the range are those of its Start."""

    tag: Tag
    start: int = 0
    end: int = 0


@dataclass(frozen=True)
class Text:
    text: str
    start: int = 0
    end: int = 0


@dataclass(frozen=True)
class Code:
    text: str
    start: int = 0
    end: int = 0


@dataclass(frozen=True)
class InlineMath:
    text: str
    start: int = 0
    end: int = 0


@dataclass(frozen=True)
class DisplayMath:
    text: str
    start: int = 0
    end: int = 0


@dataclass(frozen=True)
class Html:
    """A line of an HTML block."""

    text: str
    start: int = 0
    end: int = 0


@dataclass(frozen=True)
class InlineHtml:
    text: str
    start: int = 0
    end: int = 0


@dataclass(frozen=True)
class FootnoteReference:
    name: str
    start: int = 0
    end: int = 0


@dataclass(frozen=True)
class SoftBreak:
    start: int = 0
    end: int = 0


@dataclass(frozen=True)
class HardBreak:
    start: int = 0
    end: int = 0


@dataclass(frozen=True)
class Rule:
    start: int = 0
    end: int = 0


@dataclass(frozen=True)
class TaskListMarker:
    done: bool
    start: int = 0
    end: int = 0


Event = Union[
    Start,
    End,
    Text,
    Code,
    InlineMath,
    DisplayMath,
    Html,
    InlineHtml,
    FootnoteReference,
    SoftBreak,
    HardBreak,
    Rule,
    TaskListMarker,
]
