//! Records of 24 bytes, which the library writes and reads: their kinds, places and numbers.
//!
//! The whole is a header, the records, and a pool of texts that are no slices of the source. The header has the name of the
//! format, its version and the size of a record, and how many records there are, how many of them come before the
//! definitions, and how many bytes the pool and the source have. All numbers are little-endian.

use crate::{Alignment, BlockQuoteKind, LinkType, MetadataBlockKind, TagEnd};
use std::ops::Range;

/// The bytes of a record, and of the header.
pub(crate) const SIZE: usize = 24;

/// The front of the header.
pub(crate) const FORMAT: [u8; 8] = *b"MDR1\x01\0\x18\0";

/// Where the text of a record is.
pub(crate) const NOWHERE: u8 = 0;
pub(crate) const IN_SOURCE: u8 = 1;
pub(crate) const IN_POOL: u8 = 2;
/// There is no text, but `at` and `length` are the low and the high half of a number.
pub(crate) const A_NUMBER: u8 = 3;

/// Kinds of records. An End has the kind of its Start and `END`.
pub(crate) mod kind {
    pub(crate) const HEADING: u8 = 0x02;
    pub(crate) const BLOCK_QUOTE: u8 = 0x03;
    pub(crate) const CODE_BLOCK: u8 = 0x04;
    pub(crate) const LIST: u8 = 0x06;
    pub(crate) const FOOTNOTE_DEFINITION: u8 = 0x08;
    pub(crate) const TABLE: u8 = 0x0c;
    pub(crate) const LINK: u8 = 0x15;
    pub(crate) const IMAGE: u8 = 0x16;
    pub(crate) const METADATA_BLOCK: u8 = 0x17;
    pub(crate) const TEXT: u8 = 0x20;
    pub(crate) const CODE: u8 = 0x21;
    pub(crate) const INLINE_MATH: u8 = 0x22;
    pub(crate) const DISPLAY_MATH: u8 = 0x23;
    pub(crate) const HTML: u8 = 0x24;
    pub(crate) const INLINE_HTML: u8 = 0x25;
    pub(crate) const FOOTNOTE_REFERENCE: u8 = 0x26;
    pub(crate) const SOFT_BREAK: u8 = 0x27;
    pub(crate) const HARD_BREAK: u8 = 0x28;
    pub(crate) const RULE: u8 = 0x29;
    pub(crate) const TASK_LIST_MARKER: u8 = 0x2a;
    pub(crate) const END: u8 = 0x40;
    pub(crate) const LAST_END: u8 = 0x5f;
    pub(crate) const QUESTION: u8 = 0x60;
    pub(crate) const ANSWER: u8 = 0x61;
    pub(crate) const DEFINITION: u8 = 0x62;
    /// Kinds of parts, which follow the record that they belong to.
    pub(crate) const TITLE: u8 = 0x81;
    pub(crate) const LABEL: u8 = 0x82;
    pub(crate) const CLASS: u8 = 0x83;
    pub(crate) const NAME: u8 = 0x84;
    pub(crate) const VALUE: u8 = 0x85;
    pub(crate) const DESTINATION: u8 = 0x86;
}

/// A record, whose numbers are read when they are asked for.
#[derive(Clone, Copy, PartialEq, Debug)]
pub(crate) struct Record<'r>(pub &'r [u8; SIZE]);

impl Record<'_> {
    #[inline]
    fn number(self, at: usize) -> u32 {
        u32::from_le_bytes([self.0[at], self.0[at + 1], self.0[at + 2], self.0[at + 3]])
    }

    #[inline]
    pub fn kind(self) -> u8 {
        self.0[0]
    }

    #[inline]
    pub fn detail(self) -> u8 {
        self.0[1]
    }

    #[inline]
    pub fn place(self) -> u8 {
        self.0[2]
    }

    /// A byte that is 0.
    #[inline]
    pub fn spare(self) -> u8 {
        self.0[3]
    }

    #[inline]
    pub fn range(self) -> Range<usize> {
        self.number(4) as usize..self.number(8) as usize
    }

    /// The range of its text in the source or the pool.
    #[inline]
    pub fn slice(self) -> Range<usize> {
        // (both are below 2^32, and so is the sum in 64 bits; where there are fewer, it is cut off and no slice)
        let at = self.number(12) as usize;
        at..at.wrapping_add(self.number(16) as usize)
    }

    /// The number in the place of a text.
    pub fn long_number(self) -> u64 {
        u64::from(self.number(12)) | u64::from(self.number(16)) << 32
    }

    /// Whether it has neither a text nor a number.
    #[inline]
    pub fn has_no_text(self) -> bool {
        self.place() == NOWHERE && self.number(12) | self.number(16) == 0
    }

    /// How many records after this one are parts of it.
    #[inline]
    pub fn parts(self) -> usize {
        self.number(20) as usize
    }
}

const LINK_TYPES: [LinkType; 11] = [
    LinkType::Inline,
    LinkType::Reference,
    LinkType::ReferenceUnknown,
    LinkType::Collapsed,
    LinkType::CollapsedUnknown,
    LinkType::Shortcut,
    LinkType::ShortcutUnknown,
    LinkType::Autolink,
    LinkType::Email,
    LinkType::WikiLink { has_pothole: false },
    LinkType::WikiLink { has_pothole: true },
];

#[inline]
pub(crate) fn link_type_of(number: u8) -> Option<LinkType> {
    LINK_TYPES.get(usize::from(number)).copied()
}

pub(crate) fn number_of_link_type(link_type: LinkType) -> u8 {
    match link_type {
        LinkType::Inline => 0,
        LinkType::Reference => 1,
        LinkType::ReferenceUnknown => 2,
        LinkType::Collapsed => 3,
        LinkType::CollapsedUnknown => 4,
        LinkType::Shortcut => 5,
        LinkType::ShortcutUnknown => 6,
        LinkType::Autolink => 7,
        LinkType::Email => 8,
        LinkType::WikiLink { has_pothole } => 9 + u8::from(has_pothole),
    }
}

pub(crate) fn alignment_of(letter: u8) -> Option<Alignment> {
    Some(match letter {
        b'n' => Alignment::None,
        b'l' => Alignment::Left,
        b'c' => Alignment::Center,
        b'r' => Alignment::Right,
        _ => return None,
    })
}

pub(crate) fn letter_of(alignment: Alignment) -> char {
    match alignment {
        Alignment::None => 'n',
        Alignment::Left => 'l',
        Alignment::Center => 'c',
        Alignment::Right => 'r',
    }
}

#[inline]
pub(crate) fn bool_of(number: u8) -> Option<bool> {
    match number {
        0 => Some(false),
        1 => Some(true),
        _ => None,
    }
}

fn quote_of(number: u8) -> Option<Option<BlockQuoteKind>> {
    Some(match number {
        0 => None,
        1 => Some(BlockQuoteKind::Note),
        2 => Some(BlockQuoteKind::Tip),
        3 => Some(BlockQuoteKind::Important),
        4 => Some(BlockQuoteKind::Warning),
        5 => Some(BlockQuoteKind::Caution),
        _ => return None,
    })
}

fn number_of_quote(kind: Option<BlockQuoteKind>) -> u8 {
    match kind {
        None => 0,
        Some(BlockQuoteKind::Note) => 1,
        Some(BlockQuoteKind::Tip) => 2,
        Some(BlockQuoteKind::Important) => 3,
        Some(BlockQuoteKind::Warning) => 4,
        Some(BlockQuoteKind::Caution) => 5,
    }
}

/// The end of an element without a detail, by the kind of its Start.
#[inline]
fn bare_end_of(kind: u8) -> Option<TagEnd> {
    Some(match kind {
        0x01 => TagEnd::Paragraph,
        kind::CODE_BLOCK => TagEnd::CodeBlock,
        0x05 => TagEnd::HtmlBlock,
        0x07 => TagEnd::Item,
        kind::FOOTNOTE_DEFINITION => TagEnd::FootnoteDefinition,
        0x09 => TagEnd::DefinitionList,
        0x0a => TagEnd::DefinitionListTitle,
        0x0b => TagEnd::DefinitionListDefinition,
        kind::TABLE => TagEnd::Table,
        0x0d => TagEnd::TableHead,
        0x0e => TagEnd::TableRow,
        0x0f => TagEnd::TableCell,
        0x10 => TagEnd::Emphasis,
        0x11 => TagEnd::Strong,
        0x12 => TagEnd::Strikethrough,
        0x13 => TagEnd::Superscript,
        0x14 => TagEnd::Subscript,
        kind::LINK => TagEnd::Link,
        kind::IMAGE => TagEnd::Image,
        _ => return None,
    })
}

/// The end of an element, by the kind of its Start and its detail.
#[inline]
pub(crate) fn end_of(kind: u8, detail: u8) -> Option<TagEnd> {
    Some(match kind {
        kind::HEADING => TagEnd::Heading(usize::from(detail).try_into().ok()?),
        kind::BLOCK_QUOTE => TagEnd::BlockQuote(quote_of(detail)?),
        kind::LIST => TagEnd::List(bool_of(detail)?),
        kind::METADATA_BLOCK if bool_of(detail)? => TagEnd::MetadataBlock(MetadataBlockKind::PlusesStyle),
        kind::METADATA_BLOCK => TagEnd::MetadataBlock(MetadataBlockKind::YamlStyle),
        bare if detail == 0 => bare_end_of(bare)?,
        _ => return None,
    })
}

/// The kind of the Start of an element and its detail, by its end.
pub(crate) fn kind_and_detail(end: TagEnd) -> (u8, u8) {
    match end {
        TagEnd::Paragraph => (0x01, 0),
        TagEnd::Heading(level) => (kind::HEADING, level as u8),
        TagEnd::BlockQuote(quote) => (kind::BLOCK_QUOTE, number_of_quote(quote)),
        TagEnd::CodeBlock => (kind::CODE_BLOCK, 0),
        TagEnd::HtmlBlock => (0x05, 0),
        TagEnd::List(is_ordered) => (kind::LIST, is_ordered.into()),
        TagEnd::Item => (0x07, 0),
        TagEnd::FootnoteDefinition => (kind::FOOTNOTE_DEFINITION, 0),
        TagEnd::DefinitionList => (0x09, 0),
        TagEnd::DefinitionListTitle => (0x0a, 0),
        TagEnd::DefinitionListDefinition => (0x0b, 0),
        TagEnd::Table => (kind::TABLE, 0),
        TagEnd::TableHead => (0x0d, 0),
        TagEnd::TableRow => (0x0e, 0),
        TagEnd::TableCell => (0x0f, 0),
        TagEnd::Emphasis => (0x10, 0),
        TagEnd::Strong => (0x11, 0),
        TagEnd::Strikethrough => (0x12, 0),
        TagEnd::Superscript => (0x13, 0),
        TagEnd::Subscript => (0x14, 0),
        TagEnd::Link => (kind::LINK, 0),
        TagEnd::Image => (kind::IMAGE, 0),
        TagEnd::MetadataBlock(MetadataBlockKind::YamlStyle) => (kind::METADATA_BLOCK, 0),
        TagEnd::MetadataBlock(MetadataBlockKind::PlusesStyle) => (kind::METADATA_BLOCK, 1),
    }
}
