//! Events and tags.

use crate::CowStr;
#[cfg(feature = "serde")]
use serde::{Deserialize, Serialize};
use std::{error, fmt};

/// A part of a text, in the order of the text.
#[derive(Clone, Debug, PartialEq, Eq, PartialOrd, Ord, Hash)]
#[cfg_attr(feature = "serde", derive(Serialize, Deserialize))]
pub enum Event<'a> {
    /// The start of an element. Events up to its `End` are in it.
    Start(Tag<'a>),
    /// The end of an element.
    End(TagEnd),
    /// Text. What is written in one piece may come as more than one text: [`TextMergeStream`](crate::TextMergeStream)
    /// makes one of them.
    Text(CowStr<'a>),
    /// A code span.
    Code(CowStr<'a>),
    /// Math between `$` signs.
    InlineMath(CowStr<'a>),
    /// Math between `$$` signs.
    DisplayMath(CowStr<'a>),
    /// A line of an HTML block.
    Html(CowStr<'a>),
    /// A tag, a comment or the like in a line of text.
    InlineHtml(CowStr<'a>),
    /// A reference to a footnote, with its name.
    FootnoteReference(CowStr<'a>),
    /// The end of a line in a paragraph.
    SoftBreak,
    /// The end of a line that is a line break in the HTML too.
    HardBreak,
    /// A thematic break.
    Rule,
    /// The box of a task, and whether it is done.
    TaskListMarker(bool),
}

/// An element.
#[derive(Clone, Debug, PartialEq, Eq, PartialOrd, Ord, Hash)]
#[cfg_attr(feature = "serde", derive(Serialize, Deserialize))]
pub enum Tag<'a> {
    /// A paragraph.
    Paragraph,
    /// A heading. `id`, `classes` and `attrs` are its attributes, with
    /// [`ENABLE_HEADING_ATTRIBUTES`](crate::Options::ENABLE_HEADING_ATTRIBUTES).
    Heading {
        /// The level.
        level: HeadingLevel,
        /// The id.
        id: Option<CowStr<'a>>,
        /// The classes.
        classes: Vec<CowStr<'a>>,
        /// The other attributes, each with its value if it has one.
        attrs: Vec<(CowStr<'a>, Option<CowStr<'a>>)>,
    },
    /// A block quote, and its kind if it is an alert.
    BlockQuote(Option<BlockQuoteKind>),
    /// A block of code.
    CodeBlock(CodeBlockKind<'a>),
    /// A block of HTML, whose lines are events `Html`.
    HtmlBlock,
    /// A list, and its first number if it is ordered.
    List(Option<u64>),
    /// An item of a list.
    Item,
    /// A footnote, with its name.
    FootnoteDefinition(CowStr<'a>),
    /// A definition list. No parser of this crate gives one, nor what is in it.
    DefinitionList,
    /// What a definition list defines.
    DefinitionListTitle,
    /// A definition.
    DefinitionListDefinition,
    /// A table, with the alignment of each column.
    Table(Vec<Alignment>),
    /// The first row of a table, whose cells are directly in it.
    TableHead,
    /// A further row of a table.
    TableRow,
    /// A cell of a table.
    TableCell,
    /// Emphasis.
    Emphasis,
    /// Strong emphasis.
    Strong,
    /// Text that is struck through.
    Strikethrough,
    /// Superscript.
    Superscript,
    /// Subscript.
    Subscript,
    /// A link.
    Link {
        /// How it is written.
        link_type: LinkType,
        /// The destination.
        dest_url: CowStr<'a>,
        /// The title, which may be empty.
        title: CowStr<'a>,
        /// The label of a reference, or else empty.
        id: CowStr<'a>,
    },
    /// An image. The events in it are its description.
    Image {
        /// How it is written.
        link_type: LinkType,
        /// The destination.
        dest_url: CowStr<'a>,
        /// The title, which may be empty.
        title: CowStr<'a>,
        /// The label of a reference, or else empty.
        id: CowStr<'a>,
    },
    /// A block of metadata, which HTML does not show.
    MetadataBlock(MetadataBlockKind),
}

/// The end of an element.
#[derive(Clone, Copy, Debug, PartialEq, Eq, PartialOrd, Ord, Hash)]
#[cfg_attr(feature = "serde", derive(Serialize, Deserialize))]
#[expect(missing_docs, reason = "these are the elements of `Tag`")]
pub enum TagEnd {
    Paragraph,
    Heading(HeadingLevel),
    BlockQuote(Option<BlockQuoteKind>),
    CodeBlock,
    HtmlBlock,
    /// A list, and whether it is ordered.
    List(bool),
    Item,
    FootnoteDefinition,
    DefinitionList,
    DefinitionListTitle,
    DefinitionListDefinition,
    Table,
    TableHead,
    TableRow,
    TableCell,
    Emphasis,
    Strong,
    Strikethrough,
    Superscript,
    Subscript,
    Link,
    Image,
    MetadataBlock(MetadataBlockKind),
}

/// How a block of code is written.
#[derive(Clone, Debug, PartialEq, Eq, PartialOrd, Ord, Hash)]
#[cfg_attr(feature = "serde", derive(Serialize, Deserialize))]
pub enum CodeBlockKind<'a> {
    /// Indented by four columns.
    Indented,
    /// Between lines of backticks or tildes, with the info string behind the first of them.
    Fenced(CowStr<'a>),
}

/// The kind of an alert.
#[derive(Clone, Copy, Debug, PartialEq, Eq, PartialOrd, Ord, Hash)]
#[cfg_attr(feature = "serde", derive(Serialize, Deserialize))]
#[expect(missing_docs, reason = "`[!NOTE]` is a note, and so on")]
pub enum BlockQuoteKind {
    Note,
    Tip,
    Important,
    Warning,
    Caution,
}

/// What is around a block of metadata.
#[derive(Clone, Copy, Debug, PartialEq, Eq, PartialOrd, Ord, Hash)]
#[cfg_attr(feature = "serde", derive(Serialize, Deserialize))]
pub enum MetadataBlockKind {
    /// Lines `---`.
    YamlStyle,
    /// Lines `+++`.
    PlusesStyle,
}

/// The alignment of a column.
#[derive(Clone, Copy, Debug, PartialEq, Eq, PartialOrd, Ord, Hash)]
#[cfg_attr(feature = "serde", derive(Serialize, Deserialize))]
#[expect(missing_docs, reason = "the names say it")]
pub enum Alignment {
    None,
    Left,
    Center,
    Right,
}

/// How a link is written. The `Unknown` ones have no definition, and their destination from a callback.
#[derive(Clone, Copy, Debug, PartialEq, Eq, PartialOrd, Ord, Hash)]
#[cfg_attr(feature = "serde", derive(Serialize, Deserialize))]
pub enum LinkType {
    /// `[a](b)`
    Inline,
    /// `[a][b]`
    Reference,
    /// `[a][b]`, answered by a callback.
    ReferenceUnknown,
    /// `[a][]`
    Collapsed,
    /// `[a][]`, answered by a callback.
    CollapsedUnknown,
    /// `[a]`
    Shortcut,
    /// `[a]`, answered by a callback.
    ShortcutUnknown,
    /// `<https://a.b>`
    Autolink,
    /// `<a@b.c>`
    Email,
    /// `[[a]]`, or `[[a|b]]`, which has a pothole.
    WikiLink {
        /// Whether there is a text besides the destination.
        has_pothole: bool,
    },
}

/// The level of a heading.
#[derive(Clone, Copy, Debug, PartialEq, Eq, PartialOrd, Ord, Hash)]
#[cfg_attr(feature = "serde", derive(Serialize, Deserialize))]
#[expect(missing_docs, reason = "the names say it")]
pub enum HeadingLevel {
    H1 = 1,
    H2,
    H3,
    H4,
    H5,
    H6,
}

/// No heading has this level.
#[derive(Clone, Copy, Debug, PartialEq, Eq)]
pub struct InvalidHeadingLevel(usize);

impl fmt::Display for InvalidHeadingLevel {
    fn fmt(&self, f: &mut fmt::Formatter<'_>) -> fmt::Result {
        write!(f, "no heading has the level {}", self.0)
    }
}

impl error::Error for InvalidHeadingLevel {}

impl TryFrom<usize> for HeadingLevel {
    type Error = InvalidHeadingLevel;

    #[inline]
    fn try_from(level: usize) -> Result<HeadingLevel, InvalidHeadingLevel> {
        Ok(match level {
            1 => HeadingLevel::H1,
            2 => HeadingLevel::H2,
            3 => HeadingLevel::H3,
            4 => HeadingLevel::H4,
            5 => HeadingLevel::H5,
            6 => HeadingLevel::H6,
            _ => return Err(InvalidHeadingLevel(level)),
        })
    }
}

/// The name of its HTML element, as `h1`.
impl fmt::Display for HeadingLevel {
    fn fmt(&self, f: &mut fmt::Formatter<'_>) -> fmt::Result {
        write!(f, "h{}", *self as u8)
    }
}

impl CodeBlockKind<'_> {
    /// Whether the block is indented.
    pub fn is_indented(&self) -> bool {
        matches!(self, CodeBlockKind::Indented)
    }

    /// Whether the block is fenced.
    pub fn is_fenced(&self) -> bool {
        matches!(self, CodeBlockKind::Fenced(_))
    }

    /// Returns the same without a borrow.
    pub fn into_static(self) -> CodeBlockKind<'static> {
        match self {
            CodeBlockKind::Indented => CodeBlockKind::Indented,
            CodeBlockKind::Fenced(info) => CodeBlockKind::Fenced(info.into_static()),
        }
    }
}

impl Tag<'_> {
    /// Returns the end of this element.
    pub fn to_end(&self) -> TagEnd {
        match self {
            Tag::Paragraph => TagEnd::Paragraph,
            Tag::Heading { level, .. } => TagEnd::Heading(*level),
            Tag::BlockQuote(kind) => TagEnd::BlockQuote(*kind),
            Tag::CodeBlock(_) => TagEnd::CodeBlock,
            Tag::HtmlBlock => TagEnd::HtmlBlock,
            Tag::List(first) => TagEnd::List(first.is_some()),
            Tag::Item => TagEnd::Item,
            Tag::FootnoteDefinition(_) => TagEnd::FootnoteDefinition,
            Tag::DefinitionList => TagEnd::DefinitionList,
            Tag::DefinitionListTitle => TagEnd::DefinitionListTitle,
            Tag::DefinitionListDefinition => TagEnd::DefinitionListDefinition,
            Tag::Table(_) => TagEnd::Table,
            Tag::TableHead => TagEnd::TableHead,
            Tag::TableRow => TagEnd::TableRow,
            Tag::TableCell => TagEnd::TableCell,
            Tag::Emphasis => TagEnd::Emphasis,
            Tag::Strong => TagEnd::Strong,
            Tag::Strikethrough => TagEnd::Strikethrough,
            Tag::Superscript => TagEnd::Superscript,
            Tag::Subscript => TagEnd::Subscript,
            Tag::Link { .. } => TagEnd::Link,
            Tag::Image { .. } => TagEnd::Image,
            Tag::MetadataBlock(kind) => TagEnd::MetadataBlock(*kind),
        }
    }

    /// Returns the same without a borrow.
    pub fn into_static(self) -> Tag<'static> {
        match self {
            Tag::Heading { level, id, classes, attrs } => Tag::Heading {
                level,
                id: id.map(CowStr::into_static),
                classes: classes.into_iter().map(CowStr::into_static).collect(),
                attrs: attrs.into_iter().map(|(n, v)| (n.into_static(), v.map(CowStr::into_static))).collect(),
            },
            Tag::CodeBlock(kind) => Tag::CodeBlock(kind.into_static()),
            Tag::FootnoteDefinition(name) => Tag::FootnoteDefinition(name.into_static()),
            Tag::Link { link_type, dest_url, title, id } => Tag::Link {
                link_type,
                dest_url: dest_url.into_static(),
                title: title.into_static(),
                id: id.into_static(),
            },
            Tag::Image { link_type, dest_url, title, id } => Tag::Image {
                link_type,
                dest_url: dest_url.into_static(),
                title: title.into_static(),
                id: id.into_static(),
            },
            Tag::Paragraph => Tag::Paragraph,
            Tag::BlockQuote(kind) => Tag::BlockQuote(kind),
            Tag::HtmlBlock => Tag::HtmlBlock,
            Tag::List(first) => Tag::List(first),
            Tag::Item => Tag::Item,
            Tag::DefinitionList => Tag::DefinitionList,
            Tag::DefinitionListTitle => Tag::DefinitionListTitle,
            Tag::DefinitionListDefinition => Tag::DefinitionListDefinition,
            Tag::Table(alignments) => Tag::Table(alignments),
            Tag::TableHead => Tag::TableHead,
            Tag::TableRow => Tag::TableRow,
            Tag::TableCell => Tag::TableCell,
            Tag::Emphasis => Tag::Emphasis,
            Tag::Strong => Tag::Strong,
            Tag::Strikethrough => Tag::Strikethrough,
            Tag::Superscript => Tag::Superscript,
            Tag::Subscript => Tag::Subscript,
            Tag::MetadataBlock(kind) => Tag::MetadataBlock(kind),
        }
    }
}

impl From<Tag<'_>> for TagEnd {
    fn from(tag: Tag<'_>) -> TagEnd {
        tag.to_end()
    }
}

impl Event<'_> {
    /// Returns the same without a borrow.
    pub fn into_static(self) -> Event<'static> {
        match self {
            Event::Start(tag) => Event::Start(tag.into_static()),
            Event::End(tag) => Event::End(tag),
            Event::Text(text) => Event::Text(text.into_static()),
            Event::Code(text) => Event::Code(text.into_static()),
            Event::InlineMath(text) => Event::InlineMath(text.into_static()),
            Event::DisplayMath(text) => Event::DisplayMath(text.into_static()),
            Event::Html(text) => Event::Html(text.into_static()),
            Event::InlineHtml(text) => Event::InlineHtml(text.into_static()),
            Event::FootnoteReference(name) => Event::FootnoteReference(name.into_static()),
            Event::SoftBreak => Event::SoftBreak,
            Event::HardBreak => Event::HardBreak,
            Event::Rule => Event::Rule,
            Event::TaskListMarker(done) => Event::TaskListMarker(done),
        }
    }
}
