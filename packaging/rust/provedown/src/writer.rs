//! Writing of records: of events, and of answers to questions. All texts are in the pool.

use crate::format::{A_NUMBER, FORMAT, IN_POOL, NOWHERE, SIZE, kind, kind_and_detail, letter_of, number_of_link_type};
use crate::{CodeBlockKind, CowStr, Error, Event, LinkType, Tag};
use std::ops::Range;

/// Records that are being written.
#[derive(Clone, Default)]
pub(crate) struct Writer {
    /// Room for the header, and the records.
    records: Vec<u8>,
    pool: Vec<u8>,
}

/// Where the text of a record is. (A number that is cut off here belongs to a pool that is too long in the end.)
type Spot = (u8, u32, u32);

const NO_TEXT: Spot = (NOWHERE, 0, 0);

/// The events have no range.
const NO_RANGE: Range<usize> = 0..0;

impl Writer {
    fn pooled(&mut self, text: &str) -> Spot {
        let at = self.pool.len() as u32;
        self.pool.extend_from_slice(text.as_bytes());
        (IN_POOL, at, text.len() as u32)
    }

    fn push(&mut self, kind: u8, detail: u8, range: Range<usize>, spot: Spot, parts: usize) {
        if self.records.is_empty() {
            self.records.resize(SIZE, 0);
        }
        let (place, at, length) = spot;
        let mut record = [0; SIZE];
        record[..3].copy_from_slice(&[kind, detail, place]);
        let numbers = [range.start as u32, range.end as u32, at, length, parts as u32];
        for (bytes, number) in record[4..].chunks_exact_mut(4).zip(numbers) {
            bytes.copy_from_slice(&number.to_le_bytes());
        }
        self.records.extend_from_slice(&record);
    }

    fn push_bare(&mut self, kind: u8, detail: u8) {
        self.push(kind, detail, NO_RANGE, NO_TEXT, 0)
    }

    fn push_text(&mut self, kind: u8, detail: u8, text: &str) {
        let spot = self.pooled(text);
        self.push(kind, detail, NO_RANGE, spot, 0)
    }

    fn push_part(&mut self, kind: u8, text: &str) {
        self.push_text(kind, 0, text)
    }

    /// Appends an answer to the question with this range: a destination and a title, or `None`.
    pub fn push_answer(&mut self, span: Range<usize>, answer: Option<(&str, &str)>) {
        match answer {
            None => self.push(kind::ANSWER, 0, span, NO_TEXT, 0),
            Some((destination, title)) => {
                let spot = self.pooled(destination);
                self.push(kind::ANSWER, 1, span, spot, 1);
                self.push_part(kind::TITLE, title);
            }
        }
    }

    /// Appends an event.
    pub fn push_event(&mut self, event: &Event<'_>) {
        match event {
            Event::Start(tag) => self.push_start(tag),
            Event::End(end) => {
                let (kind, detail) = kind_and_detail(*end);
                self.push_bare(kind::END + kind, detail)
            }
            Event::Text(text) => self.push_text(kind::TEXT, 0, text),
            Event::Code(text) => self.push_text(kind::CODE, 0, text),
            Event::InlineMath(text) => self.push_text(kind::INLINE_MATH, 0, text),
            Event::DisplayMath(text) => self.push_text(kind::DISPLAY_MATH, 0, text),
            Event::Html(text) => self.push_text(kind::HTML, 0, text),
            Event::InlineHtml(text) => self.push_text(kind::INLINE_HTML, 0, text),
            Event::FootnoteReference(name) => self.push_text(kind::FOOTNOTE_REFERENCE, 0, name),
            Event::SoftBreak => self.push_bare(kind::SOFT_BREAK, 0),
            Event::HardBreak => self.push_bare(kind::HARD_BREAK, 0),
            Event::Rule => self.push_bare(kind::RULE, 0),
            Event::TaskListMarker(done) => self.push_bare(kind::TASK_LIST_MARKER, (*done).into()),
        }
    }

    fn push_start(&mut self, tag: &Tag<'_>) {
        let (kind, detail) = kind_and_detail(tag.to_end());
        match tag {
            Tag::Heading { level: _, id, classes, attrs } => {
                let id = id.as_ref().map_or(NO_TEXT, |id| self.pooled(id));
                let of_attributes: usize = attrs.iter().map(|it| 1 + usize::from(it.1.is_some())).sum();
                self.push(kind, detail, NO_RANGE, id, classes.len() + of_attributes);
                self.push_attributes(classes, attrs)
            }
            Tag::CodeBlock(CodeBlockKind::Indented) => self.push_bare(kind, 0),
            Tag::CodeBlock(CodeBlockKind::Fenced(info)) => self.push_text(kind, 1, info),
            Tag::List(None) => self.push_bare(kind, 0),
            Tag::List(Some(first)) => {
                let number = (A_NUMBER, *first as u32, (*first >> 32) as u32);
                self.push(kind, 1, NO_RANGE, number, 0)
            }
            Tag::FootnoteDefinition(name) => self.push_text(kind, 0, name),
            Tag::Table(alignments) => {
                let letters: String = alignments.iter().copied().map(letter_of).collect();
                self.push_text(kind, 0, &letters)
            }
            Tag::Link { link_type, dest_url, title, id } | Tag::Image { link_type, dest_url, title, id } => {
                self.push_link(kind, *link_type, [dest_url, title, id])
            }
            Tag::Paragraph
            | Tag::BlockQuote(_)
            | Tag::HtmlBlock
            | Tag::Item
            | Tag::DefinitionList
            | Tag::DefinitionListTitle
            | Tag::DefinitionListDefinition
            | Tag::TableHead
            | Tag::TableRow
            | Tag::TableCell
            | Tag::Emphasis
            | Tag::Strong
            | Tag::Strikethrough
            | Tag::Superscript
            | Tag::Subscript
            | Tag::MetadataBlock(_) => self.push_bare(kind, detail),
        }
    }

    fn push_attributes(&mut self, classes: &[CowStr<'_>], attrs: &[(CowStr<'_>, Option<CowStr<'_>>)]) {
        for class in classes {
            self.push_part(kind::CLASS, class)
        }
        for (name, value) in attrs {
            self.push_part(kind::NAME, name);
            if let Some(value) = value {
                self.push_part(kind::VALUE, value)
            }
        }
    }

    fn push_link(&mut self, kind: u8, link_type: LinkType, [destination, title, label]: [&str; 3]) {
        let spot = self.pooled(destination);
        let parts = usize::from(!title.is_empty()) + usize::from(!label.is_empty());
        self.push(kind, number_of_link_type(link_type), NO_RANGE, spot, parts);
        for (part, text) in [(kind::TITLE, title), (kind::LABEL, label)] {
            if !text.is_empty() {
                self.push_part(part, text)
            }
        }
    }

    /// The whole, for a source of this length. The error is `TooLong`.
    pub fn finish(self, source_length: usize) -> Result<Vec<u8>, Error> {
        let mut whole = self.records;
        if whole.is_empty() {
            whole.resize(SIZE, 0);
        }
        let count = whole.len() / SIZE - 1;
        whole[..FORMAT.len()].copy_from_slice(&FORMAT);
        let numbers = [count, count, self.pool.len(), source_length];
        for (bytes, number) in whole[FORMAT.len()..SIZE].chunks_exact_mut(4).zip(numbers) {
            bytes.copy_from_slice(&u32::try_from(number).map_err(|_| Error::TooLong)?.to_le_bytes());
        }
        whole.extend_from_slice(&self.pool);
        Ok(whole)
    }
}
