//! Reading of records. What is not as it has to be is `None`.

use crate::format::{
    A_NUMBER, FORMAT, IN_POOL, IN_SOURCE, Record, SIZE, alignment_of, bool_of, end_of, kind, link_type_of,
};
use crate::{CodeBlockKind, CowStr, Error, Event, LinkType, Tag, TagEnd};
use std::ops::Range;
use std::str;

/// What a reader of damaged records panics with: the library writes none.
pub(crate) const DAMAGED: &str = "the library returned records that are damaged";

/// The records of a text.
pub(crate) struct Records {
    records: Vec<u8>,
    /// How many there are, and how many of them come before the definitions.
    count: usize,
    entries: usize,
    pool: String,
}

/// A definition: its label, its destination, its title if it has one, and its range.
pub(crate) struct Definition<'a> {
    pub label: CowStr<'a>,
    pub destination: CowStr<'a>,
    pub title: Option<CowStr<'a>>,
    pub span: Range<usize>,
}

/// The four numbers of a header, or `None` if it is none of this format.
fn numbers_of(header: &[u8; SIZE]) -> Option<[usize; 4]> {
    let numbers = header.strip_prefix(&FORMAT)?;
    let mut four = [0; 4];
    for (number, bytes) in four.iter_mut().zip(numbers.chunks_exact(4)) {
        *number = u32::from_le_bytes(bytes.try_into().ok()?) as usize;
    }
    Some(four)
}

impl Records {
    /// A copy of the records of a text of this length. The error is `OutOfMemory`.
    pub fn copied(bytes: &[u8], source_length: usize) -> Option<Result<Records, Error>> {
        let (header, rest) = bytes.split_first_chunk()?;
        let [count, entries, pool_length, of_source] = numbers_of(header)?;
        let (records, pool) = rest.split_at_checked(count.checked_mul(SIZE)?)?;
        if of_source != source_length || pool.len() != pool_length || entries > count {
            return None;
        }
        let pool = str::from_utf8(pool).ok()?;
        let mut copy = Records { records: Vec::new(), count, entries, pool: String::new() };
        if copy.records.try_reserve_exact(records.len()).is_err() || copy.pool.try_reserve_exact(pool_length).is_err() {
            return Some(Err(Error::OutOfMemory));
        }
        copy.records.extend_from_slice(records);
        copy.pool.push_str(pool);
        Some(Ok(copy))
    }

    /// The record of this number.
    #[inline]
    pub fn get(&self, number: usize) -> Option<Record<'_>> {
        self.records.get(number * SIZE..)?.first_chunk().map(Record)
    }

    /// The record of this number, if it comes before the definitions.
    #[inline]
    pub fn entry(&self, number: usize) -> Option<Record<'_>> {
        if number < self.entries { self.get(number) } else { None }
    }

    /// The text of a record: a slice of the source, or a copy out of the pool.
    #[inline]
    pub fn text<'a>(&self, of: Record<'_>, source: &'a str) -> Option<CowStr<'a>> {
        match of.place() {
            IN_SOURCE => Some(CowStr::Borrowed(source.get(of.slice())?)),
            IN_POOL => Some(CowStr::owned(self.pool.get(of.slice())?)),
            _ => None,
        }
    }

    /// The parts of the record of this number.
    fn parts(&self, number: usize) -> Option<impl Iterator<Item = Option<Record<'_>>>> {
        let (first, count) = (number + 1, self.get(number)?.parts());
        if count > self.count - first {
            return None;
        }
        let parts = self.records[first * SIZE..(first + count) * SIZE].chunks_exact(SIZE);
        Some(parts.map(|bytes| {
            let part = Record(bytes.first_chunk()?);
            let is_plain = part.detail() | part.spare() == 0 && part.range() == (0..0) && part.parts() == 0;
            is_plain.then_some(part)
        }))
    }

    fn link<'a>(&self, number: usize, source: &'a str) -> Option<(LinkType, [CowStr<'a>; 3])> {
        let head = self.get(number)?;
        let mut texts = [self.text(head, source)?, CowStr::Borrowed(""), CowStr::Borrowed("")];
        let mut last = 0;
        for part in self.parts(number)? {
            let part = part?;
            let place = match part.kind() {
                kind::TITLE => 1,
                kind::LABEL => 2,
                _ => return None,
            };
            if place <= last {
                return None;
            }
            last = place;
            texts[place] = self.text(part, source)?;
        }
        Some((link_type_of(head.detail())?, texts))
    }

    fn heading<'a>(&self, number: usize, source: &'a str) -> Option<Tag<'a>> {
        let head = self.get(number)?;
        let level = usize::from(head.detail()).try_into().ok()?;
        let id = if head.has_no_text() { None } else { Some(self.text(head, source)?) };
        let mut classes = Vec::new();
        let mut attrs: Vec<(CowStr, Option<CowStr>)> = Vec::new();
        for part in self.parts(number)? {
            let part = part?;
            let text = self.text(part, source)?;
            match part.kind() {
                kind::CLASS if attrs.is_empty() => classes.push(text),
                kind::NAME => attrs.push((text, None)),
                kind::VALUE => {
                    let (_, value @ None) = attrs.last_mut()? else { return None };
                    *value = Some(text);
                }
                _ => return None,
            }
        }
        Some(Tag::Heading { level, id, classes, attrs })
    }

    fn table(&self, head: Record<'_>, source: &str) -> Option<Tag<'static>> {
        let letters = self.text(head, source)?;
        Some(Tag::Table(letters.bytes().map(alignment_of).collect::<Option<_>>()?))
    }

    /// The Start of a record that has a text or parts.
    fn start<'a>(&self, number: usize, source: &'a str) -> Option<Tag<'a>> {
        let head = self.get(number)?;
        match head.kind() {
            kind::HEADING => return self.heading(number, source),
            kind::LINK => {
                let (link_type, [dest_url, title, id]) = self.link(number, source)?;
                return Some(Tag::Link { link_type, dest_url, title, id });
            }
            kind::IMAGE => {
                let (link_type, [dest_url, title, id]) = self.link(number, source)?;
                return Some(Tag::Image { link_type, dest_url, title, id });
            }
            _ if head.parts() != 0 => return None,
            _ => {}
        }
        Some(match (head.kind(), head.detail()) {
            (kind::CODE_BLOCK, 0) if head.has_no_text() => Tag::CodeBlock(CodeBlockKind::Indented),
            (kind::CODE_BLOCK, 1) => Tag::CodeBlock(CodeBlockKind::Fenced(self.text(head, source)?)),
            (kind::LIST, 0) if head.has_no_text() => Tag::List(None),
            (kind::LIST, 1) if head.place() == A_NUMBER => Tag::List(Some(head.long_number())),
            (kind::FOOTNOTE_DEFINITION, 0) => Tag::FootnoteDefinition(self.text(head, source)?),
            (kind::TABLE, 0) => self.table(head, source)?,
            _ => return None,
        })
    }

    /// The text of a record that has nothing else.
    #[inline]
    fn only_text<'a>(&self, head: Record<'_>, source: &'a str) -> CowStr<'a> {
        assert!(head.detail() == 0 && head.parts() == 0, "{DAMAGED}");
        self.text(head, source).expect(DAMAGED)
    }

    /// The event of the record of this number, which is `head`.
    ///
    /// # Panics
    ///
    /// If there is none. (It is not `None` then, since to look at that would move each event once more.)
    #[inline]
    pub fn event<'a>(&self, number: usize, head: Record<'_>, source: &'a str) -> Event<'a> {
        assert!(head.spare() == 0 && head.range().start <= head.range().end, "{DAMAGED}");
        match head.kind() {
            kind::TEXT => Event::Text(self.only_text(head, source)),
            kind::CODE => Event::Code(self.only_text(head, source)),
            kind::INLINE_MATH => Event::InlineMath(self.only_text(head, source)),
            kind::DISPLAY_MATH => Event::DisplayMath(self.only_text(head, source)),
            kind::HTML => Event::Html(self.only_text(head, source)),
            kind::INLINE_HTML => Event::InlineHtml(self.only_text(head, source)),
            kind::FOOTNOTE_REFERENCE => Event::FootnoteReference(self.only_text(head, source)),
            kind::HEADING
            | kind::CODE_BLOCK
            | kind::LIST
            | kind::FOOTNOTE_DEFINITION
            | kind::TABLE
            | kind::LINK
            | kind::IMAGE => Event::Start(self.start(number, source).expect(DAMAGED)),
            _ => bare_event(head).expect(DAMAGED),
        }
    }

    /// The definition of the record of this number, and the number of the next one.
    fn definition<'a>(&self, number: usize, source: &'a str) -> Option<(Definition<'a>, usize)> {
        let head = self.get(number)?;
        let span = head.range();
        if head.kind() != kind::DEFINITION || head.detail() | head.spare() != 0 || span.start > span.end {
            return None;
        }
        let mut parts = self.parts(number)?;
        let destination = parts.next()??;
        if destination.kind() != kind::DESTINATION {
            return None;
        }
        let title = match parts.next() {
            None => None,
            Some(part) => {
                let part = part?;
                if part.kind() != kind::TITLE || parts.next().is_some() {
                    return None;
                }
                Some(self.text(part, source)?)
            }
        };
        let label = self.text(head, source)?;
        let destination = self.text(destination, source)?;
        Some((Definition { label, destination, title, span }, number + 1 + head.parts()))
    }

    /// The definitions, in the order of the records.
    pub fn definitions<'a>(&self, source: &'a str) -> Option<Vec<Definition<'a>>> {
        let mut all = Vec::new();
        let mut number = self.entries;
        while number < self.count {
            let (definition, next) = self.definition(number, source)?;
            all.push(definition);
            number = next;
        }
        Some(all)
    }
}

/// The event of a record without text and parts.
#[inline]
fn bare_event(head: Record<'_>) -> Option<Event<'static>> {
    if !head.has_no_text() || head.parts() != 0 {
        return None;
    }
    match (head.kind(), head.detail()) {
        (kind::SOFT_BREAK, 0) => Some(Event::SoftBreak),
        (kind::HARD_BREAK, 0) => Some(Event::HardBreak),
        (kind::RULE, 0) => Some(Event::Rule),
        (kind::TASK_LIST_MARKER, done) => Some(Event::TaskListMarker(bool_of(done)?)),
        (end @ kind::END..=kind::LAST_END, detail) => Some(Event::End(end_of(end - kind::END, detail)?)),
        (start, detail) => Some(Event::Start(bare_start(end_of(start, detail)?)?)),
    }
}

/// A Start that holds no more than its End.
#[inline]
fn bare_start(end: TagEnd) -> Option<Tag<'static>> {
    Some(match end {
        TagEnd::Paragraph => Tag::Paragraph,
        TagEnd::BlockQuote(kind) => Tag::BlockQuote(kind),
        TagEnd::HtmlBlock => Tag::HtmlBlock,
        TagEnd::Item => Tag::Item,
        TagEnd::DefinitionList => Tag::DefinitionList,
        TagEnd::DefinitionListTitle => Tag::DefinitionListTitle,
        TagEnd::DefinitionListDefinition => Tag::DefinitionListDefinition,
        TagEnd::TableHead => Tag::TableHead,
        TagEnd::TableRow => Tag::TableRow,
        TagEnd::TableCell => Tag::TableCell,
        TagEnd::Emphasis => Tag::Emphasis,
        TagEnd::Strong => Tag::Strong,
        TagEnd::Strikethrough => Tag::Strikethrough,
        TagEnd::Superscript => Tag::Superscript,
        TagEnd::Subscript => Tag::Subscript,
        TagEnd::MetadataBlock(kind) => Tag::MetadataBlock(kind),
        TagEnd::Heading(_)
        | TagEnd::CodeBlock
        | TagEnd::List(_)
        | TagEnd::FootnoteDefinition
        | TagEnd::Table
        | TagEnd::Link
        | TagEnd::Image => return None,
    })
}

#[cfg(test)]
mod tests {
    use super::*;
    use crate::writer::Writer;
    use crate::{Alignment, BlockQuoteKind, HeadingLevel, MetadataBlockKind};

    /// One event of each form that a record can have.
    fn one_of_each() -> Vec<Event<'static>> {
        let heading = Tag::Heading {
            level: HeadingLevel::H6,
            id: Some("é".into()),
            classes: vec!["c".into(), "".into()],
            attrs: vec![("a".into(), None), ("b".into(), Some("".into())), ("c".into(), Some("d".into()))],
        };
        let link = |link_type, title: &'static str, id: &'static str| Tag::Link {
            link_type,
            dest_url: "/u".into(),
            title: title.into(),
            id: id.into(),
        };
        let image = Tag::Image { link_type: LinkType::Inline, dest_url: "".into(), title: "t".into(), id: "l".into() };
        let starts = [
            heading,
            Tag::Heading { level: HeadingLevel::H1, id: None, classes: vec![], attrs: vec![] },
            Tag::CodeBlock(CodeBlockKind::Indented),
            Tag::CodeBlock(CodeBlockKind::Fenced("".into())),
            Tag::List(None),
            Tag::List(Some(u64::MAX - 1)),
            Tag::FootnoteDefinition("f".into()),
            Tag::Table(vec![Alignment::None, Alignment::Left, Alignment::Center, Alignment::Right]),
            Tag::Table(vec![]),
            link(LinkType::Inline, "", ""),
            link(LinkType::Reference, "t", ""),
            link(LinkType::ReferenceUnknown, "", "l"),
            link(LinkType::Collapsed, "t", "l"),
            link(LinkType::CollapsedUnknown, "", ""),
            link(LinkType::Shortcut, "", ""),
            link(LinkType::ShortcutUnknown, "", ""),
            link(LinkType::Autolink, "", ""),
            link(LinkType::Email, "", ""),
            link(LinkType::WikiLink { has_pothole: false }, "", ""),
            link(LinkType::WikiLink { has_pothole: true }, "", ""),
            image,
            Tag::Paragraph,
            Tag::BlockQuote(None),
            Tag::BlockQuote(Some(BlockQuoteKind::Note)),
            Tag::BlockQuote(Some(BlockQuoteKind::Tip)),
            Tag::BlockQuote(Some(BlockQuoteKind::Important)),
            Tag::BlockQuote(Some(BlockQuoteKind::Warning)),
            Tag::BlockQuote(Some(BlockQuoteKind::Caution)),
            Tag::HtmlBlock,
            Tag::Item,
            Tag::DefinitionList,
            Tag::DefinitionListTitle,
            Tag::DefinitionListDefinition,
            Tag::TableHead,
            Tag::TableRow,
            Tag::TableCell,
            Tag::Emphasis,
            Tag::Strong,
            Tag::Strikethrough,
            Tag::Superscript,
            Tag::Subscript,
            Tag::MetadataBlock(MetadataBlockKind::YamlStyle),
            Tag::MetadataBlock(MetadataBlockKind::PlusesStyle),
        ];
        let ends: Vec<_> = starts.iter().map(|tag| Event::End(tag.to_end())).collect();
        let leaves = [
            Event::Text("a text that is too long to be held in place".into()),
            Event::Code("".into()),
            Event::InlineMath("x".into()),
            Event::DisplayMath("x".into()),
            Event::Html("<p>".into()),
            Event::InlineHtml("<b>".into()),
            Event::FootnoteReference("f".into()),
            Event::SoftBreak,
            Event::HardBreak,
            Event::Rule,
            Event::TaskListMarker(false),
            Event::TaskListMarker(true),
        ];
        starts.into_iter().map(Event::Start).chain(ends).chain(leaves).collect()
    }

    fn written(events: &[Event<'_>]) -> Vec<u8> {
        let mut writer = Writer::default();
        events.iter().for_each(|event| writer.push_event(event));
        writer.finish(0).expect("short")
    }

    fn records(bytes: &[u8]) -> Option<Records> {
        Records::copied(bytes, 0).map(|copy| copy.expect("memory"))
    }

    #[test]
    fn events_read_back() {
        let events = one_of_each();
        let records = records(&written(&events)).expect("records");
        let mut number = 0;
        for event in events {
            let head = records.entry(number).expect("a record for each event");
            assert_eq!(records.event(number, head, ""), event);
            number += 1 + head.parts();
        }
        assert!(records.entry(number).is_none());
        assert!(records.definitions("").is_some_and(|it| it.is_empty()));
    }

    #[test]
    fn of_no_events() {
        assert!(records(&written(&[])).is_some_and(|records| records.entry(0).is_none()));
    }

    #[test]
    fn other_headers_and_lengths_are_refused() {
        let bytes = written(&[Event::Text("é".into())]);
        assert!(records(&bytes).is_some());
        assert!(Records::copied(&bytes, 1).is_none());
        for at in 0..SIZE {
            let mut changed = bytes.clone();
            changed[at] ^= 0x80;
            assert!(records(&changed).is_none(), "byte {at}");
        }
        for length in 0..bytes.len() {
            assert!(records(&bytes[..length]).is_none(), "{length} bytes");
        }
        let cut = [&bytes[..bytes.len() - 1], b"a"].concat();
        assert!(records(&cut).is_none(), "a pool that is no text");
    }

    /// What is read of the first record, with this byte changed.
    fn with_changed_byte(event: &Event<'_>, at: usize, byte: u8) -> Option<Event<'static>> {
        let mut bytes = written(std::slice::from_ref(event));
        bytes[SIZE + at] = byte;
        let records = records(&bytes)?;
        std::panic::catch_unwind(|| records.event(0, records.get(0).expect("one"), "").into_static()).ok()
    }

    #[test]
    fn damaged_records_are_refused() {
        let text = Event::Text("é".into());
        assert!(with_changed_byte(&text, 0, 0x20).is_some());
        // a kind, a detail, a place, the byte that is 0, the start, a half of a character, a length, and parts
        for (at, byte) in [(0, 0x7f), (1, 1), (2, 1), (2, 3), (3, 1), (4, 1), (12, 1), (16, 3), (19, 0x80), (20, 1)] {
            assert!(with_changed_byte(&text, at, byte).is_none(), "byte {at}");
        }
        let list = Event::Start(Tag::List(Some(1)));
        assert!(with_changed_byte(&list, 1, 0).is_none());
        let link = Tag::Link { link_type: LinkType::Inline, dest_url: "".into(), title: "a".into(), id: "b".into() };
        let link = Event::Start(link);
        // no such type of a link; a title that is none, or two; too many parts, and parts with parts
        for (at, byte) in [(1, 11), (24, 0x86), (24, 0x82), (48, 0x81), (20, 3), (44, 1)] {
            assert!(with_changed_byte(&link, at, byte).is_none(), "byte {at}");
        }
    }
}
