//! The parser: an iterator over the records of a text.

use crate::format::{kind, link_type_of};
use crate::reader::{DAMAGED, Records};
use crate::writer::Writer;
use crate::{CowStr, Error, Event, LinkType, Options, library};
use std::collections::HashMap;
use std::fmt;
use std::iter::FusedIterator;
use std::ops::Range;
use std::sync::OnceLock;

/// A reference to a link whose label is not defined.
#[derive(Clone, Debug)]
pub struct BrokenLink<'a> {
    /// The range of the link that it would be, without the `[]` of a collapsed one.
    pub span: Range<usize>,
    /// How it is written: a `Reference`, `Collapsed` or `Shortcut`.
    pub link_type: LinkType,
    /// The label.
    pub reference: CowStr<'a>,
}

impl BrokenLink<'_> {
    /// Returns the same without a borrow.
    pub fn into_static(self) -> BrokenLink<'static> {
        BrokenLink { span: self.span, link_type: self.link_type, reference: self.reference.into_static() }
    }
}

/// What answers broken links. Every closure does that has the arguments and the result of the call.
pub trait BrokenLinkCallback<'input> {
    /// Returns the destination and the title of the link, or `None` if it is text.
    fn handle_broken_link(&mut self, link: BrokenLink<'input>) -> Option<(CowStr<'input>, CowStr<'input>)>;
}

impl<'input, T> BrokenLinkCallback<'input> for T
where
    T: FnMut(BrokenLink<'input>) -> Option<(CowStr<'input>, CowStr<'input>)>,
{
    fn handle_broken_link(&mut self, link: BrokenLink<'input>) -> Option<(CowStr<'input>, CowStr<'input>)> {
        self(link)
    }
}

impl<'input> BrokenLinkCallback<'input> for Box<dyn BrokenLinkCallback<'input> + '_> {
    fn handle_broken_link(&mut self, link: BrokenLink<'input>) -> Option<(CowStr<'input>, CowStr<'input>)> {
        (**self).handle_broken_link(link)
    }
}

/// A callback for which all broken links are text.
#[derive(Clone, Copy, Debug, Default)]
pub struct DefaultBrokenLinkCallback;

impl<'input> BrokenLinkCallback<'input> for DefaultBrokenLinkCallback {
    fn handle_broken_link(&mut self, _link: BrokenLink<'input>) -> Option<(CowStr<'input>, CowStr<'input>)> {
        None
    }
}

/// A link reference definition.
#[derive(Clone, Debug)]
pub struct LinkDef<'a> {
    /// The destination.
    pub dest: CowStr<'a>,
    /// The title.
    pub title: Option<CowStr<'a>>,
    /// The range of the definition.
    pub span: Range<usize>,
}

impl LinkDef<'_> {
    /// Returns the same without a borrow.
    pub fn into_static(self) -> LinkDef<'static> {
        LinkDef { dest: self.dest.into_static(), title: self.title.map(CowStr::into_static), span: self.span }
    }
}

/// The link reference definitions of a text.
#[derive(Clone, Debug, Default)]
pub struct RefDefs<'input> {
    all: Vec<(CowStr<'input>, LinkDef<'input>)>,
    /// The number of each, by its folded label. Made when it is first asked for.
    by_folding: OnceLock<HashMap<String, usize>>,
}

fn folded(label: &str) -> String {
    library::folded(label).expect("memory for a link label")
}

impl<'input> RefDefs<'input> {
    /// Returns the definition of a label. Upper and lower case make no difference.
    ///
    /// # Panics
    ///
    /// If the library gets no memory.
    pub fn get<'s>(&'s self, key: &str) -> Option<&'s LinkDef<'input>> {
        let by_folding = self.by_folding.get_or_init(|| {
            let mut numbers = HashMap::with_capacity(self.all.len());
            for (number, (label, _)) in self.all.iter().enumerate() {
                numbers.entry(folded(label)).or_insert(number);
            }
            numbers
        });
        if by_folding.is_empty() {
            return None;
        }
        Some(&self.all[*by_folding.get(&folded(key))?].1)
    }

    /// The labels, as they are written, with their definitions, in the order of the text.
    pub fn iter<'s>(&'s self) -> impl Iterator<Item = (&'s str, &'s LinkDef<'input>)> {
        self.all.iter().map(|it| (&*it.0, &it.1))
    }

    fn of(records: &Records, text: &'input str) -> RefDefs<'input> {
        let definitions = records.definitions(text).expect(DAMAGED).into_iter();
        let all = definitions.map(|it| (it.label, LinkDef { dest: it.destination, title: it.title, span: it.span }));
        RefDefs { all: all.collect(), by_folding: OnceLock::new() }
    }
}

/// The events of a text.
///
/// ```
/// use provedown::{Event, Parser, Tag, TagEnd};
///
/// let events: Vec<Event> = Parser::new("*a*").collect();
/// assert_eq!(events[1], Event::Start(Tag::Emphasis));
/// assert_eq!(events[2], Event::Text("a".into()));
/// assert_eq!(events[4], Event::End(TagEnd::Paragraph));
/// ```
///
/// The library reads the whole text when the parser is made. It reads it once more for each broken link that a callback
/// answers with a destination.
///
/// # Panics
///
/// `new`, `new_ext` and `new_with_broken_link_callback` panic if the library gets no memory, and if the text, or what is
/// made of it, has 4 GiB or more. The calls that begin with `try` return an [`Error`] instead. `next` panics in these cases
/// too, but only after a broken link was answered.
pub struct Parser<'input, F = DefaultBrokenLinkCallback> {
    text: &'input str,
    options: Options,
    callback: Option<F>,
    definitions: RefDefs<'input>,
    records: Records,
    /// The number of the record that is read next.
    next: usize,
    /// The answers to the questions before it.
    answers: Writer,
}

impl<F> fmt::Debug for Parser<'_, F> {
    fn fmt(&self, f: &mut fmt::Formatter<'_>) -> fmt::Result {
        f.debug_struct("Parser")
            .field("text", &self.text)
            .field("options", &self.options)
            .field("broken_link_callback", &self.callback.as_ref().map(|_| ..))
            .finish()
    }
}

/// The records of a text, of whose questions the first ones have these answers.
fn read(text: &str, options: Options, answers: &[u8]) -> Result<Records, Error> {
    library::with_records(text, options.library_bits(), answers, |bytes| {
        Records::copied(bytes, text.len()).expect(DAMAGED)
    })
}

fn or_panic<T>(made: Result<T, Error>) -> T {
    made.unwrap_or_else(|error| panic!("the text cannot be read: {error}"))
}

impl<'input> Parser<'input, DefaultBrokenLinkCallback> {
    /// A parser of CommonMark.
    pub fn new(text: &'input str) -> Self {
        or_panic(Self::try_new(text))
    }

    /// A parser of CommonMark with extensions.
    pub fn new_ext(text: &'input str, options: Options) -> Self {
        or_panic(Self::try_new_ext(text, options))
    }

    /// Like [`new`](Self::new), but does not panic.
    pub fn try_new(text: &'input str) -> Result<Self, Error> {
        Self::try_new_ext(text, Options::empty())
    }

    /// Like [`new_ext`](Self::new_ext), but does not panic.
    pub fn try_new_ext(text: &'input str, options: Options) -> Result<Self, Error> {
        Self::try_new_with_broken_link_callback(text, options, None)
    }
}

impl<'input, F: BrokenLinkCallback<'input>> Parser<'input, F> {
    /// A parser of CommonMark with extensions, which asks the callback for the destination and the title of each broken
    /// link, once, in the order of the text, directly before the event at which it is needed.
    ///
    /// ```
    /// use provedown::{BrokenLink, CowStr, Options, Parser, html};
    ///
    /// let mut callback = |link: BrokenLink<'_>| {
    ///     (&*link.reference == "b").then(|| (CowStr::from("/c"), CowStr::from("")))
    /// };
    /// let parser = Parser::new_with_broken_link_callback("[a][b]", Options::empty(), Some(&mut callback));
    /// let mut html = String::new();
    /// html::push_html(&mut html, parser);
    /// assert_eq!(html, "<p><a href=\"/c\">a</a></p>\n");
    /// ```
    pub fn new_with_broken_link_callback(text: &'input str, options: Options, broken_link_callback: Option<F>) -> Self {
        or_panic(Self::try_new_with_broken_link_callback(text, options, broken_link_callback))
    }

    /// Like [`new_with_broken_link_callback`](Self::new_with_broken_link_callback), but does not panic.
    pub fn try_new_with_broken_link_callback(
        text: &'input str,
        options: Options,
        broken_link_callback: Option<F>,
    ) -> Result<Self, Error> {
        let records = read(text, options, &[])?;
        let definitions = RefDefs::of(&records, text);
        let answers = Writer::default();
        Ok(Parser { text, options, callback: broken_link_callback, definitions, records, next: 0, answers })
    }

    /// The link reference definitions of the text.
    pub fn reference_definitions(&self) -> &RefDefs<'input> {
        &self.definitions
    }

    /// The events that are left, with their ranges in the text.
    pub fn into_offset_iter(self) -> OffsetIter<'input, F> {
        OffsetIter { inner: self }
    }

    /// Asks the question of a record. If it is answered by a link, the text is read once more, with all answers so far: the
    /// records before a question depend only on the answers to questions before it, so they are as they were.
    #[cold]
    fn ask(&mut self) {
        let Some(callback) = &mut self.callback else { return };
        let question = self.records.get(self.next).expect(DAMAGED);
        let span = question.range();
        let answer = callback.handle_broken_link(BrokenLink {
            span: span.clone(),
            link_type: link_type_of(question.detail()).expect(DAMAGED),
            reference: self.records.text(question, self.text).expect(DAMAGED),
        });
        let answer = answer.as_ref().map(|it| (&*it.0, &*it.1));
        if answer.is_some() {
            let mut table = self.answers.clone();
            table.push_answer(span.clone(), answer);
            let table = table.finish(self.text.len());
            let again = or_panic(table.and_then(|table| read(self.text, self.options, &table)));
            assert_eq!(again.get(self.next), Some(question), "what is before an answer does not depend on it");
            self.records = again;
        }
        self.answers.push_answer(span, answer);
    }

    /// The number of the next event's record. Asks the questions before it.
    #[inline]
    fn next_number(&mut self) -> Option<usize> {
        // (a question is asked again if the callback panicked)
        while self.records.entry(self.next)?.kind() == kind::QUESTION {
            self.ask();
            self.next += 1;
        }
        let number = self.next;
        self.next += 1 + self.records.entry(number)?.parts();
        Some(number)
    }
}

impl<'input, F: BrokenLinkCallback<'input>> Iterator for Parser<'input, F> {
    type Item = Event<'input>;

    fn next(&mut self) -> Option<Event<'input>> {
        let number = self.next_number()?;
        Some(self.records.event(number, self.records.get(number)?, self.text))
    }
}

impl<'input, F: BrokenLinkCallback<'input>> FusedIterator for Parser<'input, F> {}

/// The events of a parser, with their ranges in the text.
#[derive(Debug)]
pub struct OffsetIter<'input, F = DefaultBrokenLinkCallback> {
    inner: Parser<'input, F>,
}

impl<'input, F: BrokenLinkCallback<'input>> OffsetIter<'input, F> {
    /// The link reference definitions of the text.
    pub fn reference_definitions(&self) -> &RefDefs<'input> {
        self.inner.reference_definitions()
    }
}

impl<'input, F: BrokenLinkCallback<'input>> Iterator for OffsetIter<'input, F> {
    type Item = (Event<'input>, Range<usize>);

    fn next(&mut self) -> Option<Self::Item> {
        let number = self.inner.next_number()?;
        let head = self.inner.records.get(number)?;
        Some((self.inner.records.event(number, head, self.inner.text), head.range()))
    }
}

impl<'input, F: BrokenLinkCallback<'input>> FusedIterator for OffsetIter<'input, F> {}
