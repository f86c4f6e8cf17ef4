//! Merging of neighbouring texts.

use crate::Event;
use std::ops::Range;

/// The same events, with neighbouring texts merged. Of neighbouring texts that are all empty there is none.
///
/// ```
/// use provedown::{Event, Parser, TextMergeStream};
///
/// let mut texts = TextMergeStream::new(Parser::new("a [b")).filter(|event| matches!(event, Event::Text(_)));
/// assert_eq!(texts.next(), Some(Event::Text("a [b".into())));
/// ```
#[derive(Debug)]
pub struct TextMergeStream<'a, I> {
    inner: TextMergeWithOffset<'a, WithoutRange<I>>,
}

impl<'a, I: Iterator<Item = Event<'a>>> TextMergeStream<'a, I> {
    /// Merges the texts of these events.
    pub fn new(iter: I) -> Self {
        TextMergeStream { inner: TextMergeWithOffset::new(WithoutRange(iter)) }
    }
}

impl<'a, I: Iterator<Item = Event<'a>>> Iterator for TextMergeStream<'a, I> {
    type Item = Event<'a>;

    fn next(&mut self) -> Option<Event<'a>> {
        Some(self.inner.next()?.0)
    }
}

/// Events, each with an empty range.
#[derive(Debug)]
struct WithoutRange<I>(I);

impl<'a, I: Iterator<Item = Event<'a>>> Iterator for WithoutRange<I> {
    type Item = (Event<'a>, Range<usize>);

    fn next(&mut self) -> Option<Self::Item> {
        Some((self.0.next()?, 0..0))
    }
}

/// The same events with their ranges, with neighbouring texts merged. The range of a merged text is from the start of the
/// first one to the end of the last one.
#[derive(Debug)]
pub struct TextMergeWithOffset<'a, I> {
    inner: I,
    /// What was read behind the last text, and is next.
    held: Option<(Event<'a>, Range<usize>)>,
}

impl<'a, I: Iterator<Item = (Event<'a>, Range<usize>)>> TextMergeWithOffset<'a, I> {
    /// Merges the texts of these events.
    pub fn new(iter: I) -> Self {
        TextMergeWithOffset { inner: iter, held: None }
    }
}

impl<'a, I: Iterator<Item = (Event<'a>, Range<usize>)>> Iterator for TextMergeWithOffset<'a, I> {
    type Item = (Event<'a>, Range<usize>);

    fn next(&mut self) -> Option<Self::Item> {
        loop {
            let (first, mut range) = match self.held.take() {
                Some((Event::Text(first), range)) => (first, range),
                Some(other) => return Some(other),
                None => match self.inner.next()? {
                    (Event::Text(first), range) => (first, range),
                    other => return Some(other),
                },
            };
            self.held = self.inner.next();
            if !matches!(self.held, Some((Event::Text(_), _))) {
                return Some((Event::Text(first), range));
            }
            let mut whole = first.into_string();
            while let Some((Event::Text(text), of_text)) = &self.held {
                whole.push_str(text);
                range.end = of_text.end;
                self.held = self.inner.next();
            }
            if !whole.is_empty() {
                return Some((Event::Text(whole.into()), range));
            }
        }
    }
}
