//! HTML of events, by the library's renderer.
//!
//! All events are taken from the iterator before anything is written. The HTML of a text whose events are not changed is
//! made faster by [`to_html`](crate::to_html) and [`to_safe_html`](crate::to_safe_html):
//!
//! ```
//! use provedown::{Options, Parser, html, to_html};
//!
//! let (text, options) = ("~~a~~", Options::ENABLE_STRIKETHROUGH);
//! let mut of_events = String::new();
//! html::push_html(&mut of_events, Parser::new_ext(text, options));
//! assert_eq!(to_html(text, options.into()), Ok(of_events));
//! ```

use crate::writer::Writer;
use crate::{Error, Event, SafeRules, library};
use std::{fmt, io};

fn rendered<'a>(
    render: impl FnOnce(&[u8]) -> Result<String, Error>,
    events: impl Iterator<Item = Event<'a>>,
) -> Result<String, Error> {
    let mut records = Writer::default();
    for event in events {
        records.push_event(&event);
    }
    render(&records.finish(0)?)
}

fn or_panic(done: Result<(), Error>) {
    done.unwrap_or_else(|error| panic!("the events cannot be rendered: {error}"))
}

/// Appends the HTML of events to a string. Raw HTML and all destinations come through as they are.
///
/// ```
/// use provedown::{Event, Parser, html};
///
/// let with_breaks = Parser::new("a\nb").map(|event| match event {
///     Event::SoftBreak => Event::HardBreak,
///     other => other,
/// });
/// let mut html = String::new();
/// html::push_html(&mut html, with_breaks);
/// assert_eq!(html, "<p>a<br />\nb</p>\n");
/// ```
///
/// # Panics
///
/// If the library gets no memory, or the events have 4 GiB or more. [`try_push_html`] returns an [`Error`] instead.
pub fn push_html<'a, I: Iterator<Item = Event<'a>>>(s: &mut String, iter: I) {
    or_panic(try_push_html(s, iter))
}

/// Appends the HTML of events to a string.
pub fn try_push_html<'a, I: Iterator<Item = Event<'a>>>(s: &mut String, iter: I) -> Result<(), Error> {
    s.push_str(&rendered(library::html_of_records, iter)?);
    Ok(())
}

/// Appends the safe HTML of events to a string, as [`to_safe_html`](crate::to_safe_html) has it: HTML in events is shown as
/// text, even what the caller put there, and destinations have one of the schemes `http`, `https`, `mailto` and `tel`, those
/// of images `http` or `https`, or none.
///
/// ```
/// use provedown::{Parser, html};
///
/// let mut html = String::new();
/// html::push_safe_html(&mut html, Parser::new("<b>a"));
/// assert_eq!(html, "<p>&lt;b&gt;a</p>\n");
/// ```
///
/// # Panics
///
/// As [`push_html`].
pub fn push_safe_html<'a, I: Iterator<Item = Event<'a>>>(s: &mut String, iter: I) {
    or_panic(try_push_safe_html(s, iter))
}

/// Appends the safe HTML of events to a string.
pub fn try_push_safe_html<'a, I: Iterator<Item = Event<'a>>>(s: &mut String, iter: I) -> Result<(), Error> {
    s.push_str(&rendered(library::safe_html_of_records, iter)?);
    Ok(())
}

/// Appends the safe HTML of events to a string by rules, as [`to_safe_html_by`](crate::to_safe_html_by) has it. The rules'
/// limit is that of what is appended.
pub fn try_push_safe_html_by<'a, I: Iterator<Item = Event<'a>>>(
    s: &mut String,
    iter: I,
    rules: &SafeRules<'_>,
) -> Result<(), Error> {
    s.push_str(&rendered(|records| library::safe_html_of_records_by(records, rules), iter)?);
    Ok(())
}

/// Writes the HTML of events, by one call of `write_all`.
pub fn write_html_io<'a, I: Iterator<Item = Event<'a>>, W: io::Write>(mut writer: W, iter: I) -> io::Result<()> {
    let html = rendered(library::html_of_records, iter).map_err(|error| match error {
        Error::OutOfMemory => io::Error::from(io::ErrorKind::OutOfMemory),
        Error::TooDeep | Error::TooLong | Error::OverLimit => io::Error::other(error),
    })?;
    writer.write_all(html.as_bytes())
}

/// Writes the HTML of events, by one call of `write_str`.
pub fn write_html_fmt<'a, I: Iterator<Item = Event<'a>>, W: fmt::Write>(mut writer: W, iter: I) -> fmt::Result {
    let html = rendered(library::html_of_records, iter).map_err(|_| fmt::Error)?;
    writer.write_str(&html)
}
