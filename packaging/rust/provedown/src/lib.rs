//! Markdown to HTML, to events, and to an outline, by a library that is proved to meet its contracts.
//!
//! It reads CommonMark 0.31.2 and the extensions of GitHub and pulldown-cmark.
//!
//! # HTML
//!
//! [`to_safe_html`] is for untrusted input, and [`to_safe_html_by`] takes rules: [`SafeRules`]. [`to_html`] keeps raw HTML and
//! all destinations. [`Extensions`] are what a call reads beyond CommonMark.
//!
//! ```
//! use provedown::{Extensions, to_safe_html};
//!
//! let html = to_safe_html("~~a~~ *b*", Extensions::STRIKETHROUGH)?;
//! assert_eq!(html, "<p><del>a</del> <em>b</em></p>\n");
//! # Ok::<(), provedown::Error>(())
//! ```
//!
//! # Events
//!
//! A [`Parser`] is an iterator over the [`Event`]s of a text, which a program can look at and change, and
//! [`html::push_html`] and [`html::push_safe_html`] make HTML of them. [`Options`] are what it reads beyond CommonMark.
//!
//! ```
//! use provedown::{Event, Options, Parser, html};
//!
//! let events = Parser::new_ext("~~a~~ $b$", Options::ENABLE_MATH).map(|event| match event {
//!     Event::InlineMath(formula) => Event::Code(formula),
//!     other => other,
//! });
//! let mut html = String::new();
//! html::push_html(&mut html, events);
//! assert_eq!(html, "<p>~~a~~ <code>b</code></p>\n");
//! ```
//!
//! # Programs written for pulldown-cmark
//!
//! The types and calls for events have the names of pulldown-cmark 0.13, so such a program is compiled with this crate by
//! one line of its manifest:
//!
//! ```toml
//! pulldown-cmark = { package = "provedown", version = "0.10" }
//! ```
//!
//! These differ:
//!
//! | | Here | pulldown-cmark |
//! |---|---|---|
//! | Definition lists | are not read: `ENABLE_DEFINITION_LIST` has no effect | are read |
//! | [`Parser::new`] | reads the whole text, and holds 24 bytes for each event; a program that stops early saves nothing | reads blocks, and the rest with the events |
//! | A broken link that a callback answers | the text is read once more for each; destination and title are copies | the text is read once |
//! | Want of memory, and texts of 4 GiB or more | calls that begin with `try` return an [`Error`], the others panic | abort; no such limit |
//! | [`html::push_html`] and the calls that write | take all events, and then write | write with each event |
//! | [`RefDefs::iter`] | goes in the order of the text | goes in no order |
//! | [`Options`] | has the methods of `bitflags`, and not its traits | implements `bitflags::Flags` |
//! | Rust | 1.85 or later | 1.71.1 or later |
//! | Features | `serde`, which copies the texts that it reads; `html`, `simd` and `getopts` change nothing | |
//!
//! The rules for events are those of pulldown-cmark 0.13.6, but for faults of it that are mended. (The two were not run against
//! each other.) Some of the faults:
//!
//! - a CRLF in a code span is one space, and not two;
//! - `[a]\[b]` is one link and a text, though both are defined, since the second bracket is escaped;
//! - with wikilinks, `![[a]] b](c)` has the wikilink, and `![[a](b) c]]` the link;
//! - with tables, `- -` is no cell of a delimiter row, and a text adds at most as many empty cells as it has bytes, or 1,000;
//! - in the title of a link in a table, two backslashes and a pipe are a pipe;
//! - a paragraph without content in a tight list gives no event, and the events after it follow.
#![deny(unsafe_code)]

mod error;
mod events;
mod extensions;
mod format;
pub mod html;
mod library;
mod options;
mod parse;
mod reader;
mod readings;
mod rules;
mod strings;
pub mod utils;
mod writer;

pub use error::Error;
pub use events::{
    Alignment, BlockQuoteKind, CodeBlockKind, Event, HeadingLevel, InvalidHeadingLevel, LinkType, MetadataBlockKind,
    Tag, TagEnd,
};
pub use extensions::Extensions;
pub use options::Options;
pub use parse::{BrokenLink, BrokenLinkCallback, DefaultBrokenLinkCallback, LinkDef, OffsetIter, Parser, RefDefs};
pub use readings::{to_html, to_json, to_outline, to_safe_html, to_safe_html_by};
pub use rules::{Images, SafeRules};
pub use strings::{CowStr, InlineStr, StringTooLongError};
pub use utils::{TextMergeStream, TextMergeWithOffset};

/// The code of the README, which is tested too.
#[cfg(doctest)]
#[doc = include_str!("../README.md")]
struct Readme;
