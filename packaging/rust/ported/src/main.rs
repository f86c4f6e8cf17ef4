//! A program that is written for pulldown-cmark 0.13, and compiled with this crate by one line of its manifest:
//! `headings`, `links` and `render`, each of a text from standard input.

use pulldown_cmark::{
    html, BrokenLink, CodeBlockKind, CowStr, Event, HeadingLevel, LinkType, Options, Parser, Tag, TagEnd,
    TextMergeStream,
};
use std::io::{self, Read, Write};
use std::ops::Range;

/// A heading: its level, its text, and where it is.
struct Heading {
    level: HeadingLevel,
    text: String,
    range: Range<usize>,
}

fn headings(text: &str) -> Vec<Heading> {
    let mut all = Vec::new();
    let mut open: Option<Heading> = None;
    for (event, range) in Parser::new(text).into_offset_iter() {
        match event {
            Event::Start(Tag::Heading { level, .. }) => open = Some(Heading { level, text: String::new(), range }),
            Event::Text(words) | Event::Code(words) => {
                if let Some(heading) = &mut open {
                    heading.text.push_str(&words);
                }
            }
            Event::End(TagEnd::Heading(_)) => all.extend(open.take()),
            _ => {}
        }
    }
    all
}

/// The faults of the links of a text: labels without a definition, empty destinations, and links to no heading.
fn faults_of_links(text: &str) -> Vec<String> {
    let ids: Vec<String> = headings(text).iter().map(|it| it.text.to_lowercase().replace(' ', "-")).collect();
    let mut undefined = Vec::new();
    let mut callback = |link: BrokenLink<'_>| -> Option<(CowStr<'_>, CowStr<'_>)> {
        undefined.push(format!("{:?}: {} is not defined", link.span, link.reference));
        None
    };
    let parser = Parser::new_with_broken_link_callback(text, Options::ENABLE_FOOTNOTES, Some(&mut callback));
    let mut faults = Vec::new();
    for (event, range) in parser.into_offset_iter() {
        let Event::Start(Tag::Link { link_type, dest_url, .. }) = event else { continue };
        if dest_url.is_empty() && link_type == LinkType::Inline {
            faults.push(format!("{range:?}: a link to nothing"));
        }
        if let Some(id) = dest_url.strip_prefix('#') {
            if !ids.iter().any(|it| it == id) {
                faults.push(format!("{range:?}: no heading is #{id}"));
            }
        }
    }
    undefined.into_iter().chain(faults).collect()
}

/// Makes what is drawn of a block of code, which this crate's user would do by a library for the language.
struct Highlighted<I> {
    events: I,
}

impl<'a, I: Iterator<Item = Event<'a>>> Iterator for Highlighted<I> {
    type Item = Event<'a>;

    fn next(&mut self) -> Option<Event<'a>> {
        let language = match self.events.next()? {
            Event::Start(Tag::CodeBlock(CodeBlockKind::Fenced(language))) => language,
            other => return Some(other),
        };
        let mut code = String::new();
        for event in self.events.by_ref() {
            match event {
                Event::Text(line) => code.push_str(&line),
                Event::End(TagEnd::CodeBlock) => break,
                _ => {}
            }
        }
        let lines = code.lines().count();
        Some(Event::Html(format!("<figure data-language=\"{language}\" data-lines=\"{lines}\"></figure>\n").into()))
    }
}

/// HTML in which headings are one level lower, soft line breaks are line breaks, and blocks of code are figures.
fn rendered(text: &str) -> String {
    let lower = |level: HeadingLevel| HeadingLevel::try_from(level as usize + 1).unwrap_or(HeadingLevel::H6);
    let mut options = Options::empty();
    options.insert(Options::ENABLE_TABLES);
    options.insert(Options::ENABLE_STRIKETHROUGH);
    let events = TextMergeStream::new(Parser::new_ext(text, options)).map(|event| match event {
        Event::Start(Tag::Heading { level, id, classes, attrs }) => {
            Event::Start(Tag::Heading { level: lower(level), id, classes, attrs })
        }
        Event::End(TagEnd::Heading(level)) => Event::End(TagEnd::Heading(lower(level))),
        Event::SoftBreak => Event::HardBreak,
        Event::Text(words) => Event::Text(words.replace("(c)", "©").into()),
        other => other,
    });
    let mut out = String::with_capacity(text.len() * 3 / 2);
    html::push_html(&mut out, Highlighted { events });
    out
}

fn main() -> io::Result<()> {
    let mut text = String::new();
    io::stdin().read_to_string(&mut text)?;
    let printed = match std::env::args().nth(1).as_deref() {
        Some("headings") => {
            let lines = headings(&text).into_iter().map(|it| format!("{} {:?} {}\n", it.level, it.range, it.text));
            lines.collect()
        }
        Some("links") => faults_of_links(&text).into_iter().map(|fault| fault + "\n").collect(),
        Some("render") => rendered(&text),
        _ => return Err(io::Error::new(io::ErrorKind::InvalidInput, "usage: ported headings|links|render")),
    };
    io::stdout().write_all(printed.as_bytes())
}

#[cfg(test)]
mod tests {
    use super::*;

    const TEXT: &str = "# A *b* `c`\n\n[d][e] [](/) []()\n[f](#a-b-c) [g](#h)\n\n```rust\ni\nj\n```\n\n## (c) ~~k~~\n";

    #[test]
    fn a_table_of_headings() {
        let found: Vec<_> = headings(TEXT).into_iter().map(|it| (it.level, it.text, it.range.start)).collect();
        let expected = [(HeadingLevel::H1, "A b c".to_owned(), 0), (HeadingLevel::H2, "(c) ~~k~~".to_owned(), 69)];
        assert_eq!(found, expected);
    }

    #[test]
    fn links_are_checked() {
        let faults = ["13..19: e is not defined", "26..30: a link to nothing", "43..50: no heading is #h"];
        assert_eq!(faults_of_links(TEXT), faults);
    }

    #[test]
    fn events_are_changed() {
        let html = "<h2>A <em>b</em> <code>c</code></h2>\n<p>[d][e] <a href=\"/\"></a> <a href=\"\"></a><br />\n\
                    <a href=\"#a-b-c\">f</a> <a href=\"#h\">g</a></p>\n<figure data-language=\"rust\" data-lines=\"2\"></figure>\n\
                    <h3>© <del>k</del></h3>\n";
        assert_eq!(rendered(TEXT), html);
    }
}
