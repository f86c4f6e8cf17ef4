//! HTML of events.

use provedown::{Error, Event, Extensions, Options, Parser, Tag, TagEnd, html, to_html, to_safe_html};
use std::fmt;
use std::io::{self, Write};

const TEXT: &str = "# A *b* <i>\n\n> [c](d 'e') ![f *g*](h) `i` &amp; \\\n> j\n\n3. k\n4. - l\n\n   m\n\n``` n o\n<p>\n```\n\n\
                    <div>\n\n    p\n\n***\n\n[q](javascript:r)\n\n[s]\n\n[s]: /t \"u\"\n";

const MORE: &str = "| a | b |\n|:-|-:|\n| c | d |\n\n- [ ] e\n- [x] f\n\n~~g~~ h[^i] $j$ $$k$$\n\n[^i]: l\n\n> [!note]\n> m\n\n\
                    # n {#o .p q=r}\n\n[[s|t]] ^u^ ~v~ \"w\" -- x...\n";

fn all() -> Extensions {
    Extensions::FOOTNOTES
        | Extensions::STRIKETHROUGH
        | Extensions::SUBSCRIPT
        | Extensions::SUPERSCRIPT
        | Extensions::MATH
        | Extensions::SMART
        | Extensions::WIKILINKS
        | Extensions::TABLES
        | Extensions::TASKLISTS
        | Extensions::ALERTS
        | Extensions::HEADING_ATTRIBUTES
}

fn all_options() -> Options {
    Options::from_bits_truncate(!(1 << 9))
}

#[test]
fn events_of_a_text_give_its_html() {
    for (text, options, extensions) in
        [(TEXT, Options::empty(), Extensions::NONE), (TEXT, all_options(), all()), (MORE, all_options(), all())]
    {
        let (mut html, mut safe) = (String::from("before"), String::from("before"));
        html::push_html(&mut html, Parser::new_ext(text, options));
        assert_eq!(Ok(html), to_html(text, extensions).map(|it| format!("before{it}")));
        html::push_safe_html(&mut safe, Parser::new_ext(text, options));
        assert_eq!(Ok(safe), to_safe_html(text, extensions).map(|it| format!("before{it}")));
    }
}

#[test]
fn changed_events() {
    let mut code = false;
    let events = Parser::new("# a\n\n*b*\nc\n\n    d").map(|event| match event {
        Event::SoftBreak => Event::HardBreak,
        Event::Start(Tag::Emphasis) => Event::Start(Tag::Strong),
        Event::End(TagEnd::Emphasis) => Event::End(TagEnd::Strong),
        Event::Text(text) => Event::Text(text.to_uppercase().into()),
        Event::Start(Tag::CodeBlock(_)) => {
            code = true;
            Event::InlineHtml("<pre>".into())
        }
        Event::End(TagEnd::CodeBlock) => Event::InlineHtml("</pre>".into()),
        other => other,
    });
    let mut html = String::new();
    html::push_html(&mut html, events);
    assert_eq!(html, "<h1>A</h1>\n<p><strong>B</strong><br />\nC</p>\n<pre>D</pre>");
    assert!(code);
}

#[test]
fn events_that_are_made_by_hand() {
    let name = String::from("<");
    let events = [Event::Start(Tag::Paragraph), Event::Text((&*name).into()), Event::Html("<b>".into()), Event::Rule];
    let mut html = String::new();
    html::push_html(&mut html, events.clone().into_iter());
    assert_eq!(html, "<p>&lt;<b>\n<hr />\n");
    let mut safe = String::new();
    html::push_safe_html(&mut safe, events.into_iter());
    assert!(safe.contains("&lt;b&gt;") && !safe.contains("<b>"), "{safe}");
    let mut none = String::new();
    html::push_html(&mut none, [].into_iter());
    assert_eq!(none, "");
}

#[test]
fn try_calls() {
    let mut html = String::new();
    assert_eq!(html::try_push_html(&mut html, Parser::new("a <i>")), Ok(()));
    assert_eq!(html::try_push_safe_html(&mut html, Parser::new("a <i>")), Ok(()));
    assert_eq!(html, "<p>a <i></p>\n<p>a &lt;i&gt;</p>\n");
}

/// A writer that is full.
struct Full;

impl Write for Full {
    fn write(&mut self, _: &[u8]) -> io::Result<usize> {
        Err(io::Error::from(io::ErrorKind::StorageFull))
    }

    fn flush(&mut self) -> io::Result<()> {
        Ok(())
    }
}

impl fmt::Write for Full {
    fn write_str(&mut self, _: &str) -> fmt::Result {
        Err(fmt::Error)
    }
}

#[test]
fn writers() {
    let mut bytes = vec![];
    html::write_html_io(&mut bytes, Parser::new("é")).expect("there is room");
    assert_eq!(bytes, "<p>é</p>\n".as_bytes());
    let mut text = String::new();
    html::write_html_fmt(&mut text, Parser::new("é")).expect("there is room");
    assert_eq!(text, "<p>é</p>\n");
    let refused = html::write_html_io(Full, Parser::new("a")).map_err(|error| error.kind());
    assert_eq!(refused, Err(io::ErrorKind::StorageFull));
    assert_eq!(html::write_html_fmt(Full, Parser::new("a")), Err(fmt::Error));
}

#[test]
fn errors() {
    assert_eq!(Error::TooLong.to_string(), "a text of 4 GiB or more");
}
