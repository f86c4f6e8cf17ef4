//! Merging of neighbouring texts.

use provedown::{Event, Parser, Tag, TagEnd, TextMergeStream, TextMergeWithOffset, utils};

fn text(text: &str) -> Event<'_> {
    Event::Text(text.into())
}

#[test]
fn neighbours_are_merged() {
    let (start, end) = (Event::Start(Tag::Paragraph), Event::End(TagEnd::Paragraph));
    let merged: Vec<_> = TextMergeStream::new(Parser::new("a [b] &amp; c\nd")).collect();
    assert_eq!(merged, [start, text("a [b] & c"), Event::SoftBreak, text("d"), end]);
}

#[test]
fn ranges_reach_from_the_first_to_the_last() {
    let source = "*a* [b] \\* c";
    let merged: Vec<_> = TextMergeWithOffset::new(Parser::new(source).into_offset_iter()).collect();
    assert_eq!(merged[4], (text(" [b] * c"), 3..12));
    assert_eq!(merged.len(), 6);
}

#[test]
fn empty_texts() {
    let merged = |events: Vec<Event<'static>>| utils::TextMergeStream::new(events.into_iter()).collect::<Vec<_>>();
    assert_eq!(merged(vec![Event::Rule, text(""), text(""), Event::Rule]), [Event::Rule, Event::Rule]);
    assert_eq!(merged(vec![text(""), text("a"), text("")]), [text("a")]);
    assert_eq!(merged(vec![text(""), Event::Rule, text("")]), [text(""), Event::Rule, text("")]);
    assert_eq!(merged(vec![text(""), text("")]), []);
    assert_eq!(merged(vec![]), []);
}

#[test]
fn other_events_stay() {
    let events = [Event::Html("a".into()), Event::Html("b".into()), text("c"), Event::Code("d".into()), text("e")];
    let merged: Vec<_> = TextMergeStream::new(events.clone().into_iter()).collect();
    assert_eq!(merged, events);
}
