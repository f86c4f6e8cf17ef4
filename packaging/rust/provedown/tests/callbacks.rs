//! Broken links: what is asked, when, and what an answer does.

use provedown::{
    BrokenLink, BrokenLinkCallback, CowStr, DefaultBrokenLinkCallback, Event, LinkType, Options, Parser, Tag, html,
};
use std::cell::RefCell;
use std::panic::{AssertUnwindSafe, catch_unwind};

type Answer<'a> = Option<(CowStr<'a>, CowStr<'a>)>;

/// The links of a text with their destinations and titles.
fn links<'a, F: BrokenLinkCallback<'a>>(parser: Parser<'a, F>) -> Vec<(LinkType, String, String)> {
    let links = parser.filter_map(|event| match event {
        Event::Start(Tag::Link { link_type, dest_url, title, .. } | Tag::Image { link_type, dest_url, title, .. }) => {
            Some((link_type, dest_url.into_string(), title.into_string()))
        }
        _ => None,
    });
    links.collect()
}

const TEXT: &str = "[a][B] é [c][] *[d]*\n\n![e] [f](g) [k]\n\n[k]: /k";

#[test]
fn each_is_asked_once_and_in_order() {
    let mut asked = vec![];
    let mut note = |link: BrokenLink<'_>| {
        asked.push((link.link_type, link.span, link.reference.into_string()));
        None
    };
    let parser = Parser::new_with_broken_link_callback(TEXT, Options::empty(), Some(&mut note));
    assert_eq!(links(parser).len(), 2);
    let spans: Vec<_> = asked.iter().map(|it| &TEXT[it.1.clone()]).collect();
    assert_eq!(spans, ["[a][B]", "[c]", "[d]", "![e]"]);
    let types: Vec<_> = asked.iter().map(|it| it.0).collect();
    assert_eq!(types, [LinkType::Reference, LinkType::Collapsed, LinkType::Shortcut, LinkType::Shortcut]);
    assert_eq!(asked.iter().map(|it| &*it.2).collect::<Vec<_>>(), ["B", "c", "d", "e"]);
}

#[test]
fn answers_are_links() {
    let mut count = 0;
    let mut number = |link: BrokenLink<'_>| {
        count += 1;
        // (every second one)
        (count % 2 == 1).then(|| (format!("/{count}").into(), link.reference.into_static()))
    };
    let parser = Parser::new_with_broken_link_callback(TEXT, Options::empty(), Some(&mut number));
    let expected = [
        (LinkType::ReferenceUnknown, "/1", "B"),
        (LinkType::ShortcutUnknown, "/3", "d"),
        (LinkType::Inline, "g", ""),
        (LinkType::Shortcut, "/k", ""),
    ];
    let expected = expected.map(|it| (it.0, it.1.to_owned(), it.2.to_owned()));
    assert_eq!(links(parser), expected);
    assert_eq!(count, 4);
}

#[test]
fn an_answer_changes_what_is_asked_next() {
    // (a link has no links in it, so `b` is asked for only if `c` is no link)
    let text = "[a [b] c][d] [e]";
    for (is_link, expected) in [(true, ["b", "e"].as_slice()), (false, ["b", "d", "e"].as_slice())] {
        let mut asked = vec![];
        let mut note = |link: BrokenLink<'_>| {
            asked.push(link.reference.to_string());
            (is_link && &*link.reference == "b").then(|| ("/b".into(), "".into()))
        };
        for _ in Parser::new_with_broken_link_callback(text, Options::empty(), Some(&mut note)) {}
        asked.dedup();
        assert_eq!(asked[0], expected[0], "{asked:?}");
        assert_eq!(asked.last().map(|it| &**it), expected.last().copied(), "{asked:?}");
    }
}

#[test]
fn questions_come_with_the_events() {
    let log = RefCell::new(vec![]);
    let mut note = |link: BrokenLink<'_>| -> Answer<'_> {
        log.borrow_mut().push(link.reference.to_string());
        Some(("/u".into(), "".into()))
    };
    let mut parser = Parser::new_with_broken_link_callback("a\n\n[b]\n\n[c]", Options::empty(), Some(&mut note));
    assert!(log.borrow().is_empty());
    let first: Vec<_> = parser.by_ref().take(3).collect();
    assert_eq!(first.len(), 3);
    assert!(log.borrow().is_empty(), "no link is in the first paragraph");
    parser.find(|event| matches!(event, Event::Start(Tag::Link { .. })));
    assert_eq!(*log.borrow(), ["b"]);
    drop(parser);
    assert_eq!(*log.borrow(), ["b"], "the rest was not asked for");
}

#[test]
fn ranges_after_an_answer() {
    let text = "[a] b\n\nc";
    let mut answer = |_: BrokenLink<'_>| Some(("/u".into(), "".into()));
    let parser = Parser::new_with_broken_link_callback(text, Options::empty(), Some(&mut answer));
    let placed: Vec<_> = parser.into_offset_iter().map(|(_, range)| range).collect();
    assert_eq!(placed, [0..6, 0..3, 1..2, 0..3, 3..5, 0..6, 7..8, 7..8, 7..8]);
}

/// A callback that is no closure.
struct Numbered(usize);

impl<'input> BrokenLinkCallback<'input> for Numbered {
    fn handle_broken_link(&mut self, link: BrokenLink<'input>) -> Answer<'input> {
        self.0 += 1;
        Some((link.reference, self.0.to_string().into()))
    }
}

fn function(link: BrokenLink<'_>) -> Answer<'_> {
    Some(("#".into(), link.reference))
}

#[test]
fn forms_of_callbacks() {
    let text = String::from("[a]");
    let of = |title: &str, url: &str| vec![(LinkType::ShortcutUnknown, url.to_owned(), title.to_owned())];
    let none = Options::empty();
    assert_eq!(links(Parser::new_with_broken_link_callback(&text, none, Some(Numbered(4)))), of("5", "a"));
    assert_eq!(links(Parser::new_with_broken_link_callback(&text, none, Some(function))), of("a", "#"));
    assert_eq!(links(Parser::new_with_broken_link_callback(&text, none, Some(&mut function))), of("a", "#"));
    let boxed: Box<dyn BrokenLinkCallback> = Box::new(Numbered(0));
    assert_eq!(links(Parser::new_with_broken_link_callback(&text, none, Some(boxed))), of("1", "a"));
    let silent = Some(DefaultBrokenLinkCallback);
    assert_eq!(links(Parser::new_with_broken_link_callback(&text, none, silent)), []);
    let shown = format!("{:?}", Parser::new_with_broken_link_callback("a", none, Some(function)));
    assert!(shown.contains("broken_link_callback: Some(..)"), "{shown}");
}

#[test]
fn a_callback_that_panics_is_asked_again() {
    let mut calls = 0;
    let mut panics_first = |_: BrokenLink<'_>| {
        calls += 1;
        if calls == 1 {
            panic!("as it should");
        }
        Some(("/u".into(), "".into()))
    };
    let mut parser = Parser::new_with_broken_link_callback("[a]", Options::empty(), Some(&mut panics_first));
    let first = catch_unwind(AssertUnwindSafe(|| parser.by_ref().count()));
    assert!(first.is_err());
    let mut html = String::new();
    html::push_html(&mut html, parser);
    assert!(html.contains("<a href=\"/u\">a</a>"), "{html}");
}

#[test]
fn broken_links_can_be_kept() {
    let kept = {
        let text = String::from("[a]");
        let mut kept = vec![];
        let mut keep = |link: BrokenLink<'_>| {
            kept.push(link.into_static());
            None
        };
        for _ in Parser::new_with_broken_link_callback(&text, Options::empty(), Some(&mut keep)) {}
        kept
    };
    assert_eq!((&*kept[0].reference, kept[0].span.clone()), ("a", 0..3));
}

#[test]
fn long_answers() {
    let url = "u".repeat(70_000);
    let mut asked = 0;
    let mut answer = |_: BrokenLink<'_>| {
        asked += 1;
        Some((url.clone().into(), "".into()))
    };
    let parser = Parser::new_with_broken_link_callback("[a] [b] [c]", Options::empty(), Some(&mut answer));
    let found = links(parser);
    // (references may add 100,000 bytes to a short text; after that they are text)
    assert_eq!((found.len(), asked), (2, 2));
    assert!(found.iter().all(|it| it.1 == url && it.2.is_empty()));
}
