//! The events of texts: each kind of event, its texts, its range, and what is borrowed.

use provedown::{
    Alignment, BlockQuoteKind, CodeBlockKind, CowStr, DefaultBrokenLinkCallback, Event, HeadingLevel, LinkType,
    MetadataBlockKind, OffsetIter, Options, Parser, Tag, TagEnd,
};
use std::iter::FusedIterator;

fn with(text: &str, options: Options) -> Vec<Event<'_>> {
    Parser::new_ext(text, options).collect()
}

/// The starts of a text but of paragraphs.
fn starts(text: &str, options: Options) -> Vec<Tag<'_>> {
    let tags = with(text, options).into_iter().filter_map(|event| match event {
        Event::Start(tag) if tag != Tag::Paragraph => Some(tag),
        _ => None,
    });
    tags.collect()
}

fn link(link_type: LinkType, dest_url: &'static str, title: &'static str, id: &'static str) -> Tag<'static> {
    Tag::Link { link_type, dest_url: dest_url.into(), title: title.into(), id: id.into() }
}

#[test]
fn blocks() {
    use Tag::{BlockQuote, CodeBlock, HtmlBlock, Item, List};
    let none = Options::empty();
    assert_eq!(starts("> a", none), [BlockQuote(None)]);
    assert_eq!(starts("    a", none), [CodeBlock(CodeBlockKind::Indented)]);
    assert_eq!(starts("~~~ a b\n~~~", none), [CodeBlock(CodeBlockKind::Fenced("a b".into()))]);
    assert_eq!(starts("```\n```", none), [CodeBlock(CodeBlockKind::Fenced("".into()))]);
    assert_eq!(starts("<div>", none), [HtmlBlock]);
    assert_eq!(starts("- a", none), [List(None), Item]);
    assert_eq!(starts("123456789) a", none), [List(Some(123_456_789)), Item]);
    assert_eq!(with("***", none), [Event::Rule]);
    assert_eq!(with("1. a", none).last(), Some(&Event::End(TagEnd::List(true))));
    for (number, level) in (1..=6).zip([1, 2, 3, 4, 5, 6].map(|it| HeadingLevel::try_from(it).expect("a level"))) {
        let text = format!("{} a", "#".repeat(number));
        let heading = Tag::Heading { level, id: None, classes: vec![], attrs: vec![] };
        let end = Event::End(TagEnd::Heading(level));
        assert_eq!(with(&text, none), [Event::Start(heading), Event::Text("a".into()), end]);
    }
}

#[test]
fn blocks_of_extensions() {
    use BlockQuoteKind::{Caution, Important, Note, Tip, Warning};
    for (name, kind) in
        [("note", Note), ("TIP", Tip), ("important", Important), ("Warning", Warning), ("caution", Caution)]
    {
        let text = format!("> [!{name}]\n> a");
        assert_eq!(starts(&text, Options::ENABLE_GFM), [Tag::BlockQuote(Some(kind))]);
        assert_eq!(starts(&text, Options::empty()), [Tag::BlockQuote(None)]);
    }
    let cells = [Tag::TableHead, Tag::TableCell, Tag::TableCell, Tag::TableCell, Tag::TableCell];
    let alignments = vec![Alignment::None, Alignment::Left, Alignment::Center, Alignment::Right];
    let table = [Tag::Table(alignments)].into_iter().chain(cells).chain([Tag::TableRow]);
    let table: Vec<_> = table.chain(vec![Tag::TableCell; 4]).collect();
    assert_eq!(starts("a|b|c|d\n-|:-|:-:|-:\n1|2|3|4", Options::ENABLE_TABLES), table);
    let yaml = Options::ENABLE_YAML_STYLE_METADATA_BLOCKS;
    assert_eq!(starts("---\na: b\n---\n", yaml), [Tag::MetadataBlock(MetadataBlockKind::YamlStyle)]);
    let pluses = Options::ENABLE_PLUSES_DELIMITED_METADATA_BLOCKS;
    assert_eq!(starts("+++\na: b\n+++\n", pluses), [Tag::MetadataBlock(MetadataBlockKind::PlusesStyle)]);
    assert_eq!(starts("[^a]\n\n[^a]: b", Options::ENABLE_FOOTNOTES), [Tag::FootnoteDefinition("a".into())]);
    let tasks = with("- [ ] a\n- [x] b", Options::ENABLE_TASKLISTS);
    assert!(tasks.contains(&Event::TaskListMarker(false)) && tasks.contains(&Event::TaskListMarker(true)));
    let heading = Tag::Heading {
        level: HeadingLevel::H1,
        id: Some("i".into()),
        classes: vec!["c".into(), "d".into()],
        attrs: vec![("nn".into(), None), ("m".into(), Some("v".into()))],
    };
    assert_eq!(starts("# a {#i .c nn .d m=v}", Options::ENABLE_HEADING_ATTRIBUTES), [heading]);
}

#[test]
fn inlines() {
    let all = Options::all() - Options::ENABLE_SMART_PUNCTUATION;
    let in_paragraph = |text: &'static str| {
        let mut events = with(text, all);
        assert_eq!(events.remove(0), Event::Start(Tag::Paragraph));
        assert_eq!(events.pop(), Some(Event::End(TagEnd::Paragraph)));
        events
    };
    for (text, tag) in [
        ("*a*", Tag::Emphasis),
        ("**a**", Tag::Strong),
        ("~~a~~", Tag::Strikethrough),
        ("^a^", Tag::Superscript),
        ("~a~", Tag::Subscript),
    ] {
        let end = Event::End(tag.to_end());
        assert_eq!(in_paragraph(text), [Event::Start(tag), Event::Text("a".into()), end]);
    }
    assert_eq!(in_paragraph("`` ` ``"), [Event::Code("`".into())]);
    assert_eq!(in_paragraph("$a$"), [Event::InlineMath("a".into())]);
    assert_eq!(in_paragraph("$$a$$"), [Event::DisplayMath("a".into())]);
    assert_eq!(in_paragraph("a<b>"), [Event::Text("a".into()), Event::InlineHtml("<b>".into())]);
    assert_eq!(in_paragraph("a\\\nb")[1], Event::HardBreak);
    assert_eq!(in_paragraph("a\nb")[1], Event::SoftBreak);
    assert_eq!(with("[^a]\n\n[^a]: b", all)[1], Event::FootnoteReference("a".into()));
    assert_eq!(with("<div>", all)[1], Event::Html("<div>".into()));
}

#[test]
fn links() {
    let text = "[a](b 'c') [a][r] [r][] [r] <hi:a> <a@b.c> [[p]] [[p|t]] ![a](b)\n\n[r]: /u 't'";
    let image = Tag::Image { link_type: LinkType::Inline, dest_url: "b".into(), title: "".into(), id: "".into() };
    let expected = [
        link(LinkType::Inline, "b", "c", ""),
        link(LinkType::Reference, "/u", "t", "r"),
        link(LinkType::Collapsed, "/u", "t", "r"),
        link(LinkType::Shortcut, "/u", "t", "r"),
        link(LinkType::Autolink, "hi:a", "", ""),
        link(LinkType::Email, "a@b.c", "", ""),
        link(LinkType::WikiLink { has_pothole: false }, "p", "", ""),
        link(LinkType::WikiLink { has_pothole: true }, "p", "", ""),
        image,
    ];
    assert_eq!(starts(text, Options::ENABLE_WIKILINKS), expected);
}

#[test]
fn ranges() {
    let text = "é *a*\n\n- [b](c)\n";
    let placed: Vec<_> = Parser::new(text).into_offset_iter().map(|(_, range)| &text[range]).collect();
    let paragraph = "é *a*\n";
    let expected = [paragraph, "é ", "*a*", "a", "*a*", paragraph, "- [b](c)\n", "- [b](c)\n", "[b](c)", "b", "[b](c)"];
    assert_eq!(placed[..expected.len()], expected);
    let mut events = Parser::new(text);
    events.next();
    let rest: Vec<_> = events.into_offset_iter().collect();
    assert_eq!(rest[0], (Event::Text("é ".into()), 0..3));
    assert_eq!(rest.len(), placed.len() - 1);
}

/// The texts of an event that are slices of the source.
fn is_borrowed(text: &CowStr<'_>) -> bool {
    matches!(text, CowStr::Borrowed(_))
}

#[test]
fn texts_that_stand_in_the_source_are_borrowed() {
    let text = "a `b` $c$\n\n<div>\n\n[d](<e> 'f') <hi:i>\n\n``` g\nh\n```\n\n[^j]\n\n[^j]: k\n";
    for event in Parser::new_ext(text, Options::ENABLE_MATH | Options::ENABLE_FOOTNOTES) {
        match &event {
            Event::Text(text)
            | Event::Code(text)
            | Event::InlineMath(text)
            | Event::Html(text)
            | Event::FootnoteReference(text)
            | Event::Start(Tag::CodeBlock(CodeBlockKind::Fenced(text)) | Tag::FootnoteDefinition(text)) => {
                assert!(is_borrowed(text), "{event:?}")
            }
            Event::Start(Tag::Link { dest_url, title, id, .. }) => {
                assert!(is_borrowed(dest_url) && is_borrowed(title) && is_borrowed(id), "{event:?}")
            }
            _ => {}
        }
    }
    let of_entity: Vec<_> = Parser::new("&copy;").collect();
    assert!(matches!(&of_entity[1], Event::Text(CowStr::Inlined(text)) if &**text == "©"));
}

#[test]
fn definitions() {
    let text = "[B c]: /u\n\n[a]: <v> 't'\n\n[A]: /w\n\n[ẞ]: /x";
    let parser = Parser::new(text);
    let definitions = parser.reference_definitions();
    let labels: Vec<_> = definitions.iter().map(|(label, _)| label).collect();
    assert_eq!(labels, ["B c", "a", "ẞ"]);
    let found = definitions.get("A").expect("it is defined");
    assert_eq!((&*found.dest, found.title.as_deref(), &text[found.span.clone()]), ("v", Some("t"), "[a]: <v> 't'"));
    assert_eq!(definitions.get("b C").map(|it| (&*it.dest, it.title.is_none())), Some(("/u", true)));
    assert!(definitions.get("d").is_none() && definitions.get("").is_none());
    let kept = found.clone().into_static();
    assert_eq!(kept.span, found.span);
    let again = definitions.clone();
    let walk = parser.into_offset_iter();
    assert_eq!(walk.reference_definitions().iter().count(), again.iter().count());
    assert!(Parser::new("a").reference_definitions().get("a").is_none());
}

#[test]
fn into_static() {
    let events: Vec<Event<'static>> = {
        let text = String::from("# a {#i .c d=e}\n\n[a](b 'c') ![d][e] `f`\n\n~~~ g\n~~~\n\n[e]: h");
        Parser::new_ext(&text, Options::all()).map(Event::into_static).collect()
    };
    let heading = Tag::Heading {
        level: HeadingLevel::H1,
        id: Some("i".into()),
        classes: vec!["c".into()],
        attrs: vec![("d".into(), Some("e".into()))],
    };
    assert_eq!(events[0], Event::Start(heading));
    assert!(events.contains(&Event::Start(link(LinkType::Inline, "b", "c", ""))));
    assert!(events.contains(&Event::Code("f".into())));
    assert!(events.contains(&Event::Start(Tag::CodeBlock(CodeBlockKind::Fenced("g".into())))));
    assert_eq!(CodeBlockKind::Fenced("g".into()).into_static(), CodeBlockKind::Fenced("g".into()));
}

#[test]
fn the_end_is_final() {
    let mut parser = Parser::new("a");
    assert_eq!(parser.by_ref().count(), 3);
    assert!(parser.next().is_none() && parser.next().is_none());
    assert_eq!(Parser::new("").count(), 0);
    assert_eq!(Parser::new("[a]: /b").into_offset_iter().next(), None);
}

#[test]
fn definition_lists_are_not_read() {
    assert_eq!(with("a\n: b", Options::ENABLE_DEFINITION_LIST), with("a\n: b", Options::empty()));
}

#[test]
fn levels_and_kinds() {
    assert!(HeadingLevel::try_from(0).is_err() && HeadingLevel::try_from(7).is_err());
    assert_eq!(HeadingLevel::try_from(7).map_err(|it| it.to_string()), Err("no heading has the level 7".to_owned()));
    assert_eq!(HeadingLevel::H3.to_string(), "h3");
    assert!(HeadingLevel::H1 < HeadingLevel::H2 && HeadingLevel::H4 as usize == 4);
    assert!(CodeBlockKind::Indented.is_indented() && !CodeBlockKind::Indented.is_fenced());
    assert!(CodeBlockKind::Fenced("".into()).is_fenced());
    assert_eq!(TagEnd::from(Tag::List(Some(1))), TagEnd::List(true));
}

#[test]
fn debug() {
    let parser = Parser::new_ext("a", Options::ENABLE_MATH);
    let shown = "Parser { text: \"a\", options: Options(ENABLE_MATH), broken_link_callback: None }";
    assert_eq!(format!("{parser:?}"), shown);
    assert!(format!("{:?}", parser.into_offset_iter()).contains(shown));
}

#[test]
fn try_calls() {
    assert_eq!(Parser::try_new("a").map(Iterator::count), Ok(3));
    assert_eq!(Parser::try_new_ext("~~a~~", Options::ENABLE_STRIKETHROUGH).map(Iterator::count), Ok(5));
    let none = None::<DefaultBrokenLinkCallback>;
    assert_eq!(Parser::try_new_with_broken_link_callback("a", Options::all(), none).map(Iterator::count), Ok(3));
}

/// (these are tests by being compiled)
#[expect(dead_code, reason = "only its types matter")]
mod types {
    use super::*;

    fn is_sent<T: Send + Sync + FusedIterator>(_: T) {}

    fn threads(parser: Parser<'static>, walk: OffsetIter<'static>) {
        is_sent(parser);
        is_sent(walk);
    }

    fn shorter<'a>(parser: Parser<'static>, event: Event<'static>) -> (Parser<'a>, Event<'a>) {
        (parser, event)
    }
}
