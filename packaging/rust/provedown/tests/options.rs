//! Sets of options, as `bitflags` has them.

use provedown::{Extensions, Options, Parser, html, to_html};

const TABLES: Options = Options::ENABLE_TABLES;
const MATH: Options = Options::ENABLE_MATH;

#[test]
fn sets() {
    let mut set = TABLES | MATH;
    assert!(set.contains(TABLES) && set.intersects(MATH) && !set.is_empty() && !set.is_all());
    assert_eq!((set & MATH, set - MATH, set ^ MATH, !set & TABLES), (MATH, TABLES, TABLES, Options::empty()));
    set.remove(TABLES);
    set.insert(Options::ENABLE_GFM);
    set.toggle(MATH);
    set.set(TABLES, true);
    set.set(Options::ENABLE_GFM, false);
    assert_eq!(set, TABLES);
    set |= MATH;
    set -= TABLES;
    set ^= TABLES;
    set &= MATH;
    assert_eq!(set, MATH);
    assert_eq!([TABLES, MATH].into_iter().collect::<Options>(), TABLES | MATH);
    assert_eq!(Options::default(), Options::empty());
    assert!(Options::all().is_all() && Options::all().complement().is_empty());
}

#[test]
fn bits() {
    assert_eq!(Options::all().bits(), 0xfffe);
    assert_eq!((Options::from_bits(1 << 1), Options::from_bits(1)), (Some(TABLES), None));
    assert_eq!(Options::from_bits_truncate(3), TABLES);
    assert_eq!(Options::from_bits_retain(3).bits(), 3);
    assert_eq!((Options::from_name("ENABLE_MATH"), Options::from_name("MATH")), (Some(MATH), None));
    assert!(Options::ENABLE_OLD_FOOTNOTES.contains(Options::ENABLE_FOOTNOTES));
    assert_eq!(format!("{TABLES:b} {TABLES:o} {:x} {:#X}", Options::all(), Options::all()), "10 2 fffe 0xFFFE");
}

#[test]
fn names() {
    let set = TABLES | MATH | Options::ENABLE_OLD_FOOTNOTES;
    let names: Vec<_> = set.iter_names().map(|it| it.0).collect();
    assert_eq!(names, ["ENABLE_TABLES", "ENABLE_FOOTNOTES", "ENABLE_OLD_FOOTNOTES", "ENABLE_MATH"]);
    assert_eq!(set.iter().collect::<Options>(), set);
    assert_eq!(Options::from_bits_retain(3).iter().collect::<Vec<_>>(), [TABLES, Options::from_bits_retain(1)]);
    assert_eq!(format!("{:?}", TABLES | MATH), "Options(ENABLE_TABLES | ENABLE_MATH)");
    assert_eq!(
        format!("{:?} {:?}", Options::empty(), Options::from_bits_retain(3)),
        "Options(0x0) Options(ENABLE_TABLES | 0x1)"
    );
}

#[test]
fn each_is_the_extension_of_its_name() {
    let pairs = [
        (Options::ENABLE_TABLES, Extensions::TABLES, "a|b\n-|-"),
        (Options::ENABLE_FOOTNOTES, Extensions::FOOTNOTES, "[^a]\n\n[^a]: b"),
        (Options::ENABLE_OLD_FOOTNOTES, Extensions::OLD_FOOTNOTES, "[^a]"),
        (Options::ENABLE_STRIKETHROUGH, Extensions::STRIKETHROUGH, "~~a~~"),
        (Options::ENABLE_TASKLISTS, Extensions::TASKLISTS, "- [ ] a"),
        (Options::ENABLE_SMART_PUNCTUATION, Extensions::SMART, "\"a\" --"),
        (Options::ENABLE_HEADING_ATTRIBUTES, Extensions::HEADING_ATTRIBUTES, "# a {#b}"),
        (Options::ENABLE_YAML_STYLE_METADATA_BLOCKS, Extensions::YAML, "---\na\n---\n"),
        (Options::ENABLE_PLUSES_DELIMITED_METADATA_BLOCKS, Extensions::PLUSES, "+++\na\n+++\n"),
        (Options::ENABLE_MATH, Extensions::MATH, "$a$"),
        (Options::ENABLE_GFM, Extensions::ALERTS, "> [!tip]\n> a"),
        (Options::ENABLE_SUPERSCRIPT, Extensions::SUPERSCRIPT, "^a^"),
        (Options::ENABLE_SUBSCRIPT, Extensions::SUBSCRIPT, "~a~"),
        (Options::ENABLE_WIKILINKS, Extensions::WIKILINKS, "[[a]]"),
    ];
    for (options, extension, text) in pairs {
        let mut html = String::new();
        html::push_html(&mut html, Parser::new_ext(text, options));
        assert_eq!(to_html(text, extension).as_ref(), Ok(&html), "{options:?}");
        assert_ne!(to_html(text, Extensions::NONE), Ok(html), "{options:?}");
        assert_eq!(Extensions::from(options), extension);
    }
}

#[test]
fn bits_that_mean_nothing_have_no_effect() {
    let events = |options| Parser::new_ext("a\n: b", options).count();
    assert_eq!(events(Options::from_bits_retain(u32::MAX)), events(Options::all()));
    assert_eq!(events(Options::ENABLE_DEFINITION_LIST), events(Options::empty()));
    assert_eq!(Extensions::from(Options::from_bits_retain(u32::MAX)), Extensions::from(Options::all()));
    assert_eq!(Extensions::from(Options::ENABLE_DEFINITION_LIST), Extensions::NONE);
}
