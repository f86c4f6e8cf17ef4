//! Prints the headings of a text that is read from standard input, as a list. Those with an id, as `# A {#a}`, are links.

use provedown::{CowStr, Event, HeadingLevel, Options, Parser, Tag, TagEnd};
use std::io::{self, Read};

fn main() -> io::Result<()> {
    let mut text = String::new();
    io::stdin().read_to_string(&mut text)?;
    let mut heading: Option<(HeadingLevel, Option<CowStr>, String)> = None;
    for event in Parser::new_ext(&text, Options::ENABLE_HEADING_ATTRIBUTES) {
        match (event, &mut heading) {
            (Event::Start(Tag::Heading { level, id, .. }), _) => {
                heading = Some((level, id, String::new()));
            }
            (Event::Text(words) | Event::Code(words), Some((_, _, title))) => title.push_str(&words),
            (Event::SoftBreak | Event::HardBreak, Some((_, _, title))) => title.push(' '),
            (Event::End(TagEnd::Heading(_)), Some((level, id, title))) => {
                let indent = "  ".repeat(*level as usize - 1);
                match id {
                    Some(id) => println!("{indent}- [{title}](#{id})"),
                    None => println!("{indent}- {title}"),
                }
                heading = None;
            }
            _ => {}
        }
    }
    Ok(())
}
