use crate::{Error, Extensions, SafeRules, library};
use provedown_sys as sys;

/// Returns the HTML of a trusted text: raw HTML and all destinations come through as its author wrote them.
pub fn to_html(text: &str, extensions: Extensions) -> Result<String, Error> {
    library::of_text(sys::markdown_html_alloc, text, extensions.bits())
}

/// Returns the safe HTML of untrusted input: raw HTML is shown as text, but for comments, which are dropped, and `<br>`,
/// `<wbr>` and `<hr>`; and destinations have one of the schemes `http`, `https`, `mailto` and `tel`, those of images `http`
/// or `https`, or none. Links to other sites have `rel="nofollow ugc noopener"`, and no link is in a link.
pub fn to_safe_html(text: &str, extensions: Extensions) -> Result<String, Error> {
    library::of_text(sys::markdown_safe_html_alloc, text, extensions.bits())
}

/// Returns the safe HTML of untrusted input by rules. By all rules it is safe, and its elements stand where a browser leaves
/// them.
pub fn to_safe_html_by(text: &str, extensions: Extensions, rules: &SafeRules<'_>) -> Result<String, Error> {
    library::safe_html_by(text, extensions.bits(), rules)
}

/// Returns the events of a text: a line of JSON for each, with its range of bytes, in the form of `serde` for
/// `(Event, Range<usize>)`.
pub fn to_json(text: &str, extensions: Extensions) -> Result<String, Error> {
    library::of_text(sys::markdown_json_alloc, text, extensions.bits())
}

/// Returns the headings of a text: a line of JSON for each, with its level, its text, its range of bytes, and with
/// [`Extensions::HEADING_IDS`] its id.
pub fn to_outline(text: &str, extensions: Extensions) -> Result<String, Error> {
    library::of_text(sys::markdown_outline_alloc, text, extensions.bits())
}

#[cfg(test)]
mod tests {
    use super::*;

    #[test]
    fn results() {
        assert_eq!(to_html("<b> &copy;", Extensions::NONE).as_deref(), Ok("<p><b> ©</p>\n"));
        assert_eq!(to_safe_html("a<b>", Extensions::NONE).as_deref(), Ok("<p>a&lt;b&gt;</p>\n"));
        let both = Extensions::SUBSCRIPT | Extensions::SUPERSCRIPT;
        assert_eq!(to_html("~a~ ^b^", both).as_deref(), Ok("<p><sub>a</sub> <sup>b</sup></p>\n"));
        let alert = "<blockquote class=\"markdown-alert-tip\">\n<p>a</p>\n</blockquote>\n";
        assert_eq!(to_safe_html("> [!tip]\n> a", Extensions::ALERTS).as_deref(), Ok(alert));
        let outline = "{\"level\":1,\"text\":\"é\",\"range\":{\"start\":0,\"end\":4}}\n";
        assert_eq!(to_outline("# é", Extensions::NONE).as_deref(), Ok(outline));
        assert!(
            to_json("é", Extensions::NONE)
                .is_ok_and(|lines| lines.contains("[{\"Text\":\"é\"},{\"start\":0,\"end\":2}]\n"))
        );
    }

    #[test]
    fn bare_addresses() {
        let links = "<p><a href=\"http://www.a.b\">www.a.b</a> <a href=\"mailto:x@y.z\">x@y.z</a></p>\n";
        assert_eq!(to_html("www.a.b x@y.z", Extensions::AUTOLINKS).as_deref(), Ok(links));
        let safe = "<p><a href=\"http://www.a.b\" rel=\"nofollow ugc noopener\">www.a.b</a> <a href=\"mailto:x@y.z\" \
                    rel=\"nofollow ugc noopener\">x@y.z</a></p>\n";
        assert_eq!(to_safe_html("www.a.b x@y.z", Extensions::GITHUB).as_deref(), Ok(safe));
        assert_eq!(to_html("www.a.b x@y.z", Extensions::NONE).as_deref(), Ok("<p>www.a.b x@y.z</p>\n"));
    }

    #[test]
    fn ids_of_headings() {
        let text = "# A\n\n# A\n\n# A 1\n";
        let html = "<h1 id=\"a\">A</h1>\n<h1 id=\"a-1\">A</h1>\n<h1 id=\"a-1-1\">A 1</h1>\n";
        assert_eq!(to_html(text, Extensions::HEADING_IDS).as_deref(), Ok(html));
        assert_eq!(to_html("# A", Extensions::NONE).as_deref(), Ok("<h1>A</h1>\n"));
        let safe = "<h1 id=\"user-content-a\">a</h1>\n<p><a href=\"#user-content-a\">b</a></p>\n";
        assert_eq!(to_safe_html("# a\n\n[b](#a)\n", Extensions::GITHUB).as_deref(), Ok(safe));
        let outline = "{\"level\":1,\"text\":\"A b\",\"range\":{\"start\":0,\"end\":8},\"id\":\"a-b\"}\n";
        assert_eq!(to_outline("# A *b*\n", Extensions::ALL).as_deref(), Ok(outline));
        assert!(to_json("# A", Extensions::HEADING_IDS).is_ok_and(|lines| lines.contains("\"id\":\"a\"")));
    }

    #[test]
    fn lengths() {
        assert_eq!(to_html("", Extensions::NONE).as_deref(), Ok(""));
        assert_eq!(to_html(&"&".repeat(9999), Extensions::NONE), Ok(format!("<p>{}</p>\n", "&amp;".repeat(9999))));
    }
}
