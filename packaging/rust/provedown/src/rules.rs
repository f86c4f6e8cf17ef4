use provedown_sys as sys;

/// What becomes of images in safe HTML.
#[derive(Clone, Copy, Debug, Default, PartialEq, Eq, Hash)]
pub enum Images {
    /// They are images, which a browser loads from where the text says: so it can learn who reads it.
    #[default]
    Shown,
    /// They are links to what they would show, whose text is their alt text.
    Links,
    /// Only their alt text stays.
    Text,
}

/// What a caller chooses of safe HTML. The default is what [`to_safe_html`](crate::to_safe_html) writes.
///
/// ```
/// use provedown::{Extensions, Images, SafeRules, to_safe_html_by};
///
/// let rules = SafeRules { prefix: "17-", images: Images::Links, ..SafeRules::default() };
/// let html = to_safe_html_by("![a](b) [c](#d)", Extensions::NONE, &rules)?;
/// assert_eq!(html, "<p><a href=\"b\">a</a> <a href=\"#user-content-17-d\">c</a></p>\n");
/// # Ok::<(), provedown::Error>(())
/// ```
#[derive(Clone, Copy, Debug, PartialEq, Eq, Hash)]
pub struct SafeRules<'p> {
    /// What follows `user-content-` in the ids of headings and footnotes, and in links to them. Texts that stand on one page
    /// need prefixes of which none begins another, as `17-` and `18-`, or else two of them may have the same ids.
    pub prefix: &'p str,
    /// What becomes of images.
    pub images: Images,
    /// Whether links to other sites have `rel="nofollow ugc noopener"`.
    pub rel: bool,
    /// The number of tags that may stand in one another, by default 128. What nests deeper loses its tags, and its text
    /// stays.
    pub nesting: usize,
    /// The number of bytes that the HTML may have, by default any. Longer HTML is
    /// [`Error::OverLimit`](crate::Error::OverLimit).
    pub limit: usize,
}

impl Default for SafeRules<'_> {
    fn default() -> Self {
        SafeRules { prefix: "", images: Images::Shown, rel: true, nesting: 128, limit: usize::MAX }
    }
}

impl SafeRules<'_> {
    pub(crate) fn bits(&self) -> u32 {
        let of_images = match self.images {
            Images::Shown => 0,
            Images::Links => sys::MARKDOWN_SAFE_IMAGE_LINKS,
            Images::Text => sys::MARKDOWN_SAFE_IMAGE_TEXTS,
        };
        of_images | if self.rel { 0 } else { sys::MARKDOWN_SAFE_NO_REL }
    }
}

#[cfg(test)]
mod tests {
    use crate::{Error, Extensions, Images, Parser, SafeRules, html, to_safe_html, to_safe_html_by};

    /// The safe HTML of a text, and of its events, by rules.
    fn safe(text: &str, rules: SafeRules<'_>) -> String {
        let of_text = to_safe_html_by(text, Extensions::NONE, &rules).unwrap();
        let mut of_events = String::new();
        html::try_push_safe_html_by(&mut of_events, Parser::new(text), &rules).unwrap();
        assert_eq!(of_text, of_events);
        of_text
    }

    #[test]
    fn each_rule() {
        let (text, rules) = ("![a](b) [c](//d) [e](#f)", SafeRules::default());
        assert_eq!(Ok(safe(text, rules)), to_safe_html(text, Extensions::NONE));
        assert_eq!(
            safe(text, SafeRules { images: Images::Text, rel: false, prefix: "1-", ..rules }),
            "<p>a <a href=\"//d\">c</a> <a href=\"#user-content-1-f\">e</a></p>\n"
        );
        assert_eq!(safe("![a](b)", SafeRules { images: Images::Links, ..rules }), "<p><a href=\"b\">a</a></p>\n");
        assert_eq!(safe(text, SafeRules { nesting: 1, ..rules }), "<p>a c e</p>\n");
        assert_eq!(safe(text, SafeRules { nesting: 0, ..rules }), "a c e");
        assert_eq!(safe("a", SafeRules { limit: 9, ..rules }), "<p>a</p>\n");
        let less = SafeRules { limit: 8, ..rules };
        assert_eq!(to_safe_html_by("a", Extensions::NONE, &less), Err(Error::OverLimit));
        assert_eq!(html::try_push_safe_html_by(&mut String::new(), Parser::new("a"), &less), Err(Error::OverLimit));
    }
}
