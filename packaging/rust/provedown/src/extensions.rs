use crate::Options;
use provedown_sys as sys;
use std::ops::{BitOr, BitOrAssign};

/// A set of extensions. The default is none.
#[derive(Clone, Copy, Debug, Default, PartialEq, Eq, Hash)]
pub struct Extensions(u32);

impl Extensions {
    /// CommonMark without extensions.
    pub const NONE: Extensions = Extensions(0);
    /// Footnotes in GitHub's style: `[^a]` and its definition `[^a]: text`.
    pub const FOOTNOTES: Extensions = Extensions(sys::MARKDOWN_FOOTNOTES);
    /// Footnotes whose references need no definition.
    pub const OLD_FOOTNOTES: Extensions = Extensions(sys::MARKDOWN_OLD_FOOTNOTES);
    /// `~~a~~`, and `~a~` unless `SUBSCRIPT` is set.
    pub const STRIKETHROUGH: Extensions = Extensions(sys::MARKDOWN_STRIKETHROUGH);
    /// `~a~`.
    pub const SUBSCRIPT: Extensions = Extensions(sys::MARKDOWN_SUBSCRIPT);
    /// `^a^`.
    pub const SUPERSCRIPT: Extensions = Extensions(sys::MARKDOWN_SUPERSCRIPT);
    /// `$a$` and `$$a$$`.
    pub const MATH: Extensions = Extensions(sys::MARKDOWN_MATH);
    /// Curly quotes, dashes for `--` and `---`, and an ellipsis for `...`.
    pub const SMART: Extensions = Extensions(sys::MARKDOWN_SMART);
    /// `[[page]]` and `[[page|text]]`.
    pub const WIKILINKS: Extensions = Extensions(sys::MARKDOWN_WIKILINKS);
    /// Tables.
    pub const TABLES: Extensions = Extensions(sys::MARKDOWN_TABLES);
    /// Task lists: `- [ ] a`, and `- [x] a` for a task that is done.
    pub const TASKLISTS: Extensions = Extensions(sys::MARKDOWN_TASKLISTS);
    /// Alerts: block quotes that begin with `[!NOTE]`, or another of five kinds.
    pub const ALERTS: Extensions = Extensions(sys::MARKDOWN_ALERTS);
    /// Another name of `ALERTS`.
    pub const GFM: Extensions = Extensions::ALERTS;
    /// Attributes of headings: `# a {#id .class name=value}`. Names are the author's, `onclick` too, but in safe HTML, which
    /// has the id alone, after `user-content-`.
    pub const HEADING_ATTRIBUTES: Extensions = Extensions(sys::MARKDOWN_HEADING_ATTRIBUTES);
    /// Metadata between `---` lines; HTML shows none of it.
    pub const YAML: Extensions = Extensions(sys::MARKDOWN_YAML);
    /// Metadata between `+++` lines; HTML shows none of it.
    pub const PLUSES: Extensions = Extensions(sys::MARKDOWN_PLUSES);
    /// Links of bare addresses, as on GitHub: of `http://a.b`, and with `https` or `ftp`; of `www.a.b`; and of `x@y.z`.
    pub const AUTOLINKS: Extensions = Extensions(sys::MARKDOWN_AUTOLINKS);
    /// An id for each heading without one, as on GitHub, which links `[a](#some-heading)` lead to. Safe HTML has it after
    /// `user-content-`, and the lines of [`to_outline`](crate::to_outline) have it as `id`.
    pub const HEADING_IDS: Extensions = Extensions(sys::MARKDOWN_HEADING_IDS);
    /// What GitHub reads: alerts, bare addresses as links, footnotes, ids of headings, strikethrough, tables and task lists.
    pub const GITHUB: Extensions = Extensions(
        Extensions::ALERTS.0
            | Extensions::AUTOLINKS.0
            | Extensions::FOOTNOTES.0
            | Extensions::HEADING_IDS.0
            | Extensions::STRIKETHROUGH.0
            | Extensions::TABLES.0
            | Extensions::TASKLISTS.0,
    );
    /// All extensions but `OLD_FOOTNOTES`, which changes what footnotes are.
    pub const ALL: Extensions = Extensions(
        Extensions::GITHUB.0
            | Extensions::HEADING_ATTRIBUTES.0
            | Extensions::MATH.0
            | Extensions::PLUSES.0
            | Extensions::SMART.0
            | Extensions::SUBSCRIPT.0
            | Extensions::SUPERSCRIPT.0
            | Extensions::WIKILINKS.0
            | Extensions::YAML.0,
    );

    pub(crate) fn bits(self) -> u32 {
        self.0
    }
}

/// What a parser with these options reads.
impl From<Options> for Extensions {
    fn from(options: Options) -> Extensions {
        Extensions(options.library_bits())
    }
}

impl BitOr for Extensions {
    type Output = Extensions;

    fn bitor(self, other: Extensions) -> Extensions {
        Extensions(self.0 | other.0)
    }
}

impl BitOrAssign for Extensions {
    fn bitor_assign(&mut self, other: Extensions) {
        *self = *self | other;
    }
}

#[cfg(test)]
mod tests {
    use super::*;

    #[test]
    fn sets() {
        let (github, all) = (Extensions::GITHUB.0, Extensions::ALL.0);
        assert_eq!(github | sys::MARKDOWN_EXTENDED, sys::MARKDOWN_GITHUB);
        assert_eq!(all | sys::MARKDOWN_EXTENDED, sys::MARKDOWN_ALL);
        assert_eq!(github & !all, 0);
        assert_eq!((Extensions::ALL | Extensions::OLD_FOOTNOTES).0, all | 1 << 9);
        assert_eq!(Extensions::GFM, Extensions::ALERTS);
    }
}
