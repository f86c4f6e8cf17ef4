//! The set of extensions that a parser reads.

use provedown_sys as sys;
use std::fmt;
use std::ops::{BitAnd, BitAndAssign, BitOr, BitOrAssign, BitXor, BitXorAssign, Not, Sub, SubAssign};

/// A set of extensions for a [`Parser`](crate::Parser), with the methods and the bits of `pulldown_cmark::Options`.
#[derive(Clone, Copy, Default, PartialEq, Eq, PartialOrd, Ord, Hash)]
pub struct Options(u32);

macro_rules! options {
    ($($(#[doc = $doc:literal])* $name:ident = $bits:expr;)*) => {
        impl Options {
            $($(#[doc = $doc])* pub const $name: Options = Options($bits);)*
        }

        const NAMES: &[(&str, Options)] = &[$((stringify!($name), Options::$name)),*];
    };
}

options! {
    /// Tables.
    ENABLE_TABLES = sys::MARKDOWN_TABLES;
    /// Footnotes in GitHub's style: `[^a]` and its definition `[^a]: text`.
    ENABLE_FOOTNOTES = sys::MARKDOWN_FOOTNOTES;
    /// `~~a~~`, and `~a~` unless `ENABLE_SUBSCRIPT` is set.
    ENABLE_STRIKETHROUGH = sys::MARKDOWN_STRIKETHROUGH;
    /// Task lists: `- [ ] a`, and `- [x] a` for a task that is done.
    ENABLE_TASKLISTS = sys::MARKDOWN_TASKLISTS;
    /// Curly quotes, dashes for `--` and `---`, and an ellipsis for `...`.
    ENABLE_SMART_PUNCTUATION = sys::MARKDOWN_SMART;
    /// Attributes of headings: `# a {#id .class name=value}`.
    ENABLE_HEADING_ATTRIBUTES = sys::MARKDOWN_HEADING_ATTRIBUTES;
    /// Metadata between `---` lines.
    ENABLE_YAML_STYLE_METADATA_BLOCKS = sys::MARKDOWN_YAML;
    /// Metadata between `+++` lines.
    ENABLE_PLUSES_DELIMITED_METADATA_BLOCKS = sys::MARKDOWN_PLUSES;
    /// Footnotes whose references need no definition.
    ENABLE_OLD_FOOTNOTES = sys::MARKDOWN_OLD_FOOTNOTES;
    /// `$a$` and `$$a$$`.
    ENABLE_MATH = sys::MARKDOWN_MATH;
    /// Alerts: block quotes that begin with `[!NOTE]`, or another of five kinds.
    ENABLE_GFM = sys::MARKDOWN_ALERTS;
    /// Without effect: the library reads no definition lists.
    ENABLE_DEFINITION_LIST = 1 << 12;
    /// `^a^`.
    ENABLE_SUPERSCRIPT = sys::MARKDOWN_SUPERSCRIPT;
    /// `~a~`.
    ENABLE_SUBSCRIPT = sys::MARKDOWN_SUBSCRIPT;
    /// `[[page]]` and `[[page|text]]`.
    ENABLE_WIKILINKS = sys::MARKDOWN_WIKILINKS;
}

const ALL: u32 = 0xfffe;

impl Options {
    /// No extension.
    pub const fn empty() -> Options {
        Options(0)
    }

    /// All extensions.
    pub const fn all() -> Options {
        Options(ALL)
    }

    /// The bits.
    pub const fn bits(&self) -> u32 {
        self.0
    }

    /// The set of these bits, or `None` if one of them means nothing.
    pub const fn from_bits(bits: u32) -> Option<Options> {
        if bits & !ALL == 0 { Some(Options(bits)) } else { None }
    }

    /// The set of those of these bits that mean something.
    pub const fn from_bits_truncate(bits: u32) -> Options {
        Options(bits & ALL)
    }

    /// The set of these bits. Bits that mean nothing have no effect on a parser.
    pub const fn from_bits_retain(bits: u32) -> Options {
        Options(bits)
    }

    /// The extension of this name, as `ENABLE_TABLES`.
    pub fn from_name(name: &str) -> Option<Options> {
        NAMES.iter().find(|it| it.0 == name).map(|it| it.1)
    }

    /// Whether the set is empty.
    pub const fn is_empty(&self) -> bool {
        self.0 == 0
    }

    /// Whether the set has all extensions.
    pub const fn is_all(&self) -> bool {
        self.0 & ALL == ALL
    }

    /// Whether the sets have something in common.
    pub const fn intersects(&self, other: Options) -> bool {
        self.0 & other.0 != 0
    }

    /// Whether all of `other` is in the set.
    pub const fn contains(&self, other: Options) -> bool {
        self.0 & other.0 == other.0
    }

    /// Adds `other`.
    pub const fn insert(&mut self, other: Options) {
        self.0 |= other.0
    }

    /// Removes `other`.
    pub const fn remove(&mut self, other: Options) {
        self.0 &= !other.0
    }

    /// Adds what the set has not of `other`, and removes what it has.
    pub const fn toggle(&mut self, other: Options) {
        self.0 ^= other.0
    }

    /// Adds or removes `other`.
    pub const fn set(&mut self, other: Options, on: bool) {
        if on { self.insert(other) } else { self.remove(other) }
    }

    /// What is in both sets.
    #[must_use]
    pub const fn intersection(self, other: Options) -> Options {
        Options(self.0 & other.0)
    }

    /// What is in one of the sets.
    #[must_use]
    pub const fn union(self, other: Options) -> Options {
        Options(self.0 | other.0)
    }

    /// What is in this set and not in `other`.
    #[must_use]
    pub const fn difference(self, other: Options) -> Options {
        Options(self.0 & !other.0)
    }

    /// What is in one of the sets and not in both.
    #[must_use]
    pub const fn symmetric_difference(self, other: Options) -> Options {
        Options(self.0 ^ other.0)
    }

    /// All extensions that are not in the set.
    #[must_use]
    pub const fn complement(self) -> Options {
        Options(!self.0 & ALL)
    }

    /// The extensions in the set with their names. One that is made of others comes if they do not make all of it.
    pub fn iter_names(&self) -> impl Iterator<Item = (&'static str, Options)> + use<> {
        let own = *self;
        let mut left = own;
        NAMES.iter().copied().filter(move |&(_, it)| {
            let is_next = own.contains(it) && left.intersects(it);
            if is_next {
                left.remove(it);
            }
            is_next
        })
    }

    /// The extensions in the set, and at last the bits that mean nothing, if there are any.
    pub fn iter(&self) -> impl Iterator<Item = Options> + use<> {
        let rest = *self - Options::all();
        self.iter_names().map(|it| it.1).chain((!rest.is_empty()).then_some(rest))
    }

    /// The bits for the library, which refuses bits that it does not know.
    pub(crate) const fn library_bits(self) -> u32 {
        self.0 & ALL & !Options::ENABLE_DEFINITION_LIST.0
    }
}

/// The names, and bits that mean nothing.
impl fmt::Debug for Options {
    fn fmt(&self, f: &mut fmt::Formatter<'_>) -> fmt::Result {
        let mut words: Vec<String> = self.iter_names().map(|it| it.0.to_owned()).collect();
        let rest = self.0 & !ALL;
        if rest != 0 || words.is_empty() {
            words.push(format!("{rest:#x}"));
        }
        write!(f, "Options({})", words.join(" | "))
    }
}

macro_rules! numbers {
    ($($of:ident)*) => {
        $(impl fmt::$of for Options {
            fn fmt(&self, f: &mut fmt::Formatter<'_>) -> fmt::Result {
                fmt::$of::fmt(&self.0, f)
            }
        })*
    };
}

numbers! { Binary Octal LowerHex UpperHex }

macro_rules! operators {
    ($($of:ident $call:ident $assigns:ident $assign:ident $method:ident;)*) => {
        $(impl $of for Options {
            type Output = Options;

            fn $call(self, other: Options) -> Options {
                self.$method(other)
            }
        }

        impl $assigns for Options {
            fn $assign(&mut self, other: Options) {
                *self = self.$method(other)
            }
        })*
    };
}

operators! {
    BitOr bitor BitOrAssign bitor_assign union;
    BitAnd bitand BitAndAssign bitand_assign intersection;
    BitXor bitxor BitXorAssign bitxor_assign symmetric_difference;
    Sub sub SubAssign sub_assign difference;
}

impl Not for Options {
    type Output = Options;

    fn not(self) -> Options {
        self.complement()
    }
}

impl Extend<Options> for Options {
    fn extend<I: IntoIterator<Item = Options>>(&mut self, others: I) {
        for other in others {
            self.insert(other)
        }
    }
}

impl FromIterator<Options> for Options {
    fn from_iter<I: IntoIterator<Item = Options>>(others: I) -> Options {
        let mut all = Options::empty();
        all.extend(others);
        all
    }
}
