//! Texts that are borrowed from the source, owned, or short and held in place.

use std::borrow::{Borrow, Cow};
use std::cmp::Ordering;
use std::hash::{Hash, Hasher};
use std::ops::Deref;
use std::{error, fmt, str};

const ROOM: usize = 22;

/// A text of at most 22 bytes.
#[derive(Clone, Copy)]
pub struct InlineStr {
    bytes: [u8; ROOM],
    length: u8,
}

/// A text has more than 22 bytes.
#[derive(Clone, Copy, Debug, PartialEq, Eq)]
pub struct StringTooLongError;

impl fmt::Display for StringTooLongError {
    fn fmt(&self, f: &mut fmt::Formatter<'_>) -> fmt::Result {
        f.write_str("a text of more than 22 bytes")
    }
}

impl error::Error for StringTooLongError {}

impl TryFrom<&str> for InlineStr {
    type Error = StringTooLongError;

    fn try_from(text: &str) -> Result<InlineStr, StringTooLongError> {
        let mut bytes = [0; ROOM];
        let front = bytes.get_mut(..text.len()).ok_or(StringTooLongError)?;
        front.copy_from_slice(text.as_bytes());
        Ok(InlineStr { bytes, length: text.len() as u8 })
    }
}

impl From<char> for InlineStr {
    fn from(it: char) -> InlineStr {
        InlineStr::try_from(&*it.encode_utf8(&mut [0; 4])).expect("a character has at most 4 bytes")
    }
}

impl Deref for InlineStr {
    type Target = str;

    fn deref(&self) -> &str {
        str::from_utf8(&self.bytes[..usize::from(self.length)]).expect("an InlineStr is made of a text")
    }
}

/// A text in one of three forms. Which it is changes neither equality nor order nor hash.
pub enum CowStr<'a> {
    /// An owned text.
    Boxed(Box<str>),
    /// A slice, of the source in what a parser gives.
    Borrowed(&'a str),
    /// A short text.
    Inlined(InlineStr),
}

impl<'a> CowStr<'a> {
    /// A copy of a text.
    pub(crate) fn owned(text: &str) -> CowStr<'a> {
        match InlineStr::try_from(text) {
            Ok(short) => CowStr::Inlined(short),
            Err(StringTooLongError) => CowStr::Boxed(text.into()),
        }
    }

    /// Returns the text as a `String`, a copy unless it was boxed.
    pub fn into_string(self) -> String {
        match self {
            CowStr::Boxed(text) => text.into_string(),
            CowStr::Borrowed(text) => text.to_owned(),
            CowStr::Inlined(text) => str::to_owned(&text),
        }
    }

    /// Returns the text without a borrow, a copy if it was borrowed.
    pub fn into_static(self) -> CowStr<'static> {
        match self {
            CowStr::Boxed(text) => CowStr::Boxed(text),
            CowStr::Borrowed(text) => CowStr::owned(text),
            CowStr::Inlined(text) => CowStr::Inlined(text),
        }
    }
}

impl Deref for CowStr<'_> {
    type Target = str;

    fn deref(&self) -> &str {
        match self {
            CowStr::Boxed(text) => text,
            CowStr::Borrowed(text) => text,
            CowStr::Inlined(text) => text,
        }
    }
}

impl Clone for CowStr<'_> {
    fn clone(&self) -> Self {
        match self {
            CowStr::Boxed(text) => CowStr::owned(text),
            CowStr::Borrowed(text) => CowStr::Borrowed(text),
            CowStr::Inlined(text) => CowStr::Inlined(*text),
        }
    }
}

impl fmt::Debug for CowStr<'_> {
    fn fmt(&self, f: &mut fmt::Formatter<'_>) -> fmt::Result {
        let form = match self {
            CowStr::Boxed(_) => "Boxed",
            CowStr::Borrowed(_) => "Borrowed",
            CowStr::Inlined(_) => "Inlined",
        };
        f.debug_tuple(form).field(&&**self).finish()
    }
}

impl fmt::Debug for InlineStr {
    fn fmt(&self, f: &mut fmt::Formatter<'_>) -> fmt::Result {
        fmt::Debug::fmt(&**self, f)
    }
}

impl Default for CowStr<'_> {
    fn default() -> Self {
        CowStr::Borrowed("")
    }
}

/// What both types have of `str`.
macro_rules! like_str {
    ($($type:ty),*) => {
        $(impl AsRef<str> for $type {
            fn as_ref(&self) -> &str {
                self
            }
        }

        impl Borrow<str> for $type {
            fn borrow(&self) -> &str {
                self
            }
        }

        impl PartialEq for $type {
            fn eq(&self, other: &Self) -> bool {
                **self == **other
            }
        }

        impl Eq for $type {}

        impl PartialOrd for $type {
            fn partial_cmp(&self, other: &Self) -> Option<Ordering> {
                Some(self.cmp(other))
            }
        }

        impl Ord for $type {
            fn cmp(&self, other: &Self) -> Ordering {
                str::cmp(self, other)
            }
        }

        impl Hash for $type {
            fn hash<H: Hasher>(&self, state: &mut H) {
                str::hash(self, state)
            }
        }

        impl fmt::Display for $type {
            fn fmt(&self, f: &mut fmt::Formatter<'_>) -> fmt::Result {
                fmt::Display::fmt(&**self, f)
            }
        })*
    };
}

like_str!(CowStr<'_>, InlineStr);

impl<'a> From<&'a str> for CowStr<'a> {
    fn from(text: &'a str) -> Self {
        CowStr::Borrowed(text)
    }
}

impl From<String> for CowStr<'_> {
    fn from(text: String) -> Self {
        CowStr::Boxed(text.into())
    }
}

impl From<Box<str>> for CowStr<'_> {
    fn from(text: Box<str>) -> Self {
        CowStr::Boxed(text)
    }
}

impl From<char> for CowStr<'_> {
    fn from(it: char) -> Self {
        CowStr::Inlined(it.into())
    }
}

impl<'a> From<Cow<'a, str>> for CowStr<'a> {
    fn from(text: Cow<'a, str>) -> Self {
        match text {
            Cow::Borrowed(text) => CowStr::Borrowed(text),
            Cow::Owned(text) => text.into(),
        }
    }
}

impl<'a> From<CowStr<'a>> for Cow<'a, str> {
    fn from(text: CowStr<'a>) -> Self {
        match text {
            CowStr::Borrowed(text) => Cow::Borrowed(text),
            CowStr::Boxed(text) => Cow::Owned(text.into_string()),
            CowStr::Inlined(text) => Cow::Owned(str::to_owned(&text)),
        }
    }
}

impl From<Cow<'_, char>> for CowStr<'_> {
    fn from(it: Cow<'_, char>) -> Self {
        CowStr::from(it.into_owned())
    }
}

impl From<CowStr<'_>> for String {
    fn from(text: CowStr<'_>) -> String {
        text.into_string()
    }
}

/// Both types are strings for `serde`.
#[cfg(feature = "serde")]
mod for_serde {
    use super::{CowStr, InlineStr};
    use serde::de::{Error, Visitor};
    use serde::{Deserialize, Deserializer, Serialize, Serializer};
    use std::fmt;

    impl Serialize for CowStr<'_> {
        fn serialize<S: Serializer>(&self, serializer: S) -> Result<S::Ok, S::Error> {
            serializer.serialize_str(self)
        }
    }

    impl Serialize for InlineStr {
        fn serialize<S: Serializer>(&self, serializer: S) -> Result<S::Ok, S::Error> {
            serializer.serialize_str(self)
        }
    }

    struct OfText;

    impl Visitor<'_> for OfText {
        type Value = CowStr<'static>;

        fn expecting(&self, f: &mut fmt::Formatter<'_>) -> fmt::Result {
            f.write_str("a string")
        }

        fn visit_str<E: Error>(self, text: &str) -> Result<CowStr<'static>, E> {
            Ok(CowStr::owned(text))
        }

        fn visit_string<E: Error>(self, text: String) -> Result<CowStr<'static>, E> {
            Ok(text.into())
        }
    }

    /// The text is a copy, so it borrows nothing from the input.
    impl<'de> Deserialize<'de> for CowStr<'_> {
        fn deserialize<D: Deserializer<'de>>(deserializer: D) -> Result<Self, D::Error> {
            deserializer.deserialize_string(OfText)
        }
    }

    impl<'de> Deserialize<'de> for InlineStr {
        fn deserialize<D: Deserializer<'de>>(deserializer: D) -> Result<Self, D::Error> {
            let text = deserializer.deserialize_string(OfText)?;
            InlineStr::try_from(&*text).map_err(D::Error::custom)
        }
    }
}
