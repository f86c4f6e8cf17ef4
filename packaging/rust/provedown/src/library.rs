//! The calls of the library, and copies of what they return. No other module has `unsafe` code.
#![expect(unsafe_code, reason = "the calls of the library")]

use crate::{Error, SafeRules};
use provedown_sys as sys;
use std::ffi::c_char;
use std::slice;

/// What a call has returned, which is freed when this is dropped.
struct Returned {
    bytes: *mut u8,
    length: usize,
}

impl Returned {
    /// Calls `call`, which stores a length, or a status if it returns NULL.
    ///
    /// # Safety
    ///
    /// `call` returns what a call of the library did with the pointer that `call` is given for the length.
    unsafe fn of(call: impl FnOnce(*mut i64) -> *mut u8) -> Result<Returned, Error> {
        let mut length = 0;
        let bytes = call(&mut length);
        if bytes.is_null() {
            return Err(match length {
                sys::MARKDOWN_NO_MEMORY => Error::OutOfMemory,
                sys::MARKDOWN_TOO_DEEP => Error::TooDeep,
                sys::MARKDOWN_TOO_LONG => Error::TooLong,
                sys::MARKDOWN_OVER_LIMIT => Error::OverLimit,
                status => panic!("the library refuses what this crate gives it, with the status {status}"),
            });
        }
        Ok(Returned { bytes, length: usize::try_from(length).expect("a result has a length") })
    }

    fn bytes(&self) -> &[u8] {
        // SAFETY: a result has this length, and lives until it is freed.
        unsafe { slice::from_raw_parts(self.bytes, self.length) }
    }

    fn text(&self) -> Result<String, Error> {
        let mut copy = Vec::new();
        copy.try_reserve_exact(self.length).map_err(|_| Error::OutOfMemory)?;
        copy.extend_from_slice(self.bytes());
        Ok(String::from_utf8(copy).expect("the library writes UTF-8"))
    }
}

impl Drop for Returned {
    fn drop(&mut self) {
        // SAFETY: this is a result, and nothing else frees it.
        unsafe { sys::markdown_free(self.bytes.cast()) }
    }
}

type OfText = unsafe extern "C" fn(*const c_char, usize, u32, *mut i64) -> *mut c_char;
type OfRecords = unsafe extern "C" fn(*const c_char, usize, *const u8, usize, u32, *mut i64) -> *mut c_char;

/// What the call makes of a text.
pub(crate) fn of_text(call: OfText, text: &str, options: u32) -> Result<String, Error> {
    // SAFETY: the declarations are those of the header, and the text has this length.
    unsafe { Returned::of(|length| call(text.as_ptr().cast(), text.len(), options, length).cast()) }?.text()
}

/// The rules as the library takes them.
fn library_rules(rules: &SafeRules<'_>) -> sys::markdown_safe_rules {
    sys::markdown_safe_rules {
        prefix: rules.prefix.as_ptr().cast(),
        prefix_length: rules.prefix.len(),
        bits: rules.bits(),
        nesting: rules.nesting,
        limit: rules.limit,
    }
}

/// The safe HTML of a text by rules.
pub(crate) fn safe_html_by(text: &str, options: u32, rules: &SafeRules<'_>) -> Result<String, Error> {
    let by = library_rules(rules);
    // SAFETY: the declarations are those of the header, and the text and the prefix have these lengths.
    unsafe {
        Returned::of(|length| {
            let text_start = text.as_ptr().cast();
            sys::markdown_safe_html_by_alloc(text_start, text.len(), options, &by, length).cast()
        })
    }?
    .text()
}

/// What `read` makes of the records of a text, of whose questions the first ones have these answers.
pub(crate) fn with_records<T>(
    text: &str,
    options: u32,
    answers: &[u8],
    read: impl FnOnce(&[u8]) -> Result<T, Error>,
) -> Result<T, Error> {
    // SAFETY: the declarations are those of the header, and the text and the answers have these lengths.
    let returned = unsafe {
        Returned::of(|length| {
            let text_start = text.as_ptr().cast();
            sys::markdown_records_alloc(text_start, text.len(), options, answers.as_ptr(), answers.len(), length)
        })
    }?;
    read(returned.bytes())
}

fn of_records(call: OfRecords, records: &[u8]) -> Result<String, Error> {
    let text = "";
    // SAFETY: the declarations are those of the header, and the text and the records have these lengths.
    let returned = unsafe {
        Returned::of(|length| {
            let text_start = text.as_ptr().cast();
            call(text_start, text.len(), records.as_ptr(), records.len(), sys::MARKDOWN_DEFAULT, length).cast()
        })
    };
    returned?.text()
}

/// The HTML of records of an empty text.
pub(crate) fn html_of_records(records: &[u8]) -> Result<String, Error> {
    of_records(sys::markdown_records_html_alloc, records)
}

/// The safe HTML of records of an empty text.
pub(crate) fn safe_html_of_records(records: &[u8]) -> Result<String, Error> {
    of_records(sys::markdown_records_safe_html_alloc, records)
}

/// The safe HTML of records of an empty text by rules.
pub(crate) fn safe_html_of_records_by(records: &[u8], rules: &SafeRules<'_>) -> Result<String, Error> {
    let (text, by) = ("", library_rules(rules));
    // SAFETY: the declarations are those of the header, and the text, the records and the prefix have these lengths.
    unsafe {
        Returned::of(|length| {
            sys::markdown_records_safe_html_by_alloc(
                text.as_ptr().cast(),
                text.len(),
                records.as_ptr(),
                records.len(),
                sys::MARKDOWN_DEFAULT,
                &by,
                length,
            )
            .cast()
        })
    }?
    .text()
}

/// A link label without the difference between upper and lower case.
pub(crate) fn folded(label: &str) -> Result<String, Error> {
    // SAFETY: the declarations are those of the header, and the label has this length.
    unsafe { Returned::of(|length| sys::markdown_fold_alloc(label.as_ptr().cast(), label.len(), length).cast()) }?
        .text()
}
