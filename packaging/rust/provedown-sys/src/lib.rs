//! The calls of `markdown.h`, which says what they do, and its constants. The crate `provedown` has safe ones.
#![no_std]
#![expect(missing_docs, reason = "markdown.h has them")]

use core::ffi::{c_char, c_void};

pub const MARKDOWN_NOT_UTF8: i64 = -1;
pub const MARKDOWN_NO_MEMORY: i64 = -2;
pub const MARKDOWN_TOO_DEEP: i64 = -3;
pub const MARKDOWN_UNKNOWN_OPTION: i64 = -4;
pub const MARKDOWN_NOT_RECORDS: i64 = -5;
pub const MARKDOWN_TOO_LONG: i64 = -6;
pub const MARKDOWN_OVER_LIMIT: i64 = -7;

pub const MARKDOWN_DEFAULT: u32 = 0;
pub const MARKDOWN_TABLES: u32 = 1 << 1;
pub const MARKDOWN_FOOTNOTES: u32 = 1 << 2;
pub const MARKDOWN_STRIKETHROUGH: u32 = 1 << 3;
pub const MARKDOWN_TASKLISTS: u32 = 1 << 4;
pub const MARKDOWN_SMART: u32 = 1 << 5;
pub const MARKDOWN_HEADING_ATTRIBUTES: u32 = 1 << 6;
pub const MARKDOWN_YAML: u32 = 1 << 7;
pub const MARKDOWN_PLUSES: u32 = 1 << 8;
pub const MARKDOWN_OLD_FOOTNOTES: u32 = (1 << 9) | (1 << 2);
pub const MARKDOWN_MATH: u32 = 1 << 10;
pub const MARKDOWN_ALERTS: u32 = 1 << 11;
pub const MARKDOWN_GFM: u32 = MARKDOWN_ALERTS;
pub const MARKDOWN_SUPERSCRIPT: u32 = 1 << 13;
pub const MARKDOWN_SUBSCRIPT: u32 = 1 << 14;
pub const MARKDOWN_WIKILINKS: u32 = 1 << 15;
pub const MARKDOWN_AUTOLINKS: u32 = 1 << 27;
pub const MARKDOWN_HEADING_IDS: u32 = 1 << 28;
pub const MARKDOWN_GITHUB: u32 = MARKDOWN_EXTENDED
    | MARKDOWN_ALERTS
    | MARKDOWN_AUTOLINKS
    | MARKDOWN_FOOTNOTES
    | MARKDOWN_HEADING_IDS
    | MARKDOWN_STRIKETHROUGH
    | MARKDOWN_TABLES
    | MARKDOWN_TASKLISTS;
pub const MARKDOWN_ALL: u32 = MARKDOWN_GITHUB
    | MARKDOWN_HEADING_ATTRIBUTES
    | MARKDOWN_MATH
    | MARKDOWN_PLUSES
    | MARKDOWN_SMART
    | MARKDOWN_SUBSCRIPT
    | MARKDOWN_SUPERSCRIPT
    | MARKDOWN_WIKILINKS
    | MARKDOWN_YAML;
pub const MARKDOWN_PROFILE: u32 = 1 << 29;
pub const MARKDOWN_EXTENDED: u32 = 1 << 30;

pub const MARKDOWN_SAFE_IMAGE_LINKS: u32 = 1 << 0;
pub const MARKDOWN_SAFE_IMAGE_TEXTS: u32 = 1 << 1;
pub const MARKDOWN_SAFE_NO_REL: u32 = 1 << 2;

#[repr(C)]
#[derive(Clone, Copy)]
pub struct markdown_safe_rules {
    pub prefix: *const c_char,
    pub prefix_length: usize,
    pub bits: u32,
    pub nesting: usize,
    pub limit: usize,
}

unsafe extern "C" {
    pub fn markdown_to_html(text: *const u8, text_length: usize, options: u32, out: *mut u8, out_length: usize) -> i64;
    pub fn markdown_to_safe_html(
        text: *const u8,
        text_length: usize,
        options: u32,
        out: *mut u8,
        out_length: usize,
    ) -> i64;
    pub fn markdown_to_safe_html_by(
        text: *const u8,
        text_length: usize,
        options: u32,
        rules: *const markdown_safe_rules,
        out: *mut u8,
        out_length: usize,
    ) -> i64;
    pub fn markdown_to_json(text: *const u8, text_length: usize, options: u32, out: *mut u8, out_length: usize) -> i64;
    pub fn markdown_to_outline(
        text: *const u8,
        text_length: usize,
        options: u32,
        out: *mut u8,
        out_length: usize,
    ) -> i64;

    pub fn markdown_html_alloc(text: *const c_char, text_length: usize, options: u32, length: *mut i64) -> *mut c_char;
    pub fn markdown_safe_html_alloc(
        text: *const c_char,
        text_length: usize,
        options: u32,
        length: *mut i64,
    ) -> *mut c_char;
    pub fn markdown_safe_html_by_alloc(
        text: *const c_char,
        text_length: usize,
        options: u32,
        rules: *const markdown_safe_rules,
        length: *mut i64,
    ) -> *mut c_char;
    pub fn markdown_json_alloc(text: *const c_char, text_length: usize, options: u32, length: *mut i64) -> *mut c_char;
    pub fn markdown_outline_alloc(
        text: *const c_char,
        text_length: usize,
        options: u32,
        length: *mut i64,
    ) -> *mut c_char;
    pub fn markdown_records_alloc(
        text: *const c_char,
        text_length: usize,
        options: u32,
        answers: *const u8,
        answers_length: usize,
        length: *mut i64,
    ) -> *mut u8;
    pub fn markdown_records_html_alloc(
        text: *const c_char,
        text_length: usize,
        records: *const u8,
        records_length: usize,
        options: u32,
        length: *mut i64,
    ) -> *mut c_char;
    pub fn markdown_records_safe_html_alloc(
        text: *const c_char,
        text_length: usize,
        records: *const u8,
        records_length: usize,
        options: u32,
        length: *mut i64,
    ) -> *mut c_char;
    pub fn markdown_records_safe_html_by_alloc(
        text: *const c_char,
        text_length: usize,
        records: *const u8,
        records_length: usize,
        options: u32,
        rules: *const markdown_safe_rules,
        length: *mut i64,
    ) -> *mut c_char;
    pub fn markdown_fold_alloc(label: *const c_char, label_length: usize, length: *mut i64) -> *mut c_char;
    pub fn markdown_free(result: *mut c_void);

    pub fn markdown_version() -> *const c_char;
}
