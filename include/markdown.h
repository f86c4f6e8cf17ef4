#ifndef MARKDOWN_H
#define MARKDOWN_H

/** # NAME
 *
 * **markdown** - Markdown to HTML, to its events as JSON or as binary records, and to its headings as JSON
 *
 * # DESCRIPTION
 *
 * The calls of the library `libprovedown`. Those into a buffer work like `snprintf`: each returns the length of
 * the whole result in bytes, and writes the result to the caller's buffer if the whole result fits. A caller tries
 * with some buffer, or with none to learn the length. If the number is greater than the length of the buffer, the
 * caller tries once more with a buffer of that length. Calls whose names end in `_alloc` return the result in memory
 * that the caller frees.
 *
 * ## Trusted texts and untrusted input
 *
 * For untrusted input use `markdown_to_safe_html` and `markdown_safe_html_alloc`, and for its records
 * `markdown_records_to_safe_html` and `markdown_records_safe_html_alloc`; or, by rules that the caller chooses, the calls
 * with `safe_html_by` in their names. The HTML of the other calls is not sanitised, nor are the JSON and the records: they
 * are for trusted texts. Raw HTML and destinations, even `javascript:`, come through as the author wrote them.
 *
 * ## Pointers and lengths
 *
 * Lengths count bytes. `text` needs no NUL at its end: it is not read past `text_length` bytes, and may hold any
 * bytes, NUL among them. `text` is only read, and so are `label`, `answers`, `records` and `rules`. Only the first
 * `out_length` bytes of `out` are written, without a NUL at the end. `out` may not overlap what is read. Each may be NULL
 * if its length is 0. No pointer is kept after the call.
 *
 * ## Memory
 *
 * A call allocates memory by `malloc` and `realloc`, and frees all of it before it returns, except the result of a
 * call that ends in `_alloc`.
 *
 * ## Stack
 *
 * A call takes about 16 KiB of stack, however deeply the text nests. This is measured on usual and on hostile texts,
 * and not proved. A thread whose stack has 64 KiB can make every call; one of 20 KiB cannot.
 *
 * ## Threads
 *
 * A call reads and writes only its arguments and memory of its own. Any number of threads may call at the same time,
 * each with its own `out`, and they may share a `text`. Do not call from a signal handler, or from the forked child of
 * a process that has threads.
 *
 * ## Platform
 *
 * Linux with glibc 2.17 or later, on any x86-64 processor.
 */

#include <stddef.h>
#include <stdint.h>

#ifdef __cplusplus
extern "C" {
#endif

/**
 * ## Version
 *
 * The version of this header. `markdown_version` returns that of the library.
 */

#define MARKDOWN_VERSION "0.10.0"
#define MARKDOWN_VERSION_MAJOR 0
#define MARKDOWN_VERSION_MINOR 10
#define MARKDOWN_VERSION_PATCH 0

/**
 * ## Status
 *
 * A call that fails returns one of these instead of a length, and leaves the buffer unchanged.
 */

/** The text is not UTF-8. */
#define MARKDOWN_NOT_UTF8 (-1)

/** An allocation failed. The call may be tried again. */
#define MARKDOWN_NO_MEMORY (-2)

/** More than 2^64 - 1 Starts are open in one image, more than can be counted. */
#define MARKDOWN_TOO_DEEP (-3)

/** A bit of the options is set that is not listed below, as a bit of a later version. */
#define MARKDOWN_UNKNOWN_OPTION (-4)

/** The bytes are no records, or not records of this text. */
#define MARKDOWN_NOT_RECORDS (-5)

/** The text, its number of records or their texts have 2^32 bytes or more, which records cannot say. */
#define MARKDOWN_TOO_LONG (-6)

/** The HTML has more bytes than the rules of the call allow. */
#define MARKDOWN_OVER_LIMIT (-7)

/**
 * ## Options
 *
 * Bits that enable extensions. A call reads all of CommonMark and the extensions whose bits are set; this is the full
 * reading. With `MARKDOWN_PROFILE` it reads by the port's profile instead, in which the bits that are not in it change
 * nothing. A bit that is not listed here is an error.
 */

/** CommonMark 0.31.2 without extensions. */
#define MARKDOWN_DEFAULT 0

/** Tables; not in the port's profile. */
#define MARKDOWN_TABLES (1 << 1)

/** Footnotes in GitHub's style: `[^a]` and its definition `[^a]: text`. */
#define MARKDOWN_FOOTNOTES (1 << 2)

/** `~~a~~`, and `~a~` unless `MARKDOWN_SUBSCRIPT` is set. */
#define MARKDOWN_STRIKETHROUGH (1 << 3)

/** Task lists, `- [ ] a`, and `- [x] a` for a task that is done; not in the port's profile. */
#define MARKDOWN_TASKLISTS (1 << 4)

/** Curly quotes, dashes for `--` and `---`, and an ellipsis for `...`; in the port's profile curly quotes alone. */
#define MARKDOWN_SMART (1 << 5)

/** Attributes of headings, `# a {#id .class name=value}`; not in the port's profile. They may have any name, even
 * `onclick`. Safe HTML has the id alone, after `user-content-`.
 */
#define MARKDOWN_HEADING_ATTRIBUTES (1 << 6)

/** Metadata between `---` lines, of which HTML shows nothing; not in the port's profile. */
#define MARKDOWN_YAML (1 << 7)

/** Metadata between `+++` lines, of which HTML shows nothing; not in the port's profile. */
#define MARKDOWN_PLUSES (1 << 8)

/** Footnotes whose references need no definition. */
#define MARKDOWN_OLD_FOOTNOTES ((1 << 9) | (1 << 2))

/** `$a$` and `$$a$$`. */
#define MARKDOWN_MATH (1 << 10)

/** Alerts, block quotes that begin with `[!NOTE]`, or another of five kinds; not in the port's profile. */
#define MARKDOWN_ALERTS (1 << 11)

/** Another name of `MARKDOWN_ALERTS`. */
#define MARKDOWN_GFM MARKDOWN_ALERTS

/** `^a^`. */
#define MARKDOWN_SUPERSCRIPT (1 << 13)

/** `~a~`. */
#define MARKDOWN_SUBSCRIPT (1 << 14)

/** `[[page]]` and `[[page|text]]`. */
#define MARKDOWN_WIKILINKS (1 << 15)

/** Links of bare addresses, as on GitHub: of web addresses, `http://a.b`, and with `https` or `ftp`; of those that begin with
 * `www.`, to `http://www.a.b`; and of addresses of mail, `x@y.z`. Not in the port's profile. Libraries up to 0.9.0 ignore
 * the bit.
 */
#define MARKDOWN_AUTOLINKS (1 << 27)

/** An id for each heading without one, as on GitHub, which links `[a](#some-heading)` lead to: its text in lower case with
 * hyphens for spaces, and a number after it where that is taken; not in the port's profile. Safe HTML has it after
 * `user-content-`, and the lines of `markdown_to_outline` have it as `id`. Libraries up to 0.9.0 ignore the bit.
 */
#define MARKDOWN_HEADING_IDS (1 << 28)

/** What GitHub reads, as `markdown --gfm` does. */
#define MARKDOWN_GITHUB \
    (MARKDOWN_EXTENDED | MARKDOWN_ALERTS | MARKDOWN_AUTOLINKS | MARKDOWN_FOOTNOTES | MARKDOWN_HEADING_IDS | \
     MARKDOWN_STRIKETHROUGH | MARKDOWN_TABLES | MARKDOWN_TASKLISTS)

/** All extensions but `MARKDOWN_OLD_FOOTNOTES`, which changes what footnotes are, as `markdown -a` does. */
#define MARKDOWN_ALL \
    (MARKDOWN_GITHUB | MARKDOWN_HEADING_ATTRIBUTES | MARKDOWN_MATH | MARKDOWN_PLUSES | MARKDOWN_SMART | \
     MARKDOWN_SUBSCRIPT | MARKDOWN_SUPERSCRIPT | MARKDOWN_WIKILINKS | MARKDOWN_YAML)

/** The port's profile in place of the full reading: HTML that is fixed to the byte. E-mail addresses in angle brackets,
 * and named entities other than `&amp;`, `&lt;`, `&gt;` and `&quot;`, are text. Libraries up to 0.9.0 ignore the bit, and
 * read by the profile without it.
 */
#define MARKDOWN_PROFILE (1 << 29)

/** Changes nothing: it asked for the full reading before that was the default. */
#define MARKDOWN_EXTENDED (1 << 30)

/**
 * ## Rules of safe HTML
 */

/** Images are links to what they would show, whose text is their alt text; they may have the schemes of a link. */
#define MARKDOWN_SAFE_IMAGE_LINKS (1 << 0)

/** Only the alt text of images stays, so nothing is loaded; this goes before `MARKDOWN_SAFE_IMAGE_LINKS`. */
#define MARKDOWN_SAFE_IMAGE_TEXTS (1 << 1)

/** Links to other sites have no `rel`. */
#define MARKDOWN_SAFE_NO_REL (1 << 2)

/** What a caller chooses of safe HTML. Begin with `struct markdown_safe_rules rules = MARKDOWN_SAFE_RULES;`, which has what
 * the calls without rules have, and change what is to differ. One whose fields are all 0 allows no byte of HTML.
 */
struct markdown_safe_rules {
    /** What follows `user-content-` in the ids of headings and footnotes, and in links to them, in UTF-8. Texts that stand
     * on one page, as the comments of an issue, need prefixes of which none begins another, as `17-` and `18-`, or else
     * two of them may have the same ids.
     */
    const char *prefix;
    size_t prefix_length;
    /** Bits that are listed above. Another bit is an error, `MARKDOWN_UNKNOWN_OPTION`. */
    uint32_t bits;
    /** The number of tags that may stand in one another. What nests deeper loses its tags, and its text stays. */
    size_t nesting;
    /** The number of bytes that the HTML may have. Longer HTML is an error, `MARKDOWN_OVER_LIMIT`. */
    size_t limit;
};

/** The rules of the calls without rules: no prefix, images are shown, 128 tags, and any number of bytes. */
#define MARKDOWN_SAFE_RULES {NULL, 0, 0, 128, SIZE_MAX}

/**
 * ## Calls into a buffer
 */

/** Renders a trusted `text` as HTML, which is not sanitised.
 *
 * Returns the length of the HTML in bytes. If that is at most `out_length`, the HTML is written to the front of `out`,
 * and the bytes after it are unchanged. Otherwise `out` is unchanged. On an error it returns `MARKDOWN_NOT_UTF8`,
 * `MARKDOWN_NO_MEMORY`, `MARKDOWN_TOO_DEEP` or `MARKDOWN_UNKNOWN_OPTION`, and `out` is unchanged.
 */
int64_t markdown_to_html(const uint8_t *text, size_t text_length, uint32_t options, uint8_t *out,
                         size_t out_length);

/** Renders an untrusted `text` as safe HTML.
 *
 * Raw HTML is shown as text, but for its comments, which go, and the tags `br`, `wbr` and `hr`, which stay without their
 * attributes. A destination is empty unless its scheme is `http`, `https`, `mailto` or `tel`, that of an image `http` or
 * `https`, or it has no scheme; that of a wikilink begins with `./` instead. A link to another site has
 * `rel="nofollow ugc noopener"`, and no link is in a link. The ids of headings and footnotes begin with `user-content-`, and a
 * link to `#x` leads to `#user-content-x`. The alignment of a cell is its attribute `align`. Images are loaded from where the
 * text says.
 *
 * Each end tag is that of the last element that is open, and no element is left open. At most 128 tags stand in one another:
 * what nests deeper loses its tags, and its text stays. Elements stand where a browser leaves them, if the HTML is put into
 * a `div` that stands in no link, heading or paragraph, on a page that is declared to be in UTF-8.
 *
 * Results and errors are those of `markdown_to_html`.
 */
int64_t markdown_to_safe_html(const uint8_t *text, size_t text_length, uint32_t options, uint8_t *out,
                              size_t out_length);

/** Renders an untrusted `text` as safe HTML by `rules`, which may be NULL for those of `markdown_to_safe_html`. With all of
 * them it is safe, and its elements stand where a browser leaves them, as that of `markdown_to_safe_html`.
 *
 * Results and errors are those of `markdown_to_html`, and `MARKDOWN_OVER_LIMIT`; a `prefix` that is not UTF-8 is
 * `MARKDOWN_NOT_UTF8`.
 */
int64_t markdown_to_safe_html_by(const uint8_t *text, size_t text_length, uint32_t options,
                                 const struct markdown_safe_rules *rules, uint8_t *out, size_t out_length);

/** Writes the events of `text` as JSON: a line for each event with its range, as `[{"Text":"a"},{"start":0,"end":1}]`.
 * The ranges are byte offsets in `text`. Each line ends with a line feed.
 *
 * Results are as those of `markdown_to_html`, for the lines instead of the HTML. The errors are `MARKDOWN_NOT_UTF8`,
 * `MARKDOWN_NO_MEMORY` and `MARKDOWN_UNKNOWN_OPTION`.
 */
int64_t markdown_to_json(const uint8_t *text, size_t text_length, uint32_t options, uint8_t *out,
                         size_t out_length);

/** Writes the headings of `text` as JSON: a line for each, as `{"level":1,"text":"A b","range":{"start":0,"end":7}}`
 * for `# A *b*`. The level is 1 to 6. The text is without markup, with a space for each line break. The ranges are
 * byte offsets in `text`. With `MARKDOWN_HEADING_IDS` each line has one more member, the id, as `"id":"a-b"`. Each
 * line ends with a line feed.
 *
 * Results and errors are those of `markdown_to_json`.
 */
int64_t markdown_to_outline(const uint8_t *text, size_t text_length, uint32_t options, uint8_t *out,
                            size_t out_length);

/**
 * ## Records
 *
 * Records are the events of a text with their ranges in a compact binary form, and after them the reference
 * definitions. `markdown_records.h` has their layout, and reads them. They hold no pointers: texts that stand in the
 * source are offsets into it, so records go with the text that they were made of.
 */

/** Writes the events of `text` as records. `MARKDOWN_AUTOLINKS` and `MARKDOWN_HEADING_IDS` change nothing here: the
 * records are those of the text, without what these two add to its HTML.
 *
 * A question, a record with the label, stands directly before the event at which a reference without a definition is met.
 * `answers` are records too, and say what is to become of these references: the first question gets the first answer, the
 * second the second, and so on, if both have the same range. Those without an answer stay text, as all do if
 * `answers_length` is 0. What comes before a question depends on the answers before it alone.
 *
 * Returns the length of the records in bytes, and writes them to the front of `out`, if they fit; otherwise `out` is
 * unchanged. On an error it returns `MARKDOWN_NOT_UTF8`, `MARKDOWN_NO_MEMORY`, `MARKDOWN_UNKNOWN_OPTION`,
 * `MARKDOWN_TOO_LONG`, or `MARKDOWN_NOT_RECORDS` if `answers` are no records of `text`, and `out` is unchanged.
 */
int64_t markdown_to_records(const uint8_t *text, size_t text_length, uint32_t options, const uint8_t *answers,
                            size_t answers_length, uint8_t *out, size_t out_length);

/** Renders `records` of a trusted `text` as HTML, which is not sanitised. The records may be those of
 * `markdown_to_records`, or be changed or made by the caller. They are read strictly, and ranges mean nothing here.
 * `options` are those that the records were made with; they change nothing today, but a bit that is not listed is an
 * error.
 *
 * Results are as those of `markdown_to_html`. The errors are `MARKDOWN_NOT_UTF8`, `MARKDOWN_NO_MEMORY`,
 * `MARKDOWN_TOO_DEEP`, `MARKDOWN_UNKNOWN_OPTION` and `MARKDOWN_NOT_RECORDS`.
 */
int64_t markdown_records_to_html(const uint8_t *text, size_t text_length, const uint8_t *records, size_t records_length,
                                 uint32_t options, uint8_t *out, size_t out_length);

/** Renders `records` of an untrusted `text` as safe HTML, as `markdown_to_safe_html` does: what a caller inserts as raw
 * HTML is shown as text too. Where elements stand is not looked at: Starts and Ends that do not match have tags that do
 * not. Results and errors are those of `markdown_records_to_html`.
 */
int64_t markdown_records_to_safe_html(const uint8_t *text, size_t text_length, const uint8_t *records,
                                      size_t records_length, uint32_t options, uint8_t *out, size_t out_length);

/** Renders `records` of an untrusted `text` as safe HTML by `rules`, as `markdown_to_safe_html_by` does. Where elements stand
 * is not looked at. Results and errors are those of `markdown_records_to_html`, and for the rules those of
 * `markdown_to_safe_html_by`.
 */
int64_t markdown_records_to_safe_html_by(const uint8_t *text, size_t text_length, const uint8_t *records,
                                         size_t records_length, uint32_t options,
                                         const struct markdown_safe_rules *rules, uint8_t *out, size_t out_length);

/** Writes the full case folding of a label. The labels of two records name the same reference definition if their
 * foldings are the same bytes.
 *
 * Results are as those of `markdown_to_html`. The errors are `MARKDOWN_NOT_UTF8` and `MARKDOWN_NO_MEMORY`.
 */
int64_t markdown_fold(const uint8_t *label, size_t label_length, uint8_t *out, size_t out_length);

/**
 * ## Calls that allocate
 *
 * Each takes the arguments of the matching call into a buffer, without the buffer. It returns the result in memory
 * from `malloc`, with a NUL after it, or NULL on an error. If `length` is not NULL, `*length` is then the length of
 * the result in bytes, without that NUL, or the status. Free the result by `markdown_free`.
 */

/** The HTML of `markdown_to_html`, which is not sanitised. */
char *markdown_html_alloc(const char *text, size_t text_length, uint32_t options, int64_t *length);

/** The safe HTML of `markdown_to_safe_html`. */
char *markdown_safe_html_alloc(const char *text, size_t text_length, uint32_t options, int64_t *length);

/** The safe HTML of `markdown_to_safe_html_by`. */
char *markdown_safe_html_by_alloc(const char *text, size_t text_length, uint32_t options,
                                  const struct markdown_safe_rules *rules, int64_t *length);

/** The lines of `markdown_to_json`. */
char *markdown_json_alloc(const char *text, size_t text_length, uint32_t options, int64_t *length);

/** The lines of `markdown_to_outline`. */
char *markdown_outline_alloc(const char *text, size_t text_length, uint32_t options, int64_t *length);

/** The records of `markdown_to_records`. */
uint8_t *markdown_records_alloc(const char *text, size_t text_length, uint32_t options, const uint8_t *answers,
                                size_t answers_length, int64_t *length);

/** The HTML of `markdown_records_to_html`, which is not sanitised. */
char *markdown_records_html_alloc(const char *text, size_t text_length, const uint8_t *records, size_t records_length,
                                  uint32_t options, int64_t *length);

/** The safe HTML of `markdown_records_to_safe_html`. */
char *markdown_records_safe_html_alloc(const char *text, size_t text_length, const uint8_t *records,
                                       size_t records_length, uint32_t options, int64_t *length);

/** The safe HTML of `markdown_records_to_safe_html_by`. */
char *markdown_records_safe_html_by_alloc(const char *text, size_t text_length, const uint8_t *records,
                                          size_t records_length, uint32_t options,
                                          const struct markdown_safe_rules *rules, int64_t *length);

/** The folding of `markdown_fold`. */
char *markdown_fold_alloc(const char *label, size_t label_length, int64_t *length);

/** Frees what one of these calls returned. Call it once for each result; it does nothing for NULL. */
void markdown_free(void *result);

/**
 * ## Other calls
 */

/** Returns the version of the library, in the form of `MARKDOWN_VERSION`. The text is static. */
const char *markdown_version(void);

#ifdef __cplusplus
}
#endif

#endif
