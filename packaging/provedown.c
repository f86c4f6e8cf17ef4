/* The calls of markdown.h over the proved ones, for what their contracts leave to C: a slice is never NULL there, and they
 * hand out neither memory nor a pointer. The proved calls have the names of the header in the archive of `rt lib`; the
 * Makefile puts `proved_` before them. */
#include <stdlib.h>

#include "markdown.h"

/* What a call is given beside its buffer: `more` are answers or records, for the calls that take them, and `rules` are for
 * those of safe HTML by rules. */
struct given {
    const uint8_t *text;
    size_t text_length;
    const uint8_t *more;
    size_t more_length;
    uint32_t options;
    struct markdown_safe_rules rules;
};

typedef int64_t markdown_call(const uint8_t *text, size_t text_length, uint32_t options, uint8_t *out,
                              size_t out_length);
typedef int64_t rendering_call(const uint8_t *text, size_t text_length, const uint8_t *records, size_t records_length,
                               uint32_t options, uint8_t *out, size_t out_length);

markdown_call proved_markdown_to_html, proved_markdown_to_safe_html, proved_markdown_to_json, proved_markdown_to_outline;
rendering_call proved_markdown_records_to_html, proved_markdown_records_to_safe_html;
int64_t proved_markdown_to_records(const uint8_t *text, size_t text_length, uint32_t options, const uint8_t *answers,
                                   size_t answers_length, uint8_t *out, size_t out_length);
int64_t proved_markdown_to_safe_html_by(const uint8_t *text, size_t text_length, uint32_t options, const uint8_t *prefix,
                                        size_t prefix_length, uint32_t rules, size_t nesting, size_t limit, uint8_t *out,
                                        size_t out_length);
int64_t proved_markdown_records_to_safe_html_by(const uint8_t *text, size_t text_length, const uint8_t *records,
                                                size_t records_length, uint32_t options, const uint8_t *prefix,
                                                size_t prefix_length, uint32_t rules, size_t nesting, size_t limit,
                                                uint8_t *out, size_t out_length);
int64_t proved_markdown_fold(const uint8_t *label, size_t label_length, uint8_t *out, size_t out_length);

/* The proved calls in one form. */
typedef int64_t given_call(const struct given *given, uint8_t *out, size_t out_length);

static int64_t to_html(const struct given *given, uint8_t *out, size_t out_length) {
    return proved_markdown_to_html(given->text, given->text_length, given->options, out, out_length);
}

static int64_t to_safe_html(const struct given *given, uint8_t *out, size_t out_length) {
    return proved_markdown_to_safe_html(given->text, given->text_length, given->options, out, out_length);
}

static int64_t to_safe_html_by(const struct given *given, uint8_t *out, size_t out_length) {
    const struct markdown_safe_rules *rules = &given->rules;
    return proved_markdown_to_safe_html_by(given->text, given->text_length, given->options, (const uint8_t *)rules->prefix,
                                           rules->prefix_length, rules->bits, rules->nesting, rules->limit, out,
                                           out_length);
}

static int64_t to_json(const struct given *given, uint8_t *out, size_t out_length) {
    return proved_markdown_to_json(given->text, given->text_length, given->options, out, out_length);
}

static int64_t to_outline(const struct given *given, uint8_t *out, size_t out_length) {
    return proved_markdown_to_outline(given->text, given->text_length, given->options, out, out_length);
}

static int64_t to_records(const struct given *given, uint8_t *out, size_t out_length) {
    return proved_markdown_to_records(given->text, given->text_length, given->options, given->more, given->more_length,
                                      out, out_length);
}

static int64_t records_to_html(const struct given *given, uint8_t *out, size_t out_length) {
    return proved_markdown_records_to_html(given->text, given->text_length, given->more, given->more_length,
                                           given->options, out, out_length);
}

static int64_t records_to_safe_html(const struct given *given, uint8_t *out, size_t out_length) {
    return proved_markdown_records_to_safe_html(given->text, given->text_length, given->more, given->more_length,
                                                given->options, out, out_length);
}

static int64_t records_to_safe_html_by(const struct given *given, uint8_t *out, size_t out_length) {
    const struct markdown_safe_rules *rules = &given->rules;
    return proved_markdown_records_to_safe_html_by(given->text, given->text_length, given->more, given->more_length,
                                                   given->options, (const uint8_t *)rules->prefix, rules->prefix_length,
                                                   rules->bits, rules->nesting, rules->limit, out, out_length);
}

static int64_t to_folding(const struct given *given, uint8_t *out, size_t out_length) {
    return proved_markdown_fold(given->text, given->text_length, out, out_length);
}

static struct given text_and_more(const uint8_t *text, size_t text_length, const uint8_t *more, size_t more_length,
                                  uint32_t options) {
    struct given given = {text, text_length, more, more_length, options, MARKDOWN_SAFE_RULES};
    return given;
}

static struct given only_text(const uint8_t *text, size_t text_length, uint32_t options) {
    return text_and_more(text, text_length, NULL, 0, options);
}

/* The same with rules, or with those of a caller who chooses nothing if they are NULL. */
static struct given by_rules(struct given given, const struct markdown_safe_rules *rules) {
    if (rules != NULL) {
        given.rules = *rules;
    }
    return given;
}

/* Calls with the address of some byte in the place of NULL, whose length is 0. */
static int64_t call_without_null(given_call *call, struct given given, uint8_t *out, size_t out_length) {
    uint8_t no_bytes[4] = {0, 0, 0, 0};
    if (given.text == NULL) {
        given.text = &no_bytes[0];
    }
    if (given.more == NULL) {
        given.more = &no_bytes[1];
    }
    if (given.rules.prefix == NULL) {
        given.rules.prefix = (const char *)&no_bytes[2];
    }
    return call(&given, out == NULL ? &no_bytes[3] : out, out_length);
}

int64_t markdown_to_html(const uint8_t *text, size_t text_length, uint32_t options, uint8_t *out, size_t out_length) {
    return call_without_null(to_html, only_text(text, text_length, options), out, out_length);
}

int64_t markdown_to_safe_html(const uint8_t *text, size_t text_length, uint32_t options, uint8_t *out,
                              size_t out_length) {
    return call_without_null(to_safe_html, only_text(text, text_length, options), out, out_length);
}

int64_t markdown_to_safe_html_by(const uint8_t *text, size_t text_length, uint32_t options,
                                 const struct markdown_safe_rules *rules, uint8_t *out, size_t out_length) {
    return call_without_null(to_safe_html_by, by_rules(only_text(text, text_length, options), rules), out, out_length);
}

int64_t markdown_to_json(const uint8_t *text, size_t text_length, uint32_t options, uint8_t *out, size_t out_length) {
    return call_without_null(to_json, only_text(text, text_length, options), out, out_length);
}

int64_t markdown_to_outline(const uint8_t *text, size_t text_length, uint32_t options, uint8_t *out,
                            size_t out_length) {
    return call_without_null(to_outline, only_text(text, text_length, options), out, out_length);
}

int64_t markdown_to_records(const uint8_t *text, size_t text_length, uint32_t options, const uint8_t *answers,
                            size_t answers_length, uint8_t *out, size_t out_length) {
    return call_without_null(to_records, text_and_more(text, text_length, answers, answers_length, options), out,
                             out_length);
}

int64_t markdown_records_to_html(const uint8_t *text, size_t text_length, const uint8_t *records, size_t records_length,
                                 uint32_t options, uint8_t *out, size_t out_length) {
    return call_without_null(records_to_html, text_and_more(text, text_length, records, records_length, options), out,
                             out_length);
}

int64_t markdown_records_to_safe_html(const uint8_t *text, size_t text_length, const uint8_t *records,
                                      size_t records_length, uint32_t options, uint8_t *out, size_t out_length) {
    return call_without_null(records_to_safe_html, text_and_more(text, text_length, records, records_length, options),
                             out, out_length);
}

int64_t markdown_records_to_safe_html_by(const uint8_t *text, size_t text_length, const uint8_t *records,
                                         size_t records_length, uint32_t options,
                                         const struct markdown_safe_rules *rules, uint8_t *out, size_t out_length) {
    struct given given = text_and_more(text, text_length, records, records_length, options);
    return call_without_null(records_to_safe_html_by, by_rules(given, rules), out, out_length);
}

int64_t markdown_fold(const uint8_t *label, size_t label_length, uint8_t *out, size_t out_length) {
    return call_without_null(to_folding, only_text(label, label_length, MARKDOWN_DEFAULT), out, out_length);
}

/* Room that is enough for nearly every result of a text: `times` the text and `more` bytes, or none where that is more
 * than can be counted. */
static size_t likely_room(size_t text_length, size_t times, size_t more) {
    return text_length < (SIZE_MAX - more) / times ? text_length * times + more : 0;
}

/* Returns the whole result and a NUL: made in a buffer of this room, or, where it does not fit or there is no memory for so
 * much, in a second one that is exactly as long. */
static uint8_t *whole(given_call *call, struct given given, size_t room, int64_t *length) {
    int64_t no_length;
    int64_t *returned = length == NULL ? &no_length : length;
    uint8_t *result = malloc(room + 1);
    if (result == NULL) {
        room = 0;
    }
    *returned = call_without_null(call, given, result, room);
    if (*returned >= 0 && (result == NULL || (size_t)*returned > room)) {
        free(result);
        room = (size_t)*returned;
        result = malloc(room + 1);
        *returned = result == NULL ? MARKDOWN_NO_MEMORY : call_without_null(call, given, result, room);
    }
    if (*returned < 0) {
        free(result);
        return NULL;
    }
    result[*returned] = 0;
    uint8_t *shorter = realloc(result, (size_t)*returned + 1);
    return shorter == NULL ? result : shorter;
}

/* The same of a call that takes a text and options alone. */
static char *whole_of_text(given_call *call, const char *text, size_t text_length, uint32_t options, size_t room,
                           int64_t *length) {
    return (char *)whole(call, only_text((const uint8_t *)text, text_length, options), room, length);
}

char *markdown_html_alloc(const char *text, size_t text_length, uint32_t options, int64_t *length) {
    return whole_of_text(to_html, text, text_length, options, likely_room(text_length, 2, 256), length);
}

char *markdown_safe_html_alloc(const char *text, size_t text_length, uint32_t options, int64_t *length) {
    return whole_of_text(to_safe_html, text, text_length, options, likely_room(text_length, 2, 256), length);
}

char *markdown_safe_html_by_alloc(const char *text, size_t text_length, uint32_t options,
                                  const struct markdown_safe_rules *rules, int64_t *length) {
    struct given given = only_text((const uint8_t *)text, text_length, options);
    return (char *)whole(to_safe_html_by, by_rules(given, rules), likely_room(text_length, 2, 256), length);
}

char *markdown_json_alloc(const char *text, size_t text_length, uint32_t options, int64_t *length) {
    return whole_of_text(to_json, text, text_length, options, likely_room(text_length, 12, 1024), length);
}

char *markdown_outline_alloc(const char *text, size_t text_length, uint32_t options, int64_t *length) {
    return whole_of_text(to_outline, text, text_length, options, likely_room(text_length, 2, 256), length);
}

uint8_t *markdown_records_alloc(const char *text, size_t text_length, uint32_t options, const uint8_t *answers,
                                size_t answers_length, int64_t *length) {
    struct given given = text_and_more((const uint8_t *)text, text_length, answers, answers_length, options);
    /* (of 956 real documents seven need more than four bytes a byte, each shorter than 5 kB) */
    return whole(to_records, given, likely_room(text_length, 4, 1024), length);
}

/* The HTML of records: the texts are in `text`, or where a caller has put them, in the records. */
static char *whole_of_records(given_call *call, struct given given, int64_t *length) {
    size_t of_text = likely_room(given.text_length, 2, 256);
    return (char *)whole(call, given, likely_room(given.more_length, 1, of_text), length);
}

char *markdown_records_html_alloc(const char *text, size_t text_length, const uint8_t *records, size_t records_length,
                                  uint32_t options, int64_t *length) {
    struct given given = text_and_more((const uint8_t *)text, text_length, records, records_length, options);
    return whole_of_records(records_to_html, given, length);
}

char *markdown_records_safe_html_alloc(const char *text, size_t text_length, const uint8_t *records,
                                       size_t records_length, uint32_t options, int64_t *length) {
    struct given given = text_and_more((const uint8_t *)text, text_length, records, records_length, options);
    return whole_of_records(records_to_safe_html, given, length);
}

char *markdown_records_safe_html_by_alloc(const char *text, size_t text_length, const uint8_t *records,
                                          size_t records_length, uint32_t options,
                                          const struct markdown_safe_rules *rules, int64_t *length) {
    struct given given = text_and_more((const uint8_t *)text, text_length, records, records_length, options);
    return whole_of_records(records_to_safe_html_by, by_rules(given, rules), length);
}

char *markdown_fold_alloc(const char *label, size_t label_length, int64_t *length) {
    return whole_of_text(to_folding, label, label_length, MARKDOWN_DEFAULT, likely_room(label_length, 2, 16), length);
}

void markdown_free(void *result) {
    free(result);
}

const char *markdown_version(void) {
    return MARKDOWN_VERSION;
}
