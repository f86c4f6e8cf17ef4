#ifndef MARKDOWN_RECORDS_H
#define MARKDOWN_RECORDS_H

/** # NAME
 *
 * **markdown_records** - reads the records of events that `markdown_to_records` writes
 *
 * # DESCRIPTION
 *
 * All functions are inline and need no library. They read bytes one by one, so the bytes may stand at any address. None
 * allocates memory or keeps state.
 *
 * Open the records of a text by `markdown_records_open`, which checks them. Then visit their events by
 * `markdown_records_walk`, or one record after another by `markdown_records_get` and `markdown_records_after`:
 *
 *     for (uint32_t at = 0; at < records.entries; at = markdown_records_after(&records, at)) {
 *         struct markdown_record it = markdown_records_get(&records, at);
 *         ..
 *     }
 *
 * ## Layout
 *
 * Numbers are little-endian. A header of 24 bytes comes first: `MDR1`, the version 1 and the size 24 of a record in 16
 * bits each, and in 32 bits each how many records there are, how many of them come before the definitions, and how many
 * bytes the pool and the text have. Records of 24 bytes each follow, in the order of the fields of `markdown_record`, and
 * then the pool, which is UTF-8. The bytes of a text are a slice of the source, or of the pool.
 *
 * Records with a greater version may have more kinds, and are refused.
 */

#include <stddef.h>
#include <stdint.h>
#include <string.h>

#ifdef __cplusplus
extern "C" {
#endif

/** The number of bytes of a record, and of the header. */
#define MARKDOWN_RECORD_SIZE 24

/**
 * ## Kinds
 */

/** What a record is: the start of an element below 0x20, an event of its own below 0x40, the end of an element below
 * 0x60, no event below 0x80, and otherwise a part, a further text of the record before it.
 */
enum markdown_kind {
    MARKDOWN_KIND_PARAGRAPH = 0x01,
    /** The detail is the level, 1 to 6. The text is the id, if there is one. Parts: classes, and then names of
     * attributes, each with or without its value after it. */
    MARKDOWN_KIND_HEADING = 0x02,
    /** The detail is an `enum markdown_quote`. */
    MARKDOWN_KIND_BLOCK_QUOTE = 0x03,
    /** The detail is 0 for an indented one, and 1 for a fenced one, whose text is the info string. */
    MARKDOWN_KIND_CODE_BLOCK = 0x04,
    MARKDOWN_KIND_HTML_BLOCK = 0x05,
    /** The detail is 0 for bullets, and 1 for an ordered one, which begins with `markdown_record_number`. */
    MARKDOWN_KIND_LIST = 0x06,
    MARKDOWN_KIND_ITEM = 0x07,
    /** The text is the name. */
    MARKDOWN_KIND_FOOTNOTE_DEFINITION = 0x08,
    MARKDOWN_KIND_DEFINITION_LIST = 0x09,
    MARKDOWN_KIND_DEFINITION_LIST_TITLE = 0x0a,
    MARKDOWN_KIND_DEFINITION_LIST_DEFINITION = 0x0b,
    /** The text has the alignment of each column: `n` for none, `l` for left, `c` for center, and `r` for right. */
    MARKDOWN_KIND_TABLE = 0x0c,
    MARKDOWN_KIND_TABLE_HEAD = 0x0d,
    MARKDOWN_KIND_TABLE_ROW = 0x0e,
    MARKDOWN_KIND_TABLE_CELL = 0x0f,
    MARKDOWN_KIND_EMPHASIS = 0x10,
    MARKDOWN_KIND_STRONG = 0x11,
    MARKDOWN_KIND_STRIKETHROUGH = 0x12,
    MARKDOWN_KIND_SUPERSCRIPT = 0x13,
    MARKDOWN_KIND_SUBSCRIPT = 0x14,
    /** The detail is an `enum markdown_link`, and the text is the destination. Parts: a title and a label, each only if
     * it is not empty. */
    MARKDOWN_KIND_LINK = 0x15,
    /** As a link. */
    MARKDOWN_KIND_IMAGE = 0x16,
    /** The detail is 0 between lines `---`, and 1 between lines `+++`. */
    MARKDOWN_KIND_METADATA_BLOCK = 0x17,

    MARKDOWN_KIND_TEXT = 0x20,
    MARKDOWN_KIND_CODE = 0x21,
    MARKDOWN_KIND_INLINE_MATH = 0x22,
    MARKDOWN_KIND_DISPLAY_MATH = 0x23,
    MARKDOWN_KIND_HTML = 0x24,
    MARKDOWN_KIND_INLINE_HTML = 0x25,
    /** The text is the name. */
    MARKDOWN_KIND_FOOTNOTE_REFERENCE = 0x26,
    MARKDOWN_KIND_SOFT_BREAK = 0x27,
    MARKDOWN_KIND_HARD_BREAK = 0x28,
    MARKDOWN_KIND_RULE = 0x29,
    /** The detail is 1 for a task that is done, and otherwise 0. */
    MARKDOWN_KIND_TASK_LIST_MARKER = 0x2a,

    /** An end has the kind of its start with this bit, and the start's detail if it is a heading, a block quote, a list
     * or metadata. */
    MARKDOWN_KIND_END = 0x40,

    /** A reference without a definition, asked directly before the event that follows: the detail is an
     * `enum markdown_link`, and the text is the label. */
    MARKDOWN_KIND_QUESTION = 0x60,
    /** For `markdown_to_records`: the answer to a question of the same range. The detail is 0 for none, and 1 for a link,
     * whose destination is the text. Part: a title. */
    MARKDOWN_KIND_ANSWER = 0x61,
    /** A reference definition, after all events: the text is the label. Parts: a destination, and a title if there is
     * one. */
    MARKDOWN_KIND_DEFINITION = 0x62,

    MARKDOWN_KIND_PART = 0x80,
    MARKDOWN_KIND_TITLE = 0x81,
    MARKDOWN_KIND_LABEL = 0x82,
    MARKDOWN_KIND_CLASS = 0x83,
    MARKDOWN_KIND_NAME = 0x84,
    MARKDOWN_KIND_VALUE = 0x85,
    MARKDOWN_KIND_DESTINATION = 0x86
};

/** Kinds of block quotes. */
enum markdown_quote {
    MARKDOWN_QUOTE_PLAIN = 0,
    MARKDOWN_QUOTE_NOTE = 1,
    MARKDOWN_QUOTE_TIP = 2,
    MARKDOWN_QUOTE_IMPORTANT = 3,
    MARKDOWN_QUOTE_WARNING = 4,
    MARKDOWN_QUOTE_CAUTION = 5
};

/** How a link is written: `[a](b)`, `[a][b]`, `[a][]`, `[a]`, `<a:b>`, `<a@b.c>`, `[[a]]` and `[[a|b]]`. An unknown one
 * has no definition, and is the answer to a question.
 */
enum markdown_link {
    MARKDOWN_LINK_INLINE = 0,
    MARKDOWN_LINK_REFERENCE = 1,
    MARKDOWN_LINK_REFERENCE_UNKNOWN = 2,
    MARKDOWN_LINK_COLLAPSED = 3,
    MARKDOWN_LINK_COLLAPSED_UNKNOWN = 4,
    MARKDOWN_LINK_SHORTCUT = 5,
    MARKDOWN_LINK_SHORTCUT_UNKNOWN = 6,
    MARKDOWN_LINK_AUTOLINK = 7,
    MARKDOWN_LINK_EMAIL = 8,
    MARKDOWN_LINK_WIKI = 9,
    MARKDOWN_LINK_WIKI_WITH_TEXT = 10
};

/** Where a text is. */
enum markdown_place {
    MARKDOWN_PLACE_NONE = 0,
    MARKDOWN_PLACE_SOURCE = 1,
    MARKDOWN_PLACE_POOL = 2,
    /** There is no text, but a number: `at` has its low 32 bits, and `length` its high ones. */
    MARKDOWN_PLACE_NUMBER = 3
};

/**
 * ## Records
 */

/** A record. */
struct markdown_record {
    uint8_t kind, detail, place, zero;
    /** The range in the text, in bytes. */
    uint32_t start, end;
    /** The offset of the text and its length, in bytes. */
    uint32_t at, length;
    /** How many of the records after this one are its parts. */
    uint32_t parts;
    /** Which record it is, from 0 on; this is not in the bytes. */
    uint32_t number;
};

/** Records of a text that were checked. */
struct markdown_records {
    const char *text;
    const uint8_t *bytes;
    /** How many records there are, and how many come before the definitions. */
    uint32_t count, entries;
};

/** A text, which no NUL ends. `bytes` is NULL if there is none. */
struct markdown_text {
    const char *bytes;
    size_t length;
};

/** Reads 32 bits. */
static inline uint32_t markdown_records_u32(const uint8_t *at) {
    return (uint32_t)at[0] | (uint32_t)at[1] << 8 | (uint32_t)at[2] << 16 | (uint32_t)at[3] << 24;
}

/** Writes 32 bits. */
static inline void markdown_records_put_u32(uint8_t *at, uint32_t number) {
    at[0] = (uint8_t)number;
    at[1] = (uint8_t)(number >> 8);
    at[2] = (uint8_t)(number >> 16);
    at[3] = (uint8_t)(number >> 24);
}

/** Reads the record of these 24 bytes. */
static inline struct markdown_record markdown_record_read(const uint8_t *at, uint32_t number) {
    struct markdown_record it;
    it.kind = at[0];
    it.detail = at[1];
    it.place = at[2];
    it.zero = at[3];
    it.start = markdown_records_u32(at + 4);
    it.end = markdown_records_u32(at + 8);
    it.at = markdown_records_u32(at + 12);
    it.length = markdown_records_u32(at + 16);
    it.parts = markdown_records_u32(at + 20);
    it.number = number;
    return it;
}

/** Writes a record to 24 bytes, as one of an answer, or of an event that a caller makes. */
static inline void markdown_record_write(uint8_t *at, const struct markdown_record *it) {
    at[0] = it->kind;
    at[1] = it->detail;
    at[2] = it->place;
    at[3] = it->zero;
    markdown_records_put_u32(at + 4, it->start);
    markdown_records_put_u32(at + 8, it->end);
    markdown_records_put_u32(at + 12, it->at);
    markdown_records_put_u32(at + 16, it->length);
    markdown_records_put_u32(at + 20, it->parts);
}

/** Writes a header to 24 bytes. `count` records follow, none of which is a definition, and then `pool` bytes. */
static inline void markdown_records_write_header(uint8_t *at, uint32_t count, uint32_t pool, uint32_t text_length) {
    static const uint8_t format[8] = {'M', 'D', 'R', '1', 1, 0, MARKDOWN_RECORD_SIZE, 0};
    memcpy(at, format, sizeof format);
    markdown_records_put_u32(at + 8, count);
    markdown_records_put_u32(at + 12, count);
    markdown_records_put_u32(at + 16, pool);
    markdown_records_put_u32(at + 20, text_length);
}

/**
 * ## Checking
 */

/** Whether there is neither a text nor a number. */
static inline int markdown_record_is_bare(const struct markdown_record *it) {
    return it->place == MARKDOWN_PLACE_NONE && it->at == 0 && it->length == 0;
}

/** Whether there is a text, which lies within the source or the pool. */
static inline int markdown_record_has_text(const struct markdown_record *it, uint64_t text_length, uint64_t pool) {
    uint64_t end = (uint64_t)it->at + it->length;
    return (it->place == MARKDOWN_PLACE_SOURCE && end <= text_length) || (it->place == MARKDOWN_PLACE_POOL && end <= pool);
}

/** Whether the kind is known, and this is a detail of it. */
static inline int markdown_record_has_detail(const struct markdown_record *it) {
    uint8_t kind = it->kind, detail = it->detail;
    int is_end = (kind & MARKDOWN_KIND_END) != 0 && kind < MARKDOWN_KIND_QUESTION;
    switch (is_end ? kind - MARKDOWN_KIND_END : kind) {
    case MARKDOWN_KIND_HEADING:
        return 1 <= detail && detail <= 6;
    case MARKDOWN_KIND_BLOCK_QUOTE:
        return detail <= MARKDOWN_QUOTE_CAUTION;
    case MARKDOWN_KIND_LIST:
    case MARKDOWN_KIND_METADATA_BLOCK:
        return detail <= 1;
    case MARKDOWN_KIND_CODE_BLOCK:
        return detail <= (is_end ? 0 : 1);
    case MARKDOWN_KIND_TASK_LIST_MARKER:
    case MARKDOWN_KIND_ANSWER:
        return !is_end && detail <= 1;
    case MARKDOWN_KIND_LINK:
    case MARKDOWN_KIND_IMAGE:
        return detail <= (is_end ? 0 : MARKDOWN_LINK_WIKI_WITH_TEXT);
    case MARKDOWN_KIND_QUESTION:
        return detail <= MARKDOWN_LINK_WIKI_WITH_TEXT;
    default:
        return detail == 0 && ((MARKDOWN_KIND_PARAGRAPH <= kind && kind <= MARKDOWN_KIND_METADATA_BLOCK) ||
                               (MARKDOWN_KIND_TEXT <= kind && kind <= MARKDOWN_KIND_TASK_LIST_MARKER) ||
                               (MARKDOWN_KIND_END < kind && kind <= MARKDOWN_KIND_END + MARKDOWN_KIND_METADATA_BLOCK) ||
                               kind == MARKDOWN_KIND_DEFINITION);
    }
}

/** Whether there is a text, a number or neither, as the kind and the detail have it. */
static inline int markdown_record_has_place(const struct markdown_record *it, uint64_t text_length, uint64_t pool) {
    int has_text = markdown_record_has_text(it, text_length, pool), is_bare = markdown_record_is_bare(it);
    switch (it->kind) {
    case MARKDOWN_KIND_HEADING:
        return has_text || is_bare;
    case MARKDOWN_KIND_CODE_BLOCK:
    case MARKDOWN_KIND_ANSWER:
        return it->detail == 0 ? is_bare : has_text;
    case MARKDOWN_KIND_LIST:
        return it->detail == 0 ? is_bare : it->place == MARKDOWN_PLACE_NUMBER;
    case MARKDOWN_KIND_FOOTNOTE_DEFINITION:
    case MARKDOWN_KIND_TABLE:
    case MARKDOWN_KIND_LINK:
    case MARKDOWN_KIND_IMAGE:
    case MARKDOWN_KIND_QUESTION:
    case MARKDOWN_KIND_DEFINITION:
        return has_text;
    default:
        return MARKDOWN_KIND_TEXT <= it->kind && it->kind <= MARKDOWN_KIND_FOOTNOTE_REFERENCE ? has_text : is_bare;
    }
}

/** Whether a part may be the next one of a record, after a part of the kind `before`, or 0 if it is the first. */
static inline int markdown_record_may_have(const struct markdown_record *it, uint8_t before, uint8_t part) {
    switch (it->kind) {
    case MARKDOWN_KIND_HEADING:
        return part == MARKDOWN_KIND_NAME || (part == MARKDOWN_KIND_VALUE && before == MARKDOWN_KIND_NAME) ||
               (part == MARKDOWN_KIND_CLASS && (before == 0 || before == MARKDOWN_KIND_CLASS));
    case MARKDOWN_KIND_LINK:
    case MARKDOWN_KIND_IMAGE:
        return (part == MARKDOWN_KIND_TITLE && before == 0) ||
               (part == MARKDOWN_KIND_LABEL && before != MARKDOWN_KIND_LABEL);
    case MARKDOWN_KIND_ANSWER:
        return it->detail == 1 && part == MARKDOWN_KIND_TITLE && before == 0;
    case MARKDOWN_KIND_DEFINITION:
        return before == 0 ? part == MARKDOWN_KIND_DESTINATION
                           : part == MARKDOWN_KIND_TITLE && before == MARKDOWN_KIND_DESTINATION;
    default:
        return 0;
    }
}

/** Returns 1 if these bytes are records of a text of this length, and otherwise 0: the header fits, every kind and detail
 * is known, every text lies within the source or the pool, every part belongs to a record that may have it, and no range
 * ends before it begins. Not checked is whether texts are UTF-8, ranges lie within the text, and starts have ends: the
 * records that the library writes have all of that.
 */
static inline int markdown_records_check(const uint8_t *bytes, size_t length, size_t text_length) {
    static const uint8_t format[8] = {'M', 'D', 'R', '1', 1, 0, MARKDOWN_RECORD_SIZE, 0};
    if (length < MARKDOWN_RECORD_SIZE || memcmp(bytes, format, sizeof format) != 0) {
        return 0;
    }
    uint64_t count = markdown_records_u32(bytes + 8), entries = markdown_records_u32(bytes + 12);
    uint64_t pool = markdown_records_u32(bytes + 16);
    if (markdown_records_u32(bytes + 20) != (uint64_t)text_length || entries > count ||
        (count + 1) * MARKDOWN_RECORD_SIZE + pool != (uint64_t)length) {
        return 0;
    }
    for (uint64_t number = 0; number < count;) {
        const uint8_t *at = bytes + MARKDOWN_RECORD_SIZE * (size_t)(number + 1);
        struct markdown_record it = markdown_record_read(at, (uint32_t)number);
        uint64_t left = (number < entries ? entries : count) - number - 1;
        if (it.zero != 0 || it.start > it.end || it.parts > left || !markdown_record_has_detail(&it) ||
            !markdown_record_has_place(&it, text_length, pool) ||
            (it.kind == MARKDOWN_KIND_DEFINITION) != (number >= entries) ||
            (it.kind == MARKDOWN_KIND_DEFINITION && it.parts == 0)) {
            return 0;
        }
        uint8_t before = 0;
        for (uint32_t i = 0; i < it.parts; i++) {
            at += MARKDOWN_RECORD_SIZE;
            struct markdown_record part = markdown_record_read(at, 0);
            if (part.detail != 0 || part.zero != 0 || part.start != 0 || part.end != 0 || part.parts != 0 ||
                !markdown_record_may_have(&it, before, part.kind) || !markdown_record_has_text(&part, text_length, pool)) {
                return 0;
            }
            before = part.kind;
        }
        number += 1 + (uint64_t)it.parts;
    }
    return 1;
}

/**
 * ## Reading
 */

/** Opens records of a text, both of which have to stay where they are. Returns 1, or 0 if `markdown_records_check`
 * does.
 */
static inline int markdown_records_open(struct markdown_records *records, const char *text, size_t text_length,
                                        const uint8_t *bytes, size_t length) {
    if (!markdown_records_check(bytes, length, text_length)) {
        return 0;
    }
    /* (an offset is added to it, which NULL does not allow) */
    records->text = text == NULL ? "" : text;
    records->bytes = bytes;
    records->count = markdown_records_u32(bytes + 8);
    records->entries = markdown_records_u32(bytes + 12);
    return 1;
}

/** Returns the record with this number, which is less than `count`. */
static inline struct markdown_record markdown_records_get(const struct markdown_records *records, uint32_t number) {
    return markdown_record_read(records->bytes + MARKDOWN_RECORD_SIZE * ((size_t)number + 1), number);
}

/** Returns the number of the record after this one and its parts. */
static inline uint32_t markdown_records_after(const struct markdown_records *records, uint32_t number) {
    return number + 1 + markdown_records_get(records, number).parts;
}

/** Returns the text of a record. */
static inline struct markdown_text markdown_record_text(const struct markdown_records *records,
                                                        const struct markdown_record *it) {
    struct markdown_text text = {NULL, 0};
    if (it->place == MARKDOWN_PLACE_SOURCE) {
        text.bytes = records->text + it->at;
        text.length = it->length;
    } else if (it->place == MARKDOWN_PLACE_POOL) {
        const uint8_t *pool = records->bytes + MARKDOWN_RECORD_SIZE * ((size_t)records->count + 1);
        text.bytes = (const char *)pool + it->at;
        text.length = it->length;
    }
    return text;
}

/** Returns the text of the first part of this kind, as `MARKDOWN_KIND_TITLE`, or none. */
static inline struct markdown_text markdown_record_part(const struct markdown_records *records,
                                                        const struct markdown_record *it, enum markdown_kind kind) {
    struct markdown_text none = {NULL, 0};
    for (uint32_t i = 1; i <= it->parts; i++) {
        struct markdown_record part = markdown_records_get(records, it->number + i);
        if (part.kind == kind) {
            return markdown_record_text(records, &part);
        }
    }
    return none;
}

/** Returns the number with which an ordered list begins. */
static inline uint64_t markdown_record_number(const struct markdown_record *it) {
    return it->place == MARKDOWN_PLACE_NUMBER ? it->at | (uint64_t)it->length << 32 : 0;
}

/** Returns 1 if a start or an end of this kind is that of a block, and 0 if it is that of an inline element. */
static inline int markdown_kind_is_block(uint8_t kind) {
    uint8_t start = (uint8_t)(kind & ~MARKDOWN_KIND_END);
    return start < MARKDOWN_KIND_EMPHASIS || start == MARKDOWN_KIND_METADATA_BLOCK;
}

/** What a walk calls: each returns 0 to go on. Those that are NULL are not called. */
struct markdown_callbacks {
    int (*enter)(const struct markdown_records *records, const struct markdown_record *start, void *user);
    int (*leave)(const struct markdown_records *records, const struct markdown_record *end, void *user);
    /** For each event that is neither a start nor an end, though it may have no text, as a break. */
    int (*text)(const struct markdown_records *records, const struct markdown_record *it, struct markdown_text text,
                void *user);
};

/** Calls back for each event, in order. Returns 0, or the first other value that a callback returns. */
static inline int markdown_records_walk(const struct markdown_records *records, const struct markdown_callbacks *calls,
                                        void *user) {
    for (uint32_t number = 0; number < records->entries; number = markdown_records_after(records, number)) {
        struct markdown_record it = markdown_records_get(records, number);
        int result = 0;
        if (it.kind < MARKDOWN_KIND_TEXT) {
            result = calls->enter == NULL ? 0 : calls->enter(records, &it, user);
        } else if (it.kind < MARKDOWN_KIND_END) {
            result = calls->text == NULL ? 0 : calls->text(records, &it, markdown_record_text(records, &it), user);
        } else if (it.kind < MARKDOWN_KIND_QUESTION) {
            result = calls->leave == NULL ? 0 : calls->leave(records, &it, user);
        }
        if (result != 0) {
            return result;
        }
    }
    return 0;
}

#ifdef __cplusplus
}
#endif

#endif
