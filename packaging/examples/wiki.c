/* wiki FILE: writes a Markdown file as safe HTML, in which a reference without a definition, as `[a]`, is a link to `/wiki/a`,
 * unless it begins with `!`. It answers as a callback would: once for each such reference, and in order.
 *
 *     cc wiki.c $(pkg-config --cflags --libs provedown)
 */
#include <stdio.h>
#include <stdlib.h>
#include <string.h>

#include <markdown.h>
#include <markdown_records.h>

#define OPTIONS (MARKDOWN_TABLES | MARKDOWN_STRIKETHROUGH)

struct bytes {
    uint8_t *start;
    size_t length;
};

static void stop(const char *why) {
    fprintf(stderr, "wiki: %s\n", why);
    exit(1);
}

static void add(struct bytes *to, const void *more, size_t length) {
    to->start = realloc(to->start, to->length + length + 1);
    if (to->start == NULL) {
        stop("there is no memory");
    }
    memcpy(to->start + to->length, more, length);
    to->length += length;
}

/* Reads the records of a text, with these answers and the texts in them. */
static struct bytes read_records(struct bytes text, struct bytes answers, struct bytes pool, struct markdown_records *records) {
    uint8_t header[MARKDOWN_RECORD_SIZE];
    struct bytes table = {NULL, 0};
    uint32_t count = (uint32_t)(answers.length / MARKDOWN_RECORD_SIZE);
    markdown_records_write_header(header, count, (uint32_t)pool.length, (uint32_t)text.length);
    add(&table, header, sizeof header);
    add(&table, answers.start, answers.length);
    add(&table, pool.start, pool.length);
    const char *source = (const char *)text.start;
    int64_t length;
    uint8_t *start = markdown_records_alloc(source, text.length, OPTIONS, table.start, table.length, &length);
    free(table.start);
    if (start == NULL || !markdown_records_open(records, source, text.length, start, (size_t)length)) {
        stop("the file cannot be read: is it UTF-8?");
    }
    return (struct bytes){start, (size_t)length};
}

/* Adds the answer to a question, and returns 1 if it is a link. */
static int answer(const struct markdown_record *question, struct markdown_text label, struct bytes *answers, struct bytes *pool) {
    struct markdown_record it = {.kind = MARKDOWN_KIND_ANSWER, .start = question->start, .end = question->end};
    if (label.bytes[0] != '!') {
        it.detail = 1;
        it.place = MARKDOWN_PLACE_POOL;
        it.at = (uint32_t)pool->length;
        add(pool, "/wiki/", 6);
        add(pool, label.bytes, label.length);
        it.length = (uint32_t)pool->length - it.at;
    }
    uint8_t record[MARKDOWN_RECORD_SIZE];
    markdown_record_write(record, &it);
    add(answers, record, sizeof record);
    return it.detail;
}

int main(int count, char **words) {
    FILE *file = count == 2 ? fopen(words[1], "rb") : NULL;
    struct bytes text = {NULL, 0}, answers = {NULL, 0}, pool = {NULL, 0};
    char some[4096];
    size_t length;
    if (file == NULL) {
        stop("the file cannot be read");
    }
    while ((length = fread(some, 1, sizeof some, file)) > 0) {
        add(&text, some, length);
    }
    add(&answers, "", 0);
    add(&pool, "", 0);
    struct markdown_records records;
    struct bytes read = read_records(text, answers, pool, &records);
    for (uint32_t at = 0; at < records.entries; at = markdown_records_after(&records, at)) {
        struct markdown_record it = markdown_records_get(&records, at);
        if (it.kind == MARKDOWN_KIND_QUESTION && answer(&it, markdown_record_text(&records, &it), &answers, &pool)) {
            /* What is before a question depends on the answers before it alone, so it has the same number again. */
            markdown_free(read.start);
            read = read_records(text, answers, pool, &records);
        }
    }
    const char *source = (const char *)text.start;
    char *html = markdown_records_safe_html_alloc(source, text.length, read.start, read.length, OPTIONS, NULL);
    if (html == NULL) {
        stop("there is no memory");
    }
    fputs(html, stdout);
    markdown_free(html);
    markdown_free(read.start);
    free(pool.start);
    free(answers.start);
    free(text.start);
    return fclose(file) != 0;
}
