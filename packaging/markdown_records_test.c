/* Tests markdown_records.h over records that the library writes: what they say, that they render as their text does, answers to
 * questions, and that changed records are refused or read without a bad access. Sanitizers make the last one worth more. */
#include <stdio.h>
#include <stdlib.h>
#include <string.h>

#include "markdown.h"
#include "markdown_records.h"

/* All extensions that records have. */
#define OPTIONS ((uint32_t)0xeffe & ~(uint32_t)(1 << 9))

/* How often records are changed, and each how many times the library reads them too. */
#define DAMAGES 100000
#define DAMAGES_OF_A_RENDERING 100

static const char *const texts[] = {
    "",
    "a *b* **c** `d` \\\ne\nf  \ng ~~h~~ ^i^ ~j~ $k$ $$l$$ <b>",
    "# A *b* {#c .d e=f g}\n\nB\n=\n",
    "> a\n\n> [!NOTE]\n> b\n\n---\n\n    c\n\n```d e\nf\n```\n\n<p>\ng\n</p>\n",
    "- a\n- b\n\n123456789. c\n\n- [ ] d\n- [x] e\n",
    "|a|b|c|\n|-|:-:|-:|\n|d|\n",
    "[a](b 'c') ![d](<e> \"f\") [g][h] [H][] [h] <i:j> <k@l.m> [[n]] [[o|p]] &copy; [q] [r]\n\n[h]: s 't'\n[u]: v\n",
    "---\na: b\n---\n\n+++\n\n[^a]\n\n[^a]: b\n\xc3\xa9 \"c\" -- d...\n",
};
#define TEXT_COUNT (sizeof texts / sizeof texts[0])

static void check(int holds, const char *what) {
    if (!holds) {
        fprintf(stderr, "markdown_records_test: %s\n", what);
        exit(1);
    }
}

/* The records of a text, opened. `bytes` is to be freed. */
struct opened {
    struct markdown_records records;
    uint8_t *bytes;
    size_t length;
};

static struct opened open_text(const char *text, const uint8_t *answers, size_t answers_length) {
    struct opened opened;
    int64_t length;
    opened.bytes = markdown_records_alloc(text, strlen(text), OPTIONS, answers, answers_length, &length);
    check(opened.bytes != NULL, "a text has no records");
    opened.length = (size_t)length;
    check(markdown_records_open(&opened.records, text, strlen(text), opened.bytes, opened.length), text);
    return opened;
}

static int is(struct markdown_text text, const char *wanted) {
    return text.bytes != NULL && text.length == strlen(wanted) && memcmp(text.bytes, wanted, text.length) == 0;
}

/* The first record of a kind among the events, or else among the definitions. */
static struct markdown_record first(const struct markdown_records *records, enum markdown_kind kind) {
    for (uint32_t number = 0; number < records->count; number = markdown_records_after(records, number)) {
        struct markdown_record it = markdown_records_get(records, number);
        if (it.kind == kind) {
            return it;
        }
    }
    check(0, "a record is missing");
    return markdown_records_get(records, 0);
}

static void test_texts(void) {
    struct opened links = open_text(texts[6], NULL, 0), heading = open_text(texts[2], NULL, 0);
    struct markdown_record it = first(&links.records, MARKDOWN_KIND_LINK);
    check(it.detail == MARKDOWN_LINK_INLINE && it.start == 0 && it.end == 10, "a link is another");
    check(is(markdown_record_text(&links.records, &it), "b"), "a link leads elsewhere");
    check(is(markdown_record_part(&links.records, &it, MARKDOWN_KIND_TITLE), "c"), "a link has another title");
    check(markdown_record_part(&links.records, &it, MARKDOWN_KIND_LABEL).bytes == NULL, "a link has a label");
    it = first(&links.records, MARKDOWN_KIND_DEFINITION);
    check(it.number == links.records.entries && is(markdown_record_text(&links.records, &it), "h"), "a definition is another");
    check(is(markdown_record_part(&links.records, &it, MARKDOWN_KIND_DESTINATION), "s"), "a definition leads elsewhere");
    it = first(&heading.records, MARKDOWN_KIND_HEADING);
    check(it.detail == 1 && is(markdown_record_text(&heading.records, &it), "c"), "a heading is another");
    check(is(markdown_record_part(&heading.records, &it, MARKDOWN_KIND_CLASS), "d") &&
              is(markdown_record_part(&heading.records, &it, MARKDOWN_KIND_NAME), "e") &&
              is(markdown_record_part(&heading.records, &it, MARKDOWN_KIND_VALUE), "f"),
          "a heading has other attributes");
    markdown_free(links.bytes);
    markdown_free(heading.bytes);
    struct opened list = open_text("123456789. a\n", NULL, 0);
    it = first(&list.records, MARKDOWN_KIND_LIST);
    check(markdown_record_number(&it) == 123456789, "a list begins with another number");
    markdown_free(list.bytes);
}

/* What a walk has met. */
struct met {
    size_t starts, ends, texts, sum, left;
};

static void add_text(struct met *met, struct markdown_text text) {
    for (size_t i = 0; i < text.length; i++) {
        met->sum += (unsigned char)text.bytes[i];
    }
}

/* Reads the texts of a record and of its parts. */
static int enter(const struct markdown_records *records, const struct markdown_record *start, void *user) {
    struct met *met = user;
    met->starts++;
    add_text(met, markdown_record_text(records, start));
    for (uint32_t i = 1; i <= start->parts; i++) {
        struct markdown_record part = markdown_records_get(records, start->number + i);
        add_text(met, markdown_record_text(records, &part));
    }
    return 0;
}

static int leave(const struct markdown_records *records, const struct markdown_record *end, void *user) {
    (void)records, (void)end;
    ((struct met *)user)->ends++;
    return 0;
}

static int meet_text(const struct markdown_records *records, const struct markdown_record *it, struct markdown_text text,
                     void *user) {
    (void)records;
    struct met *met = user;
    check((text.bytes != NULL) == (it->kind <= MARKDOWN_KIND_FOOTNOTE_REFERENCE), "an event has no text, or has one");
    met->texts++;
    add_text(met, text);
    return met->left != 0 && --met->left == 0 ? 7 : 0;
}

static const struct markdown_callbacks all_callbacks = {enter, leave, meet_text};

static void test_walk(void) {
    struct opened opened = open_text("a *b* `c`", NULL, 0);
    struct met met = {0, 0, 0, 0, 0}, stopped = {0, 0, 0, 0, 2};
    check(markdown_records_walk(&opened.records, &all_callbacks, &met) == 0, "a walk stops");
    check(met.starts == 2 && met.ends == 2 && met.texts == 4, "a walk meets other events");
    check(markdown_records_walk(&opened.records, &all_callbacks, &stopped) == 7, "a walk does not stop");
    check(stopped.starts == 2 && stopped.ends == 0 && stopped.texts == 2, "a walk stops elsewhere");
    struct markdown_callbacks nobody = {NULL, NULL, NULL};
    check(markdown_records_walk(&opened.records, &nobody, NULL) == 0, "a walk without callbacks stops");
    markdown_free(opened.bytes);
}

/* Records are rendered as their text is. */
static void test_rendering(const char *text) {
    struct opened opened = open_text(text, NULL, 0);
    size_t length = strlen(text);
    char *html = markdown_html_alloc(text, length, OPTIONS, NULL);
    char *again = markdown_records_html_alloc(text, length, opened.bytes, opened.length, OPTIONS, NULL);
    check(html != NULL && again != NULL && strcmp(html, again) == 0, "records are rendered in another way");
    char *safe = markdown_safe_html_alloc(text, length, OPTIONS, NULL);
    char *safe_again = markdown_records_safe_html_alloc(text, length, opened.bytes, opened.length, OPTIONS, NULL);
    check(safe != NULL && safe_again != NULL && strcmp(safe, safe_again) == 0, "records are not rendered as safe HTML");
    check(markdown_records_to_html((const uint8_t *)text, length, opened.bytes, opened.length, OPTIONS, NULL, 0) ==
              (int64_t)strlen(html),
          "the lengths differ");
    check(markdown_to_records((const uint8_t *)text, length, OPTIONS, NULL, 0, NULL, 0) == (int64_t)opened.length,
          "the lengths differ");
    struct met met = {0, 0, 0, 0, 0};
    markdown_records_walk(&opened.records, &all_callbacks, &met);
    check(met.starts == met.ends, "there are more starts than ends");
    markdown_free(html);
    markdown_free(again);
    markdown_free(safe);
    markdown_free(safe_again);
    markdown_free(opened.bytes);
}

/* Answers with the destination "/x" for the labels that begin with x. All of them are in the pool, which is "/x". */
struct answers {
    uint8_t bytes[MARKDOWN_RECORD_SIZE * 9 + 2];
    uint32_t count;
};

static size_t answers_length(struct answers *answers, size_t text_length) {
    uint8_t *pool = answers->bytes + MARKDOWN_RECORD_SIZE * ((size_t)answers->count + 1);
    markdown_records_write_header(answers->bytes, answers->count, 2, (uint32_t)text_length);
    memcpy(pool, "/x", 2);
    return (size_t)(pool + 2 - answers->bytes);
}

/* Reads a text with an answer to each of its questions, which are asked in order: what comes before a question depends on the
 * answers before it alone, so that after an answer it has the same number in the records that are read next. */
static struct opened read_with_answers(const char *text) {
    struct answers answers = {{0}, 0};
    struct opened opened = open_text(text, answers.bytes, answers_length(&answers, strlen(text)));
    for (uint32_t at = 0; at < opened.records.entries; at = markdown_records_after(&opened.records, at)) {
        struct markdown_record it = markdown_records_get(&opened.records, at);
        if (it.kind != MARKDOWN_KIND_QUESTION) {
            continue;
        }
        int is_link = markdown_record_text(&opened.records, &it).bytes[0] == 'x';
        struct markdown_record answer = {MARKDOWN_KIND_ANSWER, 0, 0, 0, it.start, it.end, 0, 0, 0, 0};
        if (is_link) {
            answer.detail = 1;
            answer.place = MARKDOWN_PLACE_POOL;
            answer.length = 2;
        }
        check(answers.count < 8, "there are too many questions");
        markdown_record_write(answers.bytes + MARKDOWN_RECORD_SIZE * (size_t)++answers.count, &answer);
        if (is_link) {
            markdown_free(opened.bytes);
            opened = open_text(text, answers.bytes, answers_length(&answers, strlen(text)));
        }
    }
    return opened;
}

static void test_answers(void) {
    const char *text = "[a] [x] [b][x2] [x3][]\n\n[x [y] z][x4]\n";
    struct opened opened = read_with_answers(text);
    char *html = markdown_records_html_alloc(text, strlen(text), opened.bytes, opened.length, OPTIONS, NULL);
    check(html != NULL && strcmp(html, "<p>[a] <a href=\"/x\">x</a> <a href=\"/x\">b</a> <a href=\"/x\">x3</a></p>\n"
                                       "<p><a href=\"/x\">x [y] z</a></p>\n") == 0,
          "answers have no effect");
    markdown_free(html);
    markdown_free(opened.bytes);
    opened = open_text(text, NULL, 0);
    uint32_t questions = 0;
    for (uint32_t number = 0; number < opened.records.count; number++) {
        questions += markdown_records_get(&opened.records, number).kind == MARKDOWN_KIND_QUESTION;
    }
    check(questions > 0, "nothing is asked");
    markdown_free(opened.bytes);
}

static void test_status(void) {
    const uint8_t *bad = (const uint8_t *)"a\xff", *good = (const uint8_t *)"a";
    uint8_t head[MARKDOWN_RECORD_SIZE], out[64];
    markdown_records_write_header(head, 0, 0, 1);
    check(markdown_to_records(bad, 2, 0, NULL, 0, NULL, 0) == MARKDOWN_NOT_UTF8, "taken as UTF-8");
    check(markdown_to_records(good, 1, (uint32_t)1 << 26, NULL, 0, NULL, 0) == MARKDOWN_UNKNOWN_OPTION, "an option is taken");
    check(markdown_to_records(good, 1, 0, good, 1, NULL, 0) == MARKDOWN_NOT_RECORDS, "taken as answers");
    check(markdown_records_to_html(good, 1, NULL, 0, 0, NULL, 0) == MARKDOWN_NOT_RECORDS, "no bytes are records");
    check(markdown_records_to_html(good, 1, head, sizeof head, 0, NULL, 0) == 0, "no records have HTML");
    check(markdown_records_to_safe_html(NULL, 0, head, sizeof head, 0, NULL, 0) == MARKDOWN_NOT_RECORDS,
          "records of another text are taken");
    check(markdown_to_records(NULL, 0, 0, NULL, 0, out, sizeof out) == MARKDOWN_RECORD_SIZE &&
              markdown_records_check(out, MARKDOWN_RECORD_SIZE, 0),
          "no text has records");
    char *folded = markdown_fold_alloc("A\xc3\x84\xc3\x9f", 5, NULL);
    check(folded != NULL && strcmp(folded, "a\xc3\xa4ss") == 0, "a label has another folding");
    check(markdown_fold((const uint8_t *)"AB", 2, out, 1) == 2 && out[0] == 'M', "a short buffer is written to");
    check(markdown_fold(bad, 2, out, sizeof out) == MARKDOWN_NOT_UTF8, "taken as UTF-8");
    markdown_free(folded);
}

/* One change, of a byte or of the length, makes records of "[a](b 'c')\n\n[d]: e" others. */
static void test_refused(void) {
    static const struct {
        size_t at;
        uint8_t byte;
        const char *what;
    } changes[] = {
        {0, 'X', "another format"},
        {4, 2, "another version"},
        {8, 1, "another count"},
        {12, 0, "definitions among events"},
        {12, 99, "more events than records"},
        {16, 9, "another pool"},
        {20, 9, "another text"},
        {24, 0x18, "an unknown start"},
        {24, 0x2b, "an unknown event"},
        {24, 0x40, "the end of nothing"},
        {24, 0x81, "a part that belongs to nothing"},
        {25, 1, "a detail of a paragraph"},
        {26, 1, "a text of a paragraph"},
        {27, 1, "a byte that is not zero"},
        {28, 99, "a range that ends before it begins"},
        {44, 1, "a paragraph with a part"},
        {49, 11, "an unknown type of link"},
        {50, 0, "a link without a destination"},
        {50, 3, "a number in place of a destination"},
        {51, 1, "a byte that is not zero"},
        {60, 99, "a text outside of the source"},
        {68, 0, "a part too many"},
        {68, 99, "more parts than records"},
        {72, 0x83, "a class of a link"},
        {73, 1, "a detail of a part"},
        {74, 0, "a part without a text"},
        {76, 1, "a range of a part"},
        {92, 1, "a part with a part"},
    };
    struct opened opened = open_text("[a](b 'c')\n\n[d]: e", NULL, 0);
    for (size_t i = 0; i < sizeof changes / sizeof changes[0]; i++) {
        uint8_t before = opened.bytes[changes[i].at];
        opened.bytes[changes[i].at] = changes[i].byte;
        check(!markdown_records_check(opened.bytes, opened.length, 18), changes[i].what);
        opened.bytes[changes[i].at] = before;
    }
    check(!markdown_records_check(opened.bytes, opened.length - 1, 18), "a byte is missing");
    check(!markdown_records_check(NULL, 0, 18), "there are no bytes");
    check(markdown_records_check(opened.bytes, opened.length, 18), "the records are not as before");
    markdown_free(opened.bytes);
}

static size_t random_below(size_t limit) {
    static uint64_t state = 7;
    state = state * 6364136223846793005u + 1442695040888963407u;
    return (size_t)(state >> 33) % limit;
}

/* A copy of bytes in memory of just their length. */
static void *copy_of(const void *bytes, size_t length) {
    void *copy = malloc(length == 0 ? 1 : length);
    check(copy != NULL, "out of memory");
    memcpy(copy, bytes, length);
    return copy;
}

/* Changes some of the bytes: of numbers and kinds, seldom of the header, and to values at the borders of what is there. */
static void damage(uint8_t *bytes, size_t length) {
    static const uint8_t values[] = {0, 1, 2, 3, 0x15, 0x20, 0x40, 0x60, 0x62, 0x81, 0x86, 0xff};
    for (size_t left = 1 + random_below(3); left > 0 && length > 0; left--) {
        size_t from = random_below(16) == 0 || length <= MARKDOWN_RECORD_SIZE ? 0 : MARKDOWN_RECORD_SIZE;
        uint8_t *at = bytes + from + random_below(length - from);
        *at = random_below(2) == 0 ? values[random_below(sizeof values)] : (uint8_t)(*at + random_below(3) - 1);
    }
}

/* Returns whether the changed records were read. */
static int test_damage(size_t turn) {
    const char *text = texts[turn % TEXT_COUNT];
    static struct opened all[TEXT_COUNT];
    struct opened *of = &all[turn % TEXT_COUNT];
    if (of->bytes == NULL) {
        uint8_t nothing[MARKDOWN_RECORD_SIZE];
        markdown_records_write_header(nothing, 0, 0, (uint32_t)strlen(text));
        *of = open_text(text, nothing, sizeof nothing);
    }
    size_t length = random_below(16) == 0 ? random_below(of->length + 1) : of->length, text_length = strlen(text);
    uint8_t *bytes = copy_of(of->bytes, length);
    char *source = copy_of(text, text_length);
    damage(bytes, length);
    struct markdown_records records;
    struct met met = {0, 0, 0, 0, 0};
    int is_read = markdown_records_open(&records, source, text_length, bytes, length);
    if (is_read) {
        markdown_records_walk(&records, &all_callbacks, &met);
        for (uint32_t at = records.entries; at < records.count; at = markdown_records_after(&records, at)) {
            struct markdown_record it = markdown_records_get(&records, at);
            enter(&records, &it, &met);
        }
    }
    if (turn % DAMAGES_OF_A_RENDERING == 0) {
        int64_t answer = markdown_records_to_safe_html((uint8_t *)source, text_length, bytes, length, OPTIONS, NULL, 0);
        check(answer == MARKDOWN_NOT_RECORDS || answer >= 0, "changed records have another status");
        check(answer < 0 || is_read, "the library renders what is refused here");
    }
    free(bytes);
    free(source);
    if (turn + TEXT_COUNT >= DAMAGES) {
        markdown_free(of->bytes);
    }
    return is_read;
}

int main(void) {
    test_texts();
    test_walk();
    for (size_t i = 0; i < TEXT_COUNT; i++) {
        test_rendering(texts[i]);
    }
    test_answers();
    test_status();
    test_refused();
    size_t read = 0;
    for (size_t turn = 0; turn < DAMAGES; turn++) {
        read += (size_t)test_damage(turn);
    }
    check(0 < read && read < DAMAGES, "all changed records are refused, or none");
    printf("C: records of %zu texts, answers, refusals, %d changed records of which %zu were read\n", TEXT_COUNT, DAMAGES, read);
    return 0;
}
