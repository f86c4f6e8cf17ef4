/* Tests what provedown.c adds to the proved calls: calls that allocate, NULL, the version; and the stack that the header
 * speaks of. What the calls give is compared with stored texts in examples/c. */
#include <pthread.h>
#include <stdio.h>
#include <stdlib.h>
#include <string.h>

#include "markdown.h"

/* All extensions. */
#define ALL_OPTIONS ((uint32_t)0xeffe | MARKDOWN_AUTOLINKS | MARKDOWN_HEADING_IDS)

/* The stack that is enough, as the header says. */
#define SMALL_STACK (64 * 1024)

/* A call in both of its forms. */
struct calls {
    int64_t (*into_buffer)(const uint8_t *, size_t, uint32_t, uint8_t *, size_t);
    char *(*allocating)(const char *, size_t, uint32_t, int64_t *);
};

static const struct calls all_calls[] = {
    {markdown_to_html, markdown_html_alloc},
    {markdown_to_safe_html, markdown_safe_html_alloc},
    {markdown_to_json, markdown_json_alloc},
    {markdown_to_outline, markdown_outline_alloc},
};
#define CALL_COUNT (sizeof all_calls / sizeof all_calls[0])

static void check(int holds, const char *what) {
    if (!holds) {
        fprintf(stderr, "calls_test: %s\n", what);
        exit(1);
    }
}

/* A call without a buffer gives the length of what the call that allocates gives, which ends with a NUL. */
static void test_same_length(const struct calls *calls, const char *text, size_t text_length) {
    int64_t wanted = calls->into_buffer((const uint8_t *)text, text_length, ALL_OPTIONS, NULL, 0);
    int64_t length = -1;
    char *result = calls->allocating(text, text_length, ALL_OPTIONS, &length);
    check(wanted >= 0 && result != NULL && length == wanted && result[length] == 0, "the lengths differ");
    uint8_t *out = malloc((size_t)length + 1);
    check(out != NULL, "out of memory");
    check(calls->into_buffer((const uint8_t *)text, text_length, ALL_OPTIONS, out, (size_t)length) == length &&
              memcmp(result, out, (size_t)length) == 0,
          "the results differ");
    free(out);
    markdown_free(result);
}

static void test_without_text(const struct calls *calls) {
    char *result = calls->allocating(NULL, 0, MARKDOWN_DEFAULT, NULL);
    check(result != NULL && result[0] == 0, "NULL is not taken for no text");
    check(calls->into_buffer(NULL, 0, MARKDOWN_DEFAULT, NULL, 0) == 0, "no text gives something");
    markdown_free(result);
}

static void test_status(const struct calls *calls) {
    int64_t length = 0;
    check(calls->allocating("a\xff", 2, MARKDOWN_DEFAULT, &length) == NULL, "taken as UTF-8");
    check(length == MARKDOWN_NOT_UTF8, "another status than that of text that is not UTF-8");
    check(calls->allocating("a\xff", 2, MARKDOWN_DEFAULT, NULL) == NULL, "taken as UTF-8");
}

/* A call that allocates gives this. */
static void test_result(const struct calls *calls, const char *text, uint32_t options, const char *wanted) {
    char *result = calls->allocating(text, strlen(text), options, NULL);
    check(result != NULL && strcmp(result, wanted) == 0, wanted);
    markdown_free(result);
}

/* The bit of ids is honoured by all calls, and by none in the port's profile; a bit that means nothing is an error. */
static void test_heading_ids(void) {
    const struct calls html = all_calls[0], safe = all_calls[1], json = all_calls[2], outline = all_calls[3];
    const char *text = "# A 1\n\n# A\n\n# A\n";
    test_result(&html, text, MARKDOWN_HEADING_IDS,
                "<h1 id=\"a-1\">A 1</h1>\n<h1 id=\"a\">A</h1>\n<h1 id=\"a-2\">A</h1>\n");
    test_result(&html, text, MARKDOWN_DEFAULT, "<h1>A 1</h1>\n<h1>A</h1>\n<h1>A</h1>\n");
    test_result(&html, text, MARKDOWN_PROFILE | MARKDOWN_HEADING_IDS, "<h1>A 1</h1>\n<h1>A</h1>\n<h1>A</h1>\n");
    test_result(&safe, "# a\n\n[b](#a)\n", MARKDOWN_GITHUB,
                "<h1 id=\"user-content-a\">a</h1>\n<p><a href=\"#user-content-a\">b</a></p>\n");
    test_result(&outline, "# A *b*\n", MARKDOWN_HEADING_IDS,
                "{\"level\":1,\"text\":\"A b\",\"range\":{\"start\":0,\"end\":8},\"id\":\"a-b\"}\n");
    test_result(&outline, "# A *b*\n", MARKDOWN_DEFAULT,
                "{\"level\":1,\"text\":\"A b\",\"range\":{\"start\":0,\"end\":8}}\n");
    char *lines = json.allocating("# A\n", 4, MARKDOWN_HEADING_IDS, NULL);
    check(lines != NULL && strstr(lines, "\"id\":\"a\"") != NULL, "the events have no id");
    markdown_free(lines);
    int64_t length = 0;
    check(html.allocating(text, strlen(text), (uint32_t)1 << 26, &length) == NULL && length == MARKDOWN_UNKNOWN_OPTION,
          "a bit that means nothing is taken");
}

/* The bit of bare addresses is honoured by all calls, and by none in the port's profile. */
static void test_bare_addresses(void) {
    const struct calls html = all_calls[0], safe = all_calls[1], json = all_calls[2], outline = all_calls[3];
    const char *text = "www.a.b x@y.z", *none = "<p>www.a.b x@y.z</p>\n";
    const char *links = "<p><a href=\"http://www.a.b\">www.a.b</a> <a href=\"mailto:x@y.z\">x@y.z</a></p>\n";
    const char *safe_links = "<p><a href=\"http://www.a.b\" rel=\"nofollow ugc noopener\">www.a.b</a> "
                             "<a href=\"mailto:x@y.z\" rel=\"nofollow ugc noopener\">x@y.z</a></p>\n";
    test_result(&html, text, MARKDOWN_AUTOLINKS, links);
    test_result(&html, text, MARKDOWN_DEFAULT, none);
    test_result(&html, text, MARKDOWN_PROFILE | MARKDOWN_AUTOLINKS, none);
    test_result(&safe, text, MARKDOWN_GITHUB, safe_links);
    test_result(&html, "~a~ ^b^ $c$ www.d.e", MARKDOWN_ALL,
                "<p><sub>a</sub> <sup>b</sup> <span class=\"math math-inline\">c</span> "
                "<a href=\"http://www.d.e\">www.d.e</a></p>\n");
    test_result(&json, "x@y.z", MARKDOWN_AUTOLINKS,
                "[{\"Start\":\"Paragraph\"},{\"start\":0,\"end\":5}]\n"
                "[{\"Start\":{\"Link\":{\"link_type\":\"Email\",\"dest_url\":\"x@y.z\",\"title\":\"\",\"id\":\"\"}}},"
                "{\"start\":0,\"end\":5}]\n"
                "[{\"Text\":\"x@y.z\"},{\"start\":0,\"end\":5}]\n"
                "[{\"End\":\"Link\"},{\"start\":0,\"end\":5}]\n"
                "[{\"End\":\"Paragraph\"},{\"start\":0,\"end\":5}]\n");
    /* (an address keeps its hyphens) */
    test_result(&outline, "# www.a.b/c--d\n", MARKDOWN_AUTOLINKS | MARKDOWN_SMART,
                "{\"level\":1,\"text\":\"www.a.b/c--d\",\"range\":{\"start\":0,\"end\":15}}\n");
}

/* Safe HTML of a text by rules, and of its records, is this. */
static void test_rules(const char *text, const struct markdown_safe_rules *rules, const char *wanted) {
    size_t text_length = strlen(text);
    int64_t length = 0;
    char *result = markdown_safe_html_by_alloc(text, text_length, MARKDOWN_DEFAULT, rules, &length);
    check(result != NULL && strcmp(result, wanted) == 0 && (size_t)length == strlen(wanted), wanted);
    markdown_free(result);
    check(markdown_to_safe_html_by((const uint8_t *)text, text_length, MARKDOWN_DEFAULT, rules, NULL, 0) == length,
          "the lengths by rules differ");
    int64_t records_length = 0;
    uint8_t *records = markdown_records_alloc(text, text_length, MARKDOWN_DEFAULT, NULL, 0, &records_length);
    check(records != NULL, "no records");
    result = markdown_records_safe_html_by_alloc(text, text_length, records, (size_t)records_length, MARKDOWN_DEFAULT,
                                                 rules, NULL);
    check(result != NULL && strcmp(result, wanted) == 0, wanted);
    check(markdown_records_to_safe_html_by((const uint8_t *)text, text_length, records, (size_t)records_length,
                                           MARKDOWN_DEFAULT, rules, NULL, 0) == length,
          "the lengths of records by rules differ");
    markdown_free(result);
    markdown_free(records);
}

/* No safe HTML by these rules, for this reason. */
static void test_refused_rules(const char *text, struct markdown_safe_rules rules, int64_t status) {
    int64_t length = 0;
    check(markdown_safe_html_by_alloc(text, strlen(text), MARKDOWN_DEFAULT, &rules, &length) == NULL && length == status,
          "another status than that of the rules");
    uint8_t kept = 7;
    check(markdown_to_safe_html_by((const uint8_t *)text, strlen(text), MARKDOWN_DEFAULT, &rules, &kept, 1) == status &&
              kept == 7,
          "a buffer is changed at an error");
}

/* What a caller chooses of safe HTML. */
static void test_safe_rules(void) {
    const char *text = "![a](b) [c](//d) [e](#f)";
    const char *first = "<p><img src=\"b\" alt=\"a\" /> <a href=\"//d\" rel=\"nofollow ugc noopener\">c</a> "
                        "<a href=\"#user-content-f\">e</a></p>\n";
    const struct markdown_safe_rules none = MARKDOWN_SAFE_RULES, zero = {0};
    struct markdown_safe_rules links = none, texts = none, flat = none, short_one = none, wrong = none;
    test_rules(text, NULL, first);
    test_rules(text, &none, first);
    test_refused_rules(text, zero, MARKDOWN_OVER_LIMIT);
    links.bits = MARKDOWN_SAFE_IMAGE_LINKS;
    links.prefix = "17-18-";
    links.prefix_length = 3;
    test_rules(text, &links,
               "<p><a href=\"b\">a</a> <a href=\"//d\" rel=\"nofollow ugc noopener\">c</a> "
               "<a href=\"#user-content-17-f\">e</a></p>\n");
    texts.bits = MARKDOWN_SAFE_IMAGE_LINKS | MARKDOWN_SAFE_IMAGE_TEXTS | MARKDOWN_SAFE_NO_REL;
    test_rules(text, &texts, "<p>a <a href=\"//d\">c</a> <a href=\"#user-content-f\">e</a></p>\n");
    flat.nesting = 1;
    test_rules(text, &flat, "<p>a c e</p>\n");
    /* (`<p>a</p>` and a line feed) */
    short_one.limit = 9;
    test_rules("a", &short_one, "<p>a</p>\n");
    short_one.limit = 8;
    test_refused_rules("a", short_one, MARKDOWN_OVER_LIMIT);
    wrong.bits = (uint32_t)1 << 3;
    test_refused_rules("a", wrong, MARKDOWN_UNKNOWN_OPTION);
    wrong.bits = 0;
    wrong.prefix = "\xff";
    wrong.prefix_length = 1;
    test_refused_rules("a", wrong, MARKDOWN_NOT_UTF8);
}

static void test_call(const struct calls *calls) {
    test_same_length(calls, "", 0);
    test_same_length(calls, "# *a*\0b", 7);
    /* The results of these are longer than any room that is enough for usual texts. */
    static char text[20000];
    memset(text, '&', sizeof text);
    test_same_length(calls, text, sizeof text);
    memset(text, '\n', sizeof text);
    for (size_t i = 0; i < sizeof text; i += 2) {
        text[i] = '#';
    }
    test_same_length(calls, text, sizeof text);
    test_without_text(calls);
    test_status(calls);
}

/* Renders a text by all calls, and its records. */
static void *render(void *text) {
    size_t length = strlen(text);
    for (size_t i = 0; i < CALL_COUNT; i++) {
        char *result = all_calls[i].allocating(text, length, ALL_OPTIONS, NULL);
        check(result != NULL, "refused on a small stack");
        markdown_free(result);
    }
    int64_t records_length = 0;
    uint8_t *records = markdown_records_alloc(text, length, ALL_OPTIONS, NULL, 0, &records_length);
    check(records != NULL, "records are refused on a small stack");
    char *safe = markdown_records_safe_html_alloc(text, length, records, (size_t)records_length, ALL_OPTIONS, NULL);
    char *folded = markdown_fold_alloc(text, length, NULL);
    check(safe != NULL && folded != NULL, "a rendering of records is refused on a small stack");
    markdown_free(records);
    markdown_free(safe);
    markdown_free(folded);
    return NULL;
}

static void test_small_stack(const char *part) {
    static char text[10000];
    size_t length = strlen(part);
    for (size_t at = 0; at + length < sizeof text; at += length) {
        memcpy(text + at, part, length + 1);
    }
    pthread_attr_t attributes;
    pthread_t thread;
    check(pthread_attr_init(&attributes) == 0 && pthread_attr_setstacksize(&attributes, SMALL_STACK) == 0 &&
              pthread_create(&thread, &attributes, render, text) == 0 && pthread_join(thread, NULL) == 0 &&
              pthread_attr_destroy(&attributes) == 0,
          "no thread");
}

int main(void) {
    check(strcmp(markdown_version(), MARKDOWN_VERSION) == 0, "another version than the header's");
    markdown_free(NULL);
    for (size_t i = 0; i < CALL_COUNT; i++) {
        test_call(&all_calls[i]);
    }
    test_heading_ids();
    test_bare_addresses();
    test_safe_rules();
    static const char *const parts[] = {"> ", "- ", "> 1. ", "*a ", "**a *b ", "![", "[a](", "# a\n", "<a href=\"",
                                        "$`", "&copy;", "[^a]", "~a^b", "\"a' ", "<!-- ", "a\n\n- b\n\n    c\n",
                                        "[a]: <b> 'c'\n\n"};
    for (size_t i = 0; i < sizeof parts / sizeof parts[0]; i++) {
        test_small_stack(parts[i]);
    }
    puts("C: the calls that allocate, NULL, the version, ids of headings, bare addresses, rules of safe HTML, a small stack");
    return 0;
}
