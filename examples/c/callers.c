/* Renders the texts of a folder and compares what the calls write with what is stored beside them, which the full reading and
 * the port's profile read alike but where a name begins with "extended"; then passes bytes that are not UTF-8, a bit that is no
 * option, and buffers that are too small. */
#include <inttypes.h>
#include <stdbool.h>
#include <stdio.h>
#include <stdlib.h>
#include <string.h>

#include "markdown.h"

#define OPTIONS MARKDOWN_STRIKETHROUGH

typedef int64_t markdown_call(const uint8_t *, size_t, uint32_t, uint8_t *, size_t);

/* Bytes that the holder frees. */
struct bytes {
    uint8_t *at;
    size_t length;
};

static void fail(const char *what, const char *where) {
    fprintf(stderr, "%s: %s\n", what, where);
    exit(1);
}

/* Memory for this many bytes, and one where it is none: no pointer is NULL. */
static uint8_t *room(size_t length) {
    uint8_t *at = malloc(length + 1);
    if (at == NULL) {
        fail("out of memory", "malloc");
    }
    return at;
}

static struct bytes read_file(const char *folder, const char *name, const char *kind) {
    char path[4096];
    if (snprintf(path, sizeof path, "%s/%s.%s", folder, name, kind) >= (int)sizeof path) {
        fail("the path is too long", name);
    }
    FILE *file = fopen(path, "rb");
    if (file == NULL || fseek(file, 0, SEEK_END) != 0) {
        fail("cannot be read", path);
    }
    long length = ftell(file);
    if (length < 0 || fseek(file, 0, SEEK_SET) != 0) {
        fail("cannot be read", path);
    }
    struct bytes all = {room((size_t)length), (size_t)length};
    if (fread(all.at, 1, all.length, file) != all.length || fclose(file) != 0) {
        fail("cannot be read", path);
    }
    return all;
}

/* The whole result: a first try with a small buffer, and a second with one of the length that was returned. */
static struct bytes whole(markdown_call *call, struct bytes text, uint32_t options) {
    struct bytes out = {room(16), 16};
    int64_t length = call(text.at, text.length, options, out.at, out.length);
    if (length > (int64_t)out.length) {
        free(out.at);
        out = (struct bytes){room((size_t)length), (size_t)length};
        length = call(text.at, text.length, options, out.at, out.length);
    }
    if (length < 0) {
        fail("refused", "a stored text");
    }
    out.length = (size_t)length;
    return out;
}

static bool all_are(const uint8_t *at, size_t length, uint8_t byte) {
    for (size_t i = 0; i < length; i++) {
        if (at[i] != byte) {
            return false;
        }
    }
    return true;
}

/* In a buffer that is too small nothing is written, and behind the whole nothing either. */
static void try_buffers(markdown_call *call, struct bytes text, uint32_t options, struct bytes stored, const char *name) {
    for (size_t room_for = 0; room_for <= stored.length + 2; room_for++) {
        uint8_t *out = room(room_for);
        memset(out, '?', room_for);
        if (call(text.at, text.length, options, out, room_for) != (int64_t)stored.length) {
            fail("another length is returned", name);
        }
        size_t written = room_for < stored.length ? 0 : stored.length;
        if (memcmp(out, stored.at, written) != 0 || !all_are(out + written, room_for - written, '?')) {
            fail("the buffer holds something else", name);
        }
        free(out);
    }
}

static void try_stored(markdown_call *call, const char *folder, const char *name, const char *kind, uint32_t options) {
    struct bytes text = read_file(folder, name, "md");
    struct bytes stored = read_file(folder, name, kind);
    struct bytes out = whole(call, text, options);
    if (out.length != stored.length || memcmp(out.at, stored.at, out.length) != 0) {
        fail("not what is stored", name);
    }
    try_buffers(call, text, options, stored, name);
    free(out.at);
    free(stored.at);
    free(text.at);
}

static void try_text(markdown_call *call, const char *folder, const char *name, const char *kind) {
    try_stored(call, folder, name, kind, OPTIONS);
    try_stored(call, folder, name, kind, OPTIONS | MARKDOWN_EXTENDED);
    if (strncmp(name, "extended", strlen("extended")) != 0) {
        try_stored(call, folder, name, kind, OPTIONS | MARKDOWN_PROFILE);
    }
}

/* A refused call returns its status, and writes nothing. */
static void try_refused(markdown_call *call, struct bytes text, uint32_t options, int64_t status, const char *what) {
    uint8_t out[64];
    memset(out, '?', sizeof out);
    if (call(text.at, text.length, options, out, sizeof out) != status) {
        fail("not refused", what);
    }
    if (!all_are(out, sizeof out, '?')) {
        fail("the buffer was written", what);
    }
}

static void try_refusals(markdown_call *call) {
    uint8_t text[] = {'a', 0xff};
    try_refused(call, (struct bytes){text, 2}, OPTIONS, MARKDOWN_NOT_UTF8, "0xff");
    const uint32_t unknown[] = {1, 1 << 12, 1 << 16, 1 << 26, UINT32_C(1) << 31};
    for (size_t i = 0; i < sizeof unknown / sizeof unknown[0]; i++) {
        try_refused(call, (struct bytes){text, 1}, OPTIONS | unknown[i], MARKDOWN_UNKNOWN_OPTION, "an unknown bit");
    }
}

int main(int count, char **words) {
    if (count < 3) {
        fail("usage", "callers FOLDER NAME ..");
    }
    for (int i = 2; i < count; i++) {
        try_text(markdown_to_html, words[1], words[i], "html");
        try_text(markdown_to_safe_html, words[1], words[i], "safe");
        try_text(markdown_to_json, words[1], words[i], "jsonl");
        try_text(markdown_to_outline, words[1], words[i], "outline");
    }
    try_refusals(markdown_to_html);
    try_refusals(markdown_to_safe_html);
    try_refusals(markdown_to_json);
    try_refusals(markdown_to_outline);
    printf("C: %d texts, as stored\n", count - 2);
    return 0;
}
