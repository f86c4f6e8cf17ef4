/* The HTML of the Markdown on standard input, COUNT times by the calls of one library, for calls.py:
 *
 *     calls LIBRARY COUNT        prints how many bytes the HTML has
 */
#include <cmark.h>
#include <md4c-html.h>
#include <stdio.h>
#include <stdlib.h>
#include <string.h>

#include "markdown.h"

struct buffer {
    char *at;
    size_t size, room;
};

static void grow(struct buffer *out, size_t room)
{
    if (room > out->room) {
        out->room = room;
        out->at = realloc(out->at, room);
    }
    if (!out->at)
        exit(1);
}

static void ours(struct buffer text, struct buffer *out)
{
    int64_t size;
    while ((size = markdown_to_html((uint8_t *)text.at, text.size, 0, (uint8_t *)out->at, out->room)) > (int64_t)out->room)
        grow(out, (size_t)size);
    if (size < 0)
        exit(1);
    out->size = (size_t)size;
}

static void append(const MD_CHAR *part, MD_SIZE size, void *to)
{
    struct buffer *out = to;
    if (out->size + size > out->room)
        grow(out, (out->size + size) * 2);
    memcpy(out->at + out->size, part, size);
    out->size += size;
}

static void md4c(struct buffer text, struct buffer *out)
{
    out->size = 0;
    if (md_html(text.at, (MD_SIZE)text.size, append, out, 0, 0))
        exit(1);
}

static void cmark(struct buffer text, struct buffer *out)
{
    char *html = cmark_markdown_to_html(text.at, text.size, CMARK_OPT_UNSAFE);
    if (!html)
        exit(1);
    out->size = strlen(html);
    free(html);
}

int main(int count, char **words)
{
    struct buffer text = {0}, out = {0};
    size_t got;
    if (count != 3)
        return 2;
    do {
        if (text.size == text.room)
            grow(&text, text.room ? text.room * 2 : 1 << 16);
        got = fread(text.at + text.size, 1, text.room - text.size, stdin);
        text.size += got;
    } while (got);
    grow(&out, text.size + text.size / 2 + 1);
    for (long left = atol(words[2]); left > 0; left--) {
        if (!strcmp(words[1], "ours"))
            ours(text, &out);
        else if (!strcmp(words[1], "md4c"))
            md4c(text, &out);
        else
            cmark(text, &out);
    }
    printf("%zu\n", out.size);
    return 0;
}
