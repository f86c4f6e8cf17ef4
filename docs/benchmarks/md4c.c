/* The HTML of the Markdown on standard input, by the library md4c with no extension, for compare.py. */
#include <md4c-html.h>
#include <stdio.h>
#include <stdlib.h>

static void print(const MD_CHAR *part, MD_SIZE size, void *output)
{
    fwrite(part, 1, size, output);
}

int main(void)
{
    size_t room = 1 << 16, size = 0, got;
    char *text = malloc(room);
    while (text && (got = fread(text + size, 1, room - size, stdin)) > 0) {
        size += got;
        if (size == room)
            text = realloc(text, room *= 2);
    }
    return !text || md_html(text, (MD_SIZE)size, print, stdout, 0, 0);
}
