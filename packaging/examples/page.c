/* page FILE: writes a Markdown file as a page of safe HTML to standard output.
 *
 *     cc page.c $(pkg-config --cflags --libs provedown)
 */
#include <stdio.h>
#include <stdlib.h>

#include <markdown.h>

int main(int count, char **words) {
    FILE *file = count == 2 ? fopen(words[1], "rb") : NULL;
    if (file == NULL || fseek(file, 0, SEEK_END) != 0) {
        fprintf(stderr, "page: the file cannot be read\n");
        return 1;
    }
    size_t length = (size_t)ftell(file);
    char *text = malloc(length + 1), *html = NULL;
    rewind(file);
    if (text != NULL && fread(text, 1, length, file) == length) {
        html = markdown_safe_html_alloc(text, length, MARKDOWN_GITHUB, NULL);
    }
    if (html == NULL) {
        fprintf(stderr, "page: the file cannot be converted: is it UTF-8?\n");
        return 1;
    }
    printf("<!DOCTYPE html>\n<meta charset=\"utf-8\">\n<title>A page</title>\n<main>\n%s</main>\n", html);
    markdown_free(html);
    free(text);
    return fclose(file) != 0;
}
