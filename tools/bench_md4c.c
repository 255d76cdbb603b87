/* Renders the file that is named with md4c and its three extensions, for tools/bench.py. */
#include <md4c-html.h>
#include <stdio.h>
#include <stdlib.h>
#include <string.h>

struct text {
    char *bytes;
    size_t size, room;
};

static void append(const MD_CHAR *bytes, MD_SIZE size, void *into) {
    struct text *text = into;
    if (text->room - text->size < size) {
        text->room = 2 * (text->size + size) + 65536;
        text->bytes = realloc(text->bytes, text->room);
        if (!text->bytes) exit(1);
    }
    memcpy(text->bytes + text->size, bytes, size);
    text->size += size;
}

int main(int count, char **words) {
    struct text in = {0}, html = {0};
    char chunk[65536];
    FILE *file = count == 2 ? fopen(words[1], "rb") : NULL;
    if (!file) return 1;
    for (size_t size; (size = fread(chunk, 1, sizeof chunk, file)) > 0;) append(chunk, (MD_SIZE)size, &in);
    unsigned extensions = MD_FLAG_TABLES | MD_FLAG_TASKLISTS | MD_FLAG_STRIKETHROUGH;
    if (md_html(in.bytes ? in.bytes : "", (MD_SIZE)in.size, append, &html, extensions, MD_HTML_FLAG_XHTML)) return 1;
    return fwrite(html.bytes, 1, html.size, stdout) == html.size ? 0 : 1;
}
