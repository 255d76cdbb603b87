/* Each call of the library from C, with good and with faulty input. The last line is 'N passed, M failed'. */
#include <jirmoans.h>

#include <stdio.h>
#include <stdlib.h>
#include <string.h>

static int passed, failed;

static void expect(bool holds, const char *what, int line) {
    if (holds) {
        passed++;
    } else {
        failed++;
        printf("FAILED in line %d: %s\n", line, what);
    }
}

#define EXPECT(condition) expect((condition), #condition, __LINE__)

static bool is(jirmoans_fault fault, uint32_t code, size_t number) {
    return fault.code == code && fault.number == number;
}

static bool reads(jirmoans_text text, const char *wanted) {
    return text.len == strlen(wanted) && memcmp(text.at, wanted, text.len + 1) == 0;
}

static jirmoans_fault edit(jirmoans_preview *preview, size_t at, size_t del, const char *text, jirmoans_changes *changes) {
    return jirmoans_edit(preview, at, del, text, strlen(text), changes);
}

static bool has_piece(jirmoans_preview *preview, size_t unit, const char *wanted) {
    jirmoans_text piece;
    return is(jirmoans_piece(preview, unit, &piece), JIRMOANS_OK, 0) && reads(piece, wanted);
}

static bool is_first_line(jirmoans_preview *preview, size_t unit, size_t wanted) {
    size_t line = 99;
    return is(jirmoans_first_line(preview, unit, &line), JIRMOANS_OK, 0) && line == wanted;
}

static bool changed(jirmoans_changes changes, size_t first, size_t removed, size_t added, size_t again) {
    return changes.first == first && changes.removed == removed && changes.added == added && changes.again_len == again;
}

static void open_and_close(void) {
    jirmoans_preview preview = {0};
    jirmoans_settings settings = {0}, wrong = {0};
    EXPECT(is(jirmoans_open(&preview, &settings, "", 0), JIRMOANS_OK, 0));
    EXPECT(is(jirmoans_open(&preview, &settings, "", 0), JIRMOANS_ALREADY_OPEN, 0));
    EXPECT(jirmoans_units(&preview) == 0 && jirmoans_lines(&preview) == 0);
    jirmoans_close(&preview);
    jirmoans_close(&preview);
    wrong.breaks = 3;
    EXPECT(is(jirmoans_open(&preview, &wrong, "", 0), JIRMOANS_UNKNOWN_BREAKS, 0));
    wrong.breaks = JIRMOANS_BREAKS_HARD;
    wrong.max_spans = 257;
    EXPECT(is(jirmoans_open(&preview, &wrong, "", 0), JIRMOANS_LIMIT_TOO_LARGE, 0));
    wrong.max_spans = 256;
    wrong.max_containers = SIZE_MAX;
    EXPECT(is(jirmoans_open(&preview, &wrong, "", 0), JIRMOANS_LIMIT_TOO_LARGE, 0));
    EXPECT(is(jirmoans_open(&preview, &settings, "{", 1), JIRMOANS_NOT_JSON, 0));
    EXPECT(is(jirmoans_open(&preview, &settings, "{\"&;\":{\"characters\":\"y\"}}", 25), JIRMOANS_BAD_ENTRY, 0));
    EXPECT(is(jirmoans_open(&preview, &settings, "", 0), JIRMOANS_OK, 0));
    jirmoans_close(&preview);
}

static void not_open(void) {
    jirmoans_preview preview = {0};
    jirmoans_changes changes = {7, 7, 7, NULL, 7};
    jirmoans_text text = {NULL, 7};
    size_t line = 7;
    EXPECT(is(edit(&preview, 0, 0, "a", &changes), JIRMOANS_NOT_OPEN, 0));
    EXPECT(is(jirmoans_set_prelude(&preview, "", 0, &changes), JIRMOANS_NOT_OPEN, 0));
    EXPECT(is(jirmoans_piece(&preview, 0, &text), JIRMOANS_NOT_OPEN, 0));
    EXPECT(is(jirmoans_html(&preview, "a", 1, &text), JIRMOANS_NOT_OPEN, 0));
    EXPECT(is(jirmoans_first_line(&preview, 0, &line), JIRMOANS_NOT_OPEN, 0));
    EXPECT(jirmoans_units(&preview) == 0 && jirmoans_lines(&preview) == 0);
    EXPECT(changed(changes, 7, 7, 7, 7) && text.len == 7 && line == 7);
}

static void edits(void) {
    jirmoans_preview preview = {0};
    jirmoans_settings settings = {0};
    jirmoans_changes changes = {7, 7, 7, NULL, 7};
    jirmoans_text text = {NULL, 7};
    size_t line = 7;
    EXPECT(is(jirmoans_open(&preview, &settings, "", 0), JIRMOANS_OK, 0));
    EXPECT(is(edit(&preview, 0, 0, "\n# a\r\n\r\n[b] *c*\n\nd", &changes), JIRMOANS_OK, 0));
    EXPECT(changed(changes, 0, 0, 3, 0) && jirmoans_units(&preview) == 3 && jirmoans_lines(&preview) == 6);
    EXPECT(has_piece(&preview, 0, "<h1>a</h1>\n") && has_piece(&preview, 1, "<p>[b] <em>c</em></p>\n") && has_piece(&preview, 2, "<p>d</p>\n"));
    EXPECT(is_first_line(&preview, 0, 1) && is_first_line(&preview, 1, 3) && is_first_line(&preview, 2, 5));
    EXPECT(is(edit(&preview, 6, 0, "\n[b]: /e", &changes), JIRMOANS_OK, 0));
    EXPECT(changed(changes, 2, 1, 2, 1) && changes.again[0] == 1 && has_piece(&preview, 1, "<p><a href=\"/e\">b</a> <em>c</em></p>\n"));
    EXPECT(is(edit(&preview, 6, 2, "", &changes), JIRMOANS_OK, 0));
    EXPECT(is(jirmoans_set_prelude(&preview, "[b]: /f\n", 8, &changes), JIRMOANS_OK, 0));
    EXPECT(changed(changes, 0, 0, 0, 1) && changes.again[0] == 1 && has_piece(&preview, 1, "<p><a href=\"/f\">b</a> <em>c</em></p>\n"));
    changes.first = 7;
    EXPECT(is(edit(&preview, 7, 0, "a", &changes), JIRMOANS_OUT_OF_RANGE, 6) && changes.first == 7);
    EXPECT(is(edit(&preview, 1, SIZE_MAX, "a", &changes), JIRMOANS_OUT_OF_RANGE, 6));
    EXPECT(is(edit(&preview, SIZE_MAX, SIZE_MAX, "a", &changes), JIRMOANS_OUT_OF_RANGE, 6));
    EXPECT(is(edit(&preview, 0, 0, "ab\xff", &changes), JIRMOANS_NOT_UTF8, 2));
    EXPECT(is(jirmoans_set_prelude(&preview, "[b]: /g\n\n# c\n", 13, &changes), JIRMOANS_NOT_DEFINITIONS, 2));
    EXPECT(is(jirmoans_piece(&preview, 3, &text), JIRMOANS_NO_SUCH_UNIT, 3) && text.len == 7);
    EXPECT(is(jirmoans_piece(&preview, SIZE_MAX, &text), JIRMOANS_NO_SUCH_UNIT, 3));
    EXPECT(is(jirmoans_first_line(&preview, 3, &line), JIRMOANS_NO_SUCH_UNIT, 3) && line == 7);
    EXPECT(has_piece(&preview, 1, "<p><a href=\"/f\">b</a> <em>c</em></p>\n"));
    EXPECT(is(jirmoans_html(&preview, "[b]  \nc", 7, &text), JIRMOANS_OK, 0) && reads(text, "<p><a href=\"/f\">b</a><br />\nc</p>\n"));
    EXPECT(is(jirmoans_html(&preview, "", 0, &text), JIRMOANS_OK, 0) && reads(text, ""));
    EXPECT(is(jirmoans_html(&preview, "\xe2\x82", 2, &text), JIRMOANS_NOT_UTF8, 0));
    jirmoans_close(&preview);
}

static void settings(void) {
    jirmoans_preview preview = {0};
    jirmoans_settings set = {true, JIRMOANS_BREAKS_HARD, 1, 2, true, true, true, true};
    jirmoans_text text;
    const char *names = "{\"&x;\":{\"characters\":\"y\"}}";
    EXPECT(is(jirmoans_open(&preview, &set, names, strlen(names)), JIRMOANS_OK, 0));
    EXPECT(is(jirmoans_html(&preview, "a <b>\n&x;&amp;", 14, &text), JIRMOANS_OK, 0) && reads(text, "<p>a <b><br />\ny&amp;amp;</p>\n"));
    EXPECT(is(jirmoans_html(&preview, "~~~ x y\na\n", 10, &text), JIRMOANS_OK, 0)
           && reads(text, "<pre lang=\"x\" data-meta=\"y\"><code>a\n</code></pre>\n"));
    EXPECT(is(jirmoans_html(&preview, "|a\n|:-:\n", 8, &text), JIRMOANS_OK, 0)
           && reads(text, "<table>\n<thead>\n<tr>\n<th style=\"text-align: center\">a</th>\n</tr>\n</thead>\n</table>\n"));
    EXPECT(is(jirmoans_html(&preview, "~a~ ~~b~~", 9, &text), JIRMOANS_OK, 0) && reads(text, "<p>~a~ <del>b</del></p>\n"));
    EXPECT(is(jirmoans_html(&preview, "a\n\n> > b", 8, &text), JIRMOANS_NESTED_TOO_DEEP, 2));
    EXPECT(is(jirmoans_html(&preview, "a\n\n*a **b ~~c~~***", 18, &text), JIRMOANS_INLINE_TOO_DEEP, 2));
    jirmoans_close(&preview);
}

/* What a preview with these settings makes of code with an info string, of a centred cell and of one tilde. */
static bool shows(const jirmoans_settings *set, const char *code, const char *cell, const char *tilde) {
    jirmoans_preview preview = {0};
    jirmoans_text text;
    bool holds = is(jirmoans_open(&preview, set, "", 0), JIRMOANS_OK, 0);
    holds = holds && is(jirmoans_html(&preview, "~~~ x y\na\n", 10, &text), JIRMOANS_OK, 0) && reads(text, code);
    holds = holds && is(jirmoans_html(&preview, "|a\n|:-:\n", 8, &text), JIRMOANS_OK, 0) && reads(text, cell);
    holds = holds && is(jirmoans_html(&preview, "~a~", 3, &text), JIRMOANS_OK, 0) && reads(text, tilde);
    jirmoans_close(&preview);
    return holds;
}

/* Each of the last four fields alone does what it is for, and nothing else. */
static void settings_alone(void) {
    const jirmoans_settings usual = {false, JIRMOANS_BREAKS_SOFT, 64, 64, false, false, false, false};
    const char *code = "<pre><code class=\"language-x\">a\n</code></pre>\n";
    const char *cell = "<table>\n<thead>\n<tr>\n<th align=\"center\">a</th>\n</tr>\n</thead>\n</table>\n";
    const char *tilde = "<p><del>a</del></p>\n";
    jirmoans_settings set = usual;
    EXPECT(shows(&set, code, cell, tilde));
    set.pre_lang = true;
    EXPECT(shows(&set, "<pre lang=\"x\"><code>a\n</code></pre>\n", cell, tilde));
    set = usual;
    set.align_style = true;
    EXPECT(shows(&set, code, "<table>\n<thead>\n<tr>\n<th style=\"text-align: center\">a</th>\n</tr>\n</thead>\n</table>\n", tilde));
    set = usual;
    set.full_info_string = true;
    EXPECT(shows(&set, "<pre><code class=\"language-x\" data-meta=\"y\">a\n</code></pre>\n", cell, tilde));
    set = usual;
    set.double_tilde = true;
    EXPECT(shows(&set, code, cell, "<p>~a~</p>\n"));
}

/* A text of one byte, so many times. */
static jirmoans_fault repeated(jirmoans_preview *preview, int byte, size_t len) {
    jirmoans_changes changes;
    char *text = malloc(len);
    jirmoans_fault fault = {JIRMOANS_NO_MEMORY, 0};
    if (text != NULL) {
        memset(text, byte, len);
        fault = jirmoans_edit(preview, 0, 0, text, len, &changes);
        free(text);
    }
    return fault;
}

static void limits(void) {
    jirmoans_preview preview = {0};
    jirmoans_settings settings = {0};
    EXPECT(is(jirmoans_open(&preview, &settings, "", 0), JIRMOANS_OK, 0));
    EXPECT(is(repeated(&preview, '\n', 1000001), JIRMOANS_TOO_MANY_LINES, 0));
    EXPECT(is(repeated(&preview, 'a', 16777216), JIRMOANS_TOO_LARGE, 0));
    EXPECT(jirmoans_lines(&preview) == 0);
    jirmoans_close(&preview);
}

static void names(void) {
    char room[80];
    memset(room, '?', sizeof room);
    EXPECT(jirmoans_fault_name(JIRMOANS_OUT_OF_RANGE, room, sizeof room) == 10 && strcmp(room, "OutOfRange") == 0 && room[11] == '?');
    EXPECT(jirmoans_fault_name(JIRMOANS_OUT_OF_RANGE, room, 10) == 10 && strcmp(room, "OutOfRange") == 0);
    EXPECT(jirmoans_fault_name(JIRMOANS_NO_MEMORY, room, 8) == 8 && strcmp(room, "OutOfRange") == 0);
    EXPECT(jirmoans_fault_name(JIRMOANS_NO_MEMORY, room, 9) == 8 && strcmp(room, "NoMemory") == 0);
    EXPECT(jirmoans_fault_name(17, room, sizeof room) == 7 && strcmp(room, "Unknown") == 0);
    EXPECT(jirmoans_fault_name(UINT32_MAX, room, sizeof room) == 7);
    EXPECT(jirmoans_fault_text(JIRMOANS_NO_MEMORY, room, sizeof room) == 9 && strcmp(room, "no memory") == 0);
    EXPECT(jirmoans_fault_text(JIRMOANS_OK, room, 0) > 0 && strcmp(room, "no memory") == 0);
    for (uint32_t code = 0; code <= JIRMOANS_BAD_ENTRY; code++) {
        EXPECT(jirmoans_fault_name(code, room, sizeof room) == strlen(room) && strcmp(room, "Unknown") != 0);
        EXPECT(jirmoans_fault_text(code, room, sizeof room) == strlen(room) && strlen(room) > 0);
    }
}

int main(void) {
    open_and_close();
    not_open();
    edits();
    settings();
    settings_alone();
    limits();
    names();
    printf("%d passed, %d failed\n", passed, failed);
    return failed > 0;
}
