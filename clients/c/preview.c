/* Answers a script of edits as mdpreview does, with the library in the place of the program: each
 * piece is written from where it lies. It trusts that the commands are those of docs/PROTOCOL.md, and
 * refuses lines that are not UTF-8, as NotUtf8. */
#include <jirmoans.h>

#include <stdio.h>
#include <stdlib.h>
#include <string.h>

/* Lines that were read, each with its LF. */
typedef struct {
    char *at;
    size_t len;
    size_t room;
} buffer;

/* Reads one more line, with its LF, behind what the buffer holds. Answers whether there was one. */
static bool read_line(buffer *lines) {
    bool any = false;
    for (int byte = getchar(); byte != EOF; byte = getchar()) {
        if (lines->len + 1 >= lines->room) {
            lines->room = lines->room == 0 ? 256 : 2 * lines->room;
            lines->at = realloc(lines->at, lines->room);
            if (lines->at == NULL) {
                fputs("preview: no memory\n", stderr);
                exit(1);
            }
        }
        lines->at[lines->len++] = (char)byte;
        any = true;
        if (byte == '\n') {
            break;
        }
    }
    return any;
}

static bool read_lines(buffer *lines, unsigned long count) {
    while (count > 0 && read_line(lines)) {
        count--;
    }
    return count == 0;
}

/* The protocol refuses a line that holds CR, where the library would end a line there: the place of
 * the first such line. Answers whether there is one. */
static bool find_break(const buffer *lines, size_t *line) {
    *line = 0;
    for (size_t i = 0; i < lines->len && lines->at[i] != '\r'; i++) {
        *line += lines->at[i] == '\n';
    }
    return lines->len > 0 && memchr(lines->at, '\r', lines->len) != NULL;
}

static void tell_fault(jirmoans_fault fault) {
    char name[32];
    jirmoans_fault_name(fault.code, name, sizeof name);
    printf("refused %s %zu\n", name, fault.number);
}

/* The HTML of a unit that is there: want of memory alone is in the way. */
static jirmoans_text shown(jirmoans_preview *preview, size_t unit) {
    jirmoans_text piece;
    jirmoans_fault fault = jirmoans_piece(preview, unit, &piece);
    if (fault.code != JIRMOANS_OK) {
        fputs("preview: no memory\n", stderr);
        exit(1);
    }
    return piece;
}

static void tell_piece(jirmoans_preview *preview, size_t unit) {
    jirmoans_text piece = shown(preview, unit);
    printf("piece %zu %zu\n", unit, piece.len);
    fwrite(piece.at, 1, piece.len, stdout);
}

/* The changed pieces in the order of their numbers: the added ones stand among those made again. */
static void tell_changes(jirmoans_preview *preview, jirmoans_changes changes) {
    size_t next = 0;
    printf("ok %zu %zu %zu %zu\n", changes.first, changes.removed, changes.added, changes.again_len);
    while (next < changes.again_len && changes.again[next] < changes.first) {
        tell_piece(preview, changes.again[next++]);
    }
    for (size_t i = 0; i < changes.added; i++) {
        tell_piece(preview, changes.first + i);
    }
    while (next < changes.again_len) {
        tell_piece(preview, changes.again[next++]);
    }
}

static void tell_html(jirmoans_preview *preview) {
    size_t units = jirmoans_units(preview), len = 0;
    for (size_t i = 0; i < units; i++) {
        len += shown(preview, i).len;
    }
    printf("html %zu\n", len);
    for (size_t i = 0; i < units; i++) {
        jirmoans_text piece = shown(preview, i);
        fwrite(piece.at, 1, piece.len, stdout);
    }
}

static void tell(jirmoans_preview *preview, jirmoans_fault fault, jirmoans_changes changes) {
    if (fault.code == JIRMOANS_OK) {
        tell_changes(preview, changes);
    } else {
        tell_fault(fault);
    }
}

static jirmoans_fault edit(jirmoans_preview *preview, size_t at, size_t del, const buffer *lines,
                           jirmoans_changes *changes) {
    jirmoans_fault fault = {JIRMOANS_BREAK_IN_LINE, 0};
    size_t held = jirmoans_lines(preview);
    if (at <= held && del <= held - at && find_break(lines, &fault.number)) {
        return fault;
    }
    return jirmoans_edit(preview, at, del, lines->len == 0 ? "" : lines->at, lines->len, changes);
}

static jirmoans_fault set_prelude(jirmoans_preview *preview, const buffer *lines, jirmoans_changes *changes) {
    jirmoans_fault fault = {JIRMOANS_BREAK_IN_LINE, 0};
    if (find_break(lines, &fault.number)) {
        return fault;
    }
    return jirmoans_set_prelude(preview, lines->len == 0 ? "" : lines->at, lines->len, changes);
}

/* Carries out one command. Answers whether it was one, with all its lines. */
static bool answer(jirmoans_preview *preview, const char *command, buffer *lines) {
    unsigned long at, del, add;
    int end = 0;
    jirmoans_changes changes = {0};
    lines->len = 0;
    if (strcmp(command, "html") == 0) {
        tell_html(preview);
    } else if (sscanf(command, "edit %9lu %9lu %9lu%n", &at, &del, &add, &end) == 3 && command[end] == '\0') {
        if (!read_lines(lines, add)) {
            return false;
        }
        jirmoans_fault fault = edit(preview, at, del, lines, &changes);
        tell(preview, fault, changes);
    } else if (sscanf(command, "prelude %9lu%n", &add, &end) == 1 && command[end] == '\0') {
        if (!read_lines(lines, add)) {
            return false;
        }
        jirmoans_fault fault = set_prelude(preview, lines, &changes);
        tell(preview, fault, changes);
    } else {
        return false;
    }
    return true;
}

int main(void) {
    jirmoans_preview preview = {0};
    jirmoans_settings settings = {0};
    buffer line = {0}, lines = {0};
    int status = 0;
    jirmoans_fault fault = jirmoans_open(&preview, &settings, "", 0);
    if (fault.code != JIRMOANS_OK) {
        fputs("preview: no memory\n", stderr);
        return 1;
    }
    while (status == 0 && read_line(&line)) {
        line.at[line.at[line.len - 1] == '\n' ? line.len - 1 : line.len] = '\0';
        status = answer(&preview, line.at, &lines) ? 0 : 2;
        if (fflush(stdout) != 0 || ferror(stdout)) {
            fputs("preview: write failed\n", stderr);
            status = 1;
        }
        line.len = 0;
    }
    jirmoans_close(&preview);
    free(line.at);
    free(lines.at);
    return status;
}
