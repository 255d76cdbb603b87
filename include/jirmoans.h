/*
 * Jirmoans: Markdown to HTML, kept up to date while somebody edits the text.
 *
 * A preview holds a text and its HTML in pieces, one for each unit: a top-level block with all that
 * comes of its lines. After an edit it says which pieces to replace. One preview also turns whole
 * texts into HTML.
 *
 *     jirmoans_preview preview = {0};
 *     jirmoans_settings settings = {0};
 *     jirmoans_fault fault = jirmoans_open(&preview, &settings, "", 0);
 *
 * What a caller owes to each call (nothing here can look after it):
 *
 * - No pointer is NULL, not even where a length is 0: pass "" and 0.
 * - At a pointer with a length lie at least so many bytes, and nobody writes to them during the call.
 * - A jirmoans_preview was set to zero before the first call that takes it, and nothing but the calls
 *   writes to it from then on. It is not copied: one copy alone goes on being used.
 * - Two pointers that one call takes lead to different places.
 * - The calls are not made from a signal handler.
 *
 * All else has an answer: bytes that are no UTF-8, numbers that are too large, a preview that is not
 * open. After each fault the preview is as it was.
 *
 * Memory: a preview owns all that it holds, until jirmoans_close. A call reads the bytes that it is
 * handed and keeps none of them. Memory comes from malloc; where that gives none, the call answers
 * JIRMOANS_NO_MEMORY.
 *
 * Threads: all calls with one preview are made on one thread, the one that opened it. Different
 * previews may be used on different threads at once. jirmoans_fault_name and jirmoans_fault_text may
 * be called on any thread.
 *
 * Lines, units and bytes are counted from 0.
 */
#ifndef JIRMOANS_H
#define JIRMOANS_H

#include <stdbool.h>
#include <stddef.h>
#include <stdint.h>

#ifdef __cplusplus
extern "C" {
#endif

#if defined(__GNUC__) || defined(__clang__)
#define JIRMOANS_NONNULL __attribute__((nonnull))
#else
#define JIRMOANS_NONNULL
#endif

/* Each fault has a number. What jirmoans_fault.number says of it stands behind it. */
enum {
    JIRMOANS_OK = 0,
    /* The edit reaches past the text. The number of lines. */
    JIRMOANS_OUT_OF_RANGE = 1,
    /* An added line holds a line ending. No call answers it, since texts are cut into lines here. */
    JIRMOANS_BREAK_IN_LINE = 2,
    /* More than 1,000,000 lines. 0. */
    JIRMOANS_TOO_MANY_LINES = 3,
    /* More than 16,777,216 bytes, with one counted for each line's end. 0. */
    JIRMOANS_TOO_LARGE = 4,
    /* A block quote or list item lies in too many others. The line of the new text. */
    JIRMOANS_NESTED_TOO_DEEP = 5,
    /* A span (emphasis, a link, ..) lies in too many others. The first line of its unit. */
    JIRMOANS_INLINE_TOO_DEEP = 6,
    /* There was no memory; the same call may be made again. 0. */
    JIRMOANS_NO_MEMORY = 7,
    /* A prelude holds another block than definitions. Its line. */
    JIRMOANS_NOT_DEFINITIONS = 8,
    /* The bytes are not UTF-8. How many of the first ones are. */
    JIRMOANS_NOT_UTF8 = 9,
    /* The text has no such unit. How many it has. */
    JIRMOANS_NO_SUCH_UNIT = 10,
    /* The preview is not open. 0. */
    JIRMOANS_NOT_OPEN = 11,
    /* The preview is open already. 0. */
    JIRMOANS_ALREADY_OPEN = 12,
    /* jirmoans_settings.breaks is none of the three numbers. 0. */
    JIRMOANS_UNKNOWN_BREAKS = 13,
    /* A limit of jirmoans_settings is greater than 256. 0. */
    JIRMOANS_LIMIT_TOO_LARGE = 14,
    /* The entity file is not a JSON object. 0. */
    JIRMOANS_NOT_JSON = 15,
    /* An entry of the entity file is wrong. 0. */
    JIRMOANS_BAD_ENTRY = 16
};

/* How a call went: one of the numbers above, and what that says of it. */
typedef struct {
    uint32_t code;
    size_t number;
} jirmoans_fault;

/* What a soft line break is written as. */
enum {
    JIRMOANS_BREAKS_SOFT = 0,  /* a line ending */
    JIRMOANS_BREAKS_HARD = 1,  /* <br /> and a line ending */
    JIRMOANS_BREAKS_SPACE = 2  /* a space */
};

/* How texts are read and HTML is written. All zero is the usual way. */
typedef struct {
    /* Whether raw HTML, and destinations of any scheme, are written as they stand. Leave it false
     * for texts of people whom you do not trust. */
    bool unsafe_html;
    /* One of the JIRMOANS_BREAKS. */
    uint32_t breaks;
    /* How many block quotes and list items may lie in one another: 1 to 256; 0 stands for 64. */
    size_t max_containers;
    /* How many spans may lie in one another: 1 to 256; 0 stands for 64. */
    size_t max_spans;
    /* Whether the language of a code block is written as <pre lang="x">, in place of
     * <code class="language-x">. */
    bool pre_lang;
    /* Whether the alignment of a cell is written as style="text-align: center", in place of
     * align="center". */
    bool align_style;
    /* Whether what stands behind the language in the info string is written behind it, as
     * data-meta="y z". */
    bool full_info_string;
    /* Whether one tilde alone is text, and two strike through. */
    bool double_tilde;
} jirmoans_settings;

/* A preview. Set it to zero, as `jirmoans_preview preview = {0};`, and leave its fields alone. */
typedef struct {
    bool is_open;
    void *session;
} jirmoans_preview;

/* Which pieces an edit or a prelude changed: `removed` pieces from number `first` on went, and
 * `added` new ones came in their place. `again_len` others were made again, because a link in them
 * leads elsewhere now; their numbers, after the edit and in ascending order, lie at `again`.
 * The numbers belong to the preview. They lie there until the next edit or prelude of this preview
 * that is accepted, or its end. */
typedef struct {
    size_t first;
    size_t removed;
    size_t added;
    const size_t *again;
    size_t again_len;
} jirmoans_changes;

/* A text: `len` bytes of UTF-8 at `at`, and a NUL behind them; none is among them, unless a name in
 * the file of entities stands for one. It belongs to the preview. It lies there until the next call of
 * jirmoans_piece, jirmoans_html or jirmoans_close with this preview. */
typedef struct {
    const char *at;
    size_t len;
} jirmoans_text;

/* Opens a preview of the empty text, with an empty prelude. `entities` are the bytes of a JSON file
 * as HTML's file of entity names is; the 23 usual names are taken where `entities_len` is 0.
 *
 * JIRMOANS_ALREADY_OPEN, JIRMOANS_UNKNOWN_BREAKS, JIRMOANS_LIMIT_TOO_LARGE, JIRMOANS_NOT_JSON,
 * JIRMOANS_BAD_ENTRY or JIRMOANS_NO_MEMORY, and then it is as it was. */
jirmoans_fault jirmoans_open(jirmoans_preview *preview, const jirmoans_settings *settings,
                             const char *entities, size_t entities_len) JIRMOANS_NONNULL;

/* Lets a preview go with all its memory. It may be opened again, and closed again: to close one that
 * is not open does nothing. */
void jirmoans_close(jirmoans_preview *preview) JIRMOANS_NONNULL;

/* Replaces `del` lines from line `at` by the lines of `text`. Each line of `text` ends with LF (or
 * CR LF, or CR); the last one may do without. So "" is no line, "a\nb" are two, and "\n" is one empty
 * line. A whole file is brought by one edit: jirmoans_edit(preview, 0, 0, file, size, &changes).
 * U+0000 is read as U+FFFD. A U+FEFF at the front of a file is read as text here: take it off.
 *
 * JIRMOANS_NOT_OPEN; else of these the first that is due: JIRMOANS_NOT_UTF8, JIRMOANS_OUT_OF_RANGE,
 * JIRMOANS_TOO_MANY_LINES, JIRMOANS_TOO_LARGE, JIRMOANS_NESTED_TOO_DEEP, JIRMOANS_INLINE_TOO_DEEP;
 * JIRMOANS_NO_MEMORY at any point. Then the preview and `changes` are as they were. */
jirmoans_fault jirmoans_edit(jirmoans_preview *preview, size_t at, size_t del, const char *text,
                             size_t len, jirmoans_changes *changes) JIRMOANS_NONNULL;

/* Replaces the prelude by the lines of `text`, cut as those of an edit: link reference definitions
 * that stand below the text's own. No piece comes or goes; those with a link that leads elsewhere are
 * made again.
 *
 * JIRMOANS_NOT_OPEN; else of these the first that is due: JIRMOANS_NOT_UTF8, JIRMOANS_TOO_MANY_LINES,
 * JIRMOANS_TOO_LARGE, JIRMOANS_NOT_DEFINITIONS, JIRMOANS_INLINE_TOO_DEEP; JIRMOANS_NO_MEMORY at any
 * point. Then all is as it was. */
jirmoans_fault jirmoans_set_prelude(jirmoans_preview *preview, const char *text, size_t len,
                                    jirmoans_changes *changes) JIRMOANS_NONNULL;

/* The HTML of the unit of this number. It is empty or ends with LF.
 *
 * JIRMOANS_NOT_OPEN, JIRMOANS_NO_SUCH_UNIT or JIRMOANS_NO_MEMORY. Then `piece` is as it was; after the
 * last, what was shown before is gone. */
jirmoans_fault jirmoans_piece(jirmoans_preview *preview, size_t unit,
                              jirmoans_text *piece) JIRMOANS_NONNULL;

/* The HTML of a whole text, with the entities, the settings and the prelude of a preview, whose own
 * text it leaves alone. A leading U+FEFF is dropped.
 *
 * As jirmoans_edit, but for JIRMOANS_OUT_OF_RANGE. */
jirmoans_fault jirmoans_html(jirmoans_preview *preview, const char *text, size_t len,
                             jirmoans_text *html) JIRMOANS_NONNULL;

/* The line at which the unit of this number begins. JIRMOANS_NOT_OPEN and JIRMOANS_NO_SUCH_UNIT leave
 * `line` alone. */
jirmoans_fault jirmoans_first_line(jirmoans_preview *preview, size_t unit,
                                   size_t *line) JIRMOANS_NONNULL;

/* How many units the text has, and so how many pieces; 0 where the preview is not open. */
size_t jirmoans_units(jirmoans_preview *preview) JIRMOANS_NONNULL;

/* How many lines the text has; 0 where the preview is not open. */
size_t jirmoans_lines(jirmoans_preview *preview) JIRMOANS_NONNULL;

/* The name of a fault by its code, as "OutOfRange": those of mdpreview's replies are the same. It is
 * copied to `room` with a NUL behind it, where `size` is greater than its length, and else `room` is
 * left alone. Answers its length. */
size_t jirmoans_fault_name(uint32_t code, char *room, size_t size) JIRMOANS_NONNULL;

/* What a fault says, for a person to read; copied as a name is. */
size_t jirmoans_fault_text(uint32_t code, char *room, size_t size) JIRMOANS_NONNULL;

#ifdef __cplusplus
}
#endif

#endif
