/* A session in which one growth after the other is refused: the call says so and has changed nothing, and the same call goes through when it is made again.
 * When the session is closed, the library holds as many blocks of memory as before.
 * Linked with --wrap=malloc, --wrap=realloc and --wrap=free. The last line is 'N passed, M failed'. */
#include <jirmoans.h>

#include <stdio.h>
#include <stdlib.h>
#include <string.h>

void *__real_malloc(size_t size);
void *__real_realloc(void *at, size_t size);
void *__wrap_malloc(size_t size);
void *__wrap_realloc(void *at, size_t size);
void __real_free(void *at);
void __wrap_free(void *at);

/* How many growths from now on the one is that is refused; 0 for none. */
static long refused_at;
/* How many blocks the library was given and has not given back. What is allocated here is none of them. */
static long held;
static int passed, failed;

static bool is_refused(void) {
    return refused_at > 0 && --refused_at == 0;
}

void *__wrap_malloc(size_t size) {
    void *given = is_refused() ? NULL : __real_malloc(size);
    held += given != NULL;
    return given;
}

void *__wrap_realloc(void *at, size_t size) {
    bool is_new = at == NULL;
    void *given = is_refused() ? NULL : __real_realloc(at, size);
    held += is_new && given != NULL;
    return given;
}

void __wrap_free(void *at) {
    held -= at != NULL;
    __real_free(at);
}

static const char NAMES[] = "{\"&x;\":{\"characters\":\"y\"}}";
static const char TEXT[] = "# a\n\n[b] and *c &x;*\n\n| d |\n| - |\n| [e] |\n\n- f\n- g\n\n[e]: /e\n";
static const char PRELUDE[] = "[b]: /b \"t\"\n[e]: /f\n";
static const char CHANGE[] = "[b]: /h\n\n> i\n";
static const char WHOLE[] = "[e]\n\n[k]: /k\n\n[k] `l`\n";

typedef struct {
    jirmoans_preview preview;
    jirmoans_changes changes;
    jirmoans_text text;
} session;

static jirmoans_fault open_it(session *of) {
    jirmoans_settings settings = {0};
    return jirmoans_open(&of->preview, &settings, NAMES, sizeof NAMES - 1);
}

static jirmoans_fault load(session *of) {
    return jirmoans_edit(&of->preview, 0, 0, TEXT, sizeof TEXT - 1, &of->changes);
}

static jirmoans_fault prelude(session *of) {
    return jirmoans_set_prelude(&of->preview, PRELUDE, sizeof PRELUDE - 1, &of->changes);
}

static jirmoans_fault change(session *of) {
    return jirmoans_edit(&of->preview, 11, 1, CHANGE, sizeof CHANGE - 1, &of->changes);
}

static jirmoans_fault show(session *of) {
    return jirmoans_piece(&of->preview, 1, &of->text);
}

static jirmoans_fault whole(session *of) {
    return jirmoans_html(&of->preview, WHOLE, sizeof WHOLE - 1, &of->text);
}

static jirmoans_fault (*const STEPS[])(session *) = {open_it, load, prelude, change, show, whole};

/* All pieces and the text that is shown, one after the other; the caller frees it, by __real_free. */
static char *told(session *of) {
    char *all = calloc(1, 65536);
    strcat(all, of->text.at);
    for (size_t i = 0; i < jirmoans_units(&of->preview); i++) {
        jirmoans_text piece;
        if (jirmoans_piece(&of->preview, i, &piece).code == JIRMOANS_OK) {
            strcat(all, piece.at);
        }
    }
    return all;
}

/* Runs the session with this growth refused. Answers whether there was such a growth, and what the session told. */
static bool run(long growth, char **all) {
    session of;
    long before = held;
    memset(&of, 0, sizeof of);
    refused_at = growth;
    for (size_t i = 0; i < sizeof STEPS / sizeof *STEPS; i++) {
        size_t units = jirmoans_units(&of.preview), lines = jirmoans_lines(&of.preview);
        jirmoans_fault fault = STEPS[i](&of);
        if (fault.code == JIRMOANS_NO_MEMORY) {
            bool same = jirmoans_units(&of.preview) == units && jirmoans_lines(&of.preview) == lines;
            fault = STEPS[i](&of);
            same ? passed++ : failed++;
        }
        fault.code == JIRMOANS_OK ? passed++ : failed++;
    }
    bool was_refused = growth > 0 && refused_at == 0;
    refused_at = 0;
    *all = told(&of);
    jirmoans_close(&of.preview);
    if (held == before) {
        passed++;
    } else {
        failed++;
        printf("growth %ld refused: behind the session %ld blocks more are held than before\n", growth, held - before);
    }
    return was_refused;
}

int main(void) {
    char *wanted, *got;
    long growth = 0;
    run(0, &wanted);
    do {
        growth++;
        bool more = run(growth, &got);
        strcmp(wanted, got) == 0 ? passed++ : failed++;
        __real_free(got);
        if (!more) {
            break;
        }
    } while (growth < 100000);
    __real_free(wanted);
    printf("%ld growths\n%d passed, %d failed\n", growth - 1, passed, failed);
    return failed > 0;
}
