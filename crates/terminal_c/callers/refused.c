/* refused.c: refuses each allocation of a round of calls in turn, and then each with all after it; and has calls answer
 * the two codes that else nothing brings about: RILQAMYN_NUMBER and RILQAMYN_OTHER_FAILED. Linked with
 * -Wl,--wrap=malloc,--wrap=realloc,--wrap=free, so that the library's requests come here.
 *
 * Each call must answer RILQAMYN_DONE, RILQAMYN_MEMORY, or RILQAMYN_FAILED after a call that changes the terminal was
 * refused; each call that takes memory must once have answered RILQAMYN_MEMORY; a refused read must leave the terminal
 * as it was; calls that take no memory must make no request; and a closed handle must have freed all. */
#include <rilqamyn.h>
#include <stdio.h>
#include <stdlib.h>
#include <string.h>

/* The calls that take memory, those of rilqamyn_screen by their formats. */
enum call { NEW, FEED, SETTLE, RESIZE, UPDATE, PATCH, TITLE, ROW_TEXT, ROW, SCREEN_TEXT, SCREEN, CALLS = SCREEN + 4 };

/* Which of them have answered RILQAMYN_MEMORY. */
static int was_refused[CALLS];
static long first, last, count, blocks;
/* The block that was made last. */
static void *newest;
static size_t newest_len;

void *__real_malloc(size_t bytes);
void *__real_realloc(void *old, size_t bytes);
void __real_free(void *old);

static int is_refused(void) {
    ++count;
    return first && count >= first && count <= last;
}

void *__wrap_malloc(size_t bytes) {
    void *made = is_refused() ? NULL : __real_malloc(bytes);
    newest = made;
    newest_len = bytes;
    blocks += made != NULL;
    return made;
}

void *__wrap_realloc(void *old, size_t bytes) {
    return is_refused() ? NULL : __real_realloc(old, bytes);
}

void __wrap_free(void *old) {
    blocks -= old != NULL;
    __real_free(old);
}

#define CHECK(it) check(it, __LINE__, #it)

static void check(int is_right, int line, const char *text) {
    if (is_right) return;
    printf("refused.c:%d: %s, requests %ld to %ld\n", line, text, first, last);
    exit(1);
}

static uint32_t feed(struct rilqamyn_terminal *t, const char *text) {
    return rilqamyn_feed(t, (const uint8_t *)text, strlen(text));
}

static int is_failed(struct rilqamyn_terminal *t) {
    struct rilqamyn_state state;
    CHECK(rilqamyn_state(t, &state) == RILQAMYN_DONE);
    return state.is_failed;
}

/* What a call answered: whether it was carried out. */
static int is_done(enum call call, uint32_t code) {
    CHECK(code == RILQAMYN_DONE || code == RILQAMYN_MEMORY);
    was_refused[call] |= code == RILQAMYN_MEMORY;
    return code == RILQAMYN_DONE;
}

/* What a call that changes the terminal answered: returns whether the terminal has failed then. */
static int changed(enum call call, struct rilqamyn_terminal *t, int failed_before, uint32_t code) {
    if (failed_before) CHECK(code == RILQAMYN_FAILED);
    else is_done(call, code);
    if (code == RILQAMYN_DONE) CHECK(!is_failed(t));
    return is_failed(t);
}

/* What a read answered: the terminal is as it was. */
static void was_read(enum call call, struct rilqamyn_terminal *t, int failed, uint32_t code) {
    if (failed) CHECK(code == RILQAMYN_FAILED);
    else is_done(call, code);
    CHECK(is_failed(t) == failed);
}

static void use(void) {
    struct rilqamyn_terminal t = RILQAMYN_CLOSED, viewer = RILQAMYN_CLOSED;
    struct rilqamyn_bytes out;
    struct rilqamyn_row row;
    struct rilqamyn_modes modes;
    size_t now = 0;
    long before;
    bool is_alternate = true;
    if (!is_done(NEW, rilqamyn_new(&t, 20, 3, RILQAMYN_PLAIN))) {
        CHECK(feed(&t, "x") == RILQAMYN_NOT_OPEN);
        return;
    }
    int failed = changed(FEED, &t, 0, feed(&t, "one\r\n\x1b[1mtwo\x1b]8;;http://a\x1b\\three\x1b]8;;\x1b\\"));
    failed = changed(FEED, &t, failed, feed(&t, "\x1b]2;title\x1b\\"));
    failed = changed(FEED, &t, failed, feed(&t, "\x1b[6n \xe4\xb8\x96\xcc\x81"));
    failed = changed(SETTLE, &t, failed, rilqamyn_settle(&t));
    was_read(TITLE, &t, failed, rilqamyn_title(&t, &out));
    was_read(ROW_TEXT, &t, failed, rilqamyn_row_text(&t, 1, &out));
    was_read(ROW, &t, failed, rilqamyn_row(&t, 1, &row));
    was_read(SCREEN_TEXT, &t, failed, rilqamyn_screen_text(&t, &out));
    for (uint32_t format = RILQAMYN_ANSI; format <= RILQAMYN_JSON; format++) {
        was_read(SCREEN + format, &t, failed, rilqamyn_screen(&t, format, &out));
    }
    failed = changed(UPDATE, &t, failed, rilqamyn_update(&t, 0, &now, &out));
    if (is_done(NEW, rilqamyn_new(&viewer, 20, 3, RILQAMYN_PLAIN))) {
        failed = changed(PATCH, &t, failed, rilqamyn_patch(&t, &viewer, &now, &out));
        was_read(ROW, &viewer, 0, rilqamyn_row(&viewer, 1, &row));
        rilqamyn_free(&viewer);
    }
    failed = changed(RESIZE, &t, failed, rilqamyn_resize(&t, 7, 2));
    failed = changed(RESIZE, &t, failed, rilqamyn_resize(&t, 30, 5));
    before = count;
    CHECK(rilqamyn_take_replies(&t, &out) == RILQAMYN_DONE);
    CHECK(rilqamyn_forget_before(&t, now) == (failed ? RILQAMYN_FAILED : RILQAMYN_DONE));
    CHECK(rilqamyn_modes(&t, &modes) == RILQAMYN_RANGE);
    CHECK(rilqamyn_is_alternate(&t, &is_alternate) == RILQAMYN_DONE && !is_alternate);
    CHECK(rilqamyn_feed(&t, out.at, 0) == (failed ? RILQAMYN_FAILED : RILQAMYN_DONE));
    CHECK(count == before);
    rilqamyn_free(&t);
}

/* Feeds some line feeds; returns the number of changes after them. */
static size_t number_after(struct rilqamyn_terminal *t, int lines) {
    struct rilqamyn_state state;
    while (lines-- > 0) CHECK(feed(t, "\r\n") == RILQAMYN_DONE);
    CHECK(rilqamyn_state(t, &state) == RILQAMYN_DONE);
    return state.number;
}

/* Opens a terminal whose number of changes is the largest one. No calls lead there, so the number is written where the
 * handle's memory has it: the one word that had the number before some changes and has it after them. */
static void open_at_last_number(struct rilqamyn_terminal *t) {
    enum { MOST = 1024 };
    int had[MOST] = {0};
    size_t number, *words, *place = NULL, len;
    CHECK(rilqamyn_new(t, 20, 3, RILQAMYN_PLAIN) == RILQAMYN_DONE && t->at == newest);
    words = t->at;
    len = newest_len / sizeof *words;
    CHECK(len <= MOST);
    number = number_after(t, 300);
    for (size_t i = 0; i < len; i++) had[i] = words[i] == number;
    number = number_after(t, 100);
    for (size_t i = 0; i < len; i++) {
        if (!had[i] || words[i] != number) continue;
        CHECK(place == NULL);
        place = words + i;
    }
    CHECK(place != NULL);
    *place = SIZE_MAX;
}

/* A change that would have a number past the largest one is refused, and the terminal has failed. */
static void last_number(void) {
    struct rilqamyn_terminal t = RILQAMYN_CLOSED, viewer = RILQAMYN_CLOSED;
    struct rilqamyn_bytes out;
    size_t now = 7;
    for (int call = 0; call < 5; call++) {
        open_at_last_number(&t);
        CHECK(rilqamyn_new(&viewer, 20, 3, RILQAMYN_PLAIN) == RILQAMYN_DONE);
        CHECK(feed(&t, "x") == RILQAMYN_DONE);
        uint32_t code = call == 0 ? rilqamyn_settle(&t)
            : call == 1 ? feed(&t, "\n")
            : call == 2 ? rilqamyn_resize(&t, 7, 2)
            : call == 3 ? rilqamyn_update(&t, 0, &now, &out)
                        : rilqamyn_patch(&t, &viewer, &now, &out);
        CHECK(code == RILQAMYN_NUMBER && now == 7 && is_failed(&t));
        CHECK(rilqamyn_settle(&t) == RILQAMYN_FAILED);
        CHECK(rilqamyn_patch(&t, &viewer, &now, &out) == RILQAMYN_FAILED);
        CHECK(rilqamyn_patch(&viewer, &t, &now, &out) == RILQAMYN_OTHER_FAILED);
        CHECK(now == 7 && !is_failed(&viewer));
        rilqamyn_free(&viewer);
        rilqamyn_free(&t);
    }
}

int main(void) {
    long whole;
    last_number();
    count = blocks = 0;
    use();
    whole = count;
    for (int with_rest = 0; with_rest < 2; with_rest++) {
        for (first = 1; first <= whole; first++) {
            last = with_rest ? whole : first;
            count = blocks = 0;
            use();
            CHECK(count >= first && blocks == 0);
        }
        first = 0;
    }
    for (int call = 0; call < CALLS; call++) CHECK(was_refused[call]);
    printf("refused: %ld requests\n", whole);
    return whole < 20;
}
