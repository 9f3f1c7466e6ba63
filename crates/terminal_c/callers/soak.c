/* soak.c: makes random calls over recorded sessions.
 *
 *     soak CALLS SEED FILE..
 *
 * Feeds the files to a terminal in pieces of random lengths, and sends updates to one viewer and patches to another.
 * What each shows must be what the terminal shows; each part that an answer names must lie within it; and each code
 * must be one that the header names for the call. All bytes of each answer are read. */
#include <rilqamyn.h>
#include <stdio.h>
#include <stdlib.h>
#include <string.h>

#define CHECK(it) check(it, __LINE__, #it)
#define DONE(it) (made++, CHECK((it) == RILQAMYN_DONE))

static long made;
static uint64_t seed;
static unsigned long sum;
static uint8_t *input;
static size_t input_len, input_at;

static void check(int is_right, int line, const char *text) {
    if (is_right) return;
    printf("soak.c:%d: %s, call %ld\n", line, text, made);
    exit(1);
}

static size_t below(size_t most) {
    seed = seed * 6364136223846793005u + 1442695040888963407u;
    return (size_t)(seed >> 33) % most;
}

static void read_all(struct rilqamyn_bytes bytes) {
    CHECK(bytes.at != NULL);
    for (size_t i = 0; i < bytes.len; i++) sum = sum * 31 + bytes.at[i];
}

static void load(const char *name) {
    FILE *file = fopen(name, "rb");
    CHECK(file != NULL);
    for (;;) {
        input = realloc(input, input_len + 65536);
        CHECK(input != NULL);
        size_t len = fread(input + input_len, 1, 65536, file);
        input_len += len;
        if (len == 0) break;
    }
    fclose(file);
}

struct session {
    struct rilqamyn_terminal terminal, by_update, by_patch;
    size_t since;
    bool is_xterm;
};

static void resize(struct session *s) {
    size_t width = 1 + below(100), height = 1 + below(30);
    DONE(rilqamyn_resize(&s->terminal, width, height));
    DONE(rilqamyn_resize(&s->by_update, width, height));
    DONE(rilqamyn_resize(&s->by_patch, width, height));
}

static void begin(struct session *s) {
    rilqamyn_free(&s->terminal);
    rilqamyn_free(&s->by_update);
    rilqamyn_free(&s->by_patch);
    s->is_xterm = below(2);
    DONE(rilqamyn_new(&s->terminal, 80, 24, s->is_xterm ? RILQAMYN_XTERM : RILQAMYN_PLAIN));
    DONE(rilqamyn_new(&s->by_update, 80, 24, RILQAMYN_PLAIN));
    DONE(rilqamyn_new(&s->by_patch, 80, 24, RILQAMYN_PLAIN));
    s->since = 0;
}

static void feed(struct session *s) {
    size_t len = below(below(8) ? 64 : 4096);
    if (input_at + len > input_len) input_at = 0;
    DONE(rilqamyn_feed(&s->terminal, input + input_at, len));
    input_at += len;
}

/* Two rows have the same cells. Where their texts and links lie may differ. */
static void compare_row(struct session *s, struct rilqamyn_terminal *viewer, size_t at) {
    struct rilqamyn_row one, other;
    DONE(rilqamyn_row(&s->terminal, at, &one));
    DONE(rilqamyn_row(viewer, at, &other));
    CHECK(one.count == other.count);
    for (size_t i = 0; i < one.count; i++) {
        const struct rilqamyn_cell *a = one.cells + i, *b = other.cells + i;
        CHECK(a->column == b->column && a->text_len == b->text_len && a->link_len == b->link_len);
        CHECK(memcmp(&a->style, &b->style, sizeof a->style) == 0);
        CHECK(memcmp(one.text.at + a->text_at, other.text.at + b->text_at, a->text_len) == 0);
        CHECK(memcmp(one.links.at + a->link_at, other.links.at + b->link_at, a->link_len) == 0);
    }
}

/* The viewer shows what the terminal shows. */
static void compare(struct session *s, struct rilqamyn_terminal *viewer) {
    struct rilqamyn_bytes one, other;
    struct rilqamyn_state state;
    DONE(rilqamyn_screen_text(&s->terminal, &one));
    DONE(rilqamyn_screen_text(viewer, &other));
    CHECK(one.len == other.len && memcmp(one.at, other.at, one.len) == 0);
    DONE(rilqamyn_state(viewer, &state));
    compare_row(s, viewer, below(state.height));
}

static void send(struct session *s, struct rilqamyn_terminal *viewer) {
    struct rilqamyn_bytes out;
    size_t now;
    if (viewer == &s->by_update) DONE(rilqamyn_update(&s->terminal, s->since, &s->since, &out));
    else DONE(rilqamyn_patch(&s->terminal, viewer, &now, &out));
    read_all(out);
    DONE(rilqamyn_feed(viewer, out.at, out.len));
    if (below(16) == 0) compare(s, viewer);
}

static void read_row(struct rilqamyn_terminal *t) {
    struct rilqamyn_state state;
    struct rilqamyn_row row;
    struct rilqamyn_bytes text;
    size_t column = 0, text_at = 0;
    DONE(rilqamyn_state(t, &state));
    CHECK(state.cursor_column <= state.width && state.cursor_row < state.height && !state.is_failed);
    DONE(rilqamyn_row(t, below(state.height), &row));
    for (size_t i = 0; i < row.count; i++) {
        const struct rilqamyn_cell *cell = row.cells + i;
        CHECK(cell->column == column && (cell->width == 1 || cell->width == 2));
        CHECK(cell->text_at == text_at && cell->link_at + cell->link_len <= row.links.len);
        column += cell->width;
        text_at += cell->text_len;
    }
    CHECK(column == state.width && text_at == row.text.len);
    read_all(row.text);
    read_all(row.links);
    made++;
    CHECK(rilqamyn_row_text(t, state.height, &text) == RILQAMYN_RANGE);
    DONE(rilqamyn_row_text(t, below(state.height), &text));
    read_all(text);
}

static void read_screen(struct rilqamyn_terminal *t) {
    struct rilqamyn_bytes out;
    if (below(64) == 0) DONE(rilqamyn_screen(t, (uint32_t)below(4), &out));
    else if (below(2)) DONE(rilqamyn_screen_text(t, &out));
    else DONE(rilqamyn_title(t, &out));
    read_all(out);
}

/* Only a terminal of the profile xterm has modes; its alternate screen is shown by both calls or by none. */
static void read_modes(struct rilqamyn_terminal *t, bool is_xterm) {
    struct rilqamyn_modes modes;
    bool is_alternate;
    memset(&modes, 0, sizeof modes);
    made++;
    CHECK(rilqamyn_modes(t, &modes) == (is_xterm ? RILQAMYN_DONE : RILQAMYN_RANGE));
    CHECK(modes.mouse_protocol_mode <= 4 && modes.mouse_protocol_encoding <= 4 && modes.cursor_style <= 6);
    DONE(rilqamyn_is_alternate(t, &is_alternate));
    CHECK(is_alternate == modes.alternate_screen);
}

static void step(struct session *s) {
    struct rilqamyn_bytes out;
    switch (below(32)) {
    case 0: resize(s); break;
    case 1: if (below(64) == 0) begin(s); break;
    case 2: read_screen(&s->terminal); break;
    case 3: DONE(rilqamyn_settle(&s->terminal)); break;
    case 4: DONE(rilqamyn_take_replies(&s->terminal, &out)); read_all(out); break;
    case 5: DONE(rilqamyn_forget_before(&s->terminal, below(2) ? s->since : below(1000))); break;
    case 6: made++; CHECK(rilqamyn_new(&s->terminal, 1, 1, RILQAMYN_PLAIN) == RILQAMYN_IS_OPEN); break;
    case 7: case 8: case 9: send(s, &s->by_update); break;
    case 10: case 11: case 12: send(s, &s->by_patch); break;
    case 13: case 14: case 15: read_row(&s->terminal); break;
    case 16: read_modes(&s->terminal, s->is_xterm); break;
    default: feed(s); break;
    }
}

int main(int count, char **words) {
    static struct session s;
    if (count < 4) return 2;
    long most = strtol(words[1], NULL, 10);
    seed = strtoul(words[2], NULL, 10);
    for (int i = 3; i < count; i++) load(words[i]);
    begin(&s);
    while (made < most) step(&s);
    rilqamyn_free(&s.terminal);
    rilqamyn_free(&s.by_update);
    rilqamyn_free(&s.by_patch);
    free(input);
    printf("soak: %ld calls, sum %lu\n", made, sum);
    return 0;
}
