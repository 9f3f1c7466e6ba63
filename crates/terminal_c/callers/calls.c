/* calls.c: makes each call, and has it answer each of its codes that can be had without a refused allocation. Prints
 * the line of the first check that fails. */
#include <rilqamyn.h>
#include <stdio.h>
#include <string.h>

#define CHECK(it)                                             \
    do {                                                      \
        if (!(it)) {                                          \
            printf("calls.c:%d: %s\n", __LINE__, #it);        \
            return 1;                                         \
        }                                                     \
    } while (0)

static const char text_of_screen[] = "ab \xe4\xb8\x96 \n      \n";

static int is(struct rilqamyn_bytes bytes, const char *text) {
    return bytes.at != NULL && bytes.len == strlen(text) && memcmp(bytes.at, text, bytes.len) == 0;
}

static int starts(struct rilqamyn_bytes bytes, const char *text) {
    return bytes.len >= strlen(text) && memcmp(bytes.at, text, strlen(text)) == 0;
}

static uint32_t feed(struct rilqamyn_terminal *t, const char *text) {
    return rilqamyn_feed(t, (const uint8_t *)text, strlen(text));
}

/* A closed handle refuses all calls, and answers stay as they were. */
static int closed_handles(void) {
    struct rilqamyn_terminal t = RILQAMYN_CLOSED, open = RILQAMYN_CLOSED;
    struct rilqamyn_bytes out = {(const uint8_t *)"x", 7};
    struct rilqamyn_row row;
    struct rilqamyn_state state;
    struct rilqamyn_modes modes;
    bool is_alternate = true;
    size_t now = 9;
    memset(&row, 0, sizeof row);
    memset(&state, 1, sizeof state);
    memset(&modes, 1, sizeof modes);
    CHECK(rilqamyn_new(&open, 6, 2, RILQAMYN_PLAIN) == RILQAMYN_DONE);
    CHECK(feed(&t, "a") == RILQAMYN_NOT_OPEN);
    CHECK(rilqamyn_settle(&t) == RILQAMYN_NOT_OPEN);
    CHECK(rilqamyn_resize(&t, 0, 0) == RILQAMYN_NOT_OPEN);
    CHECK(rilqamyn_update(&t, 0, &now, &out) == RILQAMYN_NOT_OPEN);
    CHECK(rilqamyn_patch(&t, &open, &now, &out) == RILQAMYN_NOT_OPEN);
    CHECK(rilqamyn_patch(&open, &t, &now, &out) == RILQAMYN_NOT_OPEN);
    CHECK(rilqamyn_take_replies(&t, &out) == RILQAMYN_NOT_OPEN);
    CHECK(rilqamyn_forget_before(&t, 1) == RILQAMYN_NOT_OPEN);
    CHECK(rilqamyn_state(&t, &state) == RILQAMYN_NOT_OPEN);
    CHECK(rilqamyn_modes(&t, &modes) == RILQAMYN_NOT_OPEN && modes.alternate_screen && modes.cursor_style == 1);
    CHECK(rilqamyn_is_alternate(&t, &is_alternate) == RILQAMYN_NOT_OPEN && is_alternate);
    CHECK(rilqamyn_title(&t, &out) == RILQAMYN_NOT_OPEN);
    CHECK(rilqamyn_row_text(&t, 0, &out) == RILQAMYN_NOT_OPEN);
    CHECK(rilqamyn_row(&t, 0, &row) == RILQAMYN_NOT_OPEN);
    CHECK(rilqamyn_screen_text(&t, &out) == RILQAMYN_NOT_OPEN);
    CHECK(rilqamyn_screen(&t, RILQAMYN_ANSI, &out) == RILQAMYN_NOT_OPEN);
    CHECK(out.len == 7 && *out.at == 'x' && now == 9 && row.count == 0 && state.cursor_shape == 0x01010101);
    rilqamyn_free(&t);
    rilqamyn_free(&open);
    CHECK(feed(&open, "a") == RILQAMYN_NOT_OPEN);
    rilqamyn_free(&open);
    CHECK(rilqamyn_new(&open, 6, 2, RILQAMYN_XTERM) == RILQAMYN_DONE);
    rilqamyn_free(&open);
    return 0;
}

/* Sizes, profiles, rows and formats that there aren't. */
static int ranges(void) {
    struct rilqamyn_terminal t = RILQAMYN_CLOSED, other = RILQAMYN_CLOSED;
    struct rilqamyn_bytes out;
    struct rilqamyn_row row;
    size_t now, most = 4294967295u;
    CHECK(rilqamyn_new(&t, 0, 2, RILQAMYN_PLAIN) == RILQAMYN_SIZE);
    CHECK(rilqamyn_new(&t, 6, 0, RILQAMYN_PLAIN) == RILQAMYN_SIZE);
    CHECK(rilqamyn_new(&t, most + 1, 2, RILQAMYN_PLAIN) == RILQAMYN_SIZE);
    CHECK(rilqamyn_new(&t, 6, most + 1, RILQAMYN_PLAIN) == RILQAMYN_SIZE);
    CHECK(rilqamyn_new(&t, 6, 2, 2) == RILQAMYN_RANGE);
    CHECK(feed(&t, "a") == RILQAMYN_NOT_OPEN);
    CHECK(rilqamyn_new(&t, 6, 2, RILQAMYN_PLAIN) == RILQAMYN_DONE);
    CHECK(rilqamyn_new(&t, 6, 2, RILQAMYN_PLAIN) == RILQAMYN_IS_OPEN);
    CHECK(rilqamyn_resize(&t, 0, 2) == RILQAMYN_SIZE);
    CHECK(rilqamyn_resize(&t, 6, most + 1) == RILQAMYN_SIZE);
    CHECK(rilqamyn_row_text(&t, 2, &out) == RILQAMYN_RANGE);
    CHECK(rilqamyn_row(&t, 2, &row) == RILQAMYN_RANGE);
    CHECK(rilqamyn_screen(&t, RILQAMYN_JSON + 1, &out) == RILQAMYN_RANGE);
    CHECK(rilqamyn_new(&other, 5, 2, RILQAMYN_PLAIN) == RILQAMYN_DONE);
    CHECK(rilqamyn_patch(&t, &other, &now, &out) == RILQAMYN_SIZE);
    CHECK(rilqamyn_resize(&other, 6, 2) == RILQAMYN_DONE);
    CHECK(rilqamyn_patch(&t, &other, &now, &out) == RILQAMYN_DONE);
    rilqamyn_free(&other);
    rilqamyn_free(&t);
    return 0;
}

/* What a terminal shows and tells. */
static int reads(void) {
    struct rilqamyn_terminal t = RILQAMYN_CLOSED;
    struct rilqamyn_bytes out;
    struct rilqamyn_row row;
    struct rilqamyn_state state;
    const struct rilqamyn_cell *cell;
    CHECK(rilqamyn_new(&t, 6, 2, RILQAMYN_PLAIN) == RILQAMYN_DONE);
    CHECK(rilqamyn_title(&t, &out) == RILQAMYN_DONE && is(out, ""));
    CHECK(rilqamyn_feed(&t, out.at, out.len) == RILQAMYN_DONE);
    CHECK(rilqamyn_take_replies(&t, &out) == RILQAMYN_DONE && is(out, ""));
    CHECK(feed(&t, "a\x1b[1;3;38;5;9m\x1b]8;;http://a\x1b\\b \x1b]8;;\x1b\\") == RILQAMYN_DONE);
    CHECK(feed(&t, "\x1b[48:2::1:2:3m\xe4\xb8\x96\x1b]2;T\x1b\\") == RILQAMYN_DONE);
    CHECK(feed(&t, "\x1b[6n\x1b[?25l") == RILQAMYN_DONE);
    CHECK(rilqamyn_take_replies(&t, &out) == RILQAMYN_DONE && is(out, "\x1b[1;6R"));
    CHECK(rilqamyn_take_replies(&t, &out) == RILQAMYN_DONE && is(out, ""));
    CHECK(rilqamyn_title(&t, &out) == RILQAMYN_DONE && is(out, "T"));
    CHECK(rilqamyn_row_text(&t, 0, &out) == RILQAMYN_DONE && is(out, "ab \xe4\xb8\x96 "));
    CHECK(rilqamyn_row_text(&t, 1, &out) == RILQAMYN_DONE && is(out, "      "));
    CHECK(rilqamyn_screen_text(&t, &out) == RILQAMYN_DONE && is(out, text_of_screen));
    CHECK(rilqamyn_screen(&t, RILQAMYN_ANSI, &out) == RILQAMYN_DONE && starts(out, "\x1b[0ma\x1b[0;1;3;38;5;9m"));
    CHECK(rilqamyn_screen(&t, RILQAMYN_HTML, &out) == RILQAMYN_DONE && starts(out, "<pre class=\"screen\""));
    CHECK(rilqamyn_screen(&t, RILQAMYN_SVG, &out) == RILQAMYN_DONE && starts(out, "<svg "));
    CHECK(rilqamyn_screen(&t, RILQAMYN_JSON, &out) == RILQAMYN_DONE && starts(out, "{\""));
    CHECK(rilqamyn_state(&t, &state) == RILQAMYN_DONE && state.width == 6 && state.height == 2);
    CHECK(state.cursor_column == 5 && state.cursor_row == 0 && !state.cursor_is_visible && !state.is_failed);
    CHECK(state.cursor_shape == 0 && state.number > 0);
    CHECK(rilqamyn_row(&t, 0, &row) == RILQAMYN_DONE && row.count == 5 && is(row.text, "ab \xe4\xb8\x96 "));
    CHECK(is(row.links, "http://a"));
    cell = row.cells;
    CHECK(cell[0].column == 0 && cell[0].width == 1 && cell[0].text_at == 0 && cell[0].text_len == 1);
    CHECK(cell[0].link_len == 0 && cell[0].style.intensity == 0 && cell[0].style.foreground.kind == 0);
    CHECK(cell[1].column == 1 && cell[1].link_at == 0 && cell[1].link_len == 8 && cell[1].style.intensity == 1);
    CHECK(cell[1].style.is_italic && !cell[1].style.is_overline && cell[1].style.background.kind == 0);
    CHECK(cell[1].style.foreground.kind == 1 && cell[1].style.foreground.index == 9);
    CHECK(cell[2].link_at == 0 && cell[2].link_len == 8);
    CHECK(cell[3].column == 3 && cell[3].width == 2 && cell[3].text_at == 3 && cell[3].text_len == 3);
    CHECK(cell[3].link_len == 0 && cell[3].style.background.kind == 2 && cell[3].style.background.green == 2);
    CHECK(cell[4].column == 5 && cell[4].text_at == 6 && cell[4].text_len == 1);
    rilqamyn_free(&t);
    return 0;
}

/* The modes of each profile. */
static int modes_of_profiles(void) {
    struct rilqamyn_terminal t = RILQAMYN_CLOSED;
    struct rilqamyn_modes modes, none;
    const int mouse[] = {9, 1000, 1002, 1003}, encoding[] = {1005, 1006, 1015, 1016};
    char text[16];
    bool is_alternate = true;
    memset(&modes, 1, sizeof modes);
    memset(&none, 0, sizeof none);
    CHECK(rilqamyn_new(&t, 6, 2, RILQAMYN_PLAIN) == RILQAMYN_DONE);
    CHECK(feed(&t, "\x1b[?1h\x1b[?1049h\x1b[4 q") == RILQAMYN_DONE);
    CHECK(rilqamyn_modes(&t, &modes) == RILQAMYN_RANGE);
    CHECK(modes.application_cursor && modes.cursor_style == 1 && modes.mouse_protocol_mode == 1);
    CHECK(rilqamyn_is_alternate(&t, &is_alternate) == RILQAMYN_DONE && !is_alternate);
    rilqamyn_free(&t);
    CHECK(rilqamyn_new(&t, 6, 2, RILQAMYN_XTERM) == RILQAMYN_DONE);
    CHECK(rilqamyn_modes(&t, &modes) == RILQAMYN_DONE && memcmp(&modes, &none, sizeof modes) == 0);
    CHECK(rilqamyn_is_alternate(&t, &is_alternate) == RILQAMYN_DONE && !is_alternate);
    CHECK(feed(&t, "\x1b[?1;5;1004;2004h\x1b[5 q") == RILQAMYN_DONE);
    CHECK(rilqamyn_modes(&t, &modes) == RILQAMYN_DONE && modes.application_cursor && !modes.application_keypad);
    CHECK(modes.reverse_video && !modes.blinking_cursor && modes.focus_tracking && !modes.alternate_scroll);
    CHECK(modes.bracketed_paste && !modes.synchronized_output && modes.cursor_style == 5 && !modes.alternate_screen);
    CHECK(feed(&t, "\x1b[?1;5;1004;2004l\x1b[?66;12;1007;2026;1049h") == RILQAMYN_DONE);
    CHECK(rilqamyn_modes(&t, &modes) == RILQAMYN_DONE && !modes.application_cursor && modes.application_keypad);
    CHECK(!modes.reverse_video && modes.blinking_cursor && !modes.focus_tracking && modes.alternate_scroll);
    CHECK(!modes.bracketed_paste && modes.synchronized_output && modes.alternate_screen);
    CHECK(rilqamyn_is_alternate(&t, &is_alternate) == RILQAMYN_DONE && is_alternate);
    for (int i = 0; i < 4; i++) {
        snprintf(text, sizeof text, "\x1b[?%dh", mouse[i]);
        CHECK(feed(&t, text) == RILQAMYN_DONE && rilqamyn_modes(&t, &modes) == RILQAMYN_DONE);
        CHECK(modes.mouse_protocol_mode == i + 1 && modes.mouse_protocol_encoding == 0);
    }
    for (int i = 0; i < 4; i++) {
        snprintf(text, sizeof text, "\x1b[?%dh", encoding[i]);
        CHECK(feed(&t, text) == RILQAMYN_DONE && rilqamyn_modes(&t, &modes) == RILQAMYN_DONE);
        CHECK(modes.mouse_protocol_mode == 4 && modes.mouse_protocol_encoding == i + 1);
    }
    CHECK(feed(&t, "\x1b[?1049l") == RILQAMYN_DONE);
    CHECK(rilqamyn_is_alternate(&t, &is_alternate) == RILQAMYN_DONE && !is_alternate);
    rilqamyn_free(&t);
    return 0;
}

/* A viewer by updates and one by patches show the terminal's screen. */
static int viewers(void) {
    struct rilqamyn_terminal t = RILQAMYN_CLOSED, by_update = RILQAMYN_CLOSED, by_patch = RILQAMYN_CLOSED;
    struct rilqamyn_bytes out;
    struct rilqamyn_state state;
    size_t since = 0, now = 0;
    CHECK(rilqamyn_new(&t, 6, 2, RILQAMYN_PLAIN) == RILQAMYN_DONE);
    CHECK(rilqamyn_new(&by_update, 6, 2, RILQAMYN_PLAIN) == RILQAMYN_DONE);
    CHECK(rilqamyn_new(&by_patch, 6, 2, RILQAMYN_PLAIN) == RILQAMYN_DONE);
    for (int i = 0; i < 3; i++) {
        CHECK(feed(&t, i == 0 ? "ab" : i == 1 ? " \xe4\xb8" : "\x96") == RILQAMYN_DONE);
        CHECK(rilqamyn_update(&t, since, &since, &out) == RILQAMYN_DONE);
        CHECK(rilqamyn_feed(&by_update, out.at, out.len) == RILQAMYN_DONE);
        CHECK(rilqamyn_patch(&t, &by_patch, &now, &out) == RILQAMYN_DONE && now == since);
        CHECK(rilqamyn_feed(&by_patch, out.at, out.len) == RILQAMYN_DONE);
        CHECK(rilqamyn_forget_before(&t, since) == RILQAMYN_DONE);
        CHECK(rilqamyn_state(&t, &state) == RILQAMYN_DONE && state.number == since);
    }
    CHECK(rilqamyn_update(&t, since, &now, &out) == RILQAMYN_DONE && is(out, "") && now == since);
    CHECK(rilqamyn_screen_text(&t, &out) == RILQAMYN_DONE && is(out, text_of_screen));
    CHECK(rilqamyn_screen_text(&by_update, &out) == RILQAMYN_DONE && is(out, text_of_screen));
    CHECK(rilqamyn_screen_text(&by_patch, &out) == RILQAMYN_DONE && is(out, text_of_screen));
    CHECK(rilqamyn_resize(&t, 2, 1) == RILQAMYN_DONE);
    CHECK(rilqamyn_screen_text(&t, &out) == RILQAMYN_DONE && is(out, "ab\n"));
    rilqamyn_free(&t);
    rilqamyn_free(&by_update);
    rilqamyn_free(&by_patch);
    return 0;
}

int main(void) {
    return closed_handles() || ranges() || reads() || modes_of_profiles() || viewers();
}
