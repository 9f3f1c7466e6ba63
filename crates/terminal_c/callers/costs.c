/* costs.c: makes a call some times on a screen of 80x24 that standard input leads to; what one costs is found by
 * counting the instructions of two runs.
 *
 *     costs CALL TIMES < SESSION */
#include <rilqamyn.h>
#include <stdio.h>
#include <stdlib.h>
#include <string.h>

static struct rilqamyn_terminal terminal = RILQAMYN_CLOSED, other = RILQAMYN_CLOSED;
static struct rilqamyn_state state;
static struct rilqamyn_bytes out;
static struct rilqamyn_row row;
static size_t number;
static bool alternate;

static uint32_t new_free(void) {
    uint32_t code = rilqamyn_new(&other, 80, 24, RILQAMYN_PLAIN);
    rilqamyn_free(&other);
    return code;
}
static uint32_t feed(void) { return rilqamyn_feed(&terminal, (const uint8_t *)"x\r\n", 3); }
static uint32_t settle(void) { return rilqamyn_settle(&terminal); }
static uint32_t resize(void) { return rilqamyn_resize(&terminal, 80, 24); }
static uint32_t update(void) { return rilqamyn_update(&terminal, number, &number, &out); }
static uint32_t update_whole(void) { return rilqamyn_update(&terminal, 0, &number, &out); }
static uint32_t patch(void) { return rilqamyn_patch(&terminal, &other, &number, &out); }
static uint32_t take_replies(void) { return rilqamyn_take_replies(&terminal, &out); }
static uint32_t forget_before(void) { return rilqamyn_forget_before(&terminal, number); }
static uint32_t tell_state(void) { return rilqamyn_state(&terminal, &state); }
static uint32_t is_alternate(void) { return rilqamyn_is_alternate(&terminal, &alternate); }
static uint32_t title(void) { return rilqamyn_title(&terminal, &out); }
static uint32_t row_text(void) { return rilqamyn_row_text(&terminal, 2, &out); }
static uint32_t row_cells(void) { return rilqamyn_row(&terminal, 2, &row); }
static uint32_t rows(void) {
    uint32_t code = RILQAMYN_DONE;
    for (size_t at = 0; at < 24; at++) code |= rilqamyn_row(&terminal, at, &row);
    return code;
}
static uint32_t screen_text(void) { return rilqamyn_screen_text(&terminal, &out); }
static uint32_t screen_ansi(void) { return rilqamyn_screen(&terminal, RILQAMYN_ANSI, &out); }
static uint32_t screen_html(void) { return rilqamyn_screen(&terminal, RILQAMYN_HTML, &out); }
static uint32_t screen_svg(void) { return rilqamyn_screen(&terminal, RILQAMYN_SVG, &out); }
static uint32_t screen_json(void) { return rilqamyn_screen(&terminal, RILQAMYN_JSON, &out); }

static const struct {
    const char *name;
    uint32_t (*make)(void);
} calls[] = {
    {"new_free", new_free}, {"feed", feed}, {"settle", settle}, {"resize", resize}, {"update", update},
    {"update_whole", update_whole}, {"patch", patch}, {"take_replies", take_replies}, {"forget_before", forget_before},
    {"state", tell_state}, {"is_alternate", is_alternate}, {"title", title}, {"row_text", row_text},
    {"row", row_cells}, {"rows", rows},
    {"screen_text", screen_text}, {"screen_ansi", screen_ansi}, {"screen_html", screen_html},
    {"screen_svg", screen_svg}, {"screen_json", screen_json},
};

int main(int count, char **words) {
    static uint8_t piece[4096];
    size_t len, at = 0, most = sizeof calls / sizeof *calls;
    if (count != 3 || rilqamyn_new(&terminal, 80, 24, RILQAMYN_PLAIN)) return 2;
    while (at < most && strcmp(words[1], calls[at].name) != 0) at++;
    if (at == most) return 2;
    while ((len = fread(piece, 1, sizeof piece, stdin)) > 0) {
        if (rilqamyn_feed(&terminal, piece, len)) return 1;
    }
    if (calls[at].make == patch && rilqamyn_new(&other, 80, 24, RILQAMYN_PLAIN)) return 1;
    if (rilqamyn_settle(&terminal) || tell_state()) return 1;
    number = state.number;
    for (long left = strtol(words[2], NULL, 10); left > 0; left--) {
        if (calls[at].make()) return 1;
    }
    return 0;
}
