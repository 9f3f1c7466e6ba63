/* filter.c: reads an application's output from standard input and writes the screen that it leaves.
 *
 *     filter [WIDTH HEIGHT [EVERY]]
 *
 * With EVERY it writes updates for a viewer in place of the screen: one after every so many bytes, one at the end. */
#include <rilqamyn.h>
#include <stdio.h>
#include <stdlib.h>

static struct rilqamyn_terminal terminal = RILQAMYN_CLOSED;

static void check(const char *call, uint32_t code) {
    if (code == RILQAMYN_DONE) return;
    fprintf(stderr, "filter: rilqamyn_%s: code %u\n", call, (unsigned)code);
    exit(1);
}

static size_t number_of(int count, char **words, int at, size_t otherwise) {
    return at < count ? strtoul(words[at], NULL, 10) : otherwise;
}

/* Writes the update for a viewer that has seen the changes up to a number; returns the number that it has seen then. */
static size_t write_update(size_t since) {
    struct rilqamyn_bytes out;
    check("update", rilqamyn_update(&terminal, since, &since, &out));
    fwrite(out.at, 1, out.len, stdout);
    fflush(stdout);
    return since;
}

int main(int count, char **words) {
    static uint8_t piece[4096];
    size_t width = number_of(count, words, 1, 80), height = number_of(count, words, 2, 24);
    size_t every = number_of(count, words, 3, 0), left = every, seen = 0, len;
    struct rilqamyn_state state;
    struct rilqamyn_bytes rows;

    check("new", rilqamyn_new(&terminal, width, height, RILQAMYN_PLAIN));
    while ((len = fread(piece, 1, every && left < sizeof piece ? left : sizeof piece, stdin)) > 0) {
        check("feed", rilqamyn_feed(&terminal, piece, len));
        if (every && (left -= len) == 0) {
            seen = write_update(seen);
            left = every;
        }
        /* No viewer asks for the changes before these: without this call the log would keep them. */
        check("state", rilqamyn_state(&terminal, &state));
        check("forget_before", rilqamyn_forget_before(&terminal, seen ? seen : state.number));
    }
    if (every) {
        write_update(seen);
    } else {
        check("settle", rilqamyn_settle(&terminal));
        check("screen_text", rilqamyn_screen_text(&terminal, &rows));
        fwrite(rows.at, 1, rows.len, stdout);
    }
    rilqamyn_free(&terminal);
    if (!ferror(stdin) && fflush(stdout) == 0 && !ferror(stdout)) return 0;
    fputs("filter: cannot read or write\n", stderr);
    return 1;
}
