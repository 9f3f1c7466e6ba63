/* rilqamyn.h: a terminal that keeps the screen which an application's bytes lead to, and sends viewers what changed.
 *
 * The calls are proved, but not what C does with them. C must keep these rules, and nothing checks them:
 *
 * - A handle, struct rilqamyn_terminal, is RILQAMYN_CLOSED before its first call. It is never copied and its fields are
 *   never written to: between rilqamyn_new and rilqamyn_free it owns memory.
 * - No pointer is null, not even one to 0 bytes, and what is passed in one call doesn't overlap. rilqamyn_patch gets
 *   two different handles. `len` bytes lie where `bytes` points; a call borrows them and keeps none.
 * - An answer, struct rilqamyn_bytes or struct rilqamyn_row, lies in the library's memory. It may be read until the
 *   next call with the same handle, and never be written to or freed.
 * - A handle is in one call at a time. It may move to another thread between two calls, as under a lock.
 * - malloc, realloc and free are of one allocator, whose blocks are aligned to 16 bytes.
 * - No call is made from a signal handler, nor in the forked child of a process with several threads.
 *
 * All calls but rilqamyn_free return one of enum rilqamyn_code. A call that is refused leaves `*now` and `*out` as they
 * were. Every call can be refused with RILQAMYN_NOT_OPEN; each comment names the other codes.
 *
 * Columns and rows count from 0. Texts are UTF-8 without a zero byte at the end. Numbers of changes count from 1. */
#ifndef RILQAMYN_H
#define RILQAMYN_H

#include <stdbool.h>
#include <stddef.h>
#include <stdint.h>

#ifdef __cplusplus
extern "C" {
#endif

/* A handle. */
struct rilqamyn_terminal {
    void *at;
    bool is_open;
};

/* The value of a handle before its first call, and after rilqamyn_free. */
#define RILQAMYN_CLOSED { 0, false }

/* Why a call was refused. */
enum rilqamyn_code {
    RILQAMYN_DONE = 0,        /* it wasn't: the call was carried out */
    RILQAMYN_NOT_OPEN = 1,    /* the handle is closed: before rilqamyn_new, or after rilqamyn_free */
    RILQAMYN_IS_OPEN = 2,     /* the handle is open, and stays as it was */
    RILQAMYN_MEMORY = 3,      /* memory was refused */
    RILQAMYN_NUMBER = 4,      /* the number of changes would pass SIZE_MAX */
    RILQAMYN_FAILED = 5,      /* the terminal has failed, since an earlier call was refused memory or a number */
    RILQAMYN_SIZE = 6,        /* a size isn't from 1 to 2^32 - 1, or two terminals have different sizes */
    RILQAMYN_RANGE = 7,       /* there is no such row, profile or format; or no modes */
    RILQAMYN_OTHER_FAILED = 8 /* the terminal whose screen the viewer shows has failed */
};

/* Which control functions a terminal has. */
enum rilqamyn_profile {
    RILQAMYN_PLAIN = 0, /* those of the project's own terminal description, rilqamyn */
    RILQAMYN_XTERM = 1  /* those of xterm, for programs that run under xterm-256color and its like */
};

/* How a whole screen is written. */
enum rilqamyn_format {
    RILQAMYN_ANSI = 0, /* rows with control sequences (SGR, and OSC 8 for links), each with a line feed after it */
    RILQAMYN_HTML = 1, /* an element <pre>, without the page around it */
    RILQAMYN_SVG = 2,  /* a picture */
    RILQAMYN_JSON = 3  /* an object, in one line: the size, the cursor, the title, and the rows as runs of cells */
};

/* Bytes that the library keeps. `at` is never null. */
struct rilqamyn_bytes {
    const uint8_t *at;
    size_t len;
};

/* What a terminal tells of itself. */
struct rilqamyn_state {
    size_t number;          /* how many changes there have been */
    size_t width;           /* columns */
    size_t height;          /* rows */
    size_t cursor_column;   /* the width while a wrap is pending */
    size_t cursor_row;
    uint32_t cursor_shape;  /* as DECSCUSR numbers it, 0 to 6; 0 also where none was set */
    bool cursor_is_visible;
    bool is_failed;         /* whether each call that changes the terminal is refused with RILQAMYN_FAILED */
};

/* The modes of a terminal of the profile xterm, a byte each. */
struct rilqamyn_modes {
    bool application_cursor;         /* cursor keys send application sequences (DECCKM, DEC mode 1) */
    bool application_keypad;         /* the keypad does (DECKPAM, DECNKM, DEC mode 66) */
    bool reverse_video;              /* foreground and background change places on the whole screen (5) */
    bool blinking_cursor;            /* (12) */
    bool focus_tracking;             /* focus is reported (1004) */
    bool alternate_scroll;           /* on the alternate screen the wheel sends cursor keys (1007) */
    bool bracketed_paste;            /* what is pasted stands between brackets (2004) */
    bool synchronized_output;        /* updates are to be shown at once when this ends (2026) */
    uint8_t mouse_protocol_mode;     /* 0 no event of the mouse is reported, 1 presses of a button (9), 2 presses and
                                      * releases (1000), 3 motion too while a button is held (1002), 4 and all motion
                                      * (1003) */
    uint8_t mouse_protocol_encoding; /* how: 0 coordinates are bytes, 1 characters in UTF-8 (1005), 2 decimal numbers
                                      * as SGR (1006), 3 as urxvt (1015), 4 as SGR in pixels (1016) */
    uint8_t cursor_style;            /* as DECSCUSR numbers it, 0 to 6; 0 is the default one */
    bool alternate_screen;           /* the alternate screen is shown (47, 1047, 1049) */
};

/* A color of a cell. */
struct rilqamyn_color {
    uint8_t kind;                    /* 0 the default one, 1 of the palette, 2 a true color, 3 a true color, or one of
                                      * the palette on what shows no true colors */
    uint8_t index;                   /* in the palette of 256, for the kinds 1 and 3 */
    uint8_t red, green, blue, alpha; /* for the kinds 2 and 3 */
};

/* The attributes of a cell, without its link. */
struct rilqamyn_style {
    uint8_t intensity;      /* 0 normal, 1 bold, 2 half */
    uint8_t underline;      /* 0 none, 1 single, 2 double, 3 curly, 4 dotted, 5 dashed */
    uint8_t blink;          /* 0 none, 1 slow, 2 rapid */
    uint8_t vertical_align; /* 0 on the base line, 1 raised, 2 lowered */
    uint8_t semantic_type;  /* 0 output, 1 input, 2 a prompt */
    bool is_italic;
    bool is_reverse;        /* foreground and background are swapped */
    bool is_strikethrough;
    bool is_invisible;
    bool is_wrapped;        /* the line goes on in the next row after the cell */
    bool is_overline;
    struct rilqamyn_color foreground;
    struct rilqamyn_color background;
    struct rilqamyn_color underline_color; /* the default one is that of the text */
};

/* A cell. Its text and the URI of its link are parts of the row's `text` and `links`; neighboring cells of the same
 * attributes share one URI. */
struct rilqamyn_cell {
    size_t column;   /* its first column */
    size_t width;    /* 1 or 2 columns */
    size_t text_at;
    size_t text_len;
    size_t link_at;
    size_t link_len; /* 0 where there is no link */
    struct rilqamyn_style style;
};

/* The cells of a row, in the order of their columns, which they fill. `cells` is never null. */
struct rilqamyn_row {
    const struct rilqamyn_cell *cells;
    size_t count;
    struct rilqamyn_bytes text;
    struct rilqamyn_bytes links;
};

/* Opens a closed handle: a terminal of blanks of `width` columns and `height` rows, each from 1 to 2^32 - 1, with the
 * cursor at home, of a profile (enum rilqamyn_profile).
 * Codes: IS_OPEN, MEMORY, SIZE, RANGE (no such profile); the handle is then as it was. Never NOT_OPEN. */
uint32_t rilqamyn_new(struct rilqamyn_terminal *t, size_t width, size_t height, uint32_t profile);

/* Closes a handle and frees all that it owns, answers too. On a closed handle it does nothing. */
void rilqamyn_free(struct rilqamyn_terminal *t);

/* Reads `len` bytes of the application's output. They may end anywhere, in a control sequence or a character too. A
 * run of printed characters that nothing has ended is held, since a combining character may follow; rilqamyn_settle
 * ends it. Codes: MEMORY and NUMBER, after which the terminal has failed, and FAILED. */
uint32_t rilqamyn_feed(struct rilqamyn_terminal *t, const uint8_t *bytes, size_t len);

/* Ends the held run, so that the screen shows all that was fed. Codes as of rilqamyn_feed. */
uint32_t rilqamyn_settle(struct rilqamyn_terminal *t);

/* Gives the screen `width` columns and `height` rows, each from 1 to 2^32 - 1. The top left stays; the held run ends
 * first. Codes as of rilqamyn_feed, and SIZE, after which the terminal is as it was. */
uint32_t rilqamyn_resize(struct rilqamyn_terminal *t, size_t width, size_t height);

/* Settles, and answers the bytes that bring a viewer up to date that has seen the changes up to the number `since`, and
 * in `*now` the number of changes so far, which is the `since` of that viewer's next update. At 0, and where the log
 * doesn't keep all changes after `since`, these bytes paint the whole screen. A viewer is a terminal of this size.
 * Codes: MEMORY, NUMBER, FAILED. The terminal has perhaps failed then (rilqamyn_state tells); where it hasn't, it is as
 * after rilqamyn_settle, and the same call may be made again. */
uint32_t rilqamyn_update(struct rilqamyn_terminal *t, size_t since, size_t *now, struct rilqamyn_bytes *out);

/* Settles, and answers the bytes that bring a viewer up to date that shows the screen of another terminal, `shown`,
 * which has to be of this size and stays as it is; and in `*now` the number of changes so far.
 * Codes: those of rilqamyn_update; SIZE and OTHER_FAILED, after which both terminals are as they were. NOT_OPEN also
 * where `shown` is closed. */
uint32_t rilqamyn_patch(struct rilqamyn_terminal *t, struct rilqamyn_terminal *shown, size_t *now,
                        struct rilqamyn_bytes *out);

/* Answers the replies that the terminal has for the application and that were not yet taken, and leaves none. They are
 * to be written to the application's input. Takes no memory. */
uint32_t rilqamyn_take_replies(struct rilqamyn_terminal *t, struct rilqamyn_bytes *out);

/* Drops the changes before a number from the log: the least `since` that a viewer will yet ask for. Without this call
 * the log keeps at most 3 + 6wh/5 changes, of w columns and h rows. Takes no memory. Code: FAILED. */
uint32_t rilqamyn_forget_before(struct rilqamyn_terminal *t, size_t number);

/* What the terminal tells of itself, also if it has failed. Takes no memory. */
uint32_t rilqamyn_state(struct rilqamyn_terminal *t, struct rilqamyn_state *out);

/* The modes of a terminal of the profile xterm, as the bytes so far have set them, also if it has failed. No update or
 * patch carries them to a viewer. Takes no memory. Code: RANGE (a plain terminal, which has none). */
uint32_t rilqamyn_modes(struct rilqamyn_terminal *t, struct rilqamyn_modes *out);

/* Whether the alternate screen is shown, also if the terminal has failed; false on a plain one, which has none. Takes
 * no memory. */
uint32_t rilqamyn_is_alternate(struct rilqamyn_terminal *t, bool *out);

/* The title. As all calls below it doesn't settle. Codes: MEMORY, after which the terminal is as it was, and FAILED. */
uint32_t rilqamyn_title(struct rilqamyn_terminal *t, struct rilqamyn_bytes *out);

/* The text of a row. Codes: MEMORY, FAILED, RANGE. */
uint32_t rilqamyn_row_text(struct rilqamyn_terminal *t, size_t row, struct rilqamyn_bytes *out);

/* The cells of a row. Codes: MEMORY, FAILED, RANGE. */
uint32_t rilqamyn_row(struct rilqamyn_terminal *t, size_t row, struct rilqamyn_row *out);

/* The rows as a text, each with a line feed after it. Codes: MEMORY, FAILED. */
uint32_t rilqamyn_screen_text(struct rilqamyn_terminal *t, struct rilqamyn_bytes *out);

/* The whole screen in a format (enum rilqamyn_format). Codes: MEMORY, FAILED, RANGE (no such format). */
uint32_t rilqamyn_screen(struct rilqamyn_terminal *t, uint32_t format, struct rilqamyn_bytes *out);

#ifdef __cplusplus
}
#endif
#endif
