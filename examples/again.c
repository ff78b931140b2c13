/* Which rows to draw again after words of memory were written. Of each accepted row the console keeps the state before it,
 * the state after it, its cells and its list. Then it goes down the rows: a row whose state before is the one kept, latch
 * and all, and whose list has no written address is as it was. Any other is called again; a refused one always, as its list
 * tells nothing. A start is kept likewise. (With other settings, another start latch or another count of memory all is
 * drawn anew.)
 *
 *     ./build library
 *     cc -O2 -Iinclude examples/again.c target/lib/libthagaduvin.a -o target/again && target/again
 *
 * prints for each write the rows that are called again, and whether the screen is then as if everything were drawn anew.
 * `target/again damaged`: row 2 has codes outside memory. `target/again refused`: the main block is outside memory. */
#include "board.h"

/* A screen of 5 rows of one line. Memory: 0010 main block; 0020, 0030 .. row blocks; 0070 row 2's attribute list; 0080,
 * 0090 .. texts. */
enum { ROWS = 5, COLUMNS = 16, WORDS = 0xE0 / 2 };

static const char *const bulletin[ROWS] = {"STORM WARNING 7", "SE OF THE CAPE", "WIND* SW 9", "SEA STATE 4", "NEXT AT 1200"};

static uint16_t memory[WORDS];
static struct thagaduvin_settings settings = {
    .linear = 1, .flag = 0xFF00 | '*', .top_second = 0x10, .val = ROWS, .vtot = 20, .htc = 30, .htd = COLUMNS,
};

static uint32_t row_block(int row) { return 0x20 + 0x10 * (uint32_t)row; }
static uint32_t text(int row) { return 0x80 + 0x10 * (uint32_t)row; }

static void lay_memory(void) {
    put_pointer(memory, 0x10, row_block(0));
    put(memory, 0x16, ' '); /* fill code */
    for (int row = 0; row < ROWS; row++) {
        put_pointer(memory, row_block(row), row + 1 < ROWS ? row_block(row + 1) : 0);
        put(memory, row_block(row) + 4, 1); /* one segment */
        put_segment(memory, row_block(row) + 6, text(row), row == 2 ? 0x70 : 0, (uint32_t)strlen(bulletin[row]));
        put_text(memory, text(row), bulletin[row]);
    }
}

/* ---- what is kept ---- */

struct kept_row {
    int known; /* 1: an accepted row is kept here */
    struct thagaduvin_state before, after;
    struct thagaduvin_row_answer answer; /* its words are how many addresses the list has */
    uint32_t cells[THAGADUVIN_CELLS], list[THAGADUVIN_LIST];
};

struct screen {
    int known; /* 1: an accepted start is kept here */
    struct thagaduvin_state first;
    struct thagaduvin_start_answer began;
    uint32_t list[THAGADUVIN_LIST];
    struct kept_row rows[ROWS]; /* each takes a line at least, so there are no more */
    uint8_t status;             /* of the call that ended the frame, and what that told */
    struct thagaduvin_row_answer end;
};

/* Words written since the screen was drawn. */
struct writes {
    int count;
    uint32_t addresses[4];
};

static int reads(const uint32_t *list, uint32_t words, const struct writes *w) {
    for (uint32_t i = 0; i < words; i++)
        for (int j = 0; j < w->count; j++)
            if (list[i] == w->addresses[j]) return 1;
    return 0;
}

/* A state is 23 numbers and nothing else, as the header sees to. */
static int same_state(const struct thagaduvin_state *a, const struct thagaduvin_state *b) { return memcmp(a, b, sizeof *a) == 0; }

static int as_it_was(const struct kept_row *kept, const struct thagaduvin_state *state, const struct writes *w) {
    return kept->known && same_state(&kept->before, state) && !reads(kept->list, kept->answer.words, w);
}

/* ---- drawing again ---- */

/* The start, where it is not as it was. */
static uint8_t start_again(struct screen *s, const struct writes *w) {
    if (s->known && !reads(s->list, s->began.words, w)) return 0;
    uint8_t status = thagaduvin_start_of(&settings, memory, WORDS, 0, &s->first, &s->list, &s->began);
    s->known = status == 0;
    s->end.row = s->began.row;
    s->end.address = s->began.address;
    s->end.from = s->began.from;
    return status;
}

/* A row, where it is not as it was; `state` is then the next row's. */
static uint8_t row_again(struct kept_row *kept, struct thagaduvin_state *state, const struct writes *w, int *called) {
    uint8_t status = 0;
    *called = !as_it_was(kept, state, w);
    if (*called) {
        kept->before = *state;
        status = thagaduvin_row_of(&settings, memory, WORDS, state, &kept->cells, &kept->list, &kept->answer);
        kept->known = status == 0;
        kept->after = *state;
    } else *state = kept->after;
    return status;
}

/* The whole screen. Rows that were not reached are forgotten: writes were not held against their lists. */
static void draw_again(struct screen *s, const struct writes *w, int print) {
    struct thagaduvin_state state;
    int y = 0, called;
    s->status = start_again(s, w);
    if (s->status == 0) state = s->first;
    for (; s->status == 0 && state.left != 0; y++) {
        s->status = row_again(&s->rows[y], &state, w, &called);
        if (s->status != 0) s->end = s->rows[y].answer;
        if (!called || !print) continue;
        printf("  row %d is called", y);
        if (s->status == 0) {
            printf(": |");
            print_codes(&s->rows[y].cells, COLUMNS);
            putchar('|');
        }
        putchar('\n');
    }
    for (; y < ROWS; y++) s->rows[y].known = 0;
}

/* ---- is it so? ---- */

/* Whether two screens show the same rows, with the same answers, and end alike. */
static int same_screen(const struct screen *a, const struct screen *b) {
    if (a->status != b->status) return 0;
    if (a->status != 0 && (a->end.row != b->end.row || a->end.address != b->end.address || a->end.from != b->end.from)) return 0;
    for (int y = 0; y < ROWS; y++) {
        const struct kept_row *r = &a->rows[y], *s = &b->rows[y];
        if (r->known != s->known) return 0;
        if (r->known && memcmp(r->cells, s->cells, sizeof r->cells) != 0) return 0;
        if (r->known && memcmp(&r->answer, &s->answer, sizeof r->answer) != 0) return 0;
    }
    return 1;
}

static int check(const struct screen *s) {
    static struct screen anew;
    static const struct writes none;
    memset(&anew, 0, sizeof anew);
    draw_again(&anew, &none, 0);
    int same = same_screen(s, &anew);
    printf("  %s\n", same ? "the same as drawn anew" : "NOT the same as drawn anew");
    if (s->status != 0) REFUSAL(s->status, s->end);
    return same;
}

int main(int count, char **arguments) {
    static const struct { uint32_t address, word; const char *what; } steps[] = {
        {0xA8, '1' << 8 | '0', "in row 2's text"},
        {0x70, THAGADUVIN_ATTRIBUTE_LATCH | THAGADUVIN_ATTRIBUTE_UNDERLINE, "row 2's attribute word: a latch for the rows below"},
        {0xDE, 0x2121, "where no row reads"},
        {0x46, 0x12, "row 2's code pointer, now outside memory"},
        {0xBA, '6' << 8 | ' ', "in the text of row 3, which is not drawn"},
        {0x46, 0, "row 2's code pointer, as it was"},
        {0x16, '.', "the main block's fill code, which the start reads: all states are other ones"},
    };
    static struct screen screen; /* nothing known */
    struct writes written = {0, {0}};
    enum board board = board_of(count, arguments, GOOD);
    lay_memory();
    if (board == DAMAGED) put_pointer(memory, 0x46, 0x1200A0);
    if (board == REFUSED) settings.top_first = 1;

    puts("the first frame");
    draw_again(&screen, &written, 1);
    int same = check(&screen);
    for (size_t i = 0; i < sizeof steps / sizeof *steps && (board == GOOD || i < 3); i++) {
        printf("%04X at %06X, %s\n", steps[i].word, steps[i].address, steps[i].what);
        put(memory, steps[i].address, steps[i].word);
        written = (struct writes){1, {steps[i].address}};
        draw_again(&screen, &written, 1);
        same &= check(&screen);
    }
    return same && screen.status == 0 ? 0 : EXIT_FAILURE;
}
