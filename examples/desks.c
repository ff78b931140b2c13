/* Two desks on one memory: a forecaster's screen and a supervisor's, each with a span of its own. Each desk draws its row,
 * with the addresses of the words that it read. Then the supervisor writes: a word of the forecaster's is refused (15), as
 * are spans that share an address (16); a word of its own is written, and shows in its own row only.
 *
 *     ./build library
 *     cc -O2 -Iinclude examples/desks.c target/lib/libthagaduvin.a -o target/desks && target/desks
 *
 * `target/desks damaged`: the supervisor's row has a window with an edge inside a segment. `target/desks refused`: the rows
 * of that window are out of order. A refused call leaves its list as it was, so of it no list is printed. */
#include "board.h"

enum { WORDS = 0x100, COLUMNS = 4 };

/* One memory: the forecaster's span is 000000 to 0000FF, the supervisor's 000100 to 0001FF. A screen of one row, of four
 * codes. */
static uint16_t memory[WORDS] = {
    AT(0x10) = 0, 0x20, 0, 0x20, 0, 0, 7,
    AT(0x20) = 0, 0, 1, 0, 0x60, 0, 0x70, 0x404,
    AT(0x60) = 0x5241, 0x494E,                            /* RAIN */
    AT(0x110) = 0, 0x120, 0, 0x20, 0, 0, 7,
    AT(0x120) = 0, 0, 1, 0, 0x160, 0, 0x170, 0x404,
    AT(0x160) = 0x4FCB, 0x2020,                           /* OK, the second code with an attribute word */
    AT(0x170) = 0x0002,
    AT(0x180) = 0, 0, 0, 0, 0x0000, 0x0101,               /* a window on row 0, column 1; no screen leads to it yet */
};

struct desk {
    const char *name;
    struct thagaduvin_settings settings;
    struct thagaduvin_span span;
};

/* settings that differ by their main block alone */
#define SCREEN(top) {.linear = 1, .flag = 0x8080, .top_second = top, .val = 8, .vtot = 20, .hsd = 1, .htc = 7, .htd = 1 + COLUMNS}
static struct desk forecaster = {"forecaster", SCREEN(0x10), {0, 0xFF}};
static struct desk supervisor = {"supervisor", SCREEN(0x110), {0x100, 0x1FF}};

static uint32_t cells[THAGADUVIN_CELLS], list[THAGADUVIN_LIST];

static void print_list(const char *desk, const char *call, uint32_t words) {
    printf("%s: %s read", desk, call);
    for (uint32_t i = 0; i < words; i++) printf(" %06X", list[i]);
    putchar('\n');
}

/* Draws a desk's row from latch 0, with the addresses that were read. */
static int draw(const struct desk *d) {
    struct thagaduvin_state state;
    struct thagaduvin_start_answer began = {0};
    struct thagaduvin_row_answer row = {0};
    uint8_t status = thagaduvin_start_of(&d->settings, memory, WORDS, 0, &state, &list, &began);
    if (status != 0) return REFUSAL(status, began);
    print_list(d->name, "start", began.words);
    status = thagaduvin_row_of(&d->settings, memory, WORDS, &state, &cells, &list, &row);
    if (status != 0) return REFUSAL(status, row);
    print_list(d->name, "row", row.words);
    printf("%s: ", d->name);
    for (int x = 0; x < COLUMNS; x++) putchar((int)(cells[x] & 0x7F));
    putchar('\n');
    return 0;
}

/* A word written by a desk; `other` is the other desk's span. */
static void write_word(const struct desk *d, const struct thagaduvin_span *other, uint32_t address, uint16_t word) {
    uint8_t status = thagaduvin_write_word_of(memory, WORDS, &d->span, other, address, word);
    printf("%s writes %04X at %06X: ", d->name, word, address);
    if (status == 0) puts("written");
    else printf("refused %u: %s\n", status, words_of(status));
}

int main(int count, char **arguments) {
    enum board board = board_of(count, arguments, GOOD);
    struct thagaduvin_span wider = {0, 0x100}; /* one address too far */
    if (board != GOOD) supervisor.settings.tow_second = 0x180;
    if (board == REFUSED) put(memory, 0x188, 0x0100);

    if (draw(&forecaster) || draw(&supervisor)) return EXIT_FAILURE;
    write_word(&supervisor, &forecaster.span, 0x60, 0x4E4F);
    write_word(&supervisor, &wider, 0x162, 0x2121);
    write_word(&supervisor, &forecaster.span, 0x162, 0x2121);
    return draw(&forecaster) | draw(&supervisor);
}
