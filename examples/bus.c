/* How much of the bus two screens take: sheet S, drawn twice, each row handed in with the words that it reads, and the
 * words of its start with row 0. First with bursts of 8 words and a space of 16, then with a space of 0, which keeps the
 * bus. Last, a burst count of 0.
 *
 *     ./build library
 *     cc -O2 -Iinclude examples/bus.c target/lib/libthagaduvin.a -o target/bus_example && target/bus_example
 *
 * `target/bus_example damaged`: row 1 is wider than 132 cells. `target/bus_example refused`: HTD is above HTC. */
#include <inttypes.h>
#include "board.h"

enum { WORDS = 128 };

static struct thagaduvin_settings settings = {
    .linear = 1, .cursor = 1, .flag = 0x8080, .top_second = 0x10, .val = 16, .vtot = 20, .hsd = 1, .htc = 7, .htd = 5,
};
static uint16_t memory[WORDS] = {
    AT(0x10) = 0, 0x20, 0x100, 0x20, 0, 0, 7,
    AT(0x20) = 0, 0x30, 1, 0, 0x60, 0, 0x70, 0x403,
    AT(0x60) = 0x4180, 0x4281,
    AT(0x70) = 0x2000, 0x8002,
};

static struct thagaduvin_totals totals; /* all 0: no row yet */
static uint32_t list[THAGADUVIN_LIST];  /* of the addresses read; this program looks at none */

/* Hands in a row; the status of the report, which tells no row and no address. */
static uint8_t report(uint16_t burst, uint32_t words, uint32_t screen, uint32_t row) {
    struct thagaduvin_bus_answer bus;
    uint8_t status = thagaduvin_bus_of(burst, words, screen, row, &totals, &bus);
    if (status == 0)
        printf("screen %u row %u: words %u, bursts %" PRIu64 ", clocks released at least %" PRIu64 "\n", screen, row, words,
               bus.row_bursts, bus.row_released);
    return status;
}

/* Draws a screen and hands in its rows, up to the first refusal. */
static int screen(uint32_t number, uint16_t burst) {
    struct thagaduvin_state state;
    struct thagaduvin_start_answer began = {0};
    struct thagaduvin_row_answer row = {0};
    uint32_t cells[THAGADUVIN_CELLS], words;
    uint8_t status = thagaduvin_start_of(&settings, memory, WORDS, 0, &state, &list, &began);
    if (status != 0) return REFUSAL(status, began);
    words = began.words; /* they go with row 0 */
    while (state.left != 0) {
        status = thagaduvin_row_of(&settings, memory, WORDS, &state, &cells, &list, &row);
        if (status != 0) return REFUSAL(status, row);
        status = report(burst, words + row.words, number, row.row);
        if (status != 0) return refused(status, 0, 0, 0);
        words = 0;
    }
    return 0;
}

int main(int count, char **arguments) {
    enum board board = board_of(count, arguments, GOOD);
    if (board == DAMAGED) {
        put(memory, 0x34, 2);
        put_segment(memory, 0x36, 0x60, 0, 130);
        put_segment(memory, 0x40, 0x60, 0, 3);
    }
    if (board == REFUSED) settings.htd = 8;

    if (screen(1, 0x1008) || screen(2, 0x0008)) return EXIT_FAILURE;
    printf("all rows: words %" PRIu64 ", bursts %" PRIu64 ", clocks released at least %" PRIu64 "\n", totals.words, totals.bursts,
           totals.released);
    printf("largest: words %" PRIu64 ", screen %" PRIu64 ", row %" PRIu64 "\n", totals.largest, totals.largest_screen,
           totals.largest_row);
    uint8_t status = report(0x1000, 1, 3, 0);
    printf("a burst count of 0: refused %u: %s\n", status, words_of(status));
    return 0;
}
