/* A damaged list mended step by step, then drawn: the second row's code pointer leads outside memory, and the pointer to
 * the row after it too. Each step sets one pointer to 0 and tells which; the last one finds a list that is drawn to its
 * end.
 *
 *     ./build library
 *     cc -O2 -Iinclude examples/mend.c target/lib/libthagaduvin.a -o target/mend_example && target/mend_example
 *
 * `target/mend_example good`: a good list, in which nothing is changed. `target/mend_example refused`: the main block is
 * outside memory, which no step mends. */
#include "board.h"

enum { WORDS = 64, COLUMNS = 4 };

static struct thagaduvin_settings settings = {
    .linear = 1, .flag = 0x8080, .top_second = 0x10, .val = 3, .vtot = 3, .hsd = 1, .htc = 7, .htd = 1 + COLUMNS,
};
static uint16_t memory[WORDS] = {
    AT(0x10) = 0, 0x20, 0, 0x2E, 0, 0, 0,                /* main block: rows of one line, filled with dots */
    AT(0x20) = 0, 0x30, 1, 0, 0x60, 0, 0, 0x404,         /* row 0 */
    AT(0x30) = 0, 0x4000, 1, 0x12, 0x62, 0, 0, 0x404,    /* row 1: its link and its codes lead nowhere */
    AT(0x60) = 0x5241, 0x494E,                           /* RAIN */
};
static uint32_t cells[THAGADUVIN_CELLS], list[THAGADUVIN_LIST];

/* Draws the screen from latch 0. */
static int draw(void) {
    struct thagaduvin_state state;
    struct thagaduvin_start_answer began = {0};
    struct thagaduvin_row_answer row = {0};
    uint8_t status = thagaduvin_start_of(&settings, memory, WORDS, 0, &state, &list, &began);
    if (status != 0) return REFUSAL(status, began);
    while (state.left != 0) {
        status = thagaduvin_row_of(&settings, memory, WORDS, &state, &cells, &list, &row);
        if (status != 0) return REFUSAL(status, row);
        print_codes(&cells, COLUMNS);
        putchar('\n');
    }
    return 0;
}

/* Mends the list. Each step that changes a pointer leaves fewer words that are not 0, so this ends. */
static int mend(void) {
    struct thagaduvin_mend_answer step = {0};
    uint8_t status;
    while ((status = thagaduvin_mend_of(&settings, memory, WORDS, 0, &step)) == 0 && step.changed)
        printf("%06X: %04X %04X becomes 0, for refusal %u: %s\n", step.changed_address, step.changed_first, step.changed_second,
               step.changed_number, words_of((uint8_t)step.changed_number));
    return status == 0 ? 0 : REFUSAL(status, step);
}

int main(int count, char **arguments) {
    enum board board = board_of(count, arguments, DAMAGED);
    if (board == GOOD) {
        put_pointer(memory, 0x30, 0x20);
        put_pointer(memory, 0x36, 0x62);
        put(memory, 0x3E, 0x202);
    }
    if (board == REFUSED) settings.top_second = 0x76;

    draw(); /* as it is, up to its refusal */
    if (mend()) return EXIT_FAILURE;
    return draw();
}
