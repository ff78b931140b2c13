/* The last row of a screen drawn alone: the sheet says how many lines there are, the effects of the rows above are joined
 * from the empty one, and applied to the frame's start latch they give the latch that the row is drawn from. Then the same
 * row drawn in turn.
 *
 *     ./build library
 *     cc -O2 -Iinclude examples/alone.c target/lib/libthagaduvin.a -o target/alone && target/alone
 *
 * `target/alone damaged`: row 1 has codes outside memory; alone and in turn the last row comes to the same refusal.
 * `target/alone refused`: the main block is outside memory. */
#include "board.h"

enum { WORDS = 128, COLUMNS = 4 };

static struct thagaduvin_settings settings = {
    .linear = 1, .flag = 0x8080, .top_second = 0x10, .val = 3, .vtot = 3, .hsd = 1, .htc = 7, .htd = 1 + COLUMNS,
};
static uint16_t memory[WORDS] = {
    AT(0x10) = 0, 0x20, 0, 0x20, 0, 0, 0,                /* main block: rows of one line */
    AT(0x20) = 0, 0x30, 1, 0, 0x60, 0, 0x70, 0x202,      /* row 0: A, and code 80, which latches an underline */
    AT(0x30) = 0, 0x40, 1, 0, 0x62, 0, 0, 0x202,         /* row 1: no attribute list, the latch stays */
    AT(0x40) = 0, 0, 1, 0, 0x64, 0, 0, 0x202,            /* row 2 */
    AT(0x60) = 0x4180, 0x4243, 0x4445,
    AT(0x70) = 0x8002,
};

static uint32_t cells[THAGADUVIN_CELLS], list[THAGADUVIN_LIST];

/* A frame's first state, from latch 0. */
static int start(struct thagaduvin_state *state) {
    struct thagaduvin_start_answer began = {0};
    uint8_t status = thagaduvin_start_of(&settings, memory, WORDS, 0, state, &list, &began);
    return status == 0 ? 0 : REFUSAL(status, began);
}

static int draw(struct thagaduvin_state *state, struct thagaduvin_row_answer *row) {
    uint8_t status = thagaduvin_row_of(&settings, memory, WORDS, state, &cells, &list, row);
    return status == 0 ? 0 : REFUSAL(status, *row);
}

static void print(const char *how, const struct thagaduvin_row_answer *row) {
    printf("row %u %s:", row->row, how);
    for (int x = 0; x < COLUMNS; x++) printf(" %08X", cells[x]);
    printf(", words %u\n", row->words);
}

/* The effects of the rows above the last one, joined, and no cell. Where both parts of a row's effect refuse, the state
 * stays and no row below is reached: the refusal then stands in the joined effect, whatever comes after it. */
static uint8_t effects_above(struct thagaduvin_state *state, struct thagaduvin_effects *above) {
    struct thagaduvin_effects effect, joined;
    memset(above, 0, sizeof *above); /* the empty effect */
    while (state->left > 1) {
        uint8_t status = thagaduvin_effect_of(&settings, memory, WORDS, state, &effect);
        if (status == 0) status = thagaduvin_join_of(above, &effect, &joined);
        if (status != 0) return status;
        *above = joined;
        if (effect.ignore_clear.refusal != 0 && effect.ignore_set.refusal != 0) break;
    }
    return 0;
}

/* The last row alone. */
static int alone(struct thagaduvin_row_answer *row) {
    struct thagaduvin_state state;
    struct thagaduvin_effects above;
    struct thagaduvin_apply_answer applied = {0};
    if (start(&state)) return EXIT_FAILURE;
    uint8_t status = effects_above(&state, &above);
    if (status == 0) status = thagaduvin_apply_of(&above, 0, &applied);
    if (status != 0) return REFUSAL(status, applied);
    printf("latch: %04X\n", applied.latch);
    state.latch = applied.latch;
    return draw(&state, row);
}

/* All rows, the last one last. */
static int in_turn(struct thagaduvin_row_answer *row) {
    struct thagaduvin_state state;
    if (start(&state)) return EXIT_FAILURE;
    while (state.left != 0)
        if (draw(&state, row)) return EXIT_FAILURE;
    return 0;
}

int main(int count, char **arguments) {
    enum board board = board_of(count, arguments, GOOD);
    struct thagaduvin_sheet_answer sheet = {0};
    struct thagaduvin_row_answer row = {0};
    if (board == DAMAGED) put_pointer(memory, 0x36, 0x120062);
    if (board == REFUSED) settings.top_first = 1;

    uint8_t status = thagaduvin_sheet_of(&settings, &sheet);
    if (status != 0) return REFUSAL(status, sheet);
    printf("lines for rows: %u\n", sheet.lines);
    int bad = alone(&row);
    if (!bad) print("alone", &row);
    bad |= in_turn(&row);
    if (!bad) print("in turn", &row);
    return bad;
}
