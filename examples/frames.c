/* Two frames of one screen, the second from the latch that the first hands on. Row 0 shows AB. Row 1, the last, shows C and
 * then code 80, which latches an underline (attribute bit 1, in a cell 00000200) that nothing ends: it goes on at the top
 * of the next frame.
 *
 * This example shows the slices: numbers at named places, each slice with its count. The others use the structs.
 *
 *     ./build library
 *     cc -O2 -Iinclude examples/frames.c target/lib/libthagaduvin.a -o target/frames && target/frames
 *
 * prints row 0 of each frame, and the latch that the frame hands on:
 *
 *     frame 0: 00100041 00100042 00000020 00000020, hands on 8002
 *     frame 1: 00100241 00100242 00000220 00000220, hands on 8002
 *
 * `target/frames damaged`: row 1 shows more characters than it has codes; a refused frame hands on the latch it was started
 * with. `target/frames refused`: the settings are segmented. */
#include "board.h"

enum { WORDS = 128, COLUMNS = 4 };

static uint32_t settings[THAGADUVIN_SETTINGS] = {
    [THAGADUVIN_LINEAR] = 1, [THAGADUVIN_FLAG] = 0x8080, [THAGADUVIN_TOP_SECOND] = 0x10, [THAGADUVIN_VAL] = 2,
    [THAGADUVIN_VTOT] = 2,   [THAGADUVIN_HSD] = 1,       [THAGADUVIN_HTC] = 7,           [THAGADUVIN_HTD] = 1 + COLUMNS,
};
static uint16_t memory[WORDS] = {
    AT(0x10) = 0, 0x20, 0, 0x20, 0, 0, 0,                /* main block: rows of one line */
    AT(0x20) = 0, 0x30, 1, 0, 0x60, 0, 0, 0x202,         /* row 0: two codes at 0060, no attribute list */
    AT(0x30) = 0, 0, 1, 0, 0x62, 0, 0x70, 0x202,         /* row 1: two codes at 0062, attribute list at 0070 */
    AT(0x60) = 0x4142, 0x4380,
    AT(0x70) = 0x8002,
};

static uint32_t list[THAGADUVIN_LIST]; /* of the addresses read; this program looks at none */

/* The rows of a frame whose start was accepted. A refused row ends the frame; its answer says why. */
static uint8_t rows(uint32_t *state, uint32_t *answer) {
    uint32_t cells[THAGADUVIN_CELLS];
    uint8_t status = 0;
    while (status == 0 && state[THAGADUVIN_LEFT] != 0) {
        status = thagaduvin_row(settings, THAGADUVIN_SETTINGS, memory, WORDS, state, THAGADUVIN_STATE, cells, THAGADUVIN_CELLS,
                                list, THAGADUVIN_LIST, answer, THAGADUVIN_ROW_ANSWER);
        if (status != 0 || answer[THAGADUVIN_ANSWER_ROW] != 0) continue;
        for (int x = 0; x < COLUMNS; x++) printf(" %08X", cells[x]);
    }
    return status;
}

/* Draws a frame from a latch, which is then the one that it hands on; whether it was refused. */
static int frame(int number, uint16_t *latch) {
    uint32_t state[THAGADUVIN_STATE], began[THAGADUVIN_START_ANSWER] = {0}, row[THAGADUVIN_ROW_ANSWER] = {0};
    uint32_t handed[THAGADUVIN_LATCH_ANSWER], *told = began;
    uint8_t status = thagaduvin_start(settings, THAGADUVIN_SETTINGS, memory, WORDS, *latch, state, THAGADUVIN_STATE, list,
                                      THAGADUVIN_LIST, began, THAGADUVIN_START_ANSWER);
    printf("frame %d:", number);
    if (status == 0) { /* a refused start gives no state, and its frame hands on the latch as it is */
        status = rows(state, told = row);
        if (thagaduvin_latch(*latch, state, THAGADUVIN_STATE, handed, THAGADUVIN_LATCH_ANSWER) == 0)
            *latch = (uint16_t)handed[THAGADUVIN_HANDED_ON];
    } else printf(" not started");
    printf(", hands on %04X\n", *latch);
    if (status == 0) return 0;
    return refused(status, told[THAGADUVIN_ANSWER_ROW], told[THAGADUVIN_ANSWER_ADDRESS], told[THAGADUVIN_ANSWER_FROM]);
}

int main(int count, char **arguments) {
    enum board board = board_of(count, arguments, GOOD);
    uint16_t latch = 0; /* after reset */
    int bad = 0;
    if (board == DAMAGED) put(memory, 0x3E, 0x203);
    if (board == REFUSED) settings[THAGADUVIN_LINEAR] = 0;
    for (int number = 0; number < 2; number++) bad |= frame(number, &latch);
    return bad;
}
