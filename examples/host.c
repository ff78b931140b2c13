/* Sheet S of document 01, a first frame (latch 0), drawn through the calls of a console; it prints what the draw program
 * prints, and a refusal in words besides.
 *
 *     ./build library
 *     cc -O2 -Iinclude examples/host.c target/lib/libthagaduvin.a -o target/host && target/host
 *
 * `target/host damaged`: row 1 has a segment whose codes are outside memory. `target/host refused`: TOP is null. */
#include "board.h"

enum { WORDS = 16384 };

static uint16_t memory[WORDS] = {
    AT(0x10) = 0, 0x20, 0x100, 0x20, 0, 0, 7,
    AT(0x20) = 0, 0x30, 1, 0, 0x60, 0, 0x70, 0x403,
    AT(0x60) = 0x4180, 0x4281,
    AT(0x70) = 0x2000, 0x8002,
};
static struct thagaduvin_settings settings = {
    .linear = 1, .cursor = 1, .flag = 0x8080, .top_second = 0x10, .val = 16, .vtot = 20, .hsd = 1, .htc = 7, .htd = 5,
};
static uint32_t list[THAGADUVIN_LIST]; /* of the addresses read; this program looks at none */

int main(int count, char **arguments) {
    enum board board = board_of(count, arguments, GOOD);
    struct thagaduvin_state state;
    struct thagaduvin_start_answer began = {0};
    struct thagaduvin_row_answer row = {0};
    uint32_t cells[THAGADUVIN_CELLS], columns = settings.htd - settings.hsd, words;
    if (board == DAMAGED) {
        put(memory, 0x34, 1);
        put_segment(memory, 0x36, 0xFFFE00, 0, 3);
    }
    if (board == REFUSED) settings.top_second = 0;

    uint8_t status = thagaduvin_start_of(&settings, memory, WORDS, 0, &state, &list, &began);
    if (status != 0) return REFUSAL(status, began);
    words = began.words;
    while (state.left != 0) {
        status = thagaduvin_row_of(&settings, memory, WORDS, &state, &cells, &list, &row);
        if (status != 0) return REFUSAL(status, row);
        words += row.words;
        printf("row %u lines %u attr %03X words %u\n", row.row, row.lines, row.attributes, row.words);
        for (uint32_t x = 0; x < columns; x++) printf("%s%08X", x ? " " : "", cells[x]);
        putchar('\n');
    }
    printf("end rows %u words %u\n", state.row, words);
    return 0;
}
