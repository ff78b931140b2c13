/* A segmented list turned into a linear one, and drawn. The first word of each pointer that the frame reads, and those of
 * TOP and TOW, take their linear form: the page in the low byte. Refused conversions change nothing: one mark too few (22),
 * codes that stand in a pointer (19). What was turned is linear, and is not turned again (26).
 *
 *     ./build library
 *     cc -O2 -Iinclude examples/convert.c target/lib/libthagaduvin.a -o target/convert_example && target/convert_example
 *
 * `target/convert_example damaged`: the second row's codes go on over the end of a page, which a linear list would read
 * otherwise. `target/convert_example refused`: TOP is null. */
#include "board.h"

enum { WORDS = 0x8040, COLUMNS = 4 };

/* The main block in page 0, two row blocks and the first row's codes in page 1, the second row's codes in page 0. A
 * segmented pointer has its page in bits 14 to 8 of the first word; the bits around it are ignored. */
static uint16_t memory[WORDS] = {
    AT(0x10) = 0x01FF, 0x20, 0, 0x20, 0, 0, 7,
    AT(0x80) = 0x534E, 0x4F57,                                  /* SNOW */
    AT(0x10020) = 0x8100, 0x40, 1, 0x0100, 0x60, 0, 0, 0x404,
    AT(0x10040) = 0, 0, 1, 0, 0x80, 0, 0, 0x404,
    AT(0x10060) = 0x5241, 0x494E,                               /* RAIN */
};
static uint16_t before[WORDS];
static uint8_t marks[WORDS];
static uint32_t cells[THAGADUVIN_CELLS], list[THAGADUVIN_LIST];

static struct thagaduvin_settings settings = {
    .linear = 0, .flag = 0x8080, .top_first = 0x00FF, .top_second = 0x10, .val = 16, .vtot = 20, .hsd = 1, .htc = 7, .htd = 5,
};

/* Converts the list from latch 0, with so many marks, and tells what changed. */
static int convert(size_t marks_count) {
    struct thagaduvin_convert_answer answer = {0};
    memcpy(before, memory, sizeof memory);
    uint8_t status = thagaduvin_convert_of(&settings, memory, WORDS, marks, marks_count, 0, &answer);
    if (status != 0) REFUSAL(status, answer);
    else printf("pointers turned: %u\n", answer.turned);
    for (uint32_t i = 0; i < WORDS; i++)
        if (memory[i] != before[i]) printf("%06X: %04X becomes %04X\n", 2 * i, before[i], memory[i]);
    return status != 0;
}

/* Draws the screen from latch 0. */
static int draw(void) {
    struct thagaduvin_state state;
    struct thagaduvin_start_answer began = {0};
    struct thagaduvin_row_answer row = {0};
    uint8_t status = thagaduvin_start_of(&settings, memory, WORDS, 0, &state, &list, &began);
    if (status != 0) return REFUSAL(status, began);
    while (state.left != 0) {
        status = thagaduvin_row_of(&settings, memory, WORDS, &state, &cells, &list, &row);
        if (status != 0) return REFUSAL(status, row);
        print_codes(&cells, COLUMNS);
        putchar('\n');
    }
    return 0;
}

int main(int count, char **arguments) {
    enum board board = board_of(count, arguments, GOOD);
    if (board == DAMAGED) put(memory, 0x10048, 0xFFFE);
    if (board == REFUSED) settings.top_second = 0;
    if (board == GOOD) {
        convert(WORDS - 1);
        put(memory, 0x10048, 0x10); /* the second row's codes from the main block's pointer */
        convert(WORDS);
        put(memory, 0x10048, 0x80);
    }

    if (convert(WORDS)) return EXIT_FAILURE;
    printf("TOP %04X %04X\n", settings.top_first, settings.top_second);
    convert(WORDS); /* once more: they are linear */
    return draw();
}
