/* What the examples share: which list they are run on, words laid into memory, and how a refusal is told. */
#ifndef BOARD_H
#define BOARD_H

#include <stdio.h>
#include <stdlib.h>
#include <string.h>
#include "thagaduvin.h"

/* ---- which list ---- */

/* Each example has a good list, a damaged one, whose refusal is met in a row, and one whose frame does not start. */
enum board { GOOD, DAMAGED, REFUSED };

/* The list that the program's argument names, or `otherwise`. */
static inline enum board board_of(int count, char **arguments, enum board otherwise) {
    if (count == 1) return otherwise;
    if (count == 2 && strcmp(arguments[1], "good") == 0) return GOOD;
    if (count == 2 && strcmp(arguments[1], "damaged") == 0) return DAMAGED;
    if (count == 2 && strcmp(arguments[1], "refused") == 0) return REFUSED;
    fprintf(stderr, "usage: %s [good | damaged | refused]\n", arguments[0]);
    exit(2);
}

/* ---- memory ---- */

/* in an initializer of memory: the words from a byte address on */
#define AT(a) [(a) / 2]

static inline void put(uint16_t *memory, uint32_t address, uint32_t word) { memory[address / 2] = (uint16_t)word; }

/* A linear pointer: the high byte of the address in the first word. */
static inline void put_pointer(uint16_t *memory, uint32_t address, uint32_t target) {
    put(memory, address, target >> 16);
    put(memory, address + 2, target & 0xFFFF);
}

/* Codes, two to a word; the last word of an odd count ends in a blank. */
static inline void put_text(uint16_t *memory, uint32_t address, const char *codes) {
    for (; codes[0] != 0; codes += codes[1] != 0 ? 2 : 1, address += 2)
        put(memory, address, (uint32_t)(uint8_t)codes[0] << 8 | (codes[1] != 0 ? (uint8_t)codes[1] : ' '));
}

/* A segment of a row block, 10 bytes: `count` codes, all visible; no attribute list where `attributes` is 0. */
static inline void put_segment(uint16_t *memory, uint32_t address, uint32_t codes, uint32_t attributes, uint32_t count) {
    put_pointer(memory, address, codes);
    put_pointer(memory, address + 4, attributes);
    put(memory, address + 8, count << 8 | count);
}

/* ---- cells ---- */

/* The codes of a row's first cells as characters; others than 20h to 7Eh as ?. */
static inline void print_codes(uint32_t (*cells)[THAGADUVIN_CELLS], int columns) {
    for (int x = 0; x < columns; x++) {
        uint32_t code = THAGADUVIN_CELL_CODE((*cells)[x]);
        putchar(code >= 0x20 && code <= 0x7E ? (int)code : '?');
    }
}

/* ---- refusals ---- */

/* A status in words, those of tools/refusals.txt. */
static inline const char *words_of(uint8_t status) {
    switch (status) {
    case THAGADUVIN_REFUSED_CELLS_COUNT: return "the row buffer has not 132 cells";
    case THAGADUVIN_REFUSED_SETTINGS: return "a setting is out of its range, or the settings do not fit together";
    case THAGADUVIN_REFUSED_STATE: return "the state or the scroll is out of range";
    case THAGADUVIN_REFUSED_NO_LINES: return "no lines are left for another row";
    case THAGADUVIN_REFUSED_NO_TOP: return "the top of page is a null pointer";
    case THAGADUVIN_REFUSED_OUTSIDE_MEMORY: return "a word outside memory";
    case THAGADUVIN_REFUSED_WINDOW:
        return "a window's rows or columns are out of order, it ends past column 131, or it is not all below the window before";
    case THAGADUVIN_REFUSED_VISIBLE: return "a segment shows more characters than it has codes (V above L)";
    case THAGADUVIN_REFUSED_ROW_WIDTH: return "the segments of the row are wider than 132 cells";
    case THAGADUVIN_REFUSED_WINDOW_WIDTH: return "the segments of a window's row are wider than the window";
    case THAGADUVIN_REFUSED_WINDOW_EDGE: return "a window's edge is not on a segment boundary";
    case THAGADUVIN_REFUSED_FILL_WORD: return "the attribute word of a fill run has bit 15 clear";
    case THAGADUVIN_REFUSED_WINDOW_SCROLL:
        return "M4 of the main block enables a soft scroll of windows, and only the background scrolls";
    case THAGADUVIN_REFUSED_WRITE: return "the write is to an odd address, or outside the desk's span or memory";
    case THAGADUVIN_REFUSED_SPANS: return "the spans of the two desks share an address";
    case THAGADUVIN_REFUSED_SEGMENTED: return "the settings are segmented, and only linear lists are drawn";
    case THAGADUVIN_REFUSED_PAGE_END: return "a block or list goes on over the end of its page";
    case THAGADUVIN_REFUSED_POINTER_WORD: return "a word of a pointer is also read as something else";
    case THAGADUVIN_REFUSED_BURST_COUNT: return "the count of the burst register is 0";
    case THAGADUVIN_REFUSED_TOTALS: return "a total of the bus report would not fit in 64 bits";
    case THAGADUVIN_REFUSED_MARKS_COUNT: return "the marks are not as many as the words of memory";
    case THAGADUVIN_REFUSED_SHORT_BUFFER: return "the buffer for the text or the cells is too short";
    case THAGADUVIN_REFUSED_TEXT: return "the text is not a row as the writer of rows writes it";
    case THAGADUVIN_REFUSED_LIST_COUNT: return "the list has not 12,000 places";
    case THAGADUVIN_REFUSED_LINEAR: return "the settings are linear already, and only segmented lists are converted";
    case THAGADUVIN_MISUSED: return "a slice or a number that no call takes";
    default: return "accepted";
    }
}

/* Tells a refusal as the draw program does, and in words: the status that a program then ends with. 255 tells no row. */
static inline int refused(uint8_t status, uint32_t row, uint32_t address, uint32_t from) {
    printf("refused %u", status);
    if (status != THAGADUVIN_MISUSED) printf(" row %u at %06X", row, address);
    if (status == THAGADUVIN_REFUSED_OUTSIDE_MEMORY) printf(" from %06X", from);
    printf(": %s\n", words_of(status));
    return EXIT_FAILURE;
}

/* .. from an answer that begins with them */
#define REFUSAL(status, answer) refused(status, (answer).row, (answer).address, (answer).from)

#endif
