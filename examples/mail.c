/* A row as terminal text, and read back. The row shows "Ice!" and then fill that is no character. "Ice" is highlighted by
 * the latch that the frame before handed on, "!" blinks in reverse besides, and the fill's word ends that.
 *
 *     ./build library
 *     cc -O2 -Iinclude examples/mail.c target/lib/libthagaduvin.a -o target/mail && target/mail
 *
 * prints the text, with ESC and the line feed spelled out, the cells read back, and what is said of texts that no row has
 * and of a buffer that is too short. `target/mail damaged`: the fill's word has bit 15 clear. `target/mail refused`: M4
 * scrolls windows. */
#include "board.h"

enum { WORDS = 64, COLUMNS = 5, HANDED_ON = 0x8040 };

/* The flag has all bits in its mask: "!" alone invokes an attribute. Fill takes words of the list too (bit 8 of the fill
 * word). */
static struct thagaduvin_settings settings = {
    .linear = 1, .flag = 0xFF00 | '!', .top_second = 0x10, .val = 1, .vtot = 1, .htc = 7, .htd = COLUMNS,
};
static uint16_t memory[WORDS] = {
    AT(0x10) = 0, 0x20, 0, 0x187, 0, 0, 0,
    AT(0x20) = 0, 0, 1, 0, 0x40, 0, 0x50, 0x404,
    AT(0x50) = THAGADUVIN_ATTRIBUTE_HIGHLIGHT | THAGADUVIN_ATTRIBUTE_REVERSE | THAGADUVIN_ATTRIBUTE_BLINK, /* of "!" */
    AT(0x52) = THAGADUVIN_ATTRIBUTE_LATCH,                                                                 /* of the fill */
};
static uint32_t cells[THAGADUVIN_CELLS], list[THAGADUVIN_LIST];

/* The screen's one row, from the latch that the frame before handed on. */
static int draw(void) {
    struct thagaduvin_state state;
    struct thagaduvin_start_answer began = {0};
    struct thagaduvin_row_answer row = {0};
    uint8_t status = thagaduvin_start_of(&settings, memory, WORDS, HANDED_ON, &state, &list, &began);
    if (status != 0) return REFUSAL(status, began);
    status = thagaduvin_row_of(&settings, memory, WORDS, &state, &cells, &list, &row);
    return status == 0 ? 0 : REFUSAL(status, row);
}

static void print_text(const uint8_t *text, size_t length) {
    for (size_t i = 0; i < length; i++)
        if (text[i] == 0x1b) printf("ESC");
        else if (text[i] == 0x0a) printf("LF\n");
        else putchar(text[i]);
}

/* Reads a text, and prints what comes of it. */
static void read_back(const uint8_t *text, size_t length) {
    uint16_t back[THAGADUVIN_CELLS];
    struct thagaduvin_mail_answer read;
    uint8_t status = thagaduvin_read_mail_of(text, length, &back, &read);
    if (status != 0) { /* 24 tells an offset, other refusals leave the answer as it was */
        printf("refused %u", status);
        if (status == THAGADUVIN_REFUSED_TEXT) printf(" at %u", read.count);
        printf(": %s\n", words_of(status));
        return;
    }
    for (uint32_t i = 0; i < read.count; i++)
        printf(" %c%s%s%s%s", back[i] & 0xff, back[i] & THAGADUVIN_MAIL_HIGHLIGHT ? " highlight" : "",
               back[i] & THAGADUVIN_MAIL_UNDERLINE ? " underline" : "", back[i] & THAGADUVIN_MAIL_BLINK ? " blink" : "",
               back[i] & THAGADUVIN_MAIL_REVERSE ? " reverse" : "");
    printf("\n");
}

int main(int count, char **arguments) {
    enum board board = board_of(count, arguments, GOOD);
    uint8_t text[THAGADUVIN_MAIL_TEXT], small[4];
    struct thagaduvin_mail_answer written;
    put_text(memory, 0x40, "Ice!");
    if (board == DAMAGED) put(memory, 0x52, 0);
    if (board == REFUSED) put(memory, 0x18, 0x5000);

    if (draw()) return EXIT_FAILURE;
    uint8_t status = thagaduvin_write_mail_of(&settings, &cells, text, sizeof text, &written);
    if (status != 0) return refused(status, 0, 0, 0);
    print_text(text, written.count);
    read_back(text, written.count);
    /* the line feed cut off: all of it can stand, so the offset is its length */
    read_back(text, written.count - 1);
    /* a sequence that changes nothing can only end the row */
    read_back((const uint8_t *)"\x1b[0mIce\x1b[0m!", 12);
    status = thagaduvin_write_mail_of(&settings, &cells, small, sizeof small, &written);
    printf("a buffer of %u bytes: refused %u: %s\n", (unsigned)sizeof small, status, words_of(status));
    return 0;
}
