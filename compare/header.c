/* compare/header compiles this in every edition of C and C++, links and runs it: each form over structs leaves what its call
 * leaves over slices, and macros take the parts of a cell. WRONG names a line that must not compile. */
#include <stdio.h>
#include <string.h>
#include "thagaduvin.h"
#include "thagaduvin.h" /* once more: nothing is declared twice */

#if !defined(THAGADUVIN_VERSION) || THAGADUVIN_VERSION < 1
#error "no version"
#endif

#ifdef THAGADUVIN_INLINE

enum { WORDS = 128 };

/* sheet S of document 01, and a main block at 0090 that scrolls down */
static const uint16_t sheet_s[][2] = {
    {0x12, 0x20}, {0x14, 0x100}, {0x16, 0x20}, {0x1C, 7},      {0x22, 0x30},   {0x24, 1},      {0x28, 0x60},   {0x2C, 0x70},
    {0x2E, 0x403}, {0x60, 0x4180}, {0x62, 0x4281}, {0x70, 0x2000}, {0x72, 0x8002}, {0x92, 0x20}, {0x98, 0x4000}, {0x9C, 7}
};
static uint16_t memory[WORDS], memory_too[WORDS];
static struct thagaduvin_settings settings;
static uint32_t numbers[THAGADUVIN_SETTINGS];

/* what the form leaves, and what the call leaves */
static struct thagaduvin_state state;
static uint32_t state_numbers[THAGADUVIN_STATE];
static uint32_t cells[THAGADUVIN_CELLS], cells_too[THAGADUVIN_CELLS], list[THAGADUVIN_LIST], list_too[THAGADUVIN_LIST];
static struct thagaduvin_effects first, second, joined;
static uint32_t first_numbers[THAGADUVIN_EFFECT], second_numbers[THAGADUVIN_EFFECT], joined_numbers[THAGADUVIN_EFFECT];

static int faults;

static void hold(const char *what, int so) {
    if (so) return;
    printf("not so: %s\n", what);
    faults++;
}

static int same(const void *form, const void *call, size_t size) { return memcmp(form, call, size) == 0; }

/* the structs, and slices of the same numbers, at their places */
static void lay(void) {
    size_t i;
    memset(memory, 0, sizeof memory);
    for (i = 0; i < sizeof sheet_s / sizeof *sheet_s; i++) memory[sheet_s[i][0] / 2] = sheet_s[i][1];
    memcpy(memory_too, memory, sizeof memory);
    memset(&settings, 0, sizeof settings);
    memset(numbers, 0, sizeof numbers);
    settings.linear = 1;
    settings.cursor = 1;
    settings.flag = 0x8080;
    settings.top_second = 0x10;
    settings.val = 16;
    settings.vtot = 20;
    settings.hsd = 1;
    settings.htc = 7;
    settings.htd = 5;
    numbers[THAGADUVIN_LINEAR] = 1;
    numbers[THAGADUVIN_CURSOR] = 1;
    numbers[THAGADUVIN_FLAG] = 0x8080;
    numbers[THAGADUVIN_TOP_SECOND] = 0x10;
    numbers[THAGADUVIN_VAL] = 16;
    numbers[THAGADUVIN_VTOT] = 20;
    numbers[THAGADUVIN_HSD] = 1;
    numbers[THAGADUVIN_HTC] = 7;
    numbers[THAGADUVIN_HTD] = 5;
    hold("settings have their places", same(&settings, numbers, sizeof numbers) && sizeof settings == sizeof numbers);
}

/* A call by both forms: the same status, `expected`, and the same answer, whatever stood there. */
#define BOTH(what, expected, form, call, answer, slice)                                                    \
    do {                                                                                                   \
        uint8_t by_form, by_call;                                                                          \
        memset(&(answer), 0xA5, sizeof(answer));                                                           \
        memset(slice, 0xA5, sizeof slice);                                                                 \
        by_form = form;                                                                                    \
        by_call = call;                                                                                    \
        hold(what, by_form == (expected) && by_call == (expected) && sizeof(answer) == sizeof slice &&     \
                       same(&(answer), slice, sizeof slice));                                              \
    } while (0)

static void draws(void) {
    struct thagaduvin_sheet_answer sheet;
    struct thagaduvin_start_answer began;
    struct thagaduvin_row_answer row;
    struct thagaduvin_latch_answer handed;
    uint32_t sheet_numbers[THAGADUVIN_SHEET_ANSWER], began_numbers[THAGADUVIN_START_ANSWER], row_numbers[THAGADUVIN_ROW_ANSWER];
    uint32_t handed_numbers[THAGADUVIN_LATCH_ANSWER];
    BOTH("sheet", 0, thagaduvin_sheet_of(&settings, &sheet),
         thagaduvin_sheet(numbers, THAGADUVIN_SETTINGS, sheet_numbers, THAGADUVIN_SHEET_ANSWER), sheet, sheet_numbers);
    hold("16 lines for rows", sheet.lines == 16 && sheet.invoking == 128);
    BOTH("start", 0, thagaduvin_start_of(&settings, memory, WORDS, 0, &state, &list, &began),
         thagaduvin_start(numbers, THAGADUVIN_SETTINGS, memory, WORDS, 0, state_numbers, THAGADUVIN_STATE, list_too,
                          THAGADUVIN_LIST, began_numbers, THAGADUVIN_START_ANSWER),
         began, began_numbers);
    hold("7 words of the start", began.words == 7 && list[6] == 0x1C && same(list, list_too, sizeof list));
    hold("state of the start", same(&state, state_numbers, sizeof state_numbers) && state.left == 16 && state.cursor_x == 1);
    BOTH("row", 0, thagaduvin_row_of(&settings, memory, WORDS, &state, &cells, &list, &row),
         thagaduvin_row(numbers, THAGADUVIN_SETTINGS, memory, WORDS, state_numbers, THAGADUVIN_STATE, cells_too, THAGADUVIN_CELLS,
                        list_too, THAGADUVIN_LIST, row_numbers, THAGADUVIN_ROW_ANSWER),
         row, row_numbers);
    hold("12 words of row 0", row.words == 12 && row.lines == 8 && row.row == 0 && same(list, list_too, sizeof list));
    hold("cells of row 0", same(cells, cells_too, sizeof cells) && cells[0] == 0x00100041 && cells[1] == 0x00500042 &&
                               cells[2] == 0x00100281 && cells[3] == 0x00000220);
    hold("state after row 0", same(&state, state_numbers, sizeof state_numbers) && state.latch == 0x8002 && state.row == 1);
    BOTH("latch", 0, thagaduvin_latch_of(0x1234, &state, &handed),
         thagaduvin_latch(0x1234, state_numbers, THAGADUVIN_STATE, handed_numbers, THAGADUVIN_LATCH_ANSWER), handed,
         handed_numbers);
    hold("a frame left half way hands on its latch", handed.handed_on == 0x1234);
}

static void bus_and_mail(void) {
    struct thagaduvin_totals totals;
    struct thagaduvin_bus_answer bus;
    struct thagaduvin_mail_answer mail;
    uint64_t totals_numbers[THAGADUVIN_BUS_TOTALS], bus_numbers[THAGADUVIN_BUS_ANSWER];
    uint32_t mail_numbers[THAGADUVIN_MAIL_ANSWER];
    uint8_t text[THAGADUVIN_MAIL_TEXT], text_too[THAGADUVIN_MAIL_TEXT];
    uint16_t back[THAGADUVIN_CELLS], back_too[THAGADUVIN_CELLS];
    memset(&totals, 0, sizeof totals);
    memset(totals_numbers, 0, sizeof totals_numbers);
    BOTH("bus", 0, thagaduvin_bus_of(0x1008, 19, 4, 5, &totals, &bus),
         thagaduvin_bus(0x1008, 19, 4, 5, totals_numbers, THAGADUVIN_BUS_TOTALS, bus_numbers, THAGADUVIN_BUS_ANSWER), bus,
         bus_numbers);
    hold("totals", same(&totals, totals_numbers, sizeof totals_numbers) && totals.largest_screen == 4 &&
                       totals.largest_row == 5 && totals.any == 1 && totals.released == 480 && bus.row_bursts == 3);
    memset(text, 0, sizeof text);
    memset(text_too, 0, sizeof text_too);
    BOTH("write_mail", 0, thagaduvin_write_mail_of(&settings, &cells, text, sizeof text, &mail),
         thagaduvin_write_mail(numbers, THAGADUVIN_SETTINGS, cells, THAGADUVIN_CELLS, text_too, sizeof text_too, mail_numbers,
                               THAGADUVIN_MAIL_ANSWER),
         mail, mail_numbers);
    hold("text", same(text, text_too, sizeof text) && mail.count == 19 && text[18] == 0x0A);
    memset(back, 0, sizeof back);
    memset(back_too, 0, sizeof back_too);
    BOTH("read_mail", 0, thagaduvin_read_mail_of(text, 19, &back, &mail),
         thagaduvin_read_mail(text_too, 19, back_too, THAGADUVIN_CELLS, mail_numbers, THAGADUVIN_MAIL_ANSWER), mail,
         mail_numbers);
    hold("cells read back", same(back, back_too, sizeof back) && mail.count == 4 && back[0] == 'A' &&
                                back[3] == (' ' | THAGADUVIN_MAIL_UNDERLINE));
}

static void effects(void) {
    struct thagaduvin_apply_answer applied;
    struct thagaduvin_start_answer began;
    uint32_t applied_numbers[THAGADUVIN_APPLY_ANSWER];
    hold("a start", thagaduvin_start_of(&settings, memory, WORDS, 0, &state, &list, &began) == 0);
    memcpy(state_numbers, &state, sizeof state_numbers);
    BOTH("effect", 0, thagaduvin_effect_of(&settings, memory, WORDS, &state, &first),
         thagaduvin_effect(numbers, THAGADUVIN_SETTINGS, memory, WORDS, state_numbers, THAGADUVIN_STATE, first_numbers,
                           THAGADUVIN_EFFECT),
         first, first_numbers);
    hold("row 0 sets 8002", first.ignore_clear.set == 1 && first.ignore_clear.word == 0x8002 && first.ignore_set.set == 1 &&
                                first_numbers[THAGADUVIN_PART + THAGADUVIN_PART_WORD] == first.ignore_set.word && state.row == 1);
    memset(&second, 0, sizeof second);
    memset(second_numbers, 0, sizeof second_numbers);
    BOTH("join", 0, thagaduvin_join_of(&first, &second, &joined),
         thagaduvin_join(first_numbers, THAGADUVIN_EFFECT, second_numbers, THAGADUVIN_EFFECT, joined_numbers, THAGADUVIN_EFFECT),
         joined, joined_numbers);
    BOTH("apply", 0, thagaduvin_apply_of(&joined, 0x2000, &applied),
         thagaduvin_apply(joined_numbers, THAGADUVIN_EFFECT, 0x2000, applied_numbers, THAGADUVIN_APPLY_ANSWER), applied,
         applied_numbers);
    hold("the latch is 8002", applied.latch == 0x8002);
}

static void scrolls(void) {
    struct thagaduvin_scroll scroll;
    struct thagaduvin_shift_answer moved;
    struct thagaduvin_row_answer beside;
    uint32_t scroll_numbers[THAGADUVIN_SCROLL], moved_numbers[THAGADUVIN_SHIFT_ANSWER], beside_numbers[THAGADUVIN_ROW_ANSWER];
    memset(&scroll, 0, sizeof scroll);
    memset(scroll_numbers, 0, sizeof scroll_numbers);
    settings.top_second = numbers[THAGADUVIN_TOP_SECOND] = 0x90;
    BOTH("shift", 0, thagaduvin_shift_of(&settings, memory, WORDS, 0, 0x10, &scroll, &moved),
         thagaduvin_shift(numbers, THAGADUVIN_SETTINGS, memory, WORDS, 0, 0x10, scroll_numbers, THAGADUVIN_SCROLL, moved_numbers,
                          THAGADUVIN_SHIFT_ANSWER),
         moved, moved_numbers);
    hold("a line down", same(&scroll, scroll_numbers, sizeof scroll_numbers) && scroll.shift == -1 && scroll.direction == 0 &&
                            moved.hard_first == 0 && moved.hard_second == 0x90);
    memset(cells, 0, sizeof cells);
    BOTH("beside", 0,
         thagaduvin_beside_of(&settings, memory, WORDS, scroll.shift, 0, 0x10, 0, &state, &cells, &list, &beside),
         thagaduvin_beside(numbers, THAGADUVIN_SETTINGS, memory, WORDS, -1, 0, 0x10, 0, state_numbers, THAGADUVIN_STATE,
                           cells_too, THAGADUVIN_CELLS, list_too, THAGADUVIN_LIST, beside_numbers, THAGADUVIN_ROW_ANSWER),
         beside, beside_numbers);
    hold("row 0 above", same(cells, cells_too, sizeof cells) && same(list, list_too, sizeof list) && beside.words == 19);
}

static void lines(void) {
    static const uint32_t heights[] = {8, 8, 4};
    static struct thagaduvin_picture_row still, background;
    struct thagaduvin_line_answer line;
    uint32_t line_numbers[THAGADUVIN_LINE_ANSWER];
    size_t i;
    BOTH("line", 0, thagaduvin_line_of(3, 0, heights, 3, 2, 6, &line),
         thagaduvin_line(3, 0, heights, 3, 2, 6, line_numbers, THAGADUVIN_LINE_ANSWER), line, line_numbers);
    hold("row 1 glides over row 0", line.background == 1 && line.background_index == 1 && line.background_scan == 1 &&
                                        line.still == 1 && line.still_index == 0 && line.still_scan == 6 && line.lines == 2);
    for (i = 0; i < THAGADUVIN_CELLS; i++) {
        still.cells[i] = 0x00500041;
        background.cells[i] = 0x00100042;
        background.behind[i] = 0x00100043;
    }
    still.first = 4, still.last = 7;
    background.first = 6, background.last = 9, background.has_behind = 1;
    BOTH("shown", 0, thagaduvin_shown_of(&still, &background, &cells),
         thagaduvin_shown(still.cells, THAGADUVIN_CELLS, 4, 7, background.cells, THAGADUVIN_CELLS, 6, 9, background.behind,
                          THAGADUVIN_CELLS, cells_too, THAGADUVIN_CELLS),
         cells, cells_too);
    hold("the window stands still", cells[3] == 0x00500042 && cells[4] == 0x00500041 && cells[7] == 0x00500041 &&
                                        cells[8] == 0x00500043 && cells[10] == 0x00500042);
    hold("no row glides", thagaduvin_shown_of(&still, NULL, &cells) == 0 && cells[3] == 0x00C00000 &&
                              THAGADUVIN_CELL_NOTHING(cells[3]) == 1 && cells[4] == 0x00500041);
    hold("no row stands still", thagaduvin_shown_of(NULL, &background, &cells) == 0 && cells[0] == 0x00800000);
}

static void writes(void) {
    struct thagaduvin_mend_answer mended;
    struct thagaduvin_convert_answer converted;
    struct thagaduvin_span own, other;
    uint32_t mended_numbers[THAGADUVIN_MEND_ANSWER], converted_numbers[THAGADUVIN_CONVERT_ANSWER];
    static uint8_t marks[WORDS];
    own.first = 0x20;
    own.last = 0x2F;
    other.first = 0x60;
    other.last = 0x7F;
    hold("write_word", thagaduvin_write_word_of(memory, WORDS, &own, &other, 0x26, 0x7F) == 0 &&
                           thagaduvin_write_word(memory_too, WORDS, 0x20, 0x2F, 0x60, 0x7F, 0x26, 0x7F) == 0 &&
                           thagaduvin_write_word_of(memory, WORDS, &own, &other, 0x60, 1) == THAGADUVIN_REFUSED_WRITE &&
                           thagaduvin_write_word_of(memory, WORDS, &own, &own, 0x26, 1) == THAGADUVIN_REFUSED_SPANS);
    hold("the word is written", same(memory, memory_too, sizeof memory) && memory[0x13] == 0x7F);
    BOTH("mend", 0, thagaduvin_mend_of(&settings, memory, WORDS, 0, &mended),
         thagaduvin_mend(numbers, THAGADUVIN_SETTINGS, memory_too, WORDS, 0, mended_numbers, THAGADUVIN_MEND_ANSWER), mended,
         mended_numbers);
    hold("the code pointer is 0", mended.changed == 1 && mended.changed_address == 0x26 && mended.changed_first == 0x7F &&
                                      mended.changed_second == 0x60 && same(memory, memory_too, sizeof memory) &&
                                      mended.changed_number == THAGADUVIN_REFUSED_OUTSIDE_MEMORY && memory[0x13] == 0);
    settings.linear = numbers[THAGADUVIN_LINEAR] = 0;
    settings.top_first = numbers[THAGADUVIN_TOP_FIRST] = 0x80FF;
    BOTH("convert", 0, thagaduvin_convert_of(&settings, memory, WORDS, marks, sizeof marks, 0, &converted),
         thagaduvin_convert(numbers, THAGADUVIN_SETTINGS, memory_too, WORDS, marks, sizeof marks, 0, converted_numbers,
                            THAGADUVIN_CONVERT_ANSWER),
         converted, converted_numbers);
    hold("TOP is turned", converted.turned == 1 && settings.linear == 1 && settings.top_first == 0 &&
                              same(&settings, numbers, sizeof numbers) && same(memory, memory_too, sizeof memory));
    BOTH("convert again", THAGADUVIN_REFUSED_LINEAR,
         thagaduvin_convert_of(&settings, memory, WORDS, marks, sizeof marks, 0, &converted),
         thagaduvin_convert(numbers, THAGADUVIN_SETTINGS, memory_too, WORDS, marks, sizeof marks, 0, converted_numbers,
                            THAGADUVIN_CONVERT_ANSWER),
         converted, converted_numbers);
}

static void parts_of_a_cell(void) {
    const uint32_t cell = 0x02686341; /* window 2, cursor, attribute 4063, code 41 */
    hold("parts of a cell", THAGADUVIN_CELL_CODE(cell) == 0x41 && THAGADUVIN_CELL_ATTRIBUTES(cell) == 0x63 &&
                                THAGADUVIN_CELL_ATTRIBUTE_CURSOR(cell) == 1 && THAGADUVIN_CELL_CURSOR(cell) == 1 &&
                                THAGADUVIN_CELL_SOURCE(cell) == THAGADUVIN_SOURCE_WINDOW && THAGADUVIN_CELL_WINDOW(cell) == 2);
    hold("attribute bits", THAGADUVIN_CELL_ATTRIBUTES(cell) == (THAGADUVIN_ATTRIBUTE_HIGHLIGHT | THAGADUVIN_ATTRIBUTE_REVERSE |
                                                                THAGADUVIN_ATTRIBUTE_UNDERLINE | THAGADUVIN_ATTRIBUTE_BLINK));
}

/* Each of these lends one thing where another belongs. */
#ifdef WRONG
void wrong(void);
void wrong(void) {
    static struct thagaduvin_start_answer began;
    static struct thagaduvin_row_answer row;
    static struct thagaduvin_latch_answer handed;
    static struct thagaduvin_apply_answer applied;
    static struct thagaduvin_totals totals;
    static struct thagaduvin_bus_answer bus;
    static struct thagaduvin_mend_answer mended;
    static const struct thagaduvin_settings fixed = {1, 0, 0, 0, 0, 0, 0, 0, 0, 0, 0, 0, 0, 0, 0, 0, 0, 0};
    static uint32_t shorter[THAGADUVIN_CELLS - 1];
#if WRONG == 0 /* all as it should be */
    thagaduvin_start_of(&settings, memory, WORDS, 0, &state, &list, &began);
    thagaduvin_row_of(&settings, memory, WORDS, &state, &cells, &list, &row);
    thagaduvin_apply_of(&first, 0, &applied);
    thagaduvin_latch_of(0, &state, &handed);
    thagaduvin_bus_of(0, 0, 0, 0, &totals, &bus);
    thagaduvin_mend_of(&settings, memory, WORDS, 0, &mended);
#elif WRONG == 1
    thagaduvin_start_of(&settings, memory, WORDS, 0, &state, &list, &row);
#elif WRONG == 2
    thagaduvin_row_of(&settings, memory, WORDS, &state, &cells, &list, &began);
#elif WRONG == 3
    thagaduvin_row_of(&settings, memory, WORDS, &state, &list, &cells, &row);
#elif WRONG == 4
    thagaduvin_row_of(&settings, memory, WORDS, &state, &shorter, &list, &row);
#elif WRONG == 5
    thagaduvin_start_of(&settings, memory, WORDS, 0, &settings, &list, &began);
#elif WRONG == 6
    thagaduvin_apply_of(&first, 0, &handed);
#elif WRONG == 7
    thagaduvin_bus_of(0, 0, 0, 0, &bus, &totals);
#elif WRONG == 8
    thagaduvin_mend_of(&fixed, memory, WORDS, 0, &mended);
#endif
    (void)began, (void)row, (void)handed, (void)applied, (void)totals, (void)bus, (void)mended, (void)fixed, (void)shorter;
}
#endif

int main(void) {
    lay();
    draws();
    bus_and_mail();
    effects();
    scrolls();
    lines();
    writes();
    parts_of_a_cell();
    return faults != 0;
}

#else

int main(void) { return 0; }

#endif
