/* A bulletin glides up by two rows, begins a third, turns (the shift is 0 again) and glides down by one row at half the
 * speed; the window with the time stands still. Before each frame the console makes a shift call; in a shifted frame it
 * draws the row beside the cut, and all rows that its panel needs.
 *
 *     ./build library
 *     cc -O2 -Iinclude examples/glide.c target/lib/libthagaduvin.a -o target/glide && target/glide
 *
 * prints examples/glide.txt: a line for each frame (shift, phase, hard top, the row beside the cut), the rows of each frame
 * that is not shifted, and every line of the screen of two that are, one each way. `target/glide damaged`: the window has
 * more codes in its row than columns, which frame 0 meets in row 1. `target/glide refused`: M4 scrolls windows, and the
 * shift call of frame 0 is refused. */
#include "board.h"

/* A screen of 3 rows and 16 columns; rows have 4 scan lines. Memory is all that these blocks need:
 *
 *     0010, 0020 ..  main blocks, one for each row of the bulletin that can be the first on the screen
 *     0100, 0120 ..  row blocks, one for each row of the bulletin, linked in order
 *     0200, 0210 ..  their texts
 *     0300, 0310, 0320  the window: its block, its row block, its text */
enum { ROWS = 6, SHOWN = 3, COLUMNS = 16, LINES = 4, WORDS = 0x330 / 2 };

/* the window: on row 1, columns 10 to 15 */
enum { WINDOW_ROW = 1, WINDOW_COLUMN = 10, WINDOW_COLUMNS = COLUMNS - WINDOW_COLUMN };

/* M4: bit 14 enables, bit 13 is up, bit 12 would be windows, bits 11 to 8 are the rate */
enum {
    STILL = 0,
    UP_BY_ONE = 0x6000,    /* one line a frame */
    UP_BY_THREE = 0x6200,  /* three lines a frame */
    DOWN_SLOWLY = 0x4900,  /* one line in two frames */
    OF_WINDOWS = 0x5000
};

static const char bulletin[ROWS][COLUMNS + 1] = {
    "STORM WARNING 7 ", "SE OF THE CAPE  ", "WIND SW 9 TO 10 ", "SEA HIGH        ", "VISIBILITY POOR ", "NEXT AT 1200    ",
};

static uint16_t memory[WORDS];

static struct thagaduvin_settings settings = {
    .linear = 1, .top_second = 0x10, .tow_second = 0x300, .val = SHOWN * LINES, .vtot = 40, .htd = COLUMNS, .htc = 30,
};

/* the console's, from frame to frame: all 0 after reset */
static struct thagaduvin_scroll scroll;
static uint16_t latch;

static uint32_t main_block(int row) { return 0x10 + 0x10 * (uint32_t)row; }
static uint32_t row_block(int row) { return 0x100 + 0x20 * (uint32_t)row; }
static uint32_t text(int row) { return 0x200 + 0x10 * (uint32_t)row; }

static void lay_memory(void) {
    for (int row = 0; row < ROWS; row++) {
        put_pointer(memory, main_block(row), row_block(row));
        put(memory, main_block(row) + 6, ' ');            /* fill code */
        put(memory, main_block(row) + 12, LINES - 1);     /* M6: scan lines */
        put_pointer(memory, row_block(row), row + 1 < ROWS ? row_block(row + 1) : 0);
        put(memory, row_block(row) + 4, 2);               /* two segments: the window's edge is a boundary */
        put_segment(memory, row_block(row) + 6, text(row), 0, WINDOW_COLUMN);
        put_segment(memory, row_block(row) + 16, text(row) + WINDOW_COLUMN, 0, WINDOW_COLUMNS);
        put_text(memory, text(row), bulletin[row]);
    }
    put_pointer(memory, 0x304, 0x310);                    /* the window's row block; no window after this one */
    put(memory, 0x308, WINDOW_ROW << 8 | WINDOW_ROW);     /* first and last row */
    put(memory, 0x30A, WINDOW_COLUMN << 8 | (COLUMNS - 1));
    put(memory, 0x314, 1);                                /* one segment */
    put_segment(memory, 0x316, 0x320, 0, WINDOW_COLUMNS);
    put_text(memory, 0x320, "[0940]");
}

static uint32_t list[THAGADUVIN_LIST]; /* of the addresses read; this program looks at none */

/* The shift call: from the last frame's scroll to this one's, and this frame's hard top, which goes into TOP. */
static int shift_call(uint16_t soft) {
    struct thagaduvin_shift_answer moved = {0};
    uint8_t status = thagaduvin_shift_of(&settings, memory, WORDS, 0, soft, &scroll, &moved);
    if (status != 0) return REFUSAL(status, moved);
    settings.top_first = moved.hard_first;
    settings.top_second = moved.hard_second;
    return 0;
}

/* What a console keeps of a frame for its panel: the frame's rows, those that come in below, and the one above. */
struct picture {
    struct thagaduvin_picture_row rows[SHOWN + LINES], above;
    uint32_t heights[SHOWN + LINES];
    size_t shown, all, above_count;
};

/* A row of the frame or one that comes in, on `state`, which goes on: its cells, height and columns, and in a shifted frame
 * what is behind its window. */
static uint8_t draw_row(const struct thagaduvin_settings *with, struct thagaduvin_state *state,
                        struct thagaduvin_picture_row *kept, struct thagaduvin_row_answer *row) {
    struct thagaduvin_state before = *state;
    struct thagaduvin_row_answer under = {0};
    uint8_t status = thagaduvin_row_of(with, memory, WORDS, state, &kept->cells, &list, row);
    if (status != 0) return status;
    kept->height = state->scan_lines;
    kept->first = 1, kept->last = 0, kept->has_behind = 0;
    if (state->window == 0 || row->row < state->window_top || row->row > state->window_bottom) return 0;
    kept->first = state->window_left, kept->last = state->window_right;
    before.window = 0;
    if (scroll.shift != 0 && thagaduvin_row_of(with, memory, WORDS, &before, &kept->behind, &list, &under) == 0)
        kept->has_behind = 1;
    return 0;
}

/* Rows while lines are left; the status of one that is refused. */
static uint8_t draw_rows(struct thagaduvin_state *state, struct picture *p, struct thagaduvin_row_answer *row) {
    while (state->left > 0) {
        uint8_t status = draw_row(&settings, state, &p->rows[p->all], row);
        if (status != 0) return status;
        p->heights[p->all] = p->rows[p->all].height;
        p->all++;
    }
    return 0;
}

/* The frame's own rows are those of the hard top; the shift moves none of their cells. */
static int draw(struct thagaduvin_state *state, struct picture *p) {
    struct thagaduvin_start_answer began = {0};
    struct thagaduvin_row_answer row = {0};
    uint8_t status = thagaduvin_start_of(&settings, memory, WORDS, latch, state, &list, &began);
    if (status != 0) return REFUSAL(status, began);
    status = draw_rows(state, p, &row);
    if (status != 0) return REFUSAL(status, row);
    p->shown = p->all;
    return 0;
}

/* Rows that come in: up, on from a copy of the last state with as many lines as the shift; down, row 0 of a start at the soft
 * top. A refusal there leaves dark lines, and is no part of the frame's. */
static void draw_incoming(const struct thagaduvin_state *last, uint16_t soft, struct picture *p) {
    struct thagaduvin_state state = *last;
    struct thagaduvin_settings above = settings;
    struct thagaduvin_start_answer began = {0};
    struct thagaduvin_row_answer row = {0};
    if (scroll.shift > 0) {
        state.left = (uint32_t)scroll.shift;
        draw_rows(&state, p, &row);
    }
    if (scroll.shift < 0) {
        above.top_first = 0, above.top_second = soft;
        if (thagaduvin_start_of(&above, memory, WORDS, latch, &state, &list, &began) == 0)
            p->above_count = draw_row(&above, &state, &p->above, &row) == 0;
    }
}

/* The lines of the screen: on each the row that glides with its scan line, the row that stands still with its own, and what
 * is shown, nothing as a blank. */
static int print_lines(const struct picture *p) {
    struct thagaduvin_line_answer line = {0};
    uint32_t cells[THAGADUVIN_CELLS];
    for (uint32_t y = 0; y < SHOWN * LINES; y += line.lines) {
        uint8_t status = thagaduvin_line_of(scroll.shift, p->above_count ? p->above.height : 0, p->heights, p->all, p->shown, y,
                                            &line);
        if (status != 0 || line.still == 0) return EXIT_FAILURE;
        const struct thagaduvin_picture_row *background = line.background == 2 ? &p->above : &p->rows[line.background_index];
        status = thagaduvin_shown_of(&p->rows[line.still_index], line.background == 0 ? NULL : background, &cells);
        if (status != 0) return EXIT_FAILURE;
        for (uint32_t n = 0; n < line.lines && y + n < SHOWN * LINES; n++) {
            static const char *const glides[] = {"none ", "row  ", "above"};
            printf("  line %2u: %s %u scan line %u, still %u scan line %u |", y + n, glides[line.background],
                   line.background_index, line.background_scan + n, line.still_index, line.still_scan + n);
            for (int x = 0; x < COLUMNS; x++)
                putchar(THAGADUVIN_CELL_NOTHING(cells[x]) ? ' ' : (int)THAGADUVIN_CELL_CODE(cells[x]));
            puts("|");
        }
    }
    return 0;
}

static void print(int number, struct picture *p, const struct thagaduvin_row_answer *beside, uint32_t (*cut)[THAGADUVIN_CELLS]) {
    printf("frame %2d: shift %2d phase %u top %02X%04X", number, scroll.shift, scroll.phase, settings.top_first,
           settings.top_second);
    if (beside->lines != 0) {
        printf(" %s row %u: |", scroll.shift > 0 ? "below" : "above", beside->row);
        print_codes(cut, COLUMNS);
        putchar('|');
    }
    putchar('\n');
    for (int y = 0; scroll.shift == 0 && y < SHOWN; y++) {
        printf("          |");
        print_codes(&p->rows[y].cells, COLUMNS);
        puts("|");
    }
}

/* One frame: shift call, start, rows, the row beside the cut, the latch for the next frame; then the rows that come in. Of two
 * shifted frames, one each way, the lines of the screen are printed. */
static int frame(int number, uint16_t soft) {
    uint32_t cut[THAGADUVIN_CELLS];
    struct picture p = {0};
    struct thagaduvin_state state;
    struct thagaduvin_row_answer beside = {0};
    struct thagaduvin_latch_answer handed = {0};
    if (shift_call(soft) || draw(&state, &p)) return EXIT_FAILURE;
    uint8_t status = thagaduvin_beside_of(&settings, memory, WORDS, scroll.shift, 0, soft, latch, &state, &cut, &list, &beside);
    if (status != 0) return REFUSAL(status, beside);
    draw_incoming(&state, soft, &p);
    status = thagaduvin_latch_of(latch, &state, &handed);
    if (status != 0) return REFUSAL(status, handed);
    latch = (uint16_t)handed.handed_on;
    print(number, &p, &beside, &cut);
    return number == 2 || number == 13 ? print_lines(&p) : 0;
}

int main(int count, char **arguments) {
    /* what M4 says, and in how many frames */
    static const struct { uint16_t m4; int frames; } steps[] = {
        {STILL, 1}, {UP_BY_ONE, 2 * LINES}, {UP_BY_THREE, 1}, {DOWN_SLOWLY, 2 * LINES}, {STILL, 1},
    };
    enum board board = board_of(count, arguments, GOOD);
    int number = 0;
    lay_memory();
    if (board == DAMAGED) put_segment(memory, 0x316, 0x320, 0, WINDOW_COLUMNS + 1);
    for (size_t step = 0; step < sizeof steps / sizeof *steps; step++) {
        for (int row = 0; row < ROWS; row++) put(memory, main_block(row) + 8, board == REFUSED ? OF_WINDOWS : steps[step].m4);
        for (int left = steps[step].frames; left > 0; left--) {
            /* The soft top is the main block of the row that will be first: the next one, or down the one before. */
            uint32_t hard = settings.top_second;
            if (frame(number++, (uint16_t)(steps[step].m4 == DOWN_SLOWLY ? hard - 0x10 : hard + 0x10))) return EXIT_FAILURE;
        }
    }
    return 0;
}
