/* Rows of an Am8052 or Z8052 screen: the calls of a console, over slices that it lends them.
 *
 * Structs. A slice of numbers at fixed places has a struct of the same layout beside its places, with their names as
 * fields, and each call a form over these structs, its name with _of, at the end of this file: no count and no place is
 * written by hand. Names of calls are not taken: an effect is a struct thagaduvin_effects, a row's answer a struct
 * thagaduvin_row_answer.
 *
 * Slices. A slice is a pointer and its count of elements, one argument after the other. No pointer is null, also where the
 * count is 0; each is aligned as its elements ask. A slice that a call writes (not const) overlaps no other slice of that
 * call. Memory has any count of words, numbers of the machine: the word at the byte address a is memory[a / 2].
 *
 * Status. Each call gives one: 0, accepted; the number of a refusal (THAGADUVIN_REFUSED_..); or 255, THAGADUVIN_MISUSED.
 * 255 is judged before all, and nothing is written: a slice has not the count that its table says; a state's latch, cursor,
 * fill or mark of a window is past its range; an effect is none, as its table says; the mark of totals is above 1. A number
 * past its range is else a refusal: among settings 2, in a state or a scroll 3. Counts that are judged by a refusal, and
 * not by 255: cells 1, list 25, marks 22, the buffer of a text or of cells that are read back 23.
 *
 * What a refusal writes. Of a sheet, a start, a row, an apply, a shift, a row beside the cut and a mending step the first
 * three places of the answer, and nothing else; of a conversion the whole answer, and the marks are free; of a reader of
 * text the one place of its answer with 24, nothing with 23; of a writer of text, a bus report, a writer of words and shown
 * nothing. So settings, memory, state, scroll, totals, cells, list and text stay as they were. The calls latch, effect,
 * join and line refuse nothing.
 *
 * Order. Each call names its refusals in the order in which they are judged; it gives the first.
 *
 * The host. The library, libthagaduvin.a, is for x86-64 and Linux, and position independent. It has no data, takes no
 * memory but what is lent and its stack, and needs memcpy and memset alone. Any thread may call, several at once, as long
 * as no other one writes what is lent, or reads what the call writes, until the call is done. `./build staticlib` makes it
 * in five parts, named below where their calls begin; `./build library` puts them together.
 *
 * Stack of a call, at most, as measured: half a kilobyte for sheet, start, latch, line, shown, bus, read_mail, write_word,
 * join and apply; one for shift; two for write_mail and mend; three for row, effect, beside and convert. (Where memcpy and memset
 * are bound lazily, the first call of each takes two more.) */
#ifndef THAGADUVIN_H
#define THAGADUVIN_H

#include <stddef.h>
#include <stdint.h>

#ifdef __cplusplus
extern "C" {
#endif

/* Raised when a count, a place or a status below changes. */
#define THAGADUVIN_VERSION 1

/* The refusals. A status has one of these numbers or 0, accepted, or 255. 5 is withdrawn: no call gives it. */
enum {
    THAGADUVIN_REFUSED_CELLS_COUNT = 1,  /* the row buffer has not 132 cells */
    THAGADUVIN_REFUSED_SETTINGS = 2,     /* a setting is out of its range, or the settings do not fit together */
    THAGADUVIN_REFUSED_STATE = 3,        /* the state or the scroll is out of range */
    THAGADUVIN_REFUSED_NO_LINES = 4,     /* no lines are left for another row */
    THAGADUVIN_REFUSED_NO_TOP = 6,       /* the top of page is a null pointer */
    THAGADUVIN_REFUSED_OUTSIDE_MEMORY = 7, /* a word outside memory */
    THAGADUVIN_REFUSED_WINDOW = 8,       /* a window's rows or columns are out of order, it ends past column 131, or it is not
                                            all below the window before */
    THAGADUVIN_REFUSED_VISIBLE = 9,      /* a segment shows more characters than it has codes (V above L) */
    THAGADUVIN_REFUSED_ROW_WIDTH = 10,   /* the segments of the row are wider than 132 cells */
    THAGADUVIN_REFUSED_WINDOW_WIDTH = 11, /* the segments of a window's row are wider than the window */
    THAGADUVIN_REFUSED_WINDOW_EDGE = 12, /* a window's edge is not on a segment boundary */
    THAGADUVIN_REFUSED_FILL_WORD = 13,   /* the attribute word of a fill run has bit 15 clear */
    THAGADUVIN_REFUSED_WINDOW_SCROLL = 14, /* M4 of the main block enables a soft scroll of windows, and only the background
                                            scrolls */
    THAGADUVIN_REFUSED_WRITE = 15,       /* the write is to an odd address, or outside the desk's span or memory */
    THAGADUVIN_REFUSED_SPANS = 16,       /* the spans of the two desks share an address */
    THAGADUVIN_REFUSED_SEGMENTED = 17,   /* the settings are segmented, and only linear lists are drawn */
    THAGADUVIN_REFUSED_PAGE_END = 18,    /* a block or list goes on over the end of its page */
    THAGADUVIN_REFUSED_POINTER_WORD = 19, /* a word of a pointer is also read as something else */
    THAGADUVIN_REFUSED_BURST_COUNT = 20, /* the count of the burst register is 0 */
    THAGADUVIN_REFUSED_TOTALS = 21,      /* a total of the bus report would not fit in 64 bits */
    THAGADUVIN_REFUSED_MARKS_COUNT = 22, /* the marks are not as many as the words of memory */
    THAGADUVIN_REFUSED_SHORT_BUFFER = 23, /* the buffer for the text or the cells is too short */
    THAGADUVIN_REFUSED_TEXT = 24,        /* the text is not a row as the writer of rows writes it */
    THAGADUVIN_REFUSED_LIST_COUNT = 25,  /* the list has not 12,000 places */
    THAGADUVIN_REFUSED_LINEAR = 26,      /* the settings are linear already, and only segmented lists are converted */
    THAGADUVIN_MISUSED = 255             /* no refusal: a slice or a number that no call takes, as told above */
};

/* Settings, with the range of each place; where nothing is said, 0 to 65535. Refusal 2: a number past it, or settings that
 * do not fit together: VSD < VAL <= VTOT, HSYNC < HTC, HSD < HTD <= HTC, HTD - HSD (the shown columns) at most 132; when
 * interlaced also VSW, VSD, VAL and HTC odd and VTOT even. */
enum {
    THAGADUVIN_LINEAR,     /* 1 linear, 0 segmented: refusal 17 in every call that reads memory but a conversion */
    THAGADUVIN_HIDDEN,     /* 1 Display Hidden, 0 not */
    THAGADUVIN_INTERLACE,  /* 0 none, 1 repeat field, 2 video */
    THAGADUVIN_CURSOR,     /* 1 cursor enabled, 0 not */
    THAGADUVIN_FLAG,       /* attribute flag: mask in the high byte, value in the low */
    THAGADUVIN_TOP_FIRST,  /* hard top of page, its two words */
    THAGADUVIN_TOP_SECOND,
    THAGADUVIN_TOW_FIRST,  /* hard top of window, its two words */
    THAGADUVIN_TOW_SECOND,
    THAGADUVIN_VSW,        /* 0 to 63 */
    THAGADUVIN_VSD,        /* 0 to 63 */
    THAGADUVIN_VAL,        /* 0 to 4095 */
    THAGADUVIN_VTOT,       /* 0 to 4095 */
    THAGADUVIN_HSYNC,      /* 0 to 255 */
    THAGADUVIN_HSD,        /* 0 to 511 */
    THAGADUVIN_HTC,        /* 0 to 1023 */
    THAGADUVIN_HTD,        /* 0 to 1023 */
    THAGADUVIN_EDITION,    /* 0 Am8052; 1 Z8052: its timing, and refusal 2 for a value bit outside the flag's mask, and for an
                              even HTD when interlaced */
    THAGADUVIN_SETTINGS    /* 18 numbers */
};

struct thagaduvin_settings {
    uint32_t linear, hidden, interlace, cursor, flag;
    uint32_t top_first, top_second, tow_first, tow_second;
    uint32_t vsw, vsd, val, vtot;
    uint32_t hsync, hsd, htc, htd;
    uint32_t edition;
};

/* A state. An accepted start or row writes all of it; it is handed to the next row as it stands. A number past its range is
 * refusal 3, with the row as it stands, but 255 where that is said. */
enum {
    THAGADUVIN_LATCH,       /* 0 to 65535, else 255 */
    THAGADUVIN_ROW,         /* any number; above 4095 with the lines left is refusal 3 */
    THAGADUVIN_LEFT,        /* lines left, any number; the row beside the cut does not look at them */
    THAGADUVIN_CURSOR_X,    /* 0 to 255, else 255 */
    THAGADUVIN_CURSOR_Y,    /* 0 to 255, else 255 */
    THAGADUVIN_FILL_CODE,   /* 0 to 255, else 255 */
    THAGADUVIN_FILL_FLAG,   /* 0 or 1, else 255 */
    THAGADUVIN_SCAN_LINES,  /* 1 to 32 */
    THAGADUVIN_ATTRIBUTES,  /* row attributes, 0 to 1023 */
    THAGADUVIN_CURS,        /* 0 to 31 */
    THAGADUVIN_CURE,        /* 0 to 31 */
    THAGADUVIN_ROW_BLOCK,   /* address of the next row block, even, of 24 bits */
    THAGADUVIN_WINDOW,      /* 1 a window is in hand, 0 none, else 255; without one its places are written as 0 and not judged */
    THAGADUVIN_WINDOW_TOP,  /* first row, at most the last */
    THAGADUVIN_WINDOW_BOTTOM, /* last row, 0 to 255 */
    THAGADUVIN_WINDOW_LEFT, /* first column, at most the last */
    THAGADUVIN_WINDOW_RIGHT, /* last column, 0 to 131 */
    THAGADUVIN_WINDOW_ROW_BLOCK, /* address of its next row block, even, of 24 bits */
    THAGADUVIN_WINDOW_BLOCK, /* address of the next window block, even, of 24 bits */
    THAGADUVIN_WINDOW_NUMBER, /* the window's number along the chain, from 0; at most its first row */
    /* where each of these three pointers begins in memory, even, of 24 bits: 0 where a register held it, and beside an address
     * 0, where another is refusal 3 */
    THAGADUVIN_ROW_BLOCK_FROM, /* the pointer to the next row block */
    THAGADUVIN_WINDOW_ROW_BLOCK_FROM, /* to the window's next row block */
    THAGADUVIN_WINDOW_BLOCK_FROM, /* to the next window block */
    THAGADUVIN_STATE        /* 23 numbers */
};

struct thagaduvin_state {
    uint32_t latch, row, left;
    uint32_t cursor_x, cursor_y, fill_code, fill_flag;
    uint32_t scan_lines, attributes, curs, cure;
    uint32_t row_block;
    uint32_t window, window_top, window_bottom, window_left, window_right;
    uint32_t window_row_block, window_block, window_number;
    uint32_t row_block_from, window_row_block_from, window_block_from;
};

/* A scroll, from one frame to the next. An accepted shift call writes all of it; after reset all are 0. Any numbers may
 * stand here: what is out of range (a shift past 31 either way or against its direction, a phase above 7, a direction that
 * is neither 0 nor 1) is refusal 3. */
enum {
    THAGADUVIN_SHIFT,      /* scan lines in two's complement, (int32_t)scroll[THAGADUVIN_SHIFT]: positive up, negative down */
    THAGADUVIN_PHASE,      /* frames since the last line of a slow rate, 0 to 7 */
    THAGADUVIN_DIRECTION,  /* 1 up, 0 down: bit 13 of M4 */
    THAGADUVIN_SCROLL      /* 3 numbers */
};

struct thagaduvin_scroll {
    int32_t shift; /* signed as it stands */
    uint32_t phase, direction;
};

/* Every answer but those of a text, of a bus report and of a line begins with these three. */
enum {
    THAGADUVIN_ANSWER_ROW,     /* the row that was drawn or refused, or that an applied effect refuses; 0 where there is none: in
                                  a sheet, start, latch, shift and mending step, and in an accepted apply and conversion */
    THAGADUVIN_ANSWER_ADDRESS, /* of refusal 7 the word outside memory, of 13 the fill word, of 18 the page's last word, of 19 the
                                  word of a pointer; of others, and in an accepted call, 0 */
    THAGADUVIN_ANSWER_FROM     /* of refusal 7, where the pointer in use begins in memory, 0 where a register held it; else 0 */
};

/* The answer of an accepted sheet: the half lines of an even field and of an odd one, lines for rows, clocks, and how many
 * of the 256 codes invoke an attribute. The first field after enable is even, the next one odd, and so on. Both have the
 * same half lines but when the Z8052 is interlaced. Sync, back porch, active and front porch sum to the field. */
enum {
    THAGADUVIN_SHEET_EVEN_SYNC = 3,
    THAGADUVIN_SHEET_EVEN_BACK,
    THAGADUVIN_SHEET_EVEN_RISE,    /* sync fall to blank rise: back porch and active */
    THAGADUVIN_SHEET_EVEN_ACTIVE,
    THAGADUVIN_SHEET_EVEN_FRONT,
    THAGADUVIN_SHEET_EVEN_FIELD,
    THAGADUVIN_SHEET_ODD_SYNC,
    THAGADUVIN_SHEET_ODD_BACK,
    THAGADUVIN_SHEET_ODD_RISE,
    THAGADUVIN_SHEET_ODD_ACTIVE,
    THAGADUVIN_SHEET_ODD_FRONT,
    THAGADUVIN_SHEET_ODD_FIELD,
    THAGADUVIN_SHEET_LINES,
    THAGADUVIN_SHEET_CLOCKS_SYNC,
    THAGADUVIN_SHEET_CLOCKS_PERIOD,
    THAGADUVIN_SHEET_CLOCKS_RISE,
    THAGADUVIN_SHEET_CLOCKS_FALL,
    THAGADUVIN_SHEET_INVOKING,
    THAGADUVIN_SHEET_ANSWER    /* 21 numbers */
};

struct thagaduvin_sheet_answer {
    uint32_t row, address, from;
    uint32_t even_sync, even_back, even_rise, even_active, even_front, even_field;
    uint32_t odd_sync, odd_back, odd_rise, odd_active, odd_front, odd_field;
    uint32_t lines;
    uint32_t clocks_sync, clocks_period, clocks_rise, clocks_fall;
    uint32_t invoking;
};

/* The answer of an accepted start: the words read. */
enum {
    THAGADUVIN_START_WORDS = 3,
    THAGADUVIN_START_ANSWER    /* 4 numbers */
};

struct thagaduvin_start_answer {
    uint32_t row, address, from;
    uint32_t words;
};

/* The answer of an accepted row: its lines, row attributes, CURS, CURE and the words read. */
enum {
    THAGADUVIN_ROW_LINES = 3,
    THAGADUVIN_ROW_ATTRIBUTES,
    THAGADUVIN_ROW_CURS,
    THAGADUVIN_ROW_CURE,
    THAGADUVIN_ROW_WORDS,
    THAGADUVIN_ROW_ANSWER      /* 8 numbers */
};

struct thagaduvin_row_answer {
    uint32_t row, address, from;
    uint32_t lines, attributes, curs, cure, words;
};

/* The cells of a row, of which the first HTD - HSD are shown. Bits of a cell: 7..0 code; 18..8 attribute bits 10..0; 19
 * attribute bit 14; 21..20 source (0 fill, 1 background, 2 window); 22 the absolute cursor; 23 is 0; 31..24 the number of
 * the window along the chain, from 0, where the source is 2, else 0. */
enum { THAGADUVIN_CELLS = 132 };

#define THAGADUVIN_CELL_CODE(cell) ((cell) & 0xFFu)
#define THAGADUVIN_CELL_ATTRIBUTES(cell) ((cell) >> 8 & 0x7FFu)     /* attribute bits 10..0, at their places */
#define THAGADUVIN_CELL_ATTRIBUTE_CURSOR(cell) ((cell) >> 19 & 1u)  /* attribute bit 14: 1 or 0 */
#define THAGADUVIN_CELL_SOURCE(cell) ((cell) >> 20 & 3u)            /* one of the three below */
#define THAGADUVIN_CELL_CURSOR(cell) ((cell) >> 22 & 1u)            /* the absolute cursor: 1 or 0 */
#define THAGADUVIN_CELL_NOTHING(cell) ((cell) >> 23 & 1u)           /* of thagaduvin_shown: 1 a dark place, else 0 */
#define THAGADUVIN_CELL_WINDOW(cell) ((cell) >> 24 & 0xFFu)         /* the window's number, where the source is a window */

enum {
    THAGADUVIN_SOURCE_FILL,
    THAGADUVIN_SOURCE_BACKGROUND,
    THAGADUVIN_SOURCE_WINDOW
};

/* Bits of an attribute word that have a name. Latch and ignore are in no cell, the cursor is a cell's bit 19, and the last
 * four are in THAGADUVIN_CELL_ATTRIBUTES. */
enum {
    THAGADUVIN_ATTRIBUTE_LATCH = 0x8000,     /* bit 15: the word becomes the latch; else it is for its character alone */
    THAGADUVIN_ATTRIBUTE_CURSOR = 0x4000,    /* bit 14 */
    THAGADUVIN_ATTRIBUTE_IGNORE = 0x2000,    /* bit 13: the character has no cell, unless Display Hidden is set */
    THAGADUVIN_ATTRIBUTE_HIGHLIGHT = 0x40,   /* bit 6 */
    THAGADUVIN_ATTRIBUTE_REVERSE = 0x20,     /* bit 5 */
    THAGADUVIN_ATTRIBUTE_UNDERLINE = 0x02,   /* bit 1 */
    THAGADUVIN_ATTRIBUTE_BLINK = 0x01        /* bit 0 */
};

/* The list of a start, a row or a row beside the cut: the byte addresses of the words read, in order, one for each. The
 * answer's words say how many were written; places past them stay, and a refusal, 7 and 13 too, leaves all of them. Another
 * count is refusal 25. */
enum { THAGADUVIN_LIST = 12000 };

/* The answer of a writer or a reader of a row's text: the text's length, or the count of cells; of refusal 24 the offset. */
enum {
    THAGADUVIN_MAIL_COUNT,
    THAGADUVIN_MAIL_ANSWER     /* 1 number */
};

struct thagaduvin_mail_answer {
    uint32_t count;
};

/* The longest text that a row can have, in bytes: a buffer of this size is never too short. */
enum { THAGADUVIN_MAIL_TEXT = 1593 };

/* A cell that was read back, of 16 bits: its character in bits 7..0, and its four marks. The bits above are 0. */
enum {
    THAGADUVIN_MAIL_HIGHLIGHT = 0x100,
    THAGADUVIN_MAIL_UNDERLINE = 0x200,
    THAGADUVIN_MAIL_BLINK = 0x400,
    THAGADUVIN_MAIL_REVERSE = 0x800
};

/* An effect: its part for a latch with ignore (bit 13) clear, then, 6 places on, the one for a latch with ignore set. A
 * part refuses where the number of its refusal is not 0; else it sets the latch or keeps it. What a part does not use is 0:
 * where it refuses, SET and WORD, and FROM but of refusal 7; where not, ROW, ADDRESS and FROM, and WORD where it keeps.
 * Twelve zeros are the empty effect. Other numbers are no effect, and 255. */
enum {
    THAGADUVIN_PART_REFUSAL,   /* number of its refusal, 0, 2 to 4, 7 to 13 or 17 */
    THAGADUVIN_PART_ROW,       /* the refusal's row, any number */
    THAGADUVIN_PART_ADDRESS,   /* the refusal's address, any number */
    THAGADUVIN_PART_FROM,      /* of refusal 7, where the pointer begins, any number */
    THAGADUVIN_PART_SET,       /* 1 it sets the latch, 0 it keeps it */
    THAGADUVIN_PART_WORD,      /* the word that it sets, 0 to 65535 */
    THAGADUVIN_PART,           /* 6 numbers */
    THAGADUVIN_EFFECT = 12     /* numbers: two parts */
};

struct thagaduvin_part {
    uint32_t refusal, row, address, from, set, word;
};

struct thagaduvin_effects {
    struct thagaduvin_part ignore_clear, ignore_set;
};

/* The answer of an accepted apply: the latch. */
enum {
    THAGADUVIN_APPLY_LATCH = 3,
    THAGADUVIN_APPLY_ANSWER    /* 4 numbers */
};

struct thagaduvin_apply_answer {
    uint32_t row, address, from;
    uint32_t latch;
};

/* The answer of a latch call: the latch that the frame hands on. */
enum {
    THAGADUVIN_HANDED_ON = 3,
    THAGADUVIN_LATCH_ANSWER    /* 4 numbers */
};

struct thagaduvin_latch_answer {
    uint32_t row, address, from;
    uint32_t handed_on;
};

/* The answer of an accepted shift: the frame's hard top, two words for TOP. */
enum {
    THAGADUVIN_HARD_FIRST = 3,
    THAGADUVIN_HARD_SECOND,
    THAGADUVIN_SHIFT_ANSWER    /* 5 numbers */
};

struct thagaduvin_shift_answer {
    uint32_t row, address, from;
    uint32_t hard_first, hard_second;
};

/* The answer of an accepted line: all 0 where no row stands still there. */
enum {
    THAGADUVIN_LINE_BACKGROUND,   /* what glides there: 0 nothing, 1 a row of `heights`, 2 the row above */
    THAGADUVIN_LINE_BACKGROUND_INDEX, /* which row, from 0; 0 for the row above */
    THAGADUVIN_LINE_BACKGROUND_SCAN, /* which of its scan lines, from 0 */
    THAGADUVIN_LINE_STILL,     /* 1 a row stands still there, 0 none */
    THAGADUVIN_LINE_STILL_INDEX, /* which row of the frame, from 0 */
    THAGADUVIN_LINE_STILL_SCAN, /* which of its scan lines, from 0 */
    THAGADUVIN_LINE_LINES,     /* how many lines from this one on have these two rows, each a scan line further */
    THAGADUVIN_LINE_ANSWER     /* 7 numbers */
};

/* A row as a console keeps it for its panel, for thagaduvin_shown_of. */
struct thagaduvin_picture_row {
    uint32_t height;           /* its scan lines: SCAN_LINES of the state after it */
    uint32_t first, last;      /* the columns of the window on it; first past last where there is none */
    uint32_t has_behind;       /* 1 where `behind` was drawn, 0 where there is no window, or that row was refused */
    uint32_t cells[THAGADUVIN_CELLS];
    uint32_t behind[THAGADUVIN_CELLS]; /* its cells without the window */
};

struct thagaduvin_line_answer {
    uint32_t background, background_index, background_scan;
    uint32_t still, still_index, still_scan;
    uint32_t lines;
};

/* The answer of an accepted mending step. */
enum {
    THAGADUVIN_CHANGED = 3,    /* 1 a pointer was set to 0; 0 the frame is drawn to its end, and all is 0 here */
    THAGADUVIN_CHANGED_ADDRESS, /* where the pointer begins in memory; 0 for TOW, whose two numbers in the settings are then 0 */
    THAGADUVIN_CHANGED_FIRST,  /* its first word before */
    THAGADUVIN_CHANGED_SECOND, /* its second word before */
    THAGADUVIN_CHANGED_NUMBER, /* the number of the refusal that it is to blame for, 7 to 13 */
    THAGADUVIN_MEND_ANSWER     /* 8 numbers */
};

struct thagaduvin_mend_answer {
    uint32_t row, address, from;
    uint32_t changed, changed_address, changed_first, changed_second, changed_number;
};

/* The answer of a conversion. */
enum {
    THAGADUVIN_TURNED = 3,     /* how many pointers have changed, TOP and TOW among them; a refusal writes 0 */
    THAGADUVIN_CONVERT_ANSWER  /* 4 numbers */
};

struct thagaduvin_convert_answer {
    uint32_t row, address, from;
    uint32_t turned;
};

/* The running totals of a bus report, 64-bit numbers: all 0 before the first row. An accepted call writes all of them; they
 * are handed to the next call as they stand. */
enum {
    THAGADUVIN_BUS_WORDS,          /* words of the rows handed in */
    THAGADUVIN_BUS_BURSTS,         /* their bursts */
    THAGADUVIN_BUS_RELEASED,       /* their least released time, in system clocks */
    THAGADUVIN_BUS_LARGEST,        /* the largest word count, of the first row that has it */
    THAGADUVIN_BUS_LARGEST_SCREEN, /* that row's screen, as handed in */
    THAGADUVIN_BUS_LARGEST_ROW,    /* that row's number, as handed in */
    THAGADUVIN_BUS_ANY,            /* 1 a row was handed in, 0 none yet: the three before are then not looked at */
    THAGADUVIN_BUS_TOTALS          /* 7 numbers */
};

struct thagaduvin_totals {
    uint64_t words, bursts, released;
    uint64_t largest, largest_screen, largest_row;
    uint64_t any;
};

/* The answer of an accepted bus call, 64-bit numbers too: what the row takes. */
enum {
    THAGADUVIN_BUS_ROW_BURSTS,     /* its bursts */
    THAGADUVIN_BUS_ROW_RELEASED,   /* its least released time, in system clocks */
    THAGADUVIN_BUS_ANSWER          /* 2 numbers */
};

struct thagaduvin_bus_answer {
    uint64_t row_bursts, row_released;
};

/* A span of a writer of words: its first and its last byte address. */
struct thagaduvin_span {
    uint32_t first, last;
};

/* A frame and its rows, texts, the bus, a writer of words: part thagaduvin. */

/* The settings sheet. Refusal: 2. */
uint8_t thagaduvin_sheet(const uint32_t *settings, size_t settings_count, uint32_t *answer, size_t answer_count);

/* A frame's first state, into `state`, whatever stood there, and the addresses of the words read into `list`. `latch` is
 * the latch that the frame before handed on, 0 for the first frame after reset; any is taken, and the state's latch is it.
 * A refused start gives no state, and the frame hands on `latch`: the console keeps it for the next start. Refusals: 25; 2;
 * 17; of the main block 6, 7, 14; of the first window 7, 8. */
uint8_t thagaduvin_start(const uint32_t *settings, size_t settings_count, const uint16_t *memory, size_t memory_count,
                         uint16_t latch, uint32_t *state, size_t state_count, uint32_t *list, size_t list_count, uint32_t *answer,
                         size_t answer_count);

/* The row of `state`: its cells into `cells`, the next state into `state`, and the addresses of the words read into `list`.
 * Refusals: 1; 25; 2; 17; 3; 4; of a window that is due 7, 8; of the row block 7, of its redefinition 7, then 9, 10; of the
 * window's row block 7, then 9, 11; 12; of the cells, left to right, 7 and 13. */
uint8_t thagaduvin_row(const uint32_t *settings, size_t settings_count, const uint16_t *memory, size_t memory_count,
                       uint32_t *state, size_t state_count, uint32_t *cells, size_t cells_count, uint32_t *list,
                       size_t list_count, uint32_t *answer, size_t answer_count);

/* The latch that a frame hands on to the next start, from the `latch` that it was started with and the state that it ended
 * with: the state's latch where no line is left, else `latch`, since a refused frame hands on the latch it was started
 * with, and so does one that is left half way. A frame ends at its first refused row, even if rows are drawn from that
 * state later; a call refused 1 or 25 is no row and ends no frame. The status is 0 or 255. */
uint8_t thagaduvin_latch(uint16_t latch, const uint32_t *state, size_t state_count, uint32_t *answer, size_t answer_count);

/* A row of a bus report, which is handed in: the burst register (space in the high byte, count in the low), the words read
 * for the row, its screen and its number. The words of a start go with row 0: hand in their sum, as one count. The bursts
 * are the words over the count, rounded up; between two bursts of a row the bus is released for 15 system clocks times the
 * space at least. A space of 0 keeps the bus: one burst if any word is read, and no gap. Refusals: 20, a count of 0; 21,
 * one of the three sums above 2^64 - 1. */
uint8_t thagaduvin_bus(uint16_t burst, uint32_t words, uint32_t screen, uint32_t row, uint64_t *totals, size_t totals_count,
                       uint64_t *answer, size_t answer_count);

/* The shown columns of a row's cells as terminal text with ECMA-48 marks, into `text`: ESC [ 0 m, the characters, ESC [ 0 m
 * and a line feed. A code outside 20h to 7Eh is written as ?. Before a cell whose marks differ from the cell before stand a
 * fresh 0 and those of 1 highlight, 4 underline, 5 blink and 7 reverse that hold, rising, as in ESC [ 0 ; 4 ; 5 m. Bytes
 * past the text stay. Whether a row call filled `cells` is the caller's word. Refusals: 1, not 132 cells; 2; 23, `text` is
 * too short. */
uint8_t thagaduvin_write_mail(const uint32_t *settings, size_t settings_count, const uint32_t *cells, size_t cells_count,
                              uint8_t *text, size_t text_count, uint32_t *answer, size_t answer_count);

/* The cells of one such text, of 1 to 132 cells, into `cells`; those past them stay. Any bytes may be handed in. Refusals:
 * 24, the text is none that the writer writes, and the answer is the length of the longest beginning of it that some
 * written text also has: the offset of the first byte that cannot stand there, or the text's length; 23, `cells` is too
 * short. */
uint8_t thagaduvin_read_mail(const uint8_t *text, size_t text_count, uint16_t *cells, size_t cells_count, uint32_t *answer,
                             size_t answer_count);

/* A word of memory is written by one of two desks that share it: `word` at the byte address `address`, where that is even,
 * in the writer's own span and in memory. A span has its first and its last byte address and those between; a first one
 * above the last is an empty span. Refusals: 16, the two spans share an address; 15, any other write. The status is 0, 16
 * or 15.
 *
 * What the other desk may rely on: a frame that is not refused, and whose lists have no address of the writer's span, is
 * what it would be without this call; so is its row beside the cut, where that is not refused and its list has none either.
 * Of a refused frame the lists do not tell: a refused call leaves its list as it was, and the word that it is refused for
 * may be the writer's. A shift call reads memory too, and has no list. */
uint8_t thagaduvin_write_word(uint16_t *memory, size_t memory_count, uint32_t own_first, uint32_t own_last, uint32_t other_first,
                              uint32_t other_last, uint32_t address, uint16_t word);

/* Effects of rows: part thagaduvin_effect. */

/* The effect of the row of `state` on any latch, into `effect`; and the next state into `state`, all but its latch, which
 * stays. Where both parts refuse, all of `state` stays: who goes down the rows stops there, since its lines left do not
 * fall any more. A refusal stands in the parts, those of a row but 1 and 25: the status is 0 or 255. */
uint8_t thagaduvin_effect(const uint32_t *settings, size_t settings_count, const uint16_t *memory, size_t memory_count,
                          uint32_t *state, size_t state_count, uint32_t *effect, size_t effect_count);

/* The effect `first` and then the effect `second`, into `joined`. The status is 0 or 255. */
uint8_t thagaduvin_join(const uint32_t *first, size_t first_count, const uint32_t *second, size_t second_count,
                        uint32_t *joined, size_t joined_count);

/* The latch that an effect makes of `latch`, or the refusal of its part for that latch: 2 to 4, 7 to 13 or 17. */
uint8_t thagaduvin_apply(const uint32_t *effect, size_t effect_count, uint16_t latch, uint32_t *answer, size_t answer_count);

/* Soft scroll: part thagaduvin_scroll. */

/* The shift call, before each frame: from the last frame's scroll to this one's, in `scroll`, and the frame's hard top into
 * the answer; the console puts that into TOP and then starts the frame. TOP is the last frame's hard top; `soft_first` and
 * `soft_second` are the two words of the soft top, the main block that the screen shows when this scroll has ended. M4 of
 * the hard top's main block steers: bit 14 enable, 13 up, 12 window (refused with enable, as only the background scrolls),
 * 11 to 8 the rate: 0 to 7 are 1 to 8 scan lines a frame, 8 to 15 a scan line in 1 to 8 frames. A scroll ends where the
 * shift would reach the scan lines of the row that leaves (up, the hard list's first) or enters (down, the soft list's
 * first): in that frame the shift is 0 and the hard top is the soft one. Enable off makes shift and phase 0; so does a
 * turned direction, before the move.
 *
 * The soft top is looked at in a scroll down only, where a null one is refusal 6; the row that leaves or enters is read for
 * its scan lines, and its segments are not judged: no 9 or 10 here. Refusals: 2; 17; 3; of the hard top's main block 6, 7,
 * 14; where it enables, down of the soft top's main block 6, 7, 14, then of the row block 7 and of its redefinition 7. */
uint8_t thagaduvin_shift(const uint32_t *settings, size_t settings_count, const uint16_t *memory, size_t memory_count,
                         uint16_t soft_first, uint16_t soft_second, uint32_t *scroll, size_t scroll_count, uint32_t *answer,
                         size_t answer_count);

/* The row beside the cut, of a frame that `shift` moves: its cells into `cells`, a second row buffer, the addresses of the
 * words read into `list`, and an answer as a row's. No state is written: a refusal here and the latch that this row leaves
 * are no part of the frame's.
 *
 * `shift` above 0 (up): the row after the frame's last, given one line; `state` is the state that the frame ended with, and
 * the soft top and `latch` are not looked at. Refusals: a row's but 4.
 *
 * `shift` below 0 (down): row 0 of a start at the soft top from `latch`, the latch that the frame was started with; the
 * words and the addresses are the start's and then the row's, written once both are accepted, and any slice may stand for
 * `state`. Refusals: 1; 25; then a start's from 2 on; then a row's from 7 on.
 *
 * `shift` 0: no row, and no refusal; the answer is all 0 (lines 0 says so). Settings and answer are judged by their counts
 * (255), and nothing else is looked at, a state of another count neither. */
uint8_t thagaduvin_beside(const uint32_t *settings, size_t settings_count, const uint16_t *memory, size_t memory_count,
                          int32_t shift, uint16_t soft_first, uint16_t soft_second, uint16_t latch, const uint32_t *state,
                          size_t state_count, uint32_t *cells, size_t cells_count, uint32_t *list, size_t list_count,
                          uint32_t *answer, size_t answer_count);

/* A line of the screen while a frame is shifted: which row glides there and which stands still (docs/HOST.md, "Soft
 * scroll"). `heights` are the scan lines of the frame's accepted rows, `rows` of them, and then of the rows that come in
 * below, each 1 to 32: SCAN_LINES of the state after the row. `above` is the height of the row that comes in above, at most
 * 32, 0 where there is none; `shift` is the frame's, -31 to 31. Any `y` is told: the console stops at its last line. It has
 * no memory and no state, and refuses nothing; 255: another number, more `rows` than heights, more than 4,294,967,295
 * heights. */
uint8_t thagaduvin_line(int32_t shift, uint32_t above, const uint32_t *heights, size_t heights_count, size_t rows, uint32_t y,
                        uint32_t *answer, size_t answer_count);

/* The 132 cells of such a line: in the columns of the still row's window, first to last, that row's cells; elsewhere those
 * of the row that glides, and in the columns of its window the cells that are behind it. A slice of 0 cells is no row, and
 * a first column past the last is no window. What there is nothing to show of has bit 23 (THAGADUVIN_CELL_NOTHING) and all
 * else 0; bit 22, the absolute cursor, is the still row's. Refusal: 1, where `cells` has not 132, or another slice neither
 * 132 nor 0. */
uint8_t thagaduvin_shown(const uint32_t *still, size_t still_count, uint32_t still_first, uint32_t still_last,
                         const uint32_t *background, size_t background_count, uint32_t background_first,
                         uint32_t background_last, const uint32_t *behind, size_t behind_count, uint32_t *cells,
                         size_t cells_count);

/* Mending: part thagaduvin_mend. */

/* One step of mending a damaged list: a frame is drawn from `latch`, and at a refusal 7 to 13 the pointer to blame for it
 * is set to 0: 7 the pointer in use, 13 the attribute pointer, 9 and 10 the one that led to the row block or window row
 * block, 8, 11 and 12 the one that led to the window. Its two words become 0, in `memory` or, for TOW, in `settings`;
 * nothing else changes there. Status 0 with CHANGED 1: call again, from the same latch; each change leaves fewer words that
 * are not 0, so this ends. Status 0 with CHANGED 0: the list is drawn to its end. Refusals, given as they are, with nothing
 * changed: 2; 17; of the main block 6, 7, 14. */
uint8_t thagaduvin_mend(uint32_t *settings, size_t settings_count, uint16_t *memory, size_t memory_count, uint16_t latch,
                        uint32_t *answer, size_t answer_count);

/* Converting: part thagaduvin_convert. */

/* A segmented list turned into a linear one: the frame from `latch` is followed, and the first word of each pointer that it
 * reads, in `memory`, and those of TOP and TOW, in `settings`, take their linear form, each once: the page in the low byte,
 * the other bits 0. Second words stay, as do pointers that the frame does not read. The settings are then linear, and the
 * linear frame from that latch has the cells and counts of the segmented one. `marks` has a byte for each word of memory,
 * whatever it holds, and is free after the call. Refusals: 22, another number of marks; 2; 26, the settings are linear;
 * then as they are met 18, a block or list that is read on over its page end (address of the page's last word), 19, a word
 * of a pointer that is also read as anything but that word of a pointer (its address), and those of a start and its rows, 6
 * to 14. */
uint8_t thagaduvin_convert(uint32_t *settings, size_t settings_count, uint16_t *memory, size_t memory_count, uint8_t *marks,
                           size_t marks_count, uint16_t latch, uint32_t *answer, size_t answer_count);

/* The calls over structs: each call's name with _of, and its arguments but the counts that a struct or an array has by its
 * type. So 255 comes only from numbers past their range, and 1, 25 and a reader's 23 do not come. Cells and lists are lent
 * as pointers to arrays, &cells and &list, or &screen[y] of an array of rows. What a form does not take const it may write,
 * but for the cells of a text.
 *
 * In C before C99 these are left out, but with a compiler that has __inline__: THAGADUVIN_INLINE tells. */
#if defined(__cplusplus) || (defined(__STDC_VERSION__) && __STDC_VERSION__ >= 199901L)
#define THAGADUVIN_INLINE static inline
#elif defined(__GNUC__)
#define THAGADUVIN_INLINE static __inline__
#endif

#ifdef THAGADUVIN_INLINE

THAGADUVIN_INLINE uint8_t thagaduvin_sheet_of(const struct thagaduvin_settings *settings,
                                              struct thagaduvin_sheet_answer *answer) {
    return thagaduvin_sheet(&settings->linear, THAGADUVIN_SETTINGS, &answer->row, THAGADUVIN_SHEET_ANSWER);
}

THAGADUVIN_INLINE uint8_t thagaduvin_start_of(const struct thagaduvin_settings *settings, const uint16_t *memory,
                                              size_t memory_count, uint16_t latch, struct thagaduvin_state *state,
                                              uint32_t (*list)[THAGADUVIN_LIST], struct thagaduvin_start_answer *answer) {
    return thagaduvin_start(&settings->linear, THAGADUVIN_SETTINGS, memory, memory_count, latch, &state->latch, THAGADUVIN_STATE,
                            *list, THAGADUVIN_LIST, &answer->row, THAGADUVIN_START_ANSWER);
}

THAGADUVIN_INLINE uint8_t thagaduvin_row_of(const struct thagaduvin_settings *settings, const uint16_t *memory,
                                            size_t memory_count, struct thagaduvin_state *state,
                                            uint32_t (*cells)[THAGADUVIN_CELLS], uint32_t (*list)[THAGADUVIN_LIST],
                                            struct thagaduvin_row_answer *answer) {
    return thagaduvin_row(&settings->linear, THAGADUVIN_SETTINGS, memory, memory_count, &state->latch, THAGADUVIN_STATE, *cells,
                          THAGADUVIN_CELLS, *list, THAGADUVIN_LIST, &answer->row, THAGADUVIN_ROW_ANSWER);
}

THAGADUVIN_INLINE uint8_t thagaduvin_latch_of(uint16_t latch, const struct thagaduvin_state *state,
                                              struct thagaduvin_latch_answer *answer) {
    return thagaduvin_latch(latch, &state->latch, THAGADUVIN_STATE, &answer->row, THAGADUVIN_LATCH_ANSWER);
}

THAGADUVIN_INLINE uint8_t thagaduvin_bus_of(uint16_t burst, uint32_t words, uint32_t screen, uint32_t row,
                                            struct thagaduvin_totals *totals, struct thagaduvin_bus_answer *answer) {
    return thagaduvin_bus(burst, words, screen, row, &totals->words, THAGADUVIN_BUS_TOTALS, &answer->row_bursts,
                          THAGADUVIN_BUS_ANSWER);
}

THAGADUVIN_INLINE uint8_t thagaduvin_write_mail_of(const struct thagaduvin_settings *settings,
                                                   uint32_t (*cells)[THAGADUVIN_CELLS], uint8_t *text, size_t text_count,
                                                   struct thagaduvin_mail_answer *answer) {
    return thagaduvin_write_mail(&settings->linear, THAGADUVIN_SETTINGS, *cells, THAGADUVIN_CELLS, text, text_count,
                                 &answer->count, THAGADUVIN_MAIL_ANSWER);
}

THAGADUVIN_INLINE uint8_t thagaduvin_read_mail_of(const uint8_t *text, size_t text_count, uint16_t (*cells)[THAGADUVIN_CELLS],
                                                  struct thagaduvin_mail_answer *answer) {
    return thagaduvin_read_mail(text, text_count, *cells, THAGADUVIN_CELLS, &answer->count, THAGADUVIN_MAIL_ANSWER);
}

THAGADUVIN_INLINE uint8_t thagaduvin_write_word_of(uint16_t *memory, size_t memory_count, const struct thagaduvin_span *own,
                                                   const struct thagaduvin_span *other, uint32_t address, uint16_t word) {
    return thagaduvin_write_word(memory, memory_count, own->first, own->last, other->first, other->last, address, word);
}

THAGADUVIN_INLINE uint8_t thagaduvin_effect_of(const struct thagaduvin_settings *settings, const uint16_t *memory,
                                               size_t memory_count, struct thagaduvin_state *state,
                                               struct thagaduvin_effects *effect) {
    return thagaduvin_effect(&settings->linear, THAGADUVIN_SETTINGS, memory, memory_count, &state->latch, THAGADUVIN_STATE,
                             &effect->ignore_clear.refusal, THAGADUVIN_EFFECT);
}

THAGADUVIN_INLINE uint8_t thagaduvin_join_of(const struct thagaduvin_effects *first, const struct thagaduvin_effects *second,
                                             struct thagaduvin_effects *joined) {
    return thagaduvin_join(&first->ignore_clear.refusal, THAGADUVIN_EFFECT, &second->ignore_clear.refusal, THAGADUVIN_EFFECT,
                           &joined->ignore_clear.refusal, THAGADUVIN_EFFECT);
}

THAGADUVIN_INLINE uint8_t thagaduvin_apply_of(const struct thagaduvin_effects *effect, uint16_t latch,
                                              struct thagaduvin_apply_answer *answer) {
    return thagaduvin_apply(&effect->ignore_clear.refusal, THAGADUVIN_EFFECT, latch, &answer->row, THAGADUVIN_APPLY_ANSWER);
}

THAGADUVIN_INLINE uint8_t thagaduvin_shift_of(const struct thagaduvin_settings *settings, const uint16_t *memory,
                                              size_t memory_count, uint16_t soft_first, uint16_t soft_second,
                                              struct thagaduvin_scroll *scroll, struct thagaduvin_shift_answer *answer) {
    return thagaduvin_shift(&settings->linear, THAGADUVIN_SETTINGS, memory, memory_count, soft_first, soft_second,
                            (uint32_t *)&scroll->shift, THAGADUVIN_SCROLL, &answer->row, THAGADUVIN_SHIFT_ANSWER);
}

THAGADUVIN_INLINE uint8_t thagaduvin_beside_of(const struct thagaduvin_settings *settings, const uint16_t *memory,
                                               size_t memory_count, int32_t shift, uint16_t soft_first, uint16_t soft_second,
                                               uint16_t latch, const struct thagaduvin_state *state,
                                               uint32_t (*cells)[THAGADUVIN_CELLS], uint32_t (*list)[THAGADUVIN_LIST],
                                               struct thagaduvin_row_answer *answer) {
    return thagaduvin_beside(&settings->linear, THAGADUVIN_SETTINGS, memory, memory_count, shift, soft_first, soft_second, latch,
                             &state->latch, THAGADUVIN_STATE, *cells, THAGADUVIN_CELLS, *list, THAGADUVIN_LIST, &answer->row,
                             THAGADUVIN_ROW_ANSWER);
}

THAGADUVIN_INLINE uint8_t thagaduvin_line_of(int32_t shift, uint32_t above, const uint32_t *heights, size_t heights_count,
                                             size_t rows, uint32_t y, struct thagaduvin_line_answer *answer) {
    return thagaduvin_line(shift, above, heights, heights_count, rows, y, &answer->background, THAGADUVIN_LINE_ANSWER);
}

/* Null stands for no row. */
THAGADUVIN_INLINE uint8_t thagaduvin_shown_of(const struct thagaduvin_picture_row *still,
                                              const struct thagaduvin_picture_row *background,
                                              uint32_t (*cells)[THAGADUVIN_CELLS]) {
    static const struct thagaduvin_picture_row none = {0, 1, 0, 0, {0}, {0}};
    const struct thagaduvin_picture_row *s = still ? still : &none, *b = background ? background : &none;
    return thagaduvin_shown(s->cells, still ? THAGADUVIN_CELLS : 0, s->first, s->last, b->cells,
                            background ? THAGADUVIN_CELLS : 0, b->first, b->last, b->behind,
                            b->has_behind ? THAGADUVIN_CELLS : 0, *cells, THAGADUVIN_CELLS);
}

THAGADUVIN_INLINE uint8_t thagaduvin_mend_of(struct thagaduvin_settings *settings, uint16_t *memory, size_t memory_count,
                                             uint16_t latch, struct thagaduvin_mend_answer *answer) {
    return thagaduvin_mend(&settings->linear, THAGADUVIN_SETTINGS, memory, memory_count, latch, &answer->row,
                           THAGADUVIN_MEND_ANSWER);
}

THAGADUVIN_INLINE uint8_t thagaduvin_convert_of(struct thagaduvin_settings *settings, uint16_t *memory, size_t memory_count,
                                                uint8_t *marks, size_t marks_count, uint16_t latch,
                                                struct thagaduvin_convert_answer *answer) {
    return thagaduvin_convert(&settings->linear, THAGADUVIN_SETTINGS, memory, memory_count, marks, marks_count, latch,
                              &answer->row, THAGADUVIN_CONVERT_ANSWER);
}

#endif

/* Each struct has the places of its slice: every field stands where its enumerator says, and there is nothing else. Where
 * not, this does not compile. */
#define THAGADUVIN_HAS(tag, number, count) \
    typedef char thagaduvin_##tag##_count[sizeof(struct thagaduvin_##tag) == sizeof(number) * THAGADUVIN_##count ? 1 : -1];
#define THAGADUVIN_AT(tag, field, place) \
    typedef char thagaduvin_##tag##_##field##_place[offsetof(struct thagaduvin_##tag, field) == \
                                                    sizeof(((struct thagaduvin_##tag *)0)->field) * THAGADUVIN_##place ? 1 : -1];
#define THAGADUVIN_ANSWERS(tag) \
    THAGADUVIN_AT(tag, row, ANSWER_ROW) THAGADUVIN_AT(tag, address, ANSWER_ADDRESS) THAGADUVIN_AT(tag, from, ANSWER_FROM)
THAGADUVIN_HAS(settings, uint32_t, SETTINGS) THAGADUVIN_AT(settings, linear, LINEAR) THAGADUVIN_AT(settings, hidden, HIDDEN)
THAGADUVIN_AT(settings, interlace, INTERLACE) THAGADUVIN_AT(settings, cursor, CURSOR) THAGADUVIN_AT(settings, flag, FLAG)
THAGADUVIN_AT(settings, top_first, TOP_FIRST) THAGADUVIN_AT(settings, top_second, TOP_SECOND)
THAGADUVIN_AT(settings, tow_first, TOW_FIRST) THAGADUVIN_AT(settings, tow_second, TOW_SECOND)
THAGADUVIN_AT(settings, vsw, VSW) THAGADUVIN_AT(settings, vsd, VSD) THAGADUVIN_AT(settings, val, VAL)
THAGADUVIN_AT(settings, vtot, VTOT) THAGADUVIN_AT(settings, hsync, HSYNC) THAGADUVIN_AT(settings, hsd, HSD)
THAGADUVIN_AT(settings, htc, HTC) THAGADUVIN_AT(settings, htd, HTD) THAGADUVIN_AT(settings, edition, EDITION)
THAGADUVIN_HAS(state, uint32_t, STATE) THAGADUVIN_AT(state, latch, LATCH) THAGADUVIN_AT(state, row, ROW)
THAGADUVIN_AT(state, left, LEFT) THAGADUVIN_AT(state, cursor_x, CURSOR_X) THAGADUVIN_AT(state, cursor_y, CURSOR_Y)
THAGADUVIN_AT(state, fill_code, FILL_CODE) THAGADUVIN_AT(state, fill_flag, FILL_FLAG)
THAGADUVIN_AT(state, scan_lines, SCAN_LINES) THAGADUVIN_AT(state, attributes, ATTRIBUTES) THAGADUVIN_AT(state, curs, CURS)
THAGADUVIN_AT(state, cure, CURE) THAGADUVIN_AT(state, row_block, ROW_BLOCK) THAGADUVIN_AT(state, window, WINDOW)
THAGADUVIN_AT(state, window_top, WINDOW_TOP) THAGADUVIN_AT(state, window_bottom, WINDOW_BOTTOM)
THAGADUVIN_AT(state, window_left, WINDOW_LEFT) THAGADUVIN_AT(state, window_right, WINDOW_RIGHT)
THAGADUVIN_AT(state, window_row_block, WINDOW_ROW_BLOCK) THAGADUVIN_AT(state, window_block, WINDOW_BLOCK)
THAGADUVIN_AT(state, window_number, WINDOW_NUMBER) THAGADUVIN_AT(state, row_block_from, ROW_BLOCK_FROM)
THAGADUVIN_AT(state, window_row_block_from, WINDOW_ROW_BLOCK_FROM) THAGADUVIN_AT(state, window_block_from, WINDOW_BLOCK_FROM)
THAGADUVIN_HAS(scroll, uint32_t, SCROLL) THAGADUVIN_AT(scroll, shift, SHIFT) THAGADUVIN_AT(scroll, phase, PHASE)
THAGADUVIN_AT(scroll, direction, DIRECTION)
THAGADUVIN_HAS(sheet_answer, uint32_t, SHEET_ANSWER) THAGADUVIN_ANSWERS(sheet_answer)
THAGADUVIN_AT(sheet_answer, even_sync, SHEET_EVEN_SYNC) THAGADUVIN_AT(sheet_answer, even_back, SHEET_EVEN_BACK)
THAGADUVIN_AT(sheet_answer, even_rise, SHEET_EVEN_RISE) THAGADUVIN_AT(sheet_answer, even_active, SHEET_EVEN_ACTIVE)
THAGADUVIN_AT(sheet_answer, even_front, SHEET_EVEN_FRONT) THAGADUVIN_AT(sheet_answer, even_field, SHEET_EVEN_FIELD)
THAGADUVIN_AT(sheet_answer, odd_sync, SHEET_ODD_SYNC) THAGADUVIN_AT(sheet_answer, odd_back, SHEET_ODD_BACK)
THAGADUVIN_AT(sheet_answer, odd_rise, SHEET_ODD_RISE) THAGADUVIN_AT(sheet_answer, odd_active, SHEET_ODD_ACTIVE)
THAGADUVIN_AT(sheet_answer, odd_front, SHEET_ODD_FRONT) THAGADUVIN_AT(sheet_answer, odd_field, SHEET_ODD_FIELD)
THAGADUVIN_AT(sheet_answer, lines, SHEET_LINES) THAGADUVIN_AT(sheet_answer, clocks_sync, SHEET_CLOCKS_SYNC)
THAGADUVIN_AT(sheet_answer, clocks_period, SHEET_CLOCKS_PERIOD) THAGADUVIN_AT(sheet_answer, clocks_rise, SHEET_CLOCKS_RISE)
THAGADUVIN_AT(sheet_answer, clocks_fall, SHEET_CLOCKS_FALL) THAGADUVIN_AT(sheet_answer, invoking, SHEET_INVOKING)
THAGADUVIN_HAS(start_answer, uint32_t, START_ANSWER) THAGADUVIN_ANSWERS(start_answer)
THAGADUVIN_AT(start_answer, words, START_WORDS)
THAGADUVIN_HAS(row_answer, uint32_t, ROW_ANSWER) THAGADUVIN_ANSWERS(row_answer) THAGADUVIN_AT(row_answer, lines, ROW_LINES)
THAGADUVIN_AT(row_answer, attributes, ROW_ATTRIBUTES) THAGADUVIN_AT(row_answer, curs, ROW_CURS)
THAGADUVIN_AT(row_answer, cure, ROW_CURE) THAGADUVIN_AT(row_answer, words, ROW_WORDS)
THAGADUVIN_HAS(mail_answer, uint32_t, MAIL_ANSWER) THAGADUVIN_AT(mail_answer, count, MAIL_COUNT)
THAGADUVIN_HAS(part, uint32_t, PART) THAGADUVIN_AT(part, refusal, PART_REFUSAL) THAGADUVIN_AT(part, row, PART_ROW)
THAGADUVIN_AT(part, address, PART_ADDRESS) THAGADUVIN_AT(part, from, PART_FROM) THAGADUVIN_AT(part, set, PART_SET)
THAGADUVIN_AT(part, word, PART_WORD)
THAGADUVIN_HAS(apply_answer, uint32_t, APPLY_ANSWER) THAGADUVIN_ANSWERS(apply_answer)
THAGADUVIN_AT(apply_answer, latch, APPLY_LATCH)
THAGADUVIN_HAS(latch_answer, uint32_t, LATCH_ANSWER) THAGADUVIN_ANSWERS(latch_answer)
THAGADUVIN_AT(latch_answer, handed_on, HANDED_ON)
THAGADUVIN_HAS(shift_answer, uint32_t, SHIFT_ANSWER) THAGADUVIN_ANSWERS(shift_answer)
THAGADUVIN_AT(shift_answer, hard_first, HARD_FIRST) THAGADUVIN_AT(shift_answer, hard_second, HARD_SECOND)
THAGADUVIN_HAS(line_answer, uint32_t, LINE_ANSWER) THAGADUVIN_AT(line_answer, background, LINE_BACKGROUND)
THAGADUVIN_AT(line_answer, background_index, LINE_BACKGROUND_INDEX)
THAGADUVIN_AT(line_answer, background_scan, LINE_BACKGROUND_SCAN)
THAGADUVIN_AT(line_answer, still, LINE_STILL) THAGADUVIN_AT(line_answer, still_index, LINE_STILL_INDEX)
THAGADUVIN_AT(line_answer, still_scan, LINE_STILL_SCAN) THAGADUVIN_AT(line_answer, lines, LINE_LINES)
THAGADUVIN_HAS(mend_answer, uint32_t, MEND_ANSWER) THAGADUVIN_ANSWERS(mend_answer)
THAGADUVIN_AT(mend_answer, changed, CHANGED) THAGADUVIN_AT(mend_answer, changed_address, CHANGED_ADDRESS)
THAGADUVIN_AT(mend_answer, changed_first, CHANGED_FIRST) THAGADUVIN_AT(mend_answer, changed_second, CHANGED_SECOND)
THAGADUVIN_AT(mend_answer, changed_number, CHANGED_NUMBER)
THAGADUVIN_HAS(convert_answer, uint32_t, CONVERT_ANSWER) THAGADUVIN_ANSWERS(convert_answer)
THAGADUVIN_AT(convert_answer, turned, TURNED)
THAGADUVIN_HAS(totals, uint64_t, BUS_TOTALS) THAGADUVIN_AT(totals, words, BUS_WORDS) THAGADUVIN_AT(totals, bursts, BUS_BURSTS)
THAGADUVIN_AT(totals, released, BUS_RELEASED) THAGADUVIN_AT(totals, largest, BUS_LARGEST)
THAGADUVIN_AT(totals, largest_screen, BUS_LARGEST_SCREEN) THAGADUVIN_AT(totals, largest_row, BUS_LARGEST_ROW)
THAGADUVIN_AT(totals, any, BUS_ANY)
THAGADUVIN_HAS(bus_answer, uint64_t, BUS_ANSWER) THAGADUVIN_AT(bus_answer, row_bursts, BUS_ROW_BURSTS)
THAGADUVIN_AT(bus_answer, row_released, BUS_ROW_RELEASED)
THAGADUVIN_HAS(effects, uint32_t, EFFECT)
typedef char thagaduvin_effects_parts[
    offsetof(struct thagaduvin_effects, ignore_clear) == 0 &&
    offsetof(struct thagaduvin_effects, ignore_set) == sizeof(uint32_t) * THAGADUVIN_PART ? 1 : -1];
#undef THAGADUVIN_HAS
#undef THAGADUVIN_AT
#undef THAGADUVIN_ANSWERS

#ifdef __cplusplus
}
#endif

#endif
