//! The calls of include/thagaduvin.h over slices of numbers, on top of the rules. The header has
//! the tables of places. A slice with another count gives 255, and so does a state's number that no check judges,
//! past its field, or an effect that no effect call writes; then nothing is written. What the rules judge past
//! its range they refuse: 2 of settings, 3 of a state.

use crate::bus::{Largest, Taken, Totals, Used};
use crate::convert;
use crate::desks::{self, Spans};
use crate::mail;
use crate::mend;
use crate::picture::{self, Kind, Layer, Scan, Strips};
use crate::rules::{
    self, Edition, Effect, Fields, Interlace, Part, Pointer, Refusal, Row, Settings, Sheet, State,
    Window, CELLS,
};
use crate::scroll::{self, Scroll};
pub use crate::trail::PLACES;

/// The status of a slice with a wrong count, of a state that is none, or of an effect that is none.
pub const UNFIT: u8 = 255;

/// Counts of the slices.
pub const SETTINGS: usize = 18;
pub const STATE: usize = 23;
/// Places of a state's three pointers, of its window's number, and of where the pointers begin.
pub const ROW_BLOCK: usize = 11;
pub const WINDOW_ROW_BLOCK: usize = 17;
pub const WINDOW_BLOCK: usize = 18;
pub const WINDOW_NUMBER: usize = 19;
pub const ROW_BLOCK_FROM: usize = 20;
pub const WINDOW_ROW_BLOCK_FROM: usize = 21;
pub const WINDOW_BLOCK_FROM: usize = 22;
/// A part of an effect, and the effect: two parts.
pub const PART: usize = 6;
pub const EFFECT: usize = 2 * PART;
/// Row, address and pointer of a refusal: every answer begins with these.
pub const PREFIX: usize = 3;
pub const SHEET_ANSWER: usize = PREFIX + 18;
pub const START_ANSWER: usize = PREFIX + 1;
pub const ROW_ANSWER: usize = PREFIX + 5;
pub const APPLY_ANSWER: usize = PREFIX + 1;
pub const LATCH_ANSWER: usize = PREFIX + 1;
pub const SCROLL: usize = 3;
pub const SHIFT_ANSWER: usize = PREFIX + 2;
pub const LINE_ANSWER: usize = 7;
pub const TOTALS: usize = 7;
pub const BUS_ANSWER: usize = 2;
pub const MAIL_ANSWER: usize = 1;
pub const MEND_ANSWER: usize = PREFIX + 5;
pub const CONVERT_ANSWER: usize = PREFIX + 1;

const ANY: u32 = u32::MAX;

/// The highest number that each setting's field has: above it, settings are not good.
pub const SETTINGS_MOST: [u32; SETTINGS] = [
    1, 1, 2, 1, 0xFFFF, 0xFFFF, 0xFFFF, 0xFFFF, 0xFFFF, 0xFFFF, 0xFFFF, 0xFFFF, 0xFFFF, 0xFFFF,
    0xFFFF, 0xFFFF, 0xFFFF, 1,
];
/// The highest number in a state's places that no check judges: latch, cursor, fill and the mark of a window.
pub const STATE_MOST: [u32; STATE] = {
    let mut most = [ANY; STATE];
    most[0] = 0xFFFF;
    most[3] = 255;
    most[4] = 255;
    most[5] = 255;
    most[6] = 1;
    most[12] = 1;
    most
};

/// The numbers of refusal that an effect's part can have.
pub const PART_REFUSALS: [u32; 11] = [2, 3, 4, 7, 8, 9, 10, 11, 12, 13, 17];

/// Settings that are not good, for numbers that no settings have.
const NOT_GOOD: Settings = Settings {
    vsw: u16::MAX,
    ..crate::script::UNSET
};

/// The numbers of a slice, if there are as many as highest ones and none is above its own.
#[inline]
fn within<'n, const N: usize>(numbers: &'n [u32], most: &[u32; N]) -> Option<&'n [u32; N]> {
    let numbers: &[u32; N] = numbers.try_into().ok()?;
    let mut above = false;
    for (number, most) in numbers.iter().zip(most) {
        above |= number > most;
    }
    (!above).then_some(numbers)
}

/// The settings of numbers: none of another count, and no good ones where a number is past its field.
#[inline]
pub fn settings_of(numbers: &[u32]) -> Option<Settings> {
    let Some(n) = within(numbers, &SETTINGS_MOST) else {
        return (numbers.len() == SETTINGS).then_some(NOT_GOOD);
    };
    Some(Settings {
        linear: n[0] != 0,
        display_hidden: n[1] != 0,
        interlace: match n[2] {
            0 => Interlace::None,
            1 => Interlace::RepeatField,
            _ => Interlace::Video,
        },
        cursor: n[3] != 0,
        flag: n[4] as u16,
        top: [n[5] as u16, n[6] as u16],
        tow: [n[7] as u16, n[8] as u16],
        vsw: n[9] as u16,
        vsd: n[10] as u16,
        val: n[11] as u16,
        vtot: n[12] as u16,
        hsync: n[13] as u16,
        hsd: n[14] as u16,
        htc: n[15] as u16,
        htd: n[16] as u16,
        edition: match n[17] {
            0 => Edition::Am8052,
            _ => Edition::Z8052,
        },
    })
}

/// The state of numbers, if they make one.
#[inline]
pub fn state_of(numbers: &[u32]) -> Option<State> {
    let n = within(numbers, &STATE_MOST)?;
    let pointer = |address: usize, from: usize| Pointer {
        address: n[address],
        from: n[from],
    };
    let window = (n[12] != 0).then_some(Window {
        first_row: n[13],
        last_row: n[14],
        first_column: n[15],
        last_column: n[16],
        next_row: pointer(WINDOW_ROW_BLOCK, WINDOW_ROW_BLOCK_FROM),
        next_block: pointer(WINDOW_BLOCK, WINDOW_BLOCK_FROM),
        number: n[WINDOW_NUMBER],
    });
    Some(State {
        latch: n[0] as u16,
        fields: Fields {
            row: n[1],
            lines_left: n[2],
            cursor_x: n[3] as u8,
            cursor_y: n[4] as u8,
            fill_code: n[5] as u8,
            fill_flag: n[6] != 0,
            scan_lines: n[7],
            attributes: n[8],
            curs: n[9],
            cure: n[10],
            next_row: pointer(ROW_BLOCK, ROW_BLOCK_FROM),
            window,
        },
    })
}

/// A part of an effect, if an effect call can write it: what a part does not use is 0.
#[inline]
fn part_of(n: &[u32; PART]) -> Option<Part> {
    match *n {
        [0, 0, 0, 0, 0, 0] => Some(Part::Keep),
        [0, 0, 0, 0, 1, word] => Some(Part::Set(word.try_into().ok()?)),
        [number, row, address, from, 0, 0]
            if PART_REFUSALS.contains(&number) && (from == 0 || number == 7) =>
        {
            Some(Part::Refuse(Refusal {
                number: number as u8,
                row,
                address,
                from,
            }))
        }
        _ => None,
    }
}

#[inline]
fn effect_of(numbers: &[u32]) -> Option<Effect> {
    let ([clear, set], []) = numbers.as_chunks::<PART>() else {
        return None;
    };
    Some(Effect {
        clear: part_of(clear)?,
        set: part_of(set)?,
    })
}

/// The numbers of settings.
pub fn settings_numbers(s: &Settings) -> [u32; SETTINGS] {
    let interlace = match s.interlace {
        Interlace::None => 0,
        Interlace::RepeatField => 1,
        Interlace::Video => 2,
    };
    [
        s.linear.into(),
        s.display_hidden.into(),
        interlace,
        s.cursor.into(),
        s.flag.into(),
        s.top[0].into(),
        s.top[1].into(),
        s.tow[0].into(),
        s.tow[1].into(),
        s.vsw.into(),
        s.vsd.into(),
        s.val.into(),
        s.vtot.into(),
        s.hsync.into(),
        s.hsd.into(),
        s.htc.into(),
        s.htd.into(),
        match s.edition {
            Edition::Am8052 => 0,
            Edition::Z8052 => 1,
        },
    ]
}

/// Writes a state's numbers one by one: an array of them, copied as a whole, is slower.
#[inline]
fn write_state(state: &State, n: &mut [u32; STATE]) {
    let f = &state.fields;
    n[0] = state.latch.into();
    n[1] = f.row;
    n[2] = f.lines_left;
    n[3] = f.cursor_x.into();
    n[4] = f.cursor_y.into();
    n[5] = f.fill_code.into();
    n[6] = f.fill_flag.into();
    n[7] = f.scan_lines;
    n[8] = f.attributes;
    n[9] = f.curs;
    n[10] = f.cure;
    n[ROW_BLOCK] = f.next_row.address;
    n[ROW_BLOCK_FROM] = f.next_row.from;
    match &f.window {
        None => {
            n[12..ROW_BLOCK_FROM].fill(0);
            n[WINDOW_ROW_BLOCK_FROM..].fill(0);
        }
        Some(w) => {
            n[12] = 1;
            n[13] = w.first_row;
            n[14] = w.last_row;
            n[15] = w.first_column;
            n[16] = w.last_column;
            n[WINDOW_ROW_BLOCK] = w.next_row.address;
            n[WINDOW_BLOCK] = w.next_block.address;
            n[WINDOW_NUMBER] = w.number;
            n[WINDOW_ROW_BLOCK_FROM] = w.next_row.from;
            n[WINDOW_BLOCK_FROM] = w.next_block.from;
        }
    }
}

/// The numbers of a state, whether or not its places can have them.
pub fn state_numbers(state: &State) -> [u32; STATE] {
    let mut numbers = [0; STATE];
    write_state(state, &mut numbers);
    numbers
}

#[inline]
fn part_numbers(part: Part) -> [u32; PART] {
    match part {
        Part::Keep => [0; PART],
        Part::Set(word) => [0, 0, 0, 0, 1, word.into()],
        Part::Refuse(Refusal {
            number,
            row,
            address,
            from,
        }) => [number.into(), row, address, from, 0, 0],
    }
}

#[inline]
fn write_effect(effect: &Effect, to: &mut [u32; EFFECT]) {
    to[..PART].copy_from_slice(&part_numbers(effect.clear));
    to[PART..].copy_from_slice(&part_numbers(effect.set));
}

/// A refusal in an answer, and its status.
#[inline]
fn refuse(refusal: Refusal, answer: &mut [u32]) -> u8 {
    answer[0] = refusal.row;
    answer[1] = refusal.address;
    answer[2] = refusal.from;
    refusal.number
}

/// Places of a sheet's answer: the two fields' parts, and the lines for rows.
pub const SHEET_EVEN: usize = PREFIX;
pub const SHEET_ODD: usize = SHEET_EVEN + 6;
pub const SHEET_LINES: usize = SHEET_ODD + 6;

fn sheet_numbers(sheet: &Sheet) -> [u32; SHEET_ANSWER] {
    let mut numbers = [0; SHEET_ANSWER];
    numbers[SHEET_EVEN..SHEET_ODD].copy_from_slice(&sheet.even.parts());
    numbers[SHEET_ODD..SHEET_LINES].copy_from_slice(&sheet.odd.parts());
    numbers[SHEET_LINES..].copy_from_slice(&[
        sheet.lines,
        sheet.horizontal_sync,
        sheet.horizontal_period,
        sheet.blank_rise,
        sheet.blank_fall,
        sheet.invoking,
    ]);
    numbers
}

/// Places of a row's answer.
pub const ROW_LINES: usize = PREFIX;
pub const ROW_WORDS: usize = PREFIX + 4;

/// The numbers of an accepted row.
#[inline]
pub fn row_numbers(row: &Row) -> [u32; ROW_ANSWER] {
    [
        row.row,
        0,
        0,
        row.lines,
        row.attributes,
        row.curs,
        row.cure,
        row.words,
    ]
}

/// The settings sheet.
#[inline(never)]
pub fn sheet(settings: &[u32], answer: &mut [u32]) -> u8 {
    let Ok(answer) = <&mut [u32; SHEET_ANSWER]>::try_from(answer) else {
        return UNFIT;
    };
    let Some(settings) = settings_of(settings) else {
        return UNFIT;
    };
    match rules::sheet(&settings) {
        Ok(sheet) => {
            *answer = sheet_numbers(&sheet);
            0
        }
        Err(refusal) => refuse(refusal, answer),
    }
}

/// A frame's first state, from a latch.
#[inline(never)]
pub fn start(
    settings: &[u32],
    memory: &[u16],
    latch: u16,
    state: &mut [u32],
    list: &mut [u32],
    answer: &mut [u32],
) -> u8 {
    let Ok(state) = <&mut [u32; STATE]>::try_from(state) else {
        return UNFIT;
    };
    let Ok(answer) = <&mut [u32; START_ANSWER]>::try_from(answer) else {
        return UNFIT;
    };
    let Some(settings) = settings_of(settings) else {
        return UNFIT;
    };
    match rules::start(&settings, memory, latch, list) {
        Ok(start) => {
            write_state(&start.state, state);
            *answer = [0, 0, 0, start.words];
            0
        }
        Err(refusal) => refuse(refusal, answer),
    }
}

/// The row of a state, and the next state.
#[inline(never)]
pub fn row(
    settings: &[u32],
    memory: &[u16],
    state: &mut [u32],
    cells: &mut [u32],
    list: &mut [u32],
    answer: &mut [u32],
) -> u8 {
    let Ok(answer) = <&mut [u32; ROW_ANSWER]>::try_from(answer) else {
        return UNFIT;
    };
    let Ok(state) = <&mut [u32; STATE]>::try_from(state) else {
        return UNFIT;
    };
    let Some(settings) = settings_of(settings) else {
        return UNFIT;
    };
    let Some(mut next) = state_of(state) else {
        return UNFIT;
    };
    match rules::row(&settings, memory, &mut next, cells, list) {
        Ok(row) => {
            write_state(&next, state);
            *answer = row_numbers(&row);
            0
        }
        Err(refusal) => refuse(refusal, answer),
    }
}

/// The effect of the row of a state, and the next state but for its latch.
#[inline(never)]
pub fn effect(settings: &[u32], memory: &[u16], state: &mut [u32], effect: &mut [u32]) -> u8 {
    let Ok(effect) = <&mut [u32; EFFECT]>::try_from(effect) else {
        return UNFIT;
    };
    let Ok(state) = <&mut [u32; STATE]>::try_from(state) else {
        return UNFIT;
    };
    let Some(settings) = settings_of(settings) else {
        return UNFIT;
    };
    let Some(from) = state_of(state) else {
        return UNFIT;
    };
    let (made, next) = rules::effect(&settings, memory, &from.fields);
    write_effect(&made, effect);
    if let Some(fields) = next {
        let latch = from.latch;
        write_state(&State { latch, fields }, state);
    }
    0
}

/// One effect and then another.
#[inline(never)]
pub fn join(first: &[u32], second: &[u32], joined: &mut [u32]) -> u8 {
    let Ok(joined) = <&mut [u32; EFFECT]>::try_from(joined) else {
        return UNFIT;
    };
    let (Some(first), Some(second)) = (effect_of(first), effect_of(second)) else {
        return UNFIT;
    };
    write_effect(&first.join(second), joined);
    0
}

/// The latch that an effect makes of one.
#[inline(never)]
pub fn apply(effect: &[u32], latch: u16, answer: &mut [u32]) -> u8 {
    let Ok(answer) = <&mut [u32; APPLY_ANSWER]>::try_from(answer) else {
        return UNFIT;
    };
    let Some(effect) = effect_of(effect) else {
        return UNFIT;
    };
    match effect.apply(latch) {
        Ok(latch) => {
            *answer = [0, 0, 0, latch.into()];
            0
        }
        Err(refusal) => refuse(refusal, answer),
    }
}

/// The latch that a frame hands on, from the one that it was started with and its last state. A row
/// that is refused leaves lines, so the state says whether the frame came to its end.
#[inline(never)]
pub fn latch(latch: u16, state: &[u32], answer: &mut [u32]) -> u8 {
    let Ok(answer) = <&mut [u32; LATCH_ANSWER]>::try_from(answer) else {
        return UNFIT;
    };
    let Some(state) = state_of(state) else {
        return UNFIT;
    };
    let handed_on = match state.fields.lines_left {
        0 => state.latch,
        _ => latch,
    };
    *answer = [0, 0, 0, handed_on.into()];
    0
}

/// The shift call before a frame, from the last scroll to this frame's. Any numbers may stand in a
/// scroll: the rules judge them.
#[inline(never)]
pub fn shift(
    settings: &[u32],
    memory: &[u16],
    soft: [u16; 2],
    scroll: &mut [u32],
    answer: &mut [u32],
) -> u8 {
    let Ok(scroll) = <&mut [u32; SCROLL]>::try_from(scroll) else {
        return UNFIT;
    };
    let Ok(answer) = <&mut [u32; SHIFT_ANSWER]>::try_from(answer) else {
        return UNFIT;
    };
    let Some(settings) = settings_of(settings) else {
        return UNFIT;
    };
    let last = Scroll {
        shift: scroll[0] as i32,
        phase: scroll[1],
        direction: scroll[2],
    };
    match scroll::shift(&settings, memory, soft, &last) {
        Ok(shifted) => {
            let Scroll {
                shift,
                phase,
                direction,
            } = shifted.scroll;
            *scroll = [shift as u32, phase, direction];
            let [first, second] = shifted.top;
            *answer = [0, 0, 0, first.into(), second.into()];
            0
        }
        Err(refusal) => refuse(refusal, answer),
    }
}

/// What the row beside the cut is drawn from, apart from settings and memory: a shift, the soft top,
/// the latch that the frame was started with and the state that it ended with.
#[derive(Clone, Copy, Debug)]
pub struct Beside<'s> {
    pub shift: i32,
    pub soft: [u16; 2],
    pub latch: u16,
    pub state: &'s [u32],
}

/// The row beside the cut, where there is one.
#[inline(never)]
pub fn beside(
    settings: &[u32],
    memory: &[u16],
    from: &Beside,
    cells: &mut [u32],
    list: &mut [u32],
    answer: &mut [u32],
) -> u8 {
    let Ok(answer) = <&mut [u32; ROW_ANSWER]>::try_from(answer) else {
        return UNFIT;
    };
    let Some(settings) = settings_of(settings) else {
        return UNFIT;
    };
    let drawn = if from.shift == 0 {
        *answer = [0; ROW_ANSWER];
        return 0;
    } else if from.shift < 0 {
        scroll::before_first(&settings, memory, from.soft, from.latch, cells, list)
    } else {
        let Some(state) = state_of(from.state) else {
            return UNFIT;
        };
        scroll::after_last(&settings, memory, &state, cells, list)
    };
    match drawn {
        Ok(row) => {
            *answer = row_numbers(&row);
            0
        }
        Err(refusal) => refuse(refusal, answer),
    }
}

/// A line of a shifted frame: what glides there and what stands still, each with its index and scan line, and for how many
/// lines.
#[inline(never)]
pub fn line(
    shift: i32,
    above: u32,
    heights: &[u32],
    rows: usize,
    y: u32,
    answer: &mut [u32],
) -> u8 {
    let Ok(answer) = <&mut [u32; LINE_ANSWER]>::try_from(answer) else {
        return UNFIT;
    };
    let high = heights.iter().any(|height| !(1..=32).contains(height));
    if rows > heights.len() || high || above > 32 || !(-31..=31).contains(&shift) {
        return UNFIT;
    }
    let (frame, below) = heights.split_at(rows);
    // Down, none comes in below.
    let below = if shift < 0 { &[] } else { below };
    let above: &[u32] = if shift < 0 { &[above] } else { &[] };
    let strips = Strips::new(shift, above, frame, below);
    let rows_of = |y: usize| {
        let (still, gliding) = strips.line(y);
        let row = |scan: Option<Scan>| scan.map(|scan| (scan.kind, scan.index));
        (row(still), row(gliding))
    };
    *answer = [0; LINE_ANSWER];
    let (Some(still), gliding) = strips.line(y as usize) else {
        return 0;
    };
    let same = (y as usize..).take_while(|&z| rows_of(z) == rows_of(y as usize));
    let glides = gliding.map_or([0; 3], |scan| match scan.kind {
        Kind::Frame => [1, scan.index as u32, scan.line],
        Kind::Below => [1, (rows + scan.index) as u32, scan.line],
        Kind::Above => [2, 0, scan.line],
    });
    answer[..3].copy_from_slice(&glides);
    answer[3..].copy_from_slice(&[1, still.index as u32, still.line, same.count() as u32]);
    0
}

/// A row that a line shows, by what a call is lent.
pub fn layer(cells: &[u32], first: u32, last: u32) -> Layer<'_> {
    Layer {
        cells,
        columns: (first <= last).then_some((first, last)),
    }
}

/// The columns of a row's window as a call is lent them; the first is past the last where there is none.
pub fn window_columns(layer: &Layer) -> [u32; 2] {
    layer.columns.map_or([1, 0], |(first, last)| [first, last])
}

/// The cells of a line.
#[inline(never)]
pub fn shown(still: &Layer, gliding: &Layer, behind: &[u32], cells: &mut [u32]) -> u8 {
    let sized = |cells: &[u32]| cells.is_empty() || cells.len() == CELLS;
    let fits = sized(still.cells) && sized(gliding.cells) && sized(behind) && cells.len() == CELLS;
    if !fits {
        return 1;
    }
    cells.copy_from_slice(&picture::shown(still, gliding, behind));
    0
}

/// A desk's write of a word.
#[inline(never)]
pub fn write_word(memory: &mut [u16], spans: &Spans, address: u32, word: u16) -> u8 {
    match desks::write(memory, spans, address, word) {
        Ok(()) => 0,
        Err(number) => number,
    }
}

/// Places of TOP and TOW among settings.
pub const TOP: usize = 5;
pub const TOW: usize = 7;
/// Place of a mending's answer that says whether a pointer was changed.
pub const MEND_CHANGED: usize = PREFIX;

/// One step of mending: the pointer to blame for a frame's refusal, set to 0.
#[inline(never)]
pub fn mend(settings: &mut [u32], memory: &mut [u16], latch: u16, answer: &mut [u32]) -> u8 {
    let Ok(answer) = <&mut [u32; MEND_ANSWER]>::try_from(answer) else {
        return UNFIT;
    };
    let Some(mut now) = settings_of(settings) else {
        return UNFIT;
    };
    match mend::mend(&mut now, memory, latch) {
        Ok(None) => {
            *answer = [0; MEND_ANSWER];
            0
        }
        Ok(Some(change)) => {
            settings[TOW..TOW + 2].copy_from_slice(&now.tow.map(u32::from));
            let refusal = change.refusal;
            let [first, second] = change.words.map(u32::from);
            *answer = [
                0,
                0,
                0,
                1,
                change.address(),
                first,
                second,
                refusal.number.into(),
            ];
            0
        }
        Err(refusal) => refuse(refusal, answer),
    }
}

/// The pointers of a segmented frame turned into linear form, with one mark for each word of memory.
#[inline(never)]
pub fn convert(
    settings: &mut [u32],
    memory: &mut [u16],
    marks: &mut [u8],
    latch: u16,
    answer: &mut [u32],
) -> u8 {
    let Ok(answer) = <&mut [u32; CONVERT_ANSWER]>::try_from(answer) else {
        return UNFIT;
    };
    let Some(mut now) = settings_of(settings) else {
        return UNFIT;
    };
    *answer = [0; CONVERT_ANSWER];
    match convert::convert(&mut now, memory, marks, latch) {
        Ok(count) => {
            settings.copy_from_slice(&settings_numbers(&now));
            answer[PREFIX] = count;
            0
        }
        Err(refusal) => refuse(refusal, answer),
    }
}

/// Running totals, if the mark of a largest row is one.
fn totals_of(n: &[u64; TOTALS]) -> Option<Totals> {
    let largest = match n[6] {
        0 => None,
        1 => Some(Largest {
            words: n[3],
            screen: n[4],
            row: n[5],
        }),
        _ => return None,
    };
    Some(Totals {
        words: n[0],
        bursts: n[1],
        released: n[2],
        largest,
    })
}

/// The numbers of running totals.
pub fn totals_numbers(totals: &Totals) -> [u64; TOTALS] {
    let largest = totals
        .largest
        .map_or([0; 4], |l| [l.words, l.screen, l.row, 1]);
    let mut n = [totals.words, totals.bursts, totals.released, 0, 0, 0, 0];
    n[3..].copy_from_slice(&largest);
    n
}

/// What a row takes of the bus, and the totals with it.
#[inline(never)]
pub fn bus(burst: u16, used: &Used, totals: &mut [u64], answer: &mut [u64]) -> u8 {
    let Ok(totals) = <&mut [u64; TOTALS]>::try_from(totals) else {
        return UNFIT;
    };
    let Ok(answer) = <&mut [u64; BUS_ANSWER]>::try_from(answer) else {
        return UNFIT;
    };
    let Some(mut all) = totals_of(totals) else {
        return UNFIT;
    };
    match all.report(burst, used) {
        Ok(Taken { bursts, released }) => {
            *totals = totals_numbers(&all);
            *answer = [bursts, released];
            0
        }
        // Nothing is written.
        Err(refusal) => refusal.number,
    }
}

/// The text of a row, and its length.
#[inline(never)]
pub fn write_mail(settings: &[u32], cells: &[u32], text: &mut [u8], answer: &mut [u32]) -> u8 {
    let Ok(answer) = <&mut [u32; MAIL_ANSWER]>::try_from(answer) else {
        return UNFIT;
    };
    let Some(settings) = settings_of(settings) else {
        return UNFIT;
    };
    match mail::write(&settings, cells, text) {
        Ok(length) => {
            *answer = [length as u32];
            0
        }
        // Nothing is written.
        Err(refusal) => refusal.number,
    }
}

/// The cells of a text, and their count.
#[inline(never)]
pub fn read_mail(text: &[u8], cells: &mut [u16], answer: &mut [u32]) -> u8 {
    let Ok(answer) = <&mut [u32; MAIL_ANSWER]>::try_from(answer) else {
        return UNFIT;
    };
    match mail::read(text, cells) {
        Ok(count) => {
            *answer = [count as u32];
            0
        }
        Err(refusal) => {
            if refusal.number == 24 {
                *answer = [refusal.address];
            }
            refusal.number
        }
    }
}
