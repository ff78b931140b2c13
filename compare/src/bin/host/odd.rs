//! Settings changed at random, states that no start gives, effects of no row, scrolls of no frame, and
//! slices that do not fit.

use compare::generate::{self, Rng};
use compare::host::{
    EFFECT, PART, PART_REFUSALS, PLACES, ROW_BLOCK, ROW_BLOCK_FROM, SCROLL, SETTINGS,
    SETTINGS_MOST, STATE, STATE_MOST, WINDOW_BLOCK, WINDOW_BLOCK_FROM, WINDOW_NUMBER,
    WINDOW_ROW_BLOCK, WINDOW_ROW_BLOCK_FROM,
};
use compare::rules::CELLS;

/// The places of a state's pointers, and of where each begins.
const POINTERS: [(usize, usize); 3] = [
    (ROW_BLOCK, ROW_BLOCK_FROM),
    (WINDOW_ROW_BLOCK, WINDOW_ROW_BLOCK_FROM),
    (WINDOW_BLOCK, WINDOW_BLOCK_FROM),
];

/// Numbers at the ends of ranges.
const ENDS: [u32; 28] = [
    0,
    1,
    2,
    13,
    14,
    31,
    32,
    33,
    63,
    64,
    131,
    132,
    255,
    256,
    511,
    512,
    1023,
    1024,
    4094,
    4095,
    4096,
    65535,
    65536,
    0x00_FFFE,
    0xFF_FFFE,
    0xFF_FFFF,
    0x100_0000,
    u32::MAX,
];

/// A number from 0 to `most`, which may be any.
fn up_to(rng: &mut Rng, most: u32) -> u32 {
    (rng.draw() % (u64::from(most) + 1)) as u32
}

/// Settings with some numbers changed: by one, in one bit, to the end of a range, or to the number
/// of the place beside it.
pub fn settings(rng: &mut Rng, real: &[u32; SETTINGS]) -> [u32; SETTINGS] {
    let mut settings = *real;
    if rng.once_in(6) {
        // The second edition.
        settings[17] = 1;
    }
    if rng.once_in(8) {
        return past_range(rng, &settings);
    }
    for _ in 0..rng.pick(&[1, 1, 2, 3]) {
        let n = rng.below(SETTINGS);
        settings[n] = match rng.below(6) {
            0 => settings[n].wrapping_add(1),
            1 => settings[n].wrapping_sub(1),
            2 => settings[n] ^ 1 << rng.below(12),
            3 => rng.pick(&ENDS),
            _ => settings[rng.pick(&[n, (n + 1) % SETTINGS, n.saturating_sub(1)])],
        };
    }
    settings
}

/// A state of any numbers, seldom with one that makes it none.
fn any_state(rng: &mut Rng) -> [u32; STATE] {
    let ends = rng.pick(&[1, 3, 20]);
    let mut state = STATE_MOST.map(|most| match rng.once_in(ends) {
        true => rng.pick(&ENDS).min(most),
        false => up_to(rng, most),
    });
    if rng.once_in(3) {
        state[rng.below(STATE)] = rng.pick(&ENDS);
    }
    if rng.once_in(2) {
        sound(rng, &mut state);
    }
    state
}

/// Puts the places with narrow ranges of their own into these, so that only addresses, latch,
/// cursor and fill are of no frame.
fn sound(rng: &mut Rng, state: &mut [u32; STATE]) {
    let most = rng.range(1, 4095) as u32;
    state[1] = 4095 - most;
    state[2] = most - rng.below(most as usize) as u32;
    state[6] &= 1;
    state[7] = rng.range(1, 32) as u32;
    state[8] &= 1023;
    state[9] &= 31;
    state[10] &= 31;
    state[12] &= 1;
    window(rng, state);
    for (pointer, from) in POINTERS {
        state[pointer] &= 0xFF_FFFE;
        state[from] &= 0xFF_FFFE;
        if state[pointer] == 0 {
            state[from] = 0;
        }
    }
}

/// A window's rows and columns in order: past for long, just past, in force or to come.
fn window(rng: &mut Rng, state: &mut [u32; STATE]) {
    let row = state[1].min(255) as usize;
    let last = rng.pick(&[row, row.saturating_sub(1), rng.clone().below(256), 255]);
    let right = rng.below(CELLS);
    state[13] = rng.below(last + 1) as u32;
    state[14] = last as u32;
    state[15] = rng.below(right + 1) as u32;
    state[16] = right as u32;
    if rng.once_in(2) {
        (state[15], state[16]) = (0, CELLS as u32 - 1);
    }
    // A window's number is at most its first row.
    state[WINDOW_NUMBER] = match rng.below(8) {
        0 => state[13] + 1,
        1 | 2 => state[13],
        _ => up_to(rng, state[13]),
    };
}

/// An address: of a real state, near the end of memory, odd or any.
fn address(rng: &mut Rng, real: &[u32; STATE], words: usize) -> u32 {
    let (pointer, from) = rng.pick(&POINTERS);
    let address = real[rng.pick(&[pointer, from])];
    match rng.below(8) {
        0 => 0,
        1 => address | 1,
        2 => (words * 2).saturating_sub(rng.below(40)) as u32,
        3 => rng.pick(&ENDS),
        4 => up_to(rng, 0xFF_FFFF) & !1,
        _ => address,
    }
}

/// Changes one thing about a state.
fn change(rng: &mut Rng, state: &mut [u32; STATE], words: usize) {
    let real = *state;
    match rng.below(18) {
        0 => state[0] = rng.word().into(),
        17 => state[WINDOW_NUMBER] = rng.pick(&[0, real[13], real[13].wrapping_add(1), 255, 256]),
        1 => state[0] ^= 0x2000,
        2 => state[2] = 1,
        3 => {
            state[1] = rng.pick(&[4094, 4095, 65535, 255, 256]);
            state[2] = 4095_u32.saturating_sub(state[1]);
        }
        4 => {
            state[1] = rng.below(4095) as u32;
            state[2] = 4095 - state[1];
        }
        5 => state[6] ^= 1,
        6..=8 => {
            let (pointer, _) = rng.pick(&POINTERS);
            state[pointer] = address(rng, &real, words);
        }
        14 => {
            // Where a pointer begins: any address, odd, above 24 bits, or beside a null one.
            let (_, from) = rng.pick(&POINTERS);
            state[from] = address(rng, &real, words);
        }
        15 => {
            let (pointer, from) = rng.pick(&POINTERS);
            (state[pointer], state[from]) =
                (address(rng, &real, words), up_to(rng, 0xFF_FFFF) & !1);
        }
        16 => {
            let (pointer, from) = rng.pick(&POINTERS);
            (state[pointer], state[from]) = (0, rng.pick(&[0, 0, 2, 0xFF_FFFE]));
        }
        9 => {
            state[12] = 1;
            window(rng, state);
        }
        10 => state[12] ^= 1,
        11 => state[rng.below(STATE)] = rng.pick(&ENDS),
        12 => state[rng.below(STATE)] ^= 1 << rng.below(32),
        _ => {
            let n = rng.below(STATE);
            state[n] = up_to(rng, STATE_MOST[n]);
        }
    }
}

/// A state that no start need give, made of a real one or of none.
pub fn state(rng: &mut Rng, real: &[u32; STATE], words: usize) -> [u32; STATE] {
    if rng.once_in(4) {
        return any_state(rng);
    }
    let mut state = *real;
    for _ in 0..rng.pick(&[1, 1, 1, 2, 2, 4]) {
        change(rng, &mut state, words);
    }
    state
}

/// A part that an effect call can write.
fn part(rng: &mut Rng) -> [u32; PART] {
    let number = rng.pick(&PART_REFUSALS);
    match rng.below(4) {
        0 => [0; PART],
        1 => [0, 0, 0, 0, 1, rng.word().into()],
        _ => {
            let from = if number == 7 { rng.draw() as u32 } else { 0 };
            let row = rng.pick(&ENDS);
            [number, row, rng.draw() as u32, from, 0, 0]
        }
    }
}

/// An effect that no row need have.
pub fn effect(rng: &mut Rng) -> [u32; EFFECT] {
    let mut effect = [0; EFFECT];
    effect[..PART].copy_from_slice(&part(rng));
    effect[PART..].copy_from_slice(&part(rng));
    effect
}

/// A part that no effect call writes: a number of no refusal, or something that the part does not use.
fn no_part(rng: &mut Rng) -> [u32; PART] {
    let some = 1 + up_to(rng, u32::MAX - 1);
    let number = rng.pick(&PART_REFUSALS);
    let word = rng.word().into();
    let mut part = match rng.below(3) {
        0 => [0; PART],
        1 => [0, 0, 0, 0, 1, word],
        _ => [number, some, some, 0, 0, 0],
    };
    match rng.below(6) {
        0 => part[0] = rng.pick(&[1, 5, 6, 14, 15, 16, 18, 20, 23, 24, 255, 256, 263, u32::MAX]),
        // A row, an address or a pointer of no refusal.
        1 => part = [0, 0, 0, 0, part[4], part[5]],
        // A pointer of another refusal than 7.
        2 => {
            part = [
                rng.pick(&[2, 3, 4, 8, 9, 10, 11, 12, 13, 17]),
                1,
                2,
                some,
                0,
                0,
            ]
        }
        // A word of a refusal, or of a part that keeps.
        3 => part = [rng.pick(&[0, number]), 0, 0, 0, 0, some],
        4 => part = [number, 0, 0, 0, 1, word],
        // Past a mark or a word.
        _ => {
            part = rng.pick(&[
                [0, 0, 0, 0, 1, some | 0x1_0000],
                [0, 0, 0, 0, some | 2, word],
            ])
        }
    }
    if part[0] == 0 && part[4] <= 1 && part[5] <= 0xFFFF && (part[4] == 1 || part[5] == 0) {
        part[rng.range(1, 3)] = some;
    }
    part
}

/// Numbers that are no effect.
pub fn no_effect(rng: &mut Rng) -> Vec<u32> {
    let mut effect = effect(rng);
    if rng.once_in(4) {
        return recounted(rng, &effect);
    }
    let from = rng.pick(&[0, PART]);
    effect[from..from + PART].copy_from_slice(&no_part(rng));
    effect.to_vec()
}

/// A shift: in range, at the ends of ranges, or any.
pub fn shift(rng: &mut Rng) -> i32 {
    match rng.below(4) {
        0 => rng.range(0, 62) as i32 - 31,
        1 => rng.pick(&[0, 31, 32, i32::MAX, -31, -32, -33, i32::MIN]),
        2 => rng.draw() as i32,
        _ => rng.pick(&[1, -1]),
    }
}

/// A scroll that no shift call need give; half of them one that it can.
pub fn scroll(rng: &mut Rng) -> [u32; SCROLL] {
    if rng.once_in(2) {
        let direction = rng.below(2);
        let gone = rng.range(0, 31) as i32;
        let shift = if direction == 1 { gone } else { -gone };
        return [shift as u32, rng.below(8) as u32, direction as u32];
    }
    let phase = rng.pick(&[0, 7, 8, 255, 256, u32::MAX]);
    let direction = rng.pick(&[0, 1, 0, 1, 2, 0x100, u32::MAX]);
    [shift(rng) as u32, phase, direction]
}

/// Counts of cells and of places, not both a row's.
pub fn sizes(rng: &mut Rng) -> (usize, usize) {
    match rng.below(3) {
        0 => (generate::cells(rng), PLACES),
        1 => (CELLS, generate::places(rng)),
        _ => (generate::cells(rng), generate::places(rng)),
    }
}

/// A count other than the right one.
pub fn count(rng: &mut Rng, right: usize) -> usize {
    let wrong = rng.pick(&[0, 1, right - 1, right + 1, 2 * right]);
    if wrong == right {
        0
    } else {
        wrong
    }
}

/// The numbers with another count.
pub fn recounted(rng: &mut Rng, numbers: &[u32]) -> Vec<u32> {
    let mut numbers = numbers.to_vec();
    numbers.resize(count(rng, numbers.len()), 0);
    numbers
}

/// Numbers that are no state: with another count, or one that no check judges past its field.
pub fn no_state(rng: &mut Rng, real: &[u32; STATE]) -> Vec<u32> {
    if rng.once_in(3) {
        return recounted(rng, real);
    }
    let mut state = real.to_vec();
    let n = rng.pick(&[0, 3, 4, 5, 6, 12]);
    let most = STATE_MOST[n];
    let above = u32::MAX - most;
    state[n] = most + rng.pick(&[1, 1, above, 1 + rng.clone().below(above as usize) as u32]);
    state
}

/// Settings with one number past its field: by one, by bits above those that count, or the highest.
pub fn past_range(rng: &mut Rng, real: &[u32; SETTINGS]) -> [u32; SETTINGS] {
    let mut settings = *real;
    let n = rng.below(SETTINGS);
    let above = settings[n] | 1 << rng.range(16, 31);
    settings[n] = rng.pick(&[SETTINGS_MOST[n] + 1, above, above, u32::MAX]);
    settings
}
