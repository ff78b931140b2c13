//! Writes numbered scripts of soft scrolls with what is printed of them to a folder: first the named ones, then, if more are asked
//! for, frames whose soft tops, scrolls and row heights change between draws; seldom damaged, cut or with other bytes.
//!
//! Usage: glided FOLDER [COUNT]

use compare::generate::{case, scroll_word, Case, Rng, Shape};
use compare::rules::pointer;
use compare::{folder, glide, glides, script};

/// Draws of one script, at most.
const DRAWS: usize = 7;

fn register(number: u8, value: u16) -> Vec<u8> {
    let [high, low] = value.to_be_bytes();
    vec![1, number, high, low]
}

fn word(address: u32, value: u16) -> Vec<u8> {
    let [_, a2, a1, a0] = address.to_be_bytes();
    let [high, low] = value.to_be_bytes();
    vec![2, a2, a1, a0, high, low]
}

/// A soft top: one of the frame's main blocks, seldom any.
fn soft_top(rng: &mut Rng, case: &Case) -> [Vec<u8>; 2] {
    let [first, second] = match rng.below(24) {
        0 => [0, 0],
        1 => [rng.word() & 1, rng.word()],
        _ => rng.pick(&case.tops),
    };
    [register(4, first), register(5, second)]
}

/// M4 of a main block: mostly a scroll, one way for long.
fn steered(rng: &mut Rng, up: bool) -> u16 {
    match rng.below(12) {
        0 => scroll_word(rng),
        1 => 0,
        2 => 0x5000,
        _ => 0x4000 | if up { 0x2000 } else { 0 } | rng.word() & 0x0F00,
    }
}

/// What a console, or a fault, changes before the next draw.
fn changes(rng: &mut Rng, case: &Case, up: bool) -> Vec<Vec<u8>> {
    let mut all = Vec::new();
    if rng.once_in(2) {
        all.extend(soft_top(rng, case));
    }
    let [first, second] = rng.pick(&case.tops);
    let main = pointer(first, second);
    if rng.once_in(4) {
        all.push(word(main + 8, steered(rng, up)));
    }
    if rng.once_in(6) {
        all.push(word(main + 12, rng.word() & 0x1F));
    }
    if rng.once_in(12) {
        all.push(word(main + 2 * rng.below(7) as u32, rng.word() & 0x3FFE));
    }
    if rng.once_in(12) {
        all.push(register(rng.below(0x19) as u8, rng.word()));
    }
    all
}

fn frames(rng: &mut Rng) -> Vec<u8> {
    let shape = Shape {
        rows: rng.range(2, 8),
        lines: rng.range(1, 30),
        damaged: rng.pick(&[0, 0, 20]),
        segmented: 1,
        ..Shape::SCRIPT
    };
    let case = case(rng, &shape);
    let up = rng.once_in(2);
    let mut bytes = script::records(&case.settings, &case.memory).concat();
    bytes.extend(soft_top(rng, &case).concat());
    for &[first, second] in &case.tops {
        bytes.extend(word(pointer(first, second) + 8, steered(rng, up)));
        if rng.once_in(3) {
            bytes.extend(word(
                pointer(first, second) + 12,
                rng.pick(&[0, 1, 3, 7, 11]),
            ));
        }
    }
    bytes.push(0);
    for _ in 0..rng.below(DRAWS) {
        bytes.extend(changes(rng, &case, up).concat());
        bytes.push(0);
    }
    match rng.below(40) {
        0 => bytes.truncate(rng.clone().below(bytes.len())),
        1 => bytes.push(rng.word() as u8),
        2 => {
            let n = rng.below(bytes.len());
            bytes[n] ^= 1 << rng.below(8);
        }
        _ => {}
    }
    bytes
}

fn main() {
    let mut rng = Rng::new(34);
    let outputs = |bytes: &[u8]| vec![("out", glide::output(bytes))];
    let named = glides::ALL.iter().map(|g| (g.name, g.script.to_vec()));
    folder::fill(named.collect(), outputs, |_| ("random", frames(&mut rng)));
}
