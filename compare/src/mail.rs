//! A row as terminal text with ECMA-48 marks, and such a text read back.

use crate::rules::{Refusal, Settings, Stop, CELLS};

/// Marks off: before the first cell, and after the last one with a line feed.
const OFF: &[u8] = b"\x1B[0m";
const END: &[u8] = b"\x1B[0m\n";

/// The bits of a drawn cell that are marks: highlight, underline, blink and reverse, attribute bits 6, 1,
/// 0 and 5.
const MARKS: [u32; 4] = [1 << 14, 1 << 9, 1 << 8, 1 << 13];

/// The sequence of each set of marks, by the four bits that these have in a text's cell.
const SEQUENCES: [&[u8]; 16] = [
    OFF,
    b"\x1B[0;1m",
    b"\x1B[0;4m",
    b"\x1B[0;1;4m",
    b"\x1B[0;5m",
    b"\x1B[0;1;5m",
    b"\x1B[0;4;5m",
    b"\x1B[0;1;4;5m",
    b"\x1B[0;7m",
    b"\x1B[0;1;7m",
    b"\x1B[0;4;7m",
    b"\x1B[0;1;4;7m",
    b"\x1B[0;5;7m",
    b"\x1B[0;1;5;7m",
    b"\x1B[0;4;5;7m",
    b"\x1B[0;1;4;5;7m",
];

/// What stands for a code that has no character.
const NO_CHARACTER: u8 = b'?';

fn is_character(code: u8) -> bool {
    (0x20..=0x7E).contains(&code)
}

/// A cell of a text: its character in bits 7..0, then a bit for each mark: 8 highlight, 9 underline,
/// 10 blink, 11 reverse.
pub fn cell(drawn: u32) -> u16 {
    let code = drawn as u8;
    let mut cell = u16::from(if is_character(code) {
        code
    } else {
        NO_CHARACTER
    });
    for (n, bit) in MARKS.into_iter().enumerate() {
        if drawn & bit != 0 {
            cell |= 0x100 << n;
        }
    }
    cell
}

/// The set of marks of a text's cell.
fn marks(cell: u16) -> usize {
    usize::from(cell >> 8)
}

/// The text of a row with these cells.
pub fn text(cells: &[u16]) -> Vec<u8> {
    let mut text = OFF.to_vec();
    let mut before = 0;
    for &cell in cells {
        let set = marks(cell);
        if set != before {
            text.extend(SEQUENCES[set]);
        }
        text.push(cell as u8);
        before = set;
    }
    text.extend(END);
    text
}

/// A refusal of a text, with an offset or 0.
fn refuse<T>(number: u8, offset: usize) -> Result<T, Refusal> {
    Err(Refusal {
        address: offset as u32,
        ..Stop::bare(number).at_row(0)
    })
}

/// Copies what was made to the beginning of a buffer that has room for it, and gives its length.
fn give<T: Copy>(made: &[T], buffer: &mut [T]) -> Result<usize, Refusal> {
    match buffer.get_mut(..made.len()) {
        Some(place) => {
            place.copy_from_slice(made);
            Ok(made.len())
        }
        None => refuse(23, 0),
    }
}

/// Writes the shown columns of a row buffer, and gives the text's length.
pub fn write(settings: &Settings, row: &[u32], buffer: &mut [u8]) -> Result<usize, Refusal> {
    if row.len() != CELLS {
        return refuse(1, 0);
    }
    if !settings.good() {
        return refuse(2, 0);
    }
    let cells: Vec<u16> = row[..settings.columns()]
        .iter()
        .map(|&drawn| cell(drawn))
        .collect();
    give(&text(&cells), buffer)
}

/// How many bytes two texts have in common from their beginning on.
fn common(a: &[u8], b: &[u8]) -> usize {
    a.iter().zip(b).take_while(|(a, b)| a == b).count()
}

/// The cells of a text, or the length of the longest beginning that it shares with some row's text.
///
/// All that a row's text can go on with is tried at each place, set by set: the next cell with every set of
/// marks, and the end. `reached` is the farthest byte that any of these has in common with the text.
pub fn cells(text: &[u8]) -> Result<Vec<u16>, usize> {
    let mut cells: Vec<u16> = Vec::new();
    let mut reached = common(text, OFF);
    if reached < OFF.len() {
        return Err(reached);
    }
    let mut at = reached;
    loop {
        let rest = &text[at..];
        let before = cells.last().map_or(0, |&cell| marks(cell));
        let mut next = None;
        if cells.len() < CELLS {
            for (set, sequence) in SEQUENCES.into_iter().enumerate() {
                let sequence = if set == before { &[] } else { sequence };
                let shared = common(rest, sequence);
                reached = reached.max(at + shared);
                if shared < sequence.len() {
                    continue;
                }
                if let Some(&code) = rest.get(shared).filter(|&&code| is_character(code)) {
                    next = Some(((set as u16) << 8 | u16::from(code), at + shared + 1));
                }
            }
        }
        if !cells.is_empty() {
            let shared = common(rest, END);
            reached = reached.max(at + shared);
            if rest == END {
                return Ok(cells);
            }
        }
        // No two of them go on to the same text, so there is one next cell at most.
        let Some((cell, after)) = next else {
            return Err(reached);
        };
        cells.push(cell);
        at = after;
        reached = reached.max(at);
    }
}

/// Reads a text, and gives the count of its cells.
pub fn read(text: &[u8], buffer: &mut [u16]) -> Result<usize, Refusal> {
    match cells(text) {
        Ok(cells) => give(&cells, buffer),
        Err(offset) => refuse(24, offset),
    }
}
