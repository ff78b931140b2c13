//! Rows as text for mail, of frames and of none, into buffers of any length; such texts read back, damaged and
//! cut, and texts that no row has.

use crate::calls::{Bytes, Calls, Checked};
use crate::must;
use crate::odd;
use compare::generate::Rng;
use compare::host::{MAIL_ANSWER, SETTINGS};
use compare::rules::CELLS;

/// Bytes of the longest text that a row has.
const LONGEST: usize = 1593;

const OFF: &[u8] = b"\x1B[0m";
const END: &[u8] = b"\x1B[0m\n";

/// Bytes that texts are made of, and some that they are not.
const BYTES: &[u8] = b"\x1B\x1B[[0011445577;;mm\n\nAB ~?\x7F\x1F\r2368:M\x80\xFF";

/// Sequences that no text has, or seldom.
const SEQUENCES: [&[u8]; 12] = [
    b"\x1B[m",
    b"\x1B[1m",
    b"\x1B[;1m",
    b"\x1B[0;0m",
    b"\x1B[0;4;1m",
    b"\x1B[0;7;7m",
    b"\x1B[0;1;4;5;7;7m",
    b"\x1B[0;2m",
    b"\x1B[0;1;m",
    b"\x1B[00m",
    b"\x1B[0 m",
    b"\x1B[0;1",
];

/// A count about another one, or none, or many.
fn about(rng: &mut Rng, count: usize) -> usize {
    match rng.below(8) {
        0 => 0,
        1 => rng.below(count + 1),
        2 => 1800,
        _ => (count + rng.below(5)).saturating_sub(2),
    }
}

/// The cell of a text that a drawn cell has to become.
fn expected(drawn: u32) -> u16 {
    let bit = |attribute: u32, to: u16| ((drawn >> (8 + attribute) & 1) as u16) << to;
    let character = match drawn & 0xFF {
        code @ 0x20..0x7F => code as u16,
        _ => 0x3F,
    };
    character + bit(6, 8) + bit(1, 9) + bit(0, 10) + bit(5, 11)
}

/// A text with one thing changed at a place.
fn damaged(rng: &mut Rng, text: &[u8], at: usize) -> Vec<u8> {
    let mut text = text.to_vec();
    match rng.below(12) {
        0 => text.truncate(at),
        1 => drop(text.remove(at)),
        2 | 3 => text.insert(at, rng.pick(BYTES)),
        4 => text.insert(at, text[at]),
        5 => text[at] ^= 1 << rng.below(8),
        6 => text[at] = rng.word() as u8,
        7 => {
            let sequence = sequence(rng, 0xF);
            text.splice(at..at, sequence);
        }
        8 => {
            let from = rng.below(at + 1);
            let again = text[from..=at].to_vec();
            text.splice(at..at, again);
        }
        9 => drop(text.splice(at..at, rng.pick(&SEQUENCES).iter().copied())),
        _ => text[at] = rng.pick(BYTES),
    }
    text
}

/// Reads a text that is another one, accepted, but for what begins at a place.
fn read_damaged(calls: &mut Calls, rng: &mut Rng, good: &[u8], at: usize) -> Checked<()> {
    let text = damaged(rng, good, at);
    let cells = if rng.once_in(4) {
        about(rng, CELLS)
    } else {
        CELLS
    };
    let status = calls.read_mail(&text, cells, MAIL_ANSWER)?;
    let [offset] = calls.answer.left();
    let offset = offset as usize;
    let right = match status {
        24 => at <= offset && offset <= text.len().min(LONGEST),
        23 => cells < CELLS,
        _ => status == 0,
    };
    let given = (Bytes(good), at);
    must(right, "a text is refused at or after its damage", &given)
}

/// A row's text into buffers about as long as it; it is read back, and then damaged.
pub fn row(
    calls: &mut Calls,
    rng: &mut Rng,
    settings: &[u32; SETTINGS],
    cells: &[u32; CELLS],
) -> Checked<()> {
    let given = (settings, cells);
    if calls.write_mail(settings, cells, LONGEST, MAIL_ANSWER)? != 0 {
        return Ok(());
    }
    let [length] = calls.answer.left();
    let length = length as usize;
    let text = calls.text.first(length).to_vec();
    let bytes = about(rng, length);
    let status = calls.write_mail(settings, cells, bytes, MAIL_ANSWER)?;
    let right = status == if bytes < length { 23 } else { 0 };
    must(right, "23 where the text is too long", &given)?;

    let status = calls.read_mail(&text, CELLS, MAIL_ANSWER)?;
    let [count] = calls.answer.left();
    let (count, columns) = (count as usize, settings[16] - settings[14]);
    let right = status == 0 && count == columns as usize;
    must(right, "a text is read back", &given)?;
    let shown = cells[..count].iter().map(|&cell| expected(cell));
    let right = shown.eq(calls.mail.first(count).iter().copied());
    must(right, "its cells have their characters and marks", &given)?;
    let places = about(rng, count);
    let status = calls.read_mail(&text, places, MAIL_ANSWER)?;
    let right = status == if places < count { 23 } else { 0 };
    must(right, "23 where there are too many cells", &given)?;

    for _ in 0..4 {
        read_damaged(calls, rng, &text, rng.clone().below(length))?;
    }
    if rng.once_in(200) {
        each_offset(calls, rng, &text)?;
    }
    Ok(())
}

/// A text damaged and cut at each offset.
fn each_offset(calls: &mut Calls, rng: &mut Rng, text: &[u8]) -> Checked<()> {
    for at in 0..text.len() {
        read_damaged(calls, rng, text, at)?;
        let status = calls.read_mail(&text[..at], CELLS, MAIL_ANSWER)?;
        let right = status == 24 && calls.answer.left() == [at as u32];
        must(right, "a cut text is refused at its end", &text)?;
    }
    Ok(())
}

/// The sequence of some marks, rising.
fn sequence(rng: &mut Rng, among: u16) -> Vec<u8> {
    let set = rng.word() & among;
    let mut bytes = b"\x1B[0".to_vec();
    for (n, number) in b"1457".iter().enumerate() {
        if set >> n & 1 == 1 {
            bytes.extend([b';', *number]);
        }
    }
    bytes.push(b'm');
    bytes
}

/// A text of pieces in any order: most of them right, sequences that change nothing among them, and seldom
/// more cells than a row has.
fn odd_text(rng: &mut Rng) -> Vec<u8> {
    let among = rng.pick(&[0x1, 0x3, 0x8, 0xC, 0xF]);
    let mut text = if rng.once_in(12) {
        Vec::new()
    } else {
        OFF.to_vec()
    };
    for _ in 0..rng.below(8) {
        match rng.below(16) {
            0 => text.extend(rng.pick(&SEQUENCES)),
            1 => text.push(rng.pick(BYTES)),
            2..=7 => text.extend(sequence(rng, among)),
            _ => {}
        }
        let run = match rng.below(12) {
            0 => rng.range(125, 134),
            1 => 0,
            _ => rng.range(1, 3),
        };
        text.extend((0..run).map(|_| rng.range(0x20, 0x7E) as u8));
    }
    if !rng.once_in(4) {
        text.extend(END);
    }
    if rng.once_in(8) {
        text.extend_from_within(..rng.below(text.len() + 1));
    }
    text
}

/// Cells that no frame need have: any bits, or marks that hold for a while.
fn odd_cells(rng: &mut Rng) -> [u32; CELLS] {
    let sets = rng.pick(&[0, 0x100, 0x4000, 0x6300, 0x2200, 0xFFFF_FF00]);
    let often = rng.pick(&[1, 1, 2, 5, 40]);
    let codes = rng.pick(&[0xFF, 0x7F, 0x3F]);
    let mut marks = 0;
    [0; CELLS].map(|_| {
        if rng.once_in(often) {
            marks = rng.draw() as u32 & sets;
        }
        marks | rng.draw() as u32 & codes
    })
}

/// Rows of no frame, row buffers of any length, and texts of no row.
pub fn odd(calls: &mut Calls, rng: &mut Rng, real: &[u32; SETTINGS]) -> Checked<()> {
    let settings = odd::settings(rng, real);
    for settings in [real, &settings] {
        let cells = odd_cells(rng);
        row(calls, rng, settings, &cells)?;
    }
    let mut cells = odd_cells(rng).to_vec();
    cells.resize(rng.pick(&[0, 1, 131, 133, 264]), 0x41);
    let settings = rng.pick(&[*real, settings]);
    calls.write_mail(&settings, &cells, about(rng, 400), MAIL_ANSWER)?;
    for _ in 0..6 {
        calls.read_mail(&odd_text(rng), CELLS, MAIL_ANSWER)?;
    }
    // A row just full, or with a cell too many.
    let run = vec![b'x'; rng.range(131, 133)];
    let text = [OFF, &sequence(rng, 0xF), &run, END].concat();
    calls.read_mail(&text, about(rng, CELLS), MAIL_ANSWER)?;
    Ok(())
}
