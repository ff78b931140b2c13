//! The draw program, the programs for mail and for the bus report, the mending program and the converting program: each reads a
//! script and gives its whole output.

use crate::bus::{Largest, Totals, Used};
use crate::convert::{self, Screen};
use crate::mail;
use crate::mend::mend;
use crate::rules::{self, Edition, Interlace, Refusal, Row, Settings, CELLS};
use crate::trail::PLACES;
use std::io::{self, Read, Write};

/// Words of memory in the draw program.
pub const MEMORY: usize = 16_384;

/// Registers that a script can set, 00 to 18.
pub const REGISTERS: usize = 0x19;

/// The register of the bus: burst space and burst count.
const BURST: usize = 0x10;

/// Bytes that the text of any row fits in.
const ROW_TEXT: usize = 2048;

/// Settings with every number 0 and every switch off.
pub const UNSET: Settings = Settings {
    linear: false,
    display_hidden: false,
    interlace: Interlace::None,
    cursor: false,
    flag: 0,
    top: [0; 2],
    tow: [0; 2],
    vsw: 0,
    vsd: 0,
    val: 0,
    vtot: 0,
    hsync: 0,
    hsd: 0,
    htc: 0,
    htd: 0,
    edition: Edition::Am8052,
};

/// What a script sets up.
pub struct Script {
    pub settings: Settings,
    pub registers: [u16; REGISTERS],
    pub memory: Vec<u16>,
}

/// Reads a script up to its draw. A refused script gives the offset to print.
pub fn parse(input: &[u8]) -> Result<Script, usize> {
    let mut script = Script::new();
    script.read(input, 0)?;
    Ok(script)
}

impl Script {
    /// What there is before any record.
    pub fn new() -> Script {
        Script {
            settings: UNSET,
            registers: [0; REGISTERS],
            memory: vec![0; MEMORY],
        }
    }

    /// Reads records from an offset on up to a draw, and gives the offset after it; or the offset to print.
    pub fn read(&mut self, input: &[u8], from: usize) -> Result<usize, usize> {
        let mut at = from;
        loop {
            let Some((&kind, after)) = input[at..].split_first() else {
                return Err(input.len());
            };
            let size = match kind {
                0 => return Ok(at + 1),
                1 => 3,
                2 => 5,
                3 => 1,
                _ => return Err(at),
            };
            let Some(body) = after.get(..size) else {
                return Err(input.len());
            };
            if !self.take(body) {
                return Err(at);
            }
            at += 1 + size;
        }
    }

    /// Takes a record's body; false where it is refused.
    fn take(&mut self, body: &[u8]) -> bool {
        match *body {
            [register, high, low] => {
                let value = u16::from_be_bytes([high, low]);
                set_register(&mut self.settings, register, value);
                match self.registers.get_mut(usize::from(register)) {
                    Some(place) => {
                        *place = value;
                        true
                    }
                    None => false,
                }
            }
            [a2, a1, a0, high, low] => {
                let address = u32::from_be_bytes([0, a2, a1, a0]);
                match self.memory.get_mut(address as usize / 2) {
                    Some(word) if address & 1 == 0 => {
                        *word = u16::from_be_bytes([high, low]);
                        true
                    }
                    _ => false,
                }
            }
            [switches] => set_switches(&mut self.settings, switches),
            _ => false,
        }
    }
}

fn set_register(settings: &mut Settings, register: u8, value: u16) {
    match register {
        0x08 => settings.flag = value,
        0x09 => settings.top[0] = value,
        0x0A => settings.top[1] = value,
        0x0B => settings.tow[0] = value,
        0x0C => settings.tow[1] = value,
        0x11 => {
            settings.vsw = value & 0x3F;
            settings.vsd = value >> 6 & 0x3F;
        }
        0x12 => settings.val = value & 0xFFF,
        0x13 => settings.vtot = value & 0xFFF,
        0x14 => settings.hsync = value & 0xFF,
        0x16 => settings.hsd = value & 0x1FF,
        0x17 => settings.htc = value & 0x3FF,
        0x18 => settings.htd = value & 0x3FF,
        _ => {}
    }
}

fn set_switches(settings: &mut Settings, switches: u8) -> bool {
    settings.interlace = match switches >> 2 & 3 {
        0 => Interlace::None,
        1 => Interlace::RepeatField,
        2 => Interlace::Video,
        _ => return false,
    };
    settings.linear = switches & 1 != 0;
    settings.display_hidden = switches & 2 != 0;
    settings.cursor = switches & 16 != 0;
    true
}

/// The switches of settings.
fn switches(settings: &Settings) -> u8 {
    let interlace = match settings.interlace {
        Interlace::None => 0,
        Interlace::RepeatField => 1,
        Interlace::Video => 2,
    };
    u8::from(settings.linear)
        | u8::from(settings.display_hidden) << 1
        | interlace << 2
        | u8::from(settings.cursor) << 4
}

/// The records of a script for settings in register range and memory, without a draw.
pub fn records(settings: &Settings, memory: &[u16]) -> Vec<Vec<u8>> {
    let mut registers = [0; REGISTERS];
    registers[0x08] = settings.flag;
    registers[0x09..0x0B].copy_from_slice(&settings.top);
    registers[0x0B..0x0D].copy_from_slice(&settings.tow);
    registers[0x11] = settings.vsd << 6 | settings.vsw;
    registers[0x12] = settings.val;
    registers[0x13] = settings.vtot;
    registers[0x14] = settings.hsync;
    registers[0x16] = settings.hsd;
    registers[0x17] = settings.htc;
    registers[0x18] = settings.htd;
    written(switches(settings), &registers, memory)
}

/// The records of a script, without a draw: switches, the registers that are not 0, then the words that are not 0.
fn written(switches: u8, registers: &[u16], memory: &[u16]) -> Vec<Vec<u8>> {
    let mut all = vec![vec![3, switches]];
    for (register, &value) in registers.iter().enumerate() {
        if value != 0 {
            let [high, low] = value.to_be_bytes();
            all.push(vec![1, register as u8, high, low]);
        }
    }
    for (index, &word) in memory.iter().enumerate() {
        if word != 0 {
            let [_, a2, a1, a0] = (index as u32 * 2).to_be_bytes();
            let [high, low] = word.to_be_bytes();
            all.push(vec![2, a2, a1, a0, high, low]);
        }
    }
    all
}

/// A program: a script on standard input, its output on standard output.
pub fn program(output: fn(&[u8]) -> Vec<u8>) -> io::Result<()> {
    let mut input = Vec::new();
    io::stdin().read_to_end(&mut input)?;
    io::stdout().write_all(&output(&input))
}

/// The whole output of the draw program for a script.
pub fn run(input: &[u8]) -> Vec<u8> {
    output(input, |_, _| {})
}

/// The whole output of the mending program for a script: a line for each pointer that is set to 0, then the draw program's
/// output for the mended list.
pub fn mended(input: &[u8]) -> Vec<u8> {
    output(input, |script, out| {
        // A refusal that is given as it is, is the draw program's.
        while let Ok(Some(change)) = mend(&mut script.settings, &mut script.memory, 0) {
            let [first, second] = change.words;
            line(
                out,
                format_args!(
                    "{:06X} {first:04X} {second:04X} {}",
                    change.address(),
                    change.refusal.number
                ),
            );
        }
    })
}

/// The whole output of the mail program for a script: the text of each row, and nothing at the end of the frame.
pub fn mailed(input: &[u8]) -> Vec<u8> {
    unless_refused(input, |script, out| {
        rows(&script.settings, &script.memory, |_, _, cells| {
            let mut text = [0; ROW_TEXT];
            let length = mail::write(&script.settings, cells, &mut text)?;
            out.extend(&text[..length]);
            Ok(())
        })
    })
}

/// The whole output of the bus program for a script: a line for each row, then the sums and the largest row.
pub fn reported(input: &[u8]) -> Vec<u8> {
    unless_refused(input, |script, out| {
        let mut totals = Totals::default();
        rows(&script.settings, &script.memory, |before, row, _| {
            let used = Used {
                words: before + row.words,
                screen: 0,
                row: row.row,
            };
            let taken = totals.report(script.registers[BURST], &used)?;
            let shares = bus_shares(used.words.into(), taken.bursts, taken.released);
            line(out, format_args!("row {}: {shares}", used.row));
            Ok(())
        })?;
        let shares = bus_shares(totals.words, totals.bursts, totals.released);
        line(out, format_args!("all rows: {shares}"));
        if let Some(largest) = totals.largest {
            let Largest { words, screen, row } = largest;
            line(
                out,
                format_args!("largest: words {words}, screen {screen}, row {row}"),
            );
        }
        Ok(())
    })
}

fn bus_shares(words: u64, bursts: u64, released: u64) -> String {
    format!("words {words}, bursts {bursts}, clocks released at least {released}")
}

/// The output for a script, with what is done before it is drawn.
fn output(input: &[u8], before: impl FnOnce(&mut Script, &mut Vec<u8>)) -> Vec<u8> {
    unless_refused(input, |script, out| {
        before(script, out);
        draw(&script.settings, &script.memory, out)
    })
}

/// The whole output of the converting program for a script: the script of the same screen with linear memory and every register
/// kept, the soft tops turned; or a line that says why there is none.
pub fn converted(input: &[u8]) -> Vec<u8> {
    unless_refused(input, |script, out| {
        let Script {
            settings,
            registers,
            memory,
        } = script;
        convert::convert(settings, memory, &mut [0; MEMORY], 0)?;
        for soft in [0x04, 0x06] {
            convert::turn(&mut registers[soft]);
        }
        registers[0x09] = settings.top[0];
        registers[0x0B] = settings.tow[0];
        out.extend(written(switches(settings), registers, memory).concat());
        out.push(0);
        Ok(())
    })
}

/// What the draw program would print for a script with good settings if it drew segmented memory.
pub fn drawn_below(input: &[u8]) -> Vec<u8> {
    unless_refused(input, |script, out| {
        let Screen { rows, read, ended } = convert::screen(&script.settings, &script.memory, 0);
        for (row, cells) in &rows {
            put_row(out, row, &cells[..script.settings.columns()]);
        }
        ended?;
        put_end(out, rows.len(), read.len());
        Ok(())
    })
}

/// What is done with a script, then the line of a refusal.
fn unless_refused(
    input: &[u8],
    run: impl FnOnce(&mut Script, &mut Vec<u8>) -> Result<(), Refusal>,
) -> Vec<u8> {
    let mut out = Vec::new();
    match parse(input) {
        Err(offset) => line(&mut out, format_args!("refused script at {offset}")),
        Ok(mut script) => {
            if let Err(refusal) = run(&mut script, &mut out) {
                put_refusal(&mut out, &refusal);
            }
        }
    }
    out
}

pub fn put_refusal(out: &mut Vec<u8>, refusal: &Refusal) {
    let Refusal {
        number,
        row,
        address,
        from,
    } = refusal;
    let told = format!("refused {number} row {row} at {address:06X}");
    match number {
        7 => line(out, format_args!("{told} from {from:06X}")),
        _ => line(out, format_args!("{told}")),
    }
}

fn put_row(out: &mut Vec<u8>, row: &Row, shown: &[u32]) {
    line(
        out,
        format_args!(
            "row {} lines {} attr {:03X} words {}",
            row.row, row.lines, row.attributes, row.words
        ),
    );
    put_cells(out, shown);
}

/// A line of cells.
pub fn put_cells(out: &mut Vec<u8>, shown: &[u32]) {
    for (column, cell) in shown.iter().enumerate() {
        if column > 0 {
            out.push(b' ');
        }
        let _ = write!(out, "{cell:08X}");
    }
    out.push(b'\n');
}

fn put_end(out: &mut Vec<u8>, rows: usize, words: usize) {
    line(out, format_args!("end rows {rows} words {words}"));
}

pub fn line(out: &mut Vec<u8>, text: std::fmt::Arguments) {
    // Writing to a vector does not fail.
    let _ = writeln!(out, "{text}");
}

fn draw(settings: &Settings, memory: &[u16], out: &mut Vec<u8>) -> Result<(), Refusal> {
    let (mut count, mut words) = (0, 0);
    rows(settings, memory, |before, row, cells| {
        put_row(out, row, &cells[..settings.columns()]);
        count += 1;
        words += before + row.words;
        Ok(())
    })?;
    put_end(out, count, words as usize);
    Ok(())
}

/// A first frame, row by row, with the row's cells: the words of its start go before those of row 0.
fn rows(
    settings: &Settings,
    memory: &[u16],
    mut each: impl FnMut(u32, &Row, &[u32; CELLS]) -> Result<(), Refusal>,
) -> Result<(), Refusal> {
    let mut list = [0; PLACES];
    let start = rules::start(settings, memory, 0, &mut list)?;
    let mut state = start.state;
    let mut before = start.words;
    let mut cells = [0; CELLS];
    while state.fields.lines_left > 0 {
        let row = rules::row(settings, memory, &mut state, &mut cells, &mut list)?;
        each(before, &row, &cells)?;
        before = 0;
    }
    Ok(())
}
