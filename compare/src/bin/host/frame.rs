//! Random frames, and what is left of one in files where the two sides differ.

use compare::generate::{self, Rng, Shape};
use compare::host::{settings_numbers, state_numbers, SETTINGS, STATE};
use compare::rules::Settings;
use compare::script;
use std::fmt::Write;
use std::{fs, io};

/// Words that follow the lent memory, or are lent with it.
const AFTER: usize = 16;

pub struct Frame {
    pub settings: [u32; SETTINGS],
    /// A state to begin with beside the start's.
    pub state: Option<[u32; STATE]>,
    /// Tops of the page, for a soft scroll.
    pub tops: Vec<[u16; 2]>,
    named: Settings,
    memory: Vec<u16>,
    words: usize,
}

fn shape(rng: &mut Rng) -> Shape {
    match rng.below(400) {
        0 => Shape::WHOLE,
        1..=12 => Shape::PAGES,
        13..=60 => Shape {
            columns: 132,
            lines: 90,
            ..Shape::SCRIPT
        },
        61..=140 => Shape::words(rng.range(1, 400)),
        _ => Shape::words(rng.range(400, 16_000)),
    }
}

/// Words of no frame, with pointers that may lie in them.
fn noise(rng: &mut Rng, settings: &mut Settings) -> Vec<u16> {
    let mask = rng.pick(&[0xFFFF, 0x0FFF, 0x03FF, 0x8F0F]);
    let words = rng.below(600);
    settings.top = [0, rng.word() & 0x3FF];
    settings.tow = [0, rng.word() & 0x3FF];
    (0..words).map(|_| rng.word() & mask).collect()
}

impl Frame {
    pub fn new(rng: &mut Rng) -> Frame {
        let shape = shape(rng);
        let mut case = generate::case(rng, &shape);
        if rng.once_in(12) {
            case.memory = noise(rng, &mut case.settings);
        }
        let whole = case.memory.len();
        let words = match rng.below(60) {
            0 => 0,
            1..=3 => rng.below(whole + 1),
            4..=8 => whole + rng.range(1, AFTER),
            _ => whole,
        };
        let mut memory = case.memory;
        memory.extend((0..AFTER).map(|_| rng.word()));
        Frame {
            settings: settings_numbers(&case.settings),
            state: case.state.as_ref().map(state_numbers),
            tops: case.tops,
            named: case.settings,
            memory,
            words,
        }
    }

    /// The lent memory.
    pub fn memory(&self) -> &[u16] {
        &self.memory[..self.words]
    }

    /// Whether settings and memory, also after what was lent, are those of another frame.
    pub fn same(&self, other: &Frame) -> bool {
        self.settings == other.settings && self.memory == other.memory
    }

    /// The frame as a script, where one can say it: with so much memory and such settings.
    fn script(&self) -> Option<Vec<u8>> {
        let mut bytes = script::records(&self.named, self.memory()).concat();
        bytes.push(0);
        let said = script::parse(&bytes).ok()?;
        (said.settings == self.named && said.memory == self.memory()).then_some(bytes)
    }

    /// Writes the frame as text, and as a script where that can be.
    pub fn keep(&self, why: &str) -> io::Result<()> {
        let mut text = format!("{why}\nsettings {:?}\n", self.settings);
        let _ = writeln!(text, "memory of {} words, those not 0:", self.words);
        for (n, word) in self.memory().iter().enumerate() {
            if *word != 0 {
                let _ = writeln!(text, "{:06X} {word:04X}", 2 * n);
            }
        }
        fs::write("differs.txt", text)?;
        match self.script() {
            Some(bytes) => fs::write("differs.script", bytes),
            // None may be left from an earlier difference.
            None => fs::remove_file("differs.script").or(Ok(())),
        }
    }
}
