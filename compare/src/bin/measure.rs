//! Measures rows, with their lists of addresses, effects, and mending: the proved library through its host calls, this implementation
//! through the same slices, and this implementation called directly. The three take turns in
//! short rounds, so that whatever else the machine does falls on all alike.
//!
//! Usage: measure [PART OF A NAME]

use compare::host::{
    self, EFFECT, MEND_ANSWER, MEND_CHANGED, PLACES, ROW_ANSWER, ROW_WORDS,
    SETTINGS as SETTINGS_COUNT, STATE,
};
use compare::rules::{self, Settings, State, CELLS};
use compare::script::UNSET;
use compare::{library, mended, script};
use std::hint::black_box;
use std::time::Instant;

const ROUNDS: usize = 2000;
const CALLS: u32 = 200;
const MENDINGS: usize = 20;

const SETTINGS: Settings = Settings {
    linear: true,
    flag: 0x8080,
    cursor: true,
    top: [0, 0x10],
    val: 1000,
    vtot: 1000,
    htc: 200,
    htd: 132,
    ..UNSET
};

fn write(memory: &mut [u16], address: usize, words: &[u16]) {
    memory[address / 2..address / 2 + words.len()].copy_from_slice(words);
}

/// Codes from a place on, one in `every` of which invokes; 0 for none.
fn codes(memory: &mut [u16], address: usize, count: usize, every: usize) {
    for n in 0..count {
        let invoking = every > 0 && n % every == 0;
        let code = if invoking { 0xC1 } else { 0x41 } + (n % 26) as u16;
        let word = &mut memory[address / 2 + n / 2];
        *word |= if n % 2 == 0 { code << 8 } else { code };
    }
}

/// Attribute words at 400, every other one of which latches.
fn attributes(memory: &mut [u16]) {
    for n in 0..0x100 {
        memory[0x200 + n] = if n % 2 == 0 { 0x8000 } else { 0 } | (n as u16 & 0x7F);
    }
}

fn segment(code: u16, list: u16, length: u16, visible: u16) -> [u16; 5] {
    [0, code, 0, list, length << 8 | visible]
}

/// A memory with a main block whose row chain loops on one row block at 100.
fn board(fill: u16, segments: &[[u16; 5]]) -> Vec<u16> {
    let mut memory = vec![0; 4096];
    write(&mut memory, 0x10, &[0, 0x100, 0, fill, 0, 0, 0]);
    write(&mut memory, 0x100, &[0, 0x100, segments.len() as u16]);
    write(&mut memory, 0x106, &segments.concat());
    memory
}

/// 132 characters in three segments, the middle one under a window of its own text.
fn dense(fill: u16, every: usize, list: bool) -> (Settings, Vec<u16>) {
    let at = |place: u16| if list { place } else { 0 };
    let mut memory = board(
        fill,
        &[
            segment(0x200, at(0x400), 44, 44),
            segment(0x240, at(0x480), 44, 44),
            segment(0x280, at(0x500), 44, 44),
        ],
    );
    for place in [0x200, 0x240, 0x280, 0x2C0] {
        codes(&mut memory, place, 44, every);
    }
    attributes(&mut memory);
    write(&mut memory, 0x180, &[0, 0, 0, 0x1A0, 0x00FF, 44 << 8 | 87]);
    write(&mut memory, 0x1A0, &[0, 0x1A0, 1]);
    write(&mut memory, 0x1A6, &segment(0x2C0, at(0x580), 44, 44));
    (
        Settings {
            tow: [0, 0x180],
            ..SETTINGS
        },
        memory,
    )
}

/// 176 words: 132 characters in eight segments and a window of three, with a ninth segment
/// under the window.
fn divided() -> (Settings, Vec<u16>) {
    let mut segments = Vec::new();
    for n in 0..11 {
        let (code, list) = (0x200 + n * 0x10, 0x400 + n * 0x10);
        segments.push(segment(code, list, 12, 12));
    }
    let over = segments.split_off(8);
    segments.insert(4, segment(0x300, 0x600, 36, 36));
    let mut memory = board(0x20, &segments);
    for n in 0..11 {
        codes(&mut memory, 0x200 + n * 0x10, 12, 3);
    }
    attributes(&mut memory);
    write(&mut memory, 0x180, &[0, 0, 0, 0x1A0, 0x00FF, 48 << 8 | 83]);
    write(&mut memory, 0x1A0, &[0, 0x1A0, 3]);
    write(&mut memory, 0x1A6, &over.concat());
    (
        Settings {
            tow: [0, 0x180],
            ..SETTINGS
        },
        memory,
    )
}

/// 132 characters in one segment without a window.
fn text(every: usize, list: bool) -> (Settings, Vec<u16>) {
    let list = if list { 0x400 } else { 0 };
    let mut memory = board(0x20, &[segment(0x200, list, 132, 132)]);
    codes(&mut memory, 0x200, 132, every);
    attributes(&mut memory);
    (SETTINGS, memory)
}

/// A frame's first state and what a call is lent.
#[repr(align(64))]
struct Bench {
    begun: [u32; STATE],
    state: [u32; STATE],
    settings: [u32; SETTINGS_COUNT],
    cells: [u32; CELLS],
    list: [u32; PLACES],
    answer: [u32; ROW_ANSWER],
    effect: [u32; EFFECT],
    memory: Vec<u16>,
    direct_settings: Settings,
    direct_begun: State,
}

/// Nanoseconds for one call in a round.
#[inline]
fn round(mut call: impl FnMut()) -> f64 {
    let begun = Instant::now();
    for _ in 0..CALLS {
        call();
    }
    begun.elapsed().as_nanos() as f64 / f64::from(CALLS)
}

impl Bench {
    fn new((settings, memory): (Settings, Vec<u16>)) -> Bench {
        let mut list = [0; PLACES];
        let begun = rules::start(&settings, &memory, 0, &mut list)
            .expect("a good start")
            .state;
        Bench {
            begun: host::state_numbers(&begun),
            state: [0; STATE],
            settings: host::settings_numbers(&settings),
            cells: [0; CELLS],
            list,
            answer: [0; ROW_ANSWER],
            effect: [0; EFFECT],
            memory,
            direct_settings: settings,
            direct_begun: begun,
        }
    }

    /// A round of row calls over slices.
    #[inline]
    fn rows(
        &mut self,
        call: impl Fn(&[u32], &[u16], &mut [u32], &mut [u32], &mut [u32], &mut [u32]) -> u8,
    ) -> f64 {
        round(|| {
            self.state = *black_box(&self.begun);
            let status = call(
                black_box(&self.settings),
                black_box(&self.memory),
                black_box(&mut self.state),
                black_box(&mut self.cells),
                black_box(&mut self.list),
                black_box(&mut self.answer),
            );
            assert_eq!(status, 0);
        })
    }

    #[inline(never)]
    fn library_rows(&mut self) -> f64 {
        self.rows(library::row)
    }

    #[inline(never)]
    fn host_rows(&mut self) -> f64 {
        self.rows(host::row)
    }

    #[inline(never)]
    fn direct_rows(&mut self) -> f64 {
        round(|| {
            let mut state = *black_box(&self.direct_begun);
            let answer = rules::row(
                black_box(&self.direct_settings),
                black_box(&self.memory),
                black_box(&mut state),
                black_box(&mut self.cells),
                black_box(&mut self.list),
            );
            assert!(black_box(&answer).is_ok());
            black_box(&state);
        })
    }

    /// A round of effect calls over slices.
    #[inline]
    fn effects(&mut self, call: impl Fn(&[u32], &[u16], &mut [u32], &mut [u32]) -> u8) -> f64 {
        round(|| {
            self.state = *black_box(&self.begun);
            let status = call(
                black_box(&self.settings),
                black_box(&self.memory),
                black_box(&mut self.state),
                black_box(&mut self.effect),
            );
            assert_eq!(status, 0);
        })
    }

    #[inline(never)]
    fn library_effects(&mut self) -> f64 {
        self.effects(library::effect)
    }

    #[inline(never)]
    fn host_effects(&mut self) -> f64 {
        self.effects(host::effect)
    }

    #[inline(never)]
    fn direct_effects(&mut self) -> f64 {
        round(|| {
            black_box(rules::effect(
                black_box(&self.direct_settings),
                black_box(&self.memory),
                black_box(&self.direct_begun.fields),
            ));
        })
    }
}

/// Best and median of rounds.
fn summary(times: &[f64]) -> [f64; 2] {
    let mut times = times.to_vec();
    times.sort_unstable_by(f64::total_cmp);
    [times[0], times[times.len() / 2]]
}

/// The words that the frame's row reads, as both sides say.
fn words(bench: &mut Bench) -> u32 {
    bench.library_rows();
    let (cells, list, answer) = (bench.cells, bench.list, bench.answer);
    bench.list = [0; PLACES];
    bench.host_rows();
    assert!(cells == bench.cells && answer == bench.answer);
    let words = answer[ROW_WORDS] as usize;
    assert!(list[..words] == bench.list[..words]);
    answer[ROW_WORDS]
}

/// Measures a frame: three kinds of call that take turns.
fn measure(name: &str, frame: (Settings, Vec<u16>), kinds: [fn(&mut Bench) -> f64; 3]) {
    if !wanted(name) {
        return;
    }
    let mut bench = Bench::new(frame);
    let words = words(&mut bench);
    let mut times = [const { Vec::new() }; 3];
    for _ in 0..ROUNDS {
        for (kind, times) in kinds.iter().zip(&mut times) {
            times.push(kind(&mut bench));
        }
    }
    let rounds = times[1].iter().zip(&times[0]);
    let ratios: Vec<f64> = rounds.map(|(host, library)| host / library).collect();
    let [library, host, direct] = times.map(|times| summary(&times));
    print!("| {name} | {words} ");
    for [best, median] in [library, host] {
        print!("| {best:.1} | {median:.1} | {:.2} ", 1000.0 / best);
    }
    print!(
        "| {:.2} | {:.2} ",
        host[0] / library[0],
        summary(&ratios)[1]
    );
    println!("| {:.1} | {:.1} |", direct[0], direct[1]);
}

/// Mends a frame step by step to its end. Gives the milliseconds, and the pointers changed.
fn mending(
    numbers: &[u32],
    memory: &[u16],
    call: impl Fn(&mut [u32], &mut [u16], u16, &mut [u32]) -> u8,
) -> (f64, u32) {
    let (mut settings, mut memory) = (numbers.to_vec(), memory.to_vec());
    let mut answer = [1; MEND_ANSWER];
    let mut changes = 0;
    let begun = Instant::now();
    loop {
        let status = call(&mut settings, &mut memory, 0, black_box(&mut answer));
        assert_eq!(status, 0);
        if answer[MEND_CHANGED] == 0 {
            return (begun.elapsed().as_nanos() as f64 / 1e6, changes);
        }
        changes += 1;
    }
}

/// Measures the mending of a screen with several hundred damages: that each one is drawn up to, and the last time whole.
fn mendings(name: &str, rows: u16) {
    if !wanted(name) {
        return;
    }
    let bytes = mended::many(rows);
    let said = script::parse(&bytes).expect("a good script");
    let numbers = host::settings_numbers(&said.settings);
    let mut times = [const { Vec::new() }; 2];
    let mut changes = [0; 2];
    for _ in 0..MENDINGS {
        let [library, host] = [
            mending(&numbers, &said.memory, library::mend),
            mending(&numbers, &said.memory, host::mend),
        ];
        times[0].push(library.0);
        times[1].push(host.0);
        changes = [library.1, host.1];
    }
    assert_eq!(changes[0], changes[1]);
    let [[library, _], [host, _]] = times.map(|times| summary(&times));
    println!(
        "\n{name}: {} changes, library {library:.2} ms, Rust {host:.2} ms, ratio {:.2} (best of {MENDINGS} rounds)",
        changes[0],
        host / library
    );
}

/// Whether a measurement is asked for: all are without an argument.
fn wanted(name: &str) -> bool {
    std::env::args()
        .nth(1)
        .is_none_or(|part| name.contains(&part))
}

fn rows(name: &str, frame: (Settings, Vec<u16>)) {
    let kinds = [Bench::library_rows, Bench::host_rows, Bench::direct_rows];
    measure(name, frame, kinds);
}

fn effects(name: &str, frame: (Settings, Vec<u16>)) {
    let kinds = [
        Bench::library_effects,
        Bench::host_effects,
        Bench::direct_effects,
    ];
    measure(name, frame, kinds);
}

const HEAD: &str = "\
Rust is the implementation in this folder, through the same slices as the library, and directly.
Ratio: time of Rust / time of the library; at 1 or more the library is at least as fast. The first
is of the bests, the second the median of the ratios in each round.

| case | words | library best | median | M/s | Rust best | median | M/s | ratio | median | direct best | median |
|---|---|---|---|---|---|---|---|---|---|---|---|";

fn main() {
    println!("Nanoseconds a call in {ROUNDS} rounds of {CALLS} calls; M/s: millions of calls a second, from the best.");
    println!("{HEAD}");
    rows(
        "row, dense: 3 segments and window, 1 in 3",
        dense(0x20, 3, true),
    );
    rows("row, dense: 9 segments and window of 3, 1 in 3", divided());
    rows("row, dense without invoking codes", dense(0x20, 0, true));
    rows("row, dense with fill flag", dense(0x120, 3, true));
    rows("row, text without a list", text(0, false));
    rows("row, text with a list, none invokes", text(0, true));
    rows("row, text with a list, 1 in 3", text(3, true));
    rows("row, fill only: no row block", {
        let mut memory = board(0x20, &[]);
        write(&mut memory, 0x10, &[0, 0]);
        (SETTINGS, memory)
    });
    rows(
        "row, fill only: block without segments",
        (SETTINGS, board(0x20, &[])),
    );
    rows("row, fill only: 3 segments", {
        let segments = [segment(0, 0, 0, 44); 3];
        (SETTINGS, board(0x20, &segments))
    });
    rows("row, fill only: 3 segments with fill words", {
        let segments = [segment(0, 0x400, 0, 44); 3];
        let mut memory = board(0x120, &segments);
        write(&mut memory, 0x400, &[0x8001]);
        (SETTINGS, memory)
    });
    effects(
        "effect, dense: 3 segments and window, 1 in 3",
        dense(0x20, 3, true),
    );
    effects(
        "effect, dense: 9 segments and window of 3, 1 in 3",
        divided(),
    );
    effects("effect, dense with fill flag", dense(0x120, 3, true));
    effects("effect, text without a list", text(0, false));
    effects(
        "effect, fill only: block without segments",
        (SETTINGS, board(0x20, &[])),
    );
    mendings("mending, 20 rows", 20);
}
