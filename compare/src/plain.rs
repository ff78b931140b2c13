//! The row rules once more in the plainest form: word by word, cell by cell, no shortcuts.
//! The tests hold the fast form in `rules` against it. Below the checks on settings it draws segmented memory too,
//! for the converter.

use crate::rules::{Effect, Fields, Part, Pointer, Refusal, Row, Settings, State, Window, CELLS};
use crate::scroll::{Scroll, Shifted};

#[derive(Debug)]
pub struct Drawn {
    pub answer: Row,
    pub cells: Vec<u32>,
    pub next: State,
    /// Every word that became the latch, in order.
    pub latched: Vec<u16>,
    /// Whether a window stood in the row.
    pub window: bool,
}

/// What a word is read as.
#[derive(Clone, Copy, Debug, PartialEq, Eq)]
pub enum Role {
    /// The first word of a pointer.
    First,
    /// Its second word.
    Second,
    Other,
}

/// A word that was wanted, whether or not memory has it.
#[derive(Clone, Copy, Debug, PartialEq, Eq)]
pub struct Wanted {
    pub address: u32,
    pub role: Role,
    /// The word before it in the same block or list, if it is not the first.
    pub after: Option<u32>,
}

/// What a call met, refused or not.
#[derive(Debug, Default)]
pub struct Notes {
    /// The words that were wanted. Only the last one can be missing.
    pub wanted: Vec<Wanted>,
    /// The addresses of the words read.
    pub read: Vec<u32>,
    /// Where the pointer begins that the request blames for 7, 8, 9, 10 or 13.
    pub blame: u32,
}

struct Tape<'a> {
    settings: &'a Settings,
    memory: &'a [u16],
    row: u32,
    notes: &'a mut Notes,
    latch: u16,
    latched: Vec<u16>,
    cells: Vec<Option<u32>>,
    fill_code: u8,
    fill_flag: bool,
}

/// A word's address, where the pointer begins that it was come to by, and the word read before it from there on.
#[derive(Clone, Copy)]
struct At {
    address: u32,
    from: u32,
    after: Option<u32>,
}

impl At {
    /// What a pointer that begins at an address points at, if it is not null.
    fn new(address: u32, from: u32) -> Option<At> {
        (address != 0).then_some(At {
            address,
            from,
            after: None,
        })
    }

    /// The pointer of a state, if it is not null.
    fn of(pointer: Pointer) -> Option<At> {
        At::new(pointer.address, pointer.from)
    }

    /// A pointer for a state.
    fn pointer(at: Option<At>) -> Pointer {
        let (address, from) = at.map_or((0, 0), |at| (at.address, at.from));
        Pointer { address, from }
    }
}

#[derive(Clone)]
struct Segment {
    code: Option<At>,
    list: Option<At>,
    long: usize,
    visible: usize,
}

/// A main block: its first row block, and the words from M2 on.
struct Main {
    first: Option<At>,
    words: Vec<u16>,
}

impl Segment {
    fn width(&self, settings: &Settings) -> usize {
        match self.code {
            Some(_) if settings.display_hidden => self.long,
            _ => self.visible,
        }
    }
}

pub(crate) fn refuse<T>(number: u8, row: u32, address: u32) -> Result<T, Refusal> {
    Err(Refusal {
        number,
        row,
        address,
        from: 0,
    })
}

impl Tape<'_> {
    /// Reads the word at an address and moves the address on.
    fn read(&mut self, at: &mut At) -> Result<u16, Refusal> {
        self.read_as(at, Role::Other)
    }

    fn read_as(&mut self, at: &mut At, role: Role) -> Result<u16, Refusal> {
        self.notes.wanted.push(Wanted {
            address: at.address,
            role,
            after: at.after,
        });
        match self.memory.get((at.address / 2) as usize) {
            None => {
                self.notes.blame = at.from;
                Err(Refusal {
                    number: 7,
                    row: self.row,
                    address: at.address,
                    from: at.from,
                })
            }
            Some(&word) => {
                self.notes.read.push(at.address);
                let before = at.address;
                at.address = match (self.settings.linear, at.address) {
                    (true, 0xFF_FFFE) => 0,
                    (true, a) => a + 2,
                    (false, a) if a % 0x1_0000 == 0xFFFE => a - 0xFFFE,
                    (false, a) => a + 2,
                };
                at.after = Some(before);
                Ok(word)
            }
        }
    }

    fn words(&mut self, at: &mut At, count: usize) -> Result<Vec<u16>, Refusal> {
        (0..count).map(|_| self.read(at)).collect()
    }

    /// Reads the two words of a pointer.
    fn read_pointer(&mut self, at: &mut At) -> Result<Option<At>, Refusal> {
        let from = at.address;
        let first = self.read_as(at, Role::First)?;
        let second = self.read_as(at, Role::Second)?;
        Ok(At::new(self.decode([first, second]), from))
    }

    /// A pointer that a register holds.
    fn register(&self, words: [u16; 2]) -> Option<At> {
        At::new(self.decode(words), 0)
    }

    fn decode(&self, [first, second]: [u16; 2]) -> u32 {
        let high = if self.settings.linear {
            first % 256
        } else {
            first / 256 % 128
        };
        u32::from(high) * 0x1_0000 + u32::from(second / 2 * 2)
    }

    fn window(&mut self, mut at: At, before: Option<Window>) -> Result<Window, Refusal> {
        let led = at.from;
        let next_block = self.read_pointer(&mut at)?;
        let next_row = self.read_pointer(&mut at)?;
        let words = self.words(&mut at, 2)?;
        let window = Window {
            first_row: u32::from(words[0] / 256),
            last_row: u32::from(words[0] % 256),
            first_column: u32::from(words[1] / 256),
            last_column: u32::from(words[1] % 256),
            next_row: At::pointer(next_row),
            next_block: At::pointer(next_block),
            number: match before {
                None => 0,
                Some(window) => window.number + 1,
            },
        };
        let bad = window.first_row > window.last_row
            || before.is_some_and(|before| window.first_row <= before.last_row)
            || window.first_column > window.last_column
            || window.last_column > 131;
        if bad {
            self.notes.blame = led;
            return refuse(8, self.row, 0);
        }
        Ok(window)
    }

    fn segments(&mut self, at: &mut At, count: u16) -> Result<Vec<Segment>, Refusal> {
        let mut all = Vec::new();
        for _ in 0..count {
            let code = self.read_pointer(at)?;
            let list = self.read_pointer(at)?;
            let size = self.read(at)?;
            all.push(Segment {
                code,
                list,
                long: usize::from(size / 256),
                visible: usize::from(size % 256),
            });
        }
        Ok(all)
    }

    /// The segments of a block that a pointer of a state led to.
    fn check_lengths(&mut self, segments: &[Segment], led: Pointer) -> Result<(), Refusal> {
        for segment in segments {
            if segment.code.is_some() && segment.visible > segment.long {
                self.notes.blame = led.from;
                return refuse(9, self.row, 0);
            }
        }
        Ok(())
    }

    fn take_latch(&mut self, word: u16) {
        self.latch = word;
        self.latched.push(word);
    }

    fn put(&mut self, column: usize, code: u8, word: u16, source: u32) {
        assert!(self.cells[column].is_none(), "a cell drawn twice");
        let mut cell = u32::from(code);
        for bit in 0..=10 {
            cell += u32::from(word >> bit & 1) << (8 + bit);
        }
        cell += u32::from(word >> 14 & 1) << 19;
        cell += source << 20;
        self.cells[column] = Some(cell);
    }

    /// A fill run over these columns with the list in use.
    fn run(&mut self, columns: &[usize], list: &mut Option<At>) -> Result<(), Refusal> {
        if columns.is_empty() {
            return Ok(());
        }
        if self.fill_flag {
            if let Some(at) = list {
                let place = at.address;
                let word = self.read(at)?;
                if word < 0x8000 {
                    self.notes.blame = at.from;
                    return refuse(13, self.row, place);
                }
                self.take_latch(word);
            }
        }
        for &column in columns {
            self.put(column, self.fill_code, self.latch, 0);
        }
        Ok(())
    }

    /// A segment from a column on. Gives its list where it stopped.
    fn segment(
        &mut self,
        segment: &Segment,
        from: usize,
        source: u32,
    ) -> Result<Option<At>, Refusal> {
        let end = from + segment.width(self.settings);
        let mut list = segment.list;
        let mut column = from;
        if let Some(mut at) = segment.code {
            let mut held = 0;
            for n in 0..segment.long {
                let code = if n % 2 == 0 {
                    held = self.read(&mut at)?;
                    (held / 256) as u8
                } else {
                    (held % 256) as u8
                };
                let mask = (self.settings.flag / 256) as u8;
                let value = (self.settings.flag % 256) as u8;
                let mut word = self.latch;
                if code & mask == value & mask {
                    if let Some(at) = &mut list {
                        word = self.read(at)?;
                        if word >> 15 & 1 == 1 {
                            self.take_latch(word);
                        }
                    }
                }
                let ignored = word >> 13 & 1 == 1 && !self.settings.display_hidden;
                if !ignored && column < end {
                    self.put(column, code, word, source);
                    column += 1;
                }
            }
        }
        let unfilled: Vec<usize> = (column..end).collect();
        self.run(&unfilled, &mut list)?;
        Ok(list)
    }
}

impl<'a> Tape<'a> {
    fn new(settings: &'a Settings, memory: &'a [u16], row: u32, notes: &'a mut Notes) -> Tape<'a> {
        Tape {
            settings,
            memory,
            row,
            notes,
            latch: 0,
            latched: Vec::new(),
            cells: vec![None; CELLS],
            fill_code: 0,
            fill_flag: false,
        }
    }

    /// A main block that can be started from.
    fn main_block(&mut self, top: [u16; 2]) -> Result<Main, Refusal> {
        let Some(mut at) = self.register(top) else {
            return refuse(6, 0, 0);
        };
        let main = Main {
            first: self.read_pointer(&mut at)?,
            words: self.words(&mut at, 5)?,
        };
        match main.m4() / 0x1000 % 8 {
            5 | 7 => refuse(14, 0, 0),
            _ => Ok(main),
        }
    }

    /// The scan lines of the first row of a main block's list.
    fn first_lines(&mut self, main: &Main) -> Result<i32, Refusal> {
        let mut lines = i32::from(main.m6() % 32) + 1;
        if let Some(mut at) = main.first {
            self.read_pointer(&mut at)?;
            let head = self.read(&mut at)?;
            let redefinition = match head / 0x8000 {
                1 => self.read_pointer(&mut at)?,
                _ => None,
            };
            self.segments(&mut at, head % 16)?;
            if let Some(mut at) = redefinition {
                lines = i32::from(self.words(&mut at, 3)?[1] % 32) + 1;
            }
        }
        Ok(lines)
    }
}

impl Main {
    fn m4(&self) -> u16 {
        self.words[2]
    }

    fn m6(&self) -> u16 {
        self.words[4]
    }
}

/// Settings that can be drawn from, for a row.
fn check(settings: &Settings, row: u32) -> Result<(), Refusal> {
    if !good(settings) {
        return refuse(2, row, 0);
    }
    match settings.linear {
        true => Ok(()),
        false => refuse(17, row, 0),
    }
}

/// The first state of a frame. What it meets, also where it is refused, is noted.
pub fn start(
    settings: &Settings,
    memory: &[u16],
    latch: u16,
    notes: &mut Notes,
) -> Result<State, Refusal> {
    check(settings, 0)?;
    begin(settings, memory, latch, notes)
}

/// The first state of a frame with good settings, segmented or linear.
pub(crate) fn begin(
    settings: &Settings,
    memory: &[u16],
    latch: u16,
    notes: &mut Notes,
) -> Result<State, Refusal> {
    let mut tape = Tape::new(settings, memory, 0, notes);
    let main = tape.main_block(settings.top)?;
    let window = match tape.register(settings.tow) {
        None => None,
        Some(at) => Some(tape.window(at, None)?),
    };
    let lines = settings.val - settings.vsd;
    let fields = Fields {
        row: 0,
        lines_left: match settings.interlace {
            crate::rules::Interlace::RepeatField => u32::from(lines) / 2,
            _ => u32::from(lines),
        },
        cursor_x: (main.words[0] / 256) as u8,
        cursor_y: (main.words[0] % 256) as u8,
        fill_code: (main.words[1] % 256) as u8,
        fill_flag: main.words[1] / 256 % 2 == 1,
        scan_lines: u32::from(main.m6() % 32) + 1,
        attributes: 0,
        curs: 0,
        cure: 31,
        next_row: At::pointer(main.first),
        window,
    };
    Ok(State { latch, fields })
}

/// 000's table of rates: scan lines, and the frames that they take.
pub const RATES: [(i32, u32); 16] = [
    (1, 1),
    (2, 1),
    (3, 1),
    (4, 1),
    (5, 1),
    (6, 1),
    (7, 1),
    (8, 1),
    (1, 1),
    (1, 2),
    (1, 3),
    (1, 4),
    (1, 5),
    (1, 6),
    (1, 7),
    (1, 8),
];

/// A shift call's answer.
pub fn shift(
    settings: &Settings,
    memory: &[u16],
    soft: [u16; 2],
    last: &Scroll,
) -> Result<Shifted, Refusal> {
    check(settings, 0)?;
    let range = match last.direction {
        0 => -31..=0,
        1 => 0..=31,
        _ => return refuse(3, 0, 0),
    };
    if !range.contains(&last.shift) || last.phase > 7 {
        return refuse(3, 0, 0);
    }
    let mut notes = Notes::default();
    let mut tape = Tape::new(settings, memory, 0, &mut notes);
    let hard = tape.main_block(settings.top)?;
    let mut given = Shifted {
        scroll: *last,
        top: settings.top,
    };
    let scroll = &mut given.scroll;
    scroll.direction = u32::from(hard.m4() / 0x2000 % 2);
    let enabled = hard.m4() / 0x4000 % 2 == 1;
    if !enabled || scroll.direction != last.direction {
        (scroll.shift, scroll.phase) = (0, 0);
    }
    if !enabled {
        return Ok(given);
    }
    let sign = if scroll.direction == 1 { 1 } else { -1 };
    let lines = if sign == 1 {
        tape.first_lines(&hard)?
    } else {
        let soft = tape.main_block(soft)?;
        tape.first_lines(&soft)?
    };
    let (step, frames) = RATES[usize::from(hard.m4() / 0x100 % 16)];
    scroll.phase += 1;
    if scroll.phase >= frames {
        scroll.shift += sign * step;
        scroll.phase = 0;
    }
    if sign * scroll.shift >= lines {
        (scroll.shift, scroll.phase) = (0, 0);
        given.top = soft;
    }
    Ok(given)
}

/// A row call's answer with a buffer and a list of the right size. What it meets, also where it is refused, is
/// noted.
pub fn row(
    settings: &Settings,
    memory: &[u16],
    state: &State,
    notes: &mut Notes,
) -> Result<Drawn, Refusal> {
    let now = &state.fields;
    check(settings, now.row)?;
    if !in_range(now) {
        return refuse(3, now.row, 0);
    }
    if now.lines_left == 0 {
        return refuse(4, now.row, 0);
    }
    draw(settings, memory, state, notes)
}

/// The row of a state in range with a line left and good settings, segmented or linear.
pub(crate) fn draw(
    settings: &Settings,
    memory: &[u16],
    state: &State,
    notes: &mut Notes,
) -> Result<Drawn, Refusal> {
    let now = &state.fields;
    let mut tape = Tape {
        latch: state.latch,
        fill_code: now.fill_code,
        fill_flag: now.fill_flag,
        ..Tape::new(settings, memory, now.row, notes)
    };
    let mut next = *now;
    if let Some(window) = now.window {
        if now.row > window.last_row {
            next.window = match At::of(window.next_block) {
                None => None,
                Some(at) => Some(tape.window(at, Some(window))?),
            };
        }
    }

    let mut back = Vec::new();
    if let Some(mut at) = At::of(now.next_row) {
        let link = tape.read_pointer(&mut at)?;
        let head = tape.read(&mut at)?;
        let mut redefinition = None;
        if head >> 15 == 1 {
            redefinition = tape.read_pointer(&mut at)?;
        }
        back = tape.segments(&mut at, head % 16)?;
        next.next_row = At::pointer(link);
        if let Some(mut at) = redefinition {
            let words = tape.words(&mut at, 3)?;
            next.attributes = u32::from(words[0] % 1024);
            next.scan_lines = u32::from(words[1] % 32) + 1;
            next.curs = u32::from(words[2] / 256 % 32);
            next.cure = u32::from(words[2] % 32);
        }
    }
    tape.check_lengths(&back, now.next_row)?;
    let widths: Vec<usize> = back.iter().map(|s| s.width(settings)).collect();
    let sum: usize = widths.iter().sum();
    if sum > CELLS {
        tape.notes.blame = now.next_row.from;
        return refuse(10, now.row, 0);
    }

    let mut inner = Vec::new();
    let mut columns = None;
    let mut number = 0;
    if let Some(window) = &mut next.window {
        if (window.first_row..=window.last_row).contains(&now.row) {
            let first = window.first_column as usize;
            let last = window.last_column as usize;
            let led = window.next_row;
            if let Some(mut at) = At::of(window.next_row) {
                let link = tape.read_pointer(&mut at)?;
                let head = tape.read(&mut at)?;
                inner = tape.segments(&mut at, head % 16)?;
                window.next_row = At::pointer(link);
            }
            tape.check_lengths(&inner, led)?;
            let inner_sum: usize = inner.iter().map(|s| s.width(settings)).sum();
            if inner_sum > last - first + 1 {
                return refuse(11, now.row, 0);
            }
            let boundaries: Vec<usize> = (0..=widths.len())
                .map(|n| widths[..n].iter().sum())
                .collect();
            for edge in [first, last + 1] {
                if !boundaries.contains(&edge) && edge < sum {
                    return refuse(12, now.row, 0);
                }
            }
            columns = Some((first, last));
            number = window.number;
        }
    }

    // Which segments stand before the window, which after it.
    let mut before = Vec::new();
    let mut after = Vec::new();
    let mut s = 0;
    for (segment, &w) in back.iter().zip(&widths) {
        match columns {
            Some((first, last)) if first <= s && s + w <= last + 1 => {}
            Some((first, _)) if s >= first => after.push((segment, s)),
            _ => before.push((segment, s)),
        }
        s += w;
    }
    let mut list = None;
    for (segment, s) in before {
        list = tape.segment(segment, s, 1)?;
    }
    if let Some((first, last)) = columns {
        let left: Vec<usize> = (sum..first).collect();
        tape.run(&left, &mut list)?;
        let mut inner_list = None;
        let mut s = first;
        for segment in &inner {
            inner_list = tape.segment(segment, s, 2 + 16 * number)?;
            s += segment.width(settings);
        }
        let rest: Vec<usize> = (s..last + 1).collect();
        tape.run(&rest, &mut inner_list)?;
    }
    for (segment, s) in after {
        list = tape.segment(segment, s, 1)?;
    }
    let right: Vec<usize> = (sum..CELLS)
        .filter(|&column| columns.is_none_or(|(_, last)| column > last))
        .collect();
    tape.run(&right, &mut list)?;

    let mut cells: Vec<u32> = tape
        .cells
        .iter()
        .map(|cell| cell.expect("an empty cell"))
        .collect();
    for (column, cell) in cells.iter_mut().enumerate() {
        let here = column == usize::from(now.cursor_x) && now.row == u32::from(now.cursor_y);
        if settings.cursor && here {
            *cell += 0x40_0000;
        }
    }
    let lines = next.scan_lines.min(now.lines_left);
    next.row += 1;
    next.lines_left -= lines;
    Ok(Drawn {
        answer: Row {
            row: now.row,
            lines,
            attributes: next.attributes,
            curs: next.curs,
            cure: next.cure,
            words: tape.notes.read.len() as u32,
        },
        cells,
        next: State {
            latch: tape.latch,
            fields: next,
        },
        latched: tape.latched,
        window: columns.is_some(),
    })
}

/// The effect taken from two rows, one from a latch of each kind.
pub fn effect(settings: &Settings, memory: &[u16], fields: &Fields) -> (Effect, Option<Fields>) {
    let mut next = None;
    let [clear, set] = [0x4123, 0x6123].map(|latch| {
        match row(
            settings,
            memory,
            &State {
                latch,
                fields: *fields,
            },
            &mut Notes::default(),
        ) {
            Err(refusal) => Part::Refuse(refusal),
            Ok(drawn) => {
                next = Some(drawn.next.fields);
                drawn
                    .latched
                    .last()
                    .map_or(Part::Keep, |&word| Part::Set(word))
            }
        }
    });
    (Effect { clear, set }, next)
}

pub(crate) fn good(s: &Settings) -> bool {
    let limits = [
        (s.vsw, 63),
        (s.vsd, 63),
        (s.val, 4095),
        (s.vtot, 4095),
        (s.hsync, 255),
        (s.hsd, 511),
        (s.htc, 1023),
        (s.htd, 1023),
    ];
    if limits.iter().any(|&(number, most)| number > most) {
        return false;
    }
    if s.interlace != crate::rules::Interlace::None {
        let odd = [s.vsw, s.vsd, s.val, s.htc].iter().all(|n| n % 2 == 1);
        if !odd || s.vtot % 2 == 1 {
            return false;
        }
    }
    if s.edition == crate::rules::Edition::Z8052 {
        let outside = (0..8).any(|bit| s.flag >> bit & 1 == 1 && s.flag >> (8 + bit) & 1 == 0);
        let even = s.interlace != crate::rules::Interlace::None && s.htd.is_multiple_of(2);
        if outside || even {
            return false;
        }
    }
    s.vsd < s.val
        && s.val <= s.vtot
        && s.hsync < s.htc
        && s.hsd < s.htd
        && s.htd <= s.htc
        && s.htd - s.hsd <= 132
}

fn in_range(f: &Fields) -> bool {
    let address = |a: u32| a.is_multiple_of(2) && a < 0x100_0000;
    let pointer = |p: Pointer| match p.address {
        0 => p.from == 0,
        _ => address(p.address) && address(p.from),
    };
    if u64::from(f.row) + u64::from(f.lines_left) > 4095 {
        return false;
    }
    if f.scan_lines < 1 || f.scan_lines > 32 || f.curs > 31 || f.cure > 31 || f.attributes > 1023 {
        return false;
    }
    if !pointer(f.next_row) {
        return false;
    }
    match f.window {
        None => true,
        Some(w) => {
            w.first_row <= w.last_row
                && w.last_row < 256
                && w.first_column <= w.last_column
                && w.last_column < 132
                && pointer(w.next_row)
                && pointer(w.next_block)
                && w.number <= w.first_row
        }
    }
}
