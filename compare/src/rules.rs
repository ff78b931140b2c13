//! The rules: settings sheet, start, row, effect, joining and applying.

use crate::trail::{NoTrail, Track, Trail, PLACES};

/// Cells in a row.
pub const CELLS: usize = 132;

/// Words that 24-bit byte addresses reach.
const ADDRESSABLE: usize = 0x80_0000;

const LATCHED: u16 = 0x8000;
const IGNORE: u16 = 0x2000;
const BACKGROUND: u32 = 1 << 20;
const WINDOW: u32 = 2 << 20;
const CURSOR: u32 = 1 << 22;

/// M4: soft scroll enabled, and of a window.
pub(crate) const SCROLL: u16 = 0x4000;
const SCROLL_WINDOW: u16 = 0x1000;

#[derive(Clone, Copy, Debug, PartialEq, Eq)]
pub enum Interlace {
    None,
    RepeatField,
    Video,
}

/// Whose part it is: this decides the timing of interlaced fields, and what good settings are.
#[derive(Clone, Copy, Debug, PartialEq, Eq)]
pub enum Edition {
    Am8052,
    Z8052,
}

#[derive(Clone, Copy, Debug, PartialEq, Eq)]
pub struct Settings {
    pub linear: bool,
    pub display_hidden: bool,
    pub interlace: Interlace,
    pub cursor: bool,
    /// Mask in the high byte, value in the low byte.
    pub flag: u16,
    pub top: [u16; 2],
    pub tow: [u16; 2],
    pub vsw: u16,
    pub vsd: u16,
    pub val: u16,
    pub vtot: u16,
    pub hsync: u16,
    pub hsd: u16,
    pub htc: u16,
    pub htd: u16,
    pub edition: Edition,
}

/// The parts of a field in half lines.
#[derive(Clone, Copy, Debug, PartialEq, Eq)]
pub struct Field {
    pub sync: u32,
    pub back: u32,
    /// From the fall of sync to the rise of blank.
    pub rise: u32,
    pub active: u32,
    pub front: u32,
    pub field: u32,
}

impl Field {
    /// Sync, back porch, sync fall to blank rise, active, front porch and the field's length.
    pub fn parts(&self) -> [u32; 6] {
        [
            self.sync,
            self.back,
            self.rise,
            self.active,
            self.front,
            self.field,
        ]
    }
}

/// The settings sheet. Horizontal times are in clocks.
#[derive(Clone, Copy, Debug, PartialEq, Eq)]
pub struct Sheet {
    /// The first field after enable, and every other one from there on.
    pub even: Field,
    pub odd: Field,
    /// Scan lines for rows.
    pub lines: u32,
    pub horizontal_sync: u32,
    pub horizontal_period: u32,
    pub blank_rise: u32,
    pub blank_fall: u32,
    /// How many of the 256 codes invoke an attribute.
    pub invoking: u32,
}

/// A pointer: the address that it gives, 0 for none, and the address where it begins itself, 0 where it is
/// null or a register held it.
#[derive(Clone, Copy, Debug, PartialEq, Eq)]
pub struct Pointer {
    pub address: u32,
    pub from: u32,
}

/// The window in hand.
#[derive(Clone, Copy, Debug, PartialEq, Eq)]
pub struct Window {
    pub first_row: u32,
    pub last_row: u32,
    pub first_column: u32,
    pub last_column: u32,
    /// To the next window row block.
    pub next_row: Pointer,
    /// To the next window block.
    pub next_block: Pointer,
    /// Along the chain, from 0.
    pub number: u32,
}

/// All of a state but its latch.
#[derive(Clone, Copy, Debug, PartialEq, Eq)]
pub struct Fields {
    pub row: u32,
    pub lines_left: u32,
    pub cursor_x: u8,
    pub cursor_y: u8,
    pub fill_code: u8,
    pub fill_flag: bool,
    pub scan_lines: u32,
    pub attributes: u32,
    pub curs: u32,
    pub cure: u32,
    /// To the next row block.
    pub next_row: Pointer,
    pub window: Option<Window>,
}

#[derive(Clone, Copy, Debug, PartialEq, Eq)]
pub struct State {
    pub latch: u16,
    pub fields: Fields,
}

#[derive(Clone, Copy, Debug, PartialEq, Eq)]
pub struct Refusal {
    pub number: u8,
    pub row: u32,
    pub address: u32,
    /// Of a missing word: where the pointer in use begins.
    pub from: u32,
}

#[derive(Clone, Copy, Debug, PartialEq, Eq)]
pub struct Start {
    pub state: State,
    pub words: u32,
}

/// What a row call answers beside the cells and the next state.
#[derive(Clone, Copy, Debug, PartialEq, Eq)]
pub struct Row {
    pub row: u32,
    pub lines: u32,
    pub attributes: u32,
    pub curs: u32,
    pub cure: u32,
    pub words: u32,
}

#[derive(Clone, Copy, Debug, PartialEq, Eq)]
pub enum Part {
    Keep,
    Set(u16),
    Refuse(Refusal),
}

/// What a row does to the latch: one part for a latch with ignore clear, one for ignore set.
#[derive(Clone, Copy, Debug, PartialEq, Eq)]
pub struct Effect {
    pub clear: Part,
    pub set: Part,
}

impl Settings {
    /// All settings in range and in the order that the rules ask.
    pub fn good(&self) -> bool {
        let ranges = self.vsw <= 63
            && self.vsd <= 63
            && self.val <= 4095
            && self.vtot <= 4095
            && self.hsync <= 255
            && self.hsd <= 511
            && self.htc <= 1023
            && self.htd <= 1023;
        let order = self.vsd < self.val
            && self.val <= self.vtot
            && self.hsync < self.htc
            && self.hsd < self.htd
            && self.htd <= self.htc
            && usize::from(self.htd - self.hsd) <= CELLS;
        let parity = !self.interlaced()
            || (self.vsw & self.vsd & self.val & self.htc & 1 == 1 && self.vtot & 1 == 0);
        ranges && order && parity && self.good_in_edition()
    }

    fn interlaced(&self) -> bool {
        self.interlace != Interlace::None
    }

    /// What the second edition asks beside the first one's conditions.
    fn good_in_edition(&self) -> bool {
        let [mask, value] = self.flag.to_be_bytes();
        match self.edition {
            Edition::Am8052 => true,
            Edition::Z8052 => value & !mask == 0 && (self.htd & 1 == 1 || !self.interlaced()),
        }
    }

    /// Scan lines for rows, of good settings.
    fn lines(&self) -> u32 {
        let all = u32::from(self.val - self.vsd);
        match self.interlace {
            Interlace::RepeatField => all / 2,
            _ => all,
        }
    }

    /// Shown columns, of good settings.
    pub fn columns(&self) -> usize {
        usize::from(self.htd - self.hsd)
    }
}

/// Whether a code equals the value on every bit set in the mask.
pub fn invokes(flag: u16, code: u8) -> bool {
    let [mask, value] = flag.to_be_bytes();
    (code ^ value) & mask == 0
}

/// The byte address that a pointer's two words give. 0 points at nothing.
pub fn pointer(first: u16, second: u16) -> u32 {
    u32::from(first & 0xFF) << 16 | u32::from(second & !1)
}

/// The address of the word after the one at an even address.
pub fn step(address: u32) -> u32 {
    (address + 2) & 0xFF_FFFF
}

/// The parts of an even or odd field, of good settings.
fn field(settings: &Settings, odd: bool) -> Field {
    let (vsw, vsd) = (u32::from(settings.vsw), u32::from(settings.vsd));
    let (val, vtot) = (u32::from(settings.val), u32::from(settings.vtot));
    let times = if settings.interlaced() { 1 } else { 2 };
    // The second edition's even fields are half a line earlier.
    let earlier = settings.edition == Edition::Z8052 && settings.interlaced() && !odd;
    let earlier = u32::from(earlier);
    let sync = times * (vsw + 1);
    let rise = times * (val + 1) - earlier;
    let field = times * (vsw + vtot + 2);
    Field {
        sync,
        back: times * (vsd + 1) - earlier,
        rise,
        active: times * (val - vsd),
        front: field - sync - rise,
        field,
    }
}

/// The settings sheet, or refusal 2.
pub fn sheet(settings: &Settings) -> Result<Sheet, Refusal> {
    if !settings.good() {
        return Err(Stop::bare(2).at_row(0));
    }
    let [mask, _] = settings.flag.to_be_bytes();
    Ok(Sheet {
        even: field(settings, false),
        odd: field(settings, true),
        lines: settings.lines(),
        horizontal_sync: u32::from(settings.hsync) + 1,
        horizontal_period: u32::from(settings.htc) + 1,
        blank_rise: u32::from(settings.htd) + 1,
        blank_fall: u32::from(settings.hsd) + 1,
        invoking: 256 >> mask.count_ones(),
    })
}

/// Why a walk stops: a refusal without its row, which the caller knows.
#[derive(Clone, Copy)]
pub(crate) struct Stop {
    number: u8,
    pub(crate) blame: Blame,
    address: u32,
    /// Where the pointer to blame begins.
    pub(crate) from: u32,
}

/// Whom to blame for a refusal.
#[derive(Clone, Copy, Debug, PartialEq, Eq)]
pub(crate) enum Blame {
    Nobody,
    /// A pointer: in a start that of a register, in a row one in memory.
    Pointer,
    /// The pointer that led to the window in hand.
    Window,
}

impl Stop {
    pub(crate) const fn bare(number: u8) -> Stop {
        Stop {
            number,
            blame: Blame::Nobody,
            address: 0,
            from: 0,
        }
    }

    /// The pointer that begins at an address is to blame.
    fn blaming(number: u8, from: u32) -> Stop {
        Stop {
            blame: Blame::Pointer,
            from,
            ..Stop::bare(number)
        }
    }

    fn blaming_window(number: u8) -> Stop {
        Stop {
            blame: Blame::Window,
            ..Stop::bare(number)
        }
    }

    /// The word at an address is missing.
    fn missing(address: u32, origin: Origin) -> Stop {
        Stop {
            address,
            ..Stop::blaming(7, origin.address())
        }
    }

    pub(crate) fn at_row(self, row: u32) -> Refusal {
        Refusal {
            number: self.number,
            row,
            address: self.address,
            // Told of a missing word, and of nothing else.
            from: if self.number == 7 { self.from } else { 0 },
        }
    }
}

/// Where the pointer in use begins: so many words on in the block at an address. The address is worked out
/// where a word is missing, and only there.
#[derive(Clone, Copy)]
pub(crate) struct Origin {
    block: u32,
    words: u32,
}

impl Origin {
    pub(crate) const REGISTER: Origin = Origin { block: 0, words: 0 };

    /// A pointer so many words on in a block.
    pub(crate) fn inside(block: u32, words: u32) -> Origin {
        Origin { block, words }
    }

    fn address(self) -> u32 {
        (self.block + 2 * self.words) & 0xFF_FFFF
    }
}

impl Pointer {
    /// The pointer of two words that stand so many words on in a block.
    pub(crate) fn inside([first, second]: [u16; 2], block: u32, words: u32) -> Pointer {
        match pointer(first, second) {
            0 => Pointer {
                address: 0,
                from: 0,
            },
            address => Pointer {
                address,
                from: Origin::inside(block, words).address(),
            },
        }
    }

    pub(crate) fn origin(&self) -> Origin {
        Origin::inside(self.from, 0)
    }
}

/// Reads words one after another. `rest` is what is left of the stretch of memory
/// that can be read without wrapping; it ends at word number `end`.
pub(crate) struct Reader<'m> {
    memory: &'m [u16],
    origin: Origin,
    rest: &'m [u16],
    end: usize,
    /// Word number at which the stretch began.
    begin: usize,
    /// Words read in earlier stretches.
    before: usize,
}

impl<'m> Reader<'m> {
    #[inline]
    pub(crate) fn open(memory: &'m [u16], address: u32, origin: Origin) -> Reader<'m> {
        let mut reader = Reader {
            memory,
            origin,
            rest: &[],
            end: 0,
            begin: 0,
            before: 0,
        };
        reader.stretch(address as usize / 2);
        reader
    }

    #[inline]
    fn stretch(&mut self, index: usize) {
        let end = ADDRESSABLE.min(self.memory.len()).max(index);
        self.rest = self.memory.get(index..end).unwrap_or(&[]);
        self.end = end;
        self.begin = index;
    }

    /// Number of the next word, before wrapping.
    #[inline]
    fn index(&self) -> usize {
        self.end - self.rest.len()
    }

    /// Words read so far.
    #[inline]
    fn count(&self) -> usize {
        self.before + self.index() - self.begin
    }

    /// Address of the next word.
    #[inline]
    fn address(&self) -> u32 {
        let index = self.index();
        // Where nothing of the stretch has been read, no step has been made.
        if index == self.begin {
            return index as u32 * 2;
        }
        step((index as u32 - 1) * 2)
    }

    /// Goes on after the end of a stretch, or says which word is missing.
    #[cold]
    #[inline(never)]
    fn turn(&mut self) -> Result<(), Stop> {
        let next = self.address() as usize / 2;
        self.before += self.index() - self.begin;
        self.stretch(next);
        if self.rest.is_empty() {
            return Err(Stop::missing(next as u32 * 2, self.origin));
        }
        Ok(())
    }

    #[inline]
    fn next(&mut self) -> Result<u16, Stop> {
        loop {
            if let Some((&word, rest)) = self.rest.split_first() {
                self.rest = rest;
                return Ok(word);
            }
            self.turn()?;
        }
    }

    /// The next words of a block.
    #[inline]
    pub(crate) fn block<const N: usize>(&mut self) -> Result<[u16; N], Stop> {
        if let Some((words, rest)) = self.rest.split_first_chunk::<N>() {
            self.rest = rest;
            return Ok(*words);
        }
        self.block_by_words()
    }

    #[cold]
    fn block_by_words<const N: usize>(&mut self) -> Result<[u16; N], Stop> {
        let mut words = [0; N];
        for word in &mut words {
            *word = self.next()?;
        }
        Ok(words)
    }

    /// The next words that lie together: at least one, at most `most`.
    #[inline]
    fn together(&mut self, most: usize) -> Result<&'m [u16], Stop> {
        if self.rest.is_empty() {
            self.turn()?;
        }
        let (words, rest) = self.rest.split_at(most.min(self.rest.len()));
        self.rest = rest;
        Ok(words)
    }
}

/// A window block, read and judged. `before` is the window before it.
fn window_block(
    memory: &[u16],
    block: Pointer,
    before: Option<&Window>,
    trail: &mut impl Track,
) -> Result<Window, Stop> {
    let at = block.address;
    let words: [u16; 6] = Reader::open(memory, at, block.origin()).block()?;
    trail.run(at, words.len());
    let [first_row, last_row] = words[4].to_be_bytes().map(u32::from);
    let [first_column, last_column] = words[5].to_be_bytes().map(u32::from);
    let late = before.is_none_or(|window| first_row > window.last_row);
    if first_row > last_row || !late || first_column > last_column || last_column as usize >= CELLS
    {
        return Err(Stop::blaming(8, block.from));
    }
    Ok(Window {
        first_row,
        last_row,
        first_column,
        last_column,
        next_row: Pointer::inside([words[2], words[3]], at, 2),
        next_block: Pointer::inside([words[0], words[1]], at, 0),
        number: before.map_or(0, |window| window.number + 1),
    })
}

/// A main block's words, its first row block and its own address.
pub(crate) struct Main {
    pub(crate) words: [u16; 7],
    pub(crate) first: Pointer,
    at: u32,
}

/// The main block at the top of a page, read and judged: 6, 7, 14.
pub(crate) fn main_block(memory: &[u16], top: [u16; 2]) -> Result<Main, Stop> {
    let top = pointer(top[0], top[1]);
    if top == 0 {
        return Err(Stop::bare(6));
    }
    let words: [u16; 7] = Reader::open(memory, top, Origin::REGISTER)
        .block()
        .map_err(|stop| Stop {
            blame: Blame::Nobody,
            ..stop
        })?;
    if words[4] & SCROLL != 0 && words[4] & SCROLL_WINDOW != 0 {
        return Err(Stop::bare(14));
    }
    Ok(Main {
        words,
        first: Pointer::inside([words[0], words[1]], top, 0),
        at: top,
    })
}

/// Begins a frame from the latch that the one before handed on; the first after reset from 0. The addresses of the
/// words read go to the list. A refusal leaves it as it was.
pub fn start(
    settings: &Settings,
    memory: &[u16],
    latch: u16,
    list: &mut [u32],
) -> Result<Start, Refusal> {
    let list = list_of(list).map_err(|stop| stop.at_row(0))?;
    let mut trail = Trail::new();
    let start = begin(settings, memory, latch, &mut trail).map_err(|stop| stop.at_row(0))?;
    trail.write(settings.flag, memory, list);
    Ok(start)
}

/// A list with the right number of places, or refusal 25.
#[inline]
pub(crate) fn list_of(list: &mut [u32]) -> Result<&mut [u32; PLACES], Stop> {
    list.try_into().map_err(|_| Stop::bare(25))
}

/// A row buffer with the right number of cells, or refusal 1.
#[inline]
pub(crate) fn buffer_of(buffer: &mut [u32]) -> Result<&mut [u32; CELLS], Stop> {
    buffer.try_into().map_err(|_| Stop::bare(1))
}

/// Settings that can be drawn from: 2, 17.
pub(crate) fn check(settings: &Settings) -> Result<(), Stop> {
    if !settings.good() {
        return Err(Stop::bare(2));
    }
    if !settings.linear {
        return Err(Stop::bare(17));
    }
    Ok(())
}

/// A start's checks from 2 on.
pub(crate) fn begin(
    settings: &Settings,
    memory: &[u16],
    latch: u16,
    trail: &mut Trail,
) -> Result<Start, Stop> {
    check(settings)?;
    let Main {
        words: main,
        first,
        at,
    } = main_block(memory, settings.top)?;
    trail.run(at, main.len());
    let tow = Pointer {
        address: pointer(settings.tow[0], settings.tow[1]),
        from: 0,
    };
    let window = match tow.address {
        0 => None,
        _ => Some(window_block(memory, tow, None, trail)?),
    };
    let [cursor_x, cursor_y] = main[2].to_be_bytes();
    let fields = Fields {
        row: 0,
        lines_left: settings.lines(),
        cursor_x,
        cursor_y,
        fill_code: main[3] as u8,
        fill_flag: main[3] & 0x100 != 0,
        scan_lines: u32::from(main[6] & 31) + 1,
        attributes: 0,
        curs: 0,
        cure: 31,
        next_row: first,
        window,
    };
    Ok(Start {
        state: State { latch, fields },
        words: trail.words(),
    })
}

fn address_in_range(address: u32) -> bool {
    address & !0xFF_FFFE == 0
}

impl Pointer {
    fn in_range(&self) -> bool {
        let from = address_in_range(self.from) && (self.from == 0 || self.address != 0);
        address_in_range(self.address) && from
    }
}

impl Fields {
    fn in_range(&self) -> bool {
        let window = self.window.is_none_or(|w| {
            w.first_row <= w.last_row
                && w.last_row <= 255
                && w.first_column <= w.last_column
                && (w.last_column as usize) < CELLS
                && w.next_row.in_range()
                && w.next_block.in_range()
                && w.number <= w.first_row
        });
        u64::from(self.row) + u64::from(self.lines_left) <= 4095
            && (1..=32).contains(&self.scan_lines)
            && self.curs <= 31
            && self.cure <= 31
            && self.attributes <= 1023
            && self.next_row.in_range()
            && window
    }
}

/// A segment, with the width that it takes in the row.
#[derive(Clone, Copy)]
struct Segment {
    code: u32,
    list: u32,
    length: u8,
    visible: u8,
    width: u8,
    /// Its code pointer's place; the list's is two words on.
    origin: Origin,
}

impl Segment {
    #[inline]
    fn list_origin(&self) -> Origin {
        Origin::inside(self.origin.block, self.origin.words + 2)
    }
}

/// The segments of a row block: their words as they stand in memory.
#[derive(Clone, Copy)]
struct Segments<'a> {
    words: &'a [[u16; 5]],
    /// Where the first one begins.
    origin: Origin,
    display_hidden: bool,
}

/// Room for a block's segments where they do not lie together in memory.
type Spare = Option<[[u16; 5]; 15]>;

impl<'a> Segments<'a> {
    fn none(settings: &Settings) -> Segments<'a> {
        Segments {
            words: &[],
            origin: Origin::REGISTER,
            display_hidden: settings.display_hidden,
        }
    }

    /// Reads so many segments, 15 at most, from a place in a block on.
    #[inline]
    fn read<'m: 'a>(
        &mut self,
        reader: &mut Reader<'m>,
        count: u16,
        origin: Origin,
        spare: &'a mut Spare,
    ) -> Result<(), Stop> {
        let count = usize::from(count);
        self.origin = origin;
        self.words = match reader.rest.split_at_checked(count * 5) {
            Some((words, rest)) => {
                reader.rest = rest;
                words.as_chunks().0
            }
            None => {
                let blocks = &mut spare.insert([[0; 5]; 15])[..count];
                for block in blocks.iter_mut() {
                    *block = reader.block()?;
                }
                blocks
            }
        };
        Ok(())
    }

    #[inline]
    fn iter(&self) -> impl Iterator<Item = Segment> + use<'a> {
        let Segments {
            words,
            origin: Origin { block, words: from },
            display_hidden,
        } = *self;
        words
            .iter()
            .zip((from..).step_by(5))
            .map(move |(words, place)| {
                let [length, visible] = words[4].to_be_bytes();
                let code = pointer(words[0], words[1]);
                Segment {
                    code,
                    list: pointer(words[2], words[3]),
                    length,
                    visible,
                    width: if code != 0 && display_hidden {
                        length
                    } else {
                        visible
                    },
                    origin: Origin::inside(block, place),
                }
            })
    }

    /// The sum of the widths, or refusal 9. The pointer that led to the block begins at an address.
    #[inline]
    fn sum(&self, from: u32) -> Result<usize, Stop> {
        let mut sum = 0;
        let mut short = false;
        for segment in self.iter() {
            short |= segment.code != 0 && segment.visible > segment.length;
            sum += usize::from(segment.width);
        }
        if short {
            return Err(Stop::blaming(9, from));
        }
        Ok(sum)
    }

    /// Whether a place is a segment boundary or lies at or past the segments' sum.
    #[inline]
    fn boundary(&self, place: usize) -> bool {
        let mut sum = 0;
        for segment in self.iter() {
            if sum >= place {
                break;
            }
            sum += usize::from(segment.width);
        }
        sum <= place
    }
}

/// All that a row needs before its cells, blocks read and judged.
struct Plan<'a> {
    back: Segments<'a>,
    over: Segments<'a>,
    /// The window's first column and the one after its last, on the window's rows.
    columns: Option<(usize, usize)>,
    /// The bits of its cells that name it.
    source: u32,
    lines: u32,
    /// The next state's fields.
    next: Fields,
}

impl<'a> Plan<'a> {
    fn new(settings: &Settings, fields: &Fields) -> Plan<'a> {
        Plan {
            back: Segments::none(settings),
            over: Segments::none(settings),
            columns: None,
            source: 0,
            lines: 0,
            next: *fields,
        }
    }
}

/// A row's checks from 2 on up to its cells. Completes the plan unless it refuses.
fn prepare<'a>(
    settings: &Settings,
    memory: &'a [u16],
    fields: &Fields,
    spare: &'a mut [Spare; 2],
    plan: &mut Plan<'a>,
    trail: &mut impl Track,
) -> Result<(), Stop> {
    check(settings)?;
    if !fields.in_range() {
        return Err(Stop::bare(3));
    }
    if fields.lines_left == 0 {
        return Err(Stop::bare(4));
    }
    let [spare_back, spare_over] = spare;
    let next = &mut plan.next;

    // A window that has passed gives way to the next one, and no further.
    if let Some(window) = fields.window {
        if fields.row > window.last_row {
            next.window = match window.next_block.address {
                0 => None,
                _ => {
                    let block = window.next_block;
                    Some(window_block(memory, block, Some(&window), trail)?)
                }
            };
        }
    }

    if fields.next_row.address != 0 {
        let block = fields.next_row.address;
        let mut reader = Reader::open(memory, block, fields.next_row.origin());
        let [link0, link1, head] = reader.block()?;
        let (redefinition, segments) = if head & 0x8000 != 0 {
            let [first, second] = reader.block()?;
            (pointer(first, second), 5)
        } else {
            (0, 3)
        };
        let segments = Origin::inside(block, segments);
        plan.back
            .read(&mut reader, head & 15, segments, spare_back)?;
        next.next_row = Pointer::inside([link0, link1], block, 0);
        trail.run(block, reader.count());
        if redefinition != 0 {
            let origin = Origin::inside(block, 3);
            let [attributes, lines, cursor] = Reader::open(memory, redefinition, origin).block()?;
            next.attributes = u32::from(attributes & 0x3FF);
            next.scan_lines = u32::from(lines & 31) + 1;
            next.curs = u32::from(cursor >> 8 & 31);
            next.cure = u32::from(cursor & 31);
            trail.run(redefinition, 3);
        }
        let from = fields.next_row.from;
        if plan.back.sum(from)? > CELLS {
            return Err(Stop::blaming(10, from));
        }
    }

    if let Some(window) = &mut next.window {
        if window.first_row <= fields.row && fields.row <= window.last_row {
            let first = window.first_column as usize;
            let end = window.last_column as usize + 1;
            if window.next_row.address != 0 {
                let block = window.next_row.address;
                let mut reader = Reader::open(memory, block, window.next_row.origin());
                let [link0, link1, head] = reader.block()?;
                let segments = Origin::inside(block, 3);
                plan.over
                    .read(&mut reader, head & 15, segments, spare_over)?;
                let from = window.next_row.from;
                window.next_row = Pointer::inside([link0, link1], block, 0);
                trail.run(block, reader.count());
                if plan.over.sum(from)? > end - first {
                    return Err(Stop::blaming_window(11));
                }
            }
            if !plan.back.boundary(first) || !plan.back.boundary(end) {
                return Err(Stop::blaming_window(12));
            }
            plan.columns = Some((first, end));
            plan.source = WINDOW | window.number << 24;
        }
    }

    plan.lines = next.scan_lines.min(fields.lines_left);
    next.row = fields.row + 1;
    next.lines_left = fields.lines_left - plan.lines;
    Ok(())
}

/// The attribute list in use: the address of its next word, or no list, and where its pointer begins.
/// An address of 0 that was stepped to is a place in the list like any other.
#[derive(Clone, Copy)]
struct List {
    next: Option<u32>,
    origin: Origin,
}

impl List {
    const NONE: List = List {
        next: None,
        origin: Origin::REGISTER,
    };

    #[inline]
    fn of(segment: &Segment) -> List {
        List {
            next: (segment.list != 0).then_some(segment.list),
            origin: segment.list_origin(),
        }
    }

    /// Takes the word for a fill run, which must have bit 15; it comes with its address.
    fn fill_word(&mut self, memory: &[u16]) -> Result<Option<(u16, u32)>, Stop> {
        let Some(address) = self.next else {
            return Ok(None);
        };
        let Some(&word) = memory.get(address as usize / 2) else {
            return Err(Stop::missing(address, self.origin));
        };
        if word & LATCHED == 0 {
            return Err(Stop {
                address,
                ..Stop::blaming(13, self.origin.address())
            });
        }
        self.next = Some(step(address));
        Ok(Some((word, address)))
    }
}

/// What the walk over a row does with its segments and fill runs.
trait Pen {
    /// A segment from a cell on, its own unfilled cells included. Gives its list.
    fn segment(&mut self, segment: &Segment, from: usize, source: u32) -> Result<List, Stop>;

    /// The fill run of cells `from..end`, which may be none.
    fn fill(&mut self, from: usize, end: usize, list: &mut List) -> Result<(), Stop>;
}

/// The segments and fill runs of a row, left to right.
#[inline]
fn walk<P: Pen>(plan: &Plan, pen: &mut P) -> Result<(), Stop> {
    let mut list = List::NONE;
    let mut at = 0;
    let mut segments = plan.back.iter().peekable();
    if let Some((first, end)) = plan.columns {
        while let Some(segment) = segments.next_if(|_| at < first) {
            list = pen.segment(&segment, at, BACKGROUND)?;
            at += usize::from(segment.width);
        }
        // Nothing to fill here unless the segments' sum lies before the window.
        pen.fill(at.min(first), first, &mut list)?;

        let mut inside = first;
        let mut inner = List::NONE;
        for segment in plan.over.iter() {
            inner = pen.segment(&segment, inside, plan.source)?;
            inside += usize::from(segment.width);
        }
        pen.fill(inside, end, &mut inner)?;

        // Covered segments.
        while let Some(segment) = segments.next_if(|s| at + usize::from(s.width) <= end) {
            at += usize::from(segment.width);
        }
        at = at.max(end);
    }
    for segment in segments {
        list = pen.segment(&segment, at, BACKGROUND)?;
        at += usize::from(segment.width);
    }
    pen.fill(at, CELLS, &mut list)
}

/// The attribute bits of a cell.
#[inline]
fn look(word: u16) -> u32 {
    u32::from(word & 0x7FF) << 8 | u32::from(word & 0x4000) << 5
}

/// Draws the cells of a row.
struct Draw<'m> {
    memory: &'m [u16],
    flag: u16,
    /// The ignore bit, or 0 where Display Hidden is set.
    hide: u16,
    fill_code: u32,
    fill_flag: bool,
    latch: u16,
    trail: &'m mut Trail,
    cells: [u32; CELLS],
}

impl Draw<'_> {
    /// The codes of a segment without a list, none of which invokes.
    /// Gives how many cells they took.
    #[inline(never)]
    fn plain_codes(&mut self, segment: &Segment, from: usize, source: u32) -> Result<usize, Stop> {
        let mut codes = Reader::open(self.memory, segment.code, segment.origin);
        let room = if self.latch & self.hide != 0 {
            0
        } else {
            usize::from(segment.width)
        };
        let mut cells = &mut self.cells[from..from + room];
        let base = look(self.latch) | source;
        let mut left = usize::from(segment.length);
        while left > 0 {
            let words = codes.together(left.div_ceil(2))?;
            let count = left.min(words.len() * 2);
            left -= count;
            let (shown, rest) = cells.split_at_mut(count.min(cells.len()));
            cells = rest;
            let whole = shown.len() / 2;
            let mut pairs = shown.chunks_exact_mut(2);
            for (pair, &word) in pairs.by_ref().zip(words) {
                pair[0] = base | u32::from(word >> 8);
                pair[1] = base | u32::from(word & 0xFF);
            }
            if let ([cell], Some(&word)) = (pairs.into_remainder(), words.get(whole)) {
                *cell = base | u32::from(word >> 8);
            }
        }
        let unused = cells.len();
        self.trail.run(segment.code, codes.count());
        Ok(room - unused)
    }

    /// The codes of a segment with a list. Gives how many cells they took.
    #[inline(never)]
    fn listed_codes(
        &mut self,
        segment: &Segment,
        from: usize,
        source: u32,
        list: &mut List,
    ) -> Result<usize, Stop> {
        let mut codes = Reader::open(self.memory, segment.code, segment.origin);
        let mut attributes = Reader::open(self.memory, segment.list, list.origin);
        let mut cells = self.cells[from..from + usize::from(segment.width)].iter_mut();
        let [mask, value] = self.flag.to_be_bytes().map(|byte| u16::from(byte) * 0x101);
        let hide = self.hide;
        let mut latch = self.latch;
        let mut base = look(latch) | source;
        // The list's words are taken from a copy of the reader's stretch.
        let mut ahead = attributes.rest.iter();
        macro_rules! examine {
            ($code:expr, $differ:expr) => {
                let code = u32::from($code);
                if $differ != 0 {
                    if latch & hide == 0 {
                        if let Some(cell) = cells.next() {
                            *cell = base | code;
                        }
                    }
                } else {
                    let word = match ahead.next() {
                        Some(&word) => word,
                        None => {
                            attributes.rest = &[];
                            let word = attributes.next()?;
                            ahead = attributes.rest.iter();
                            word
                        }
                    };
                    let own = look(word) | source;
                    if word & LATCHED != 0 {
                        latch = word;
                        base = own;
                    }
                    if word & hide == 0 {
                        if let Some(cell) = cells.next() {
                            *cell = own | code;
                        }
                    }
                }
            };
        }
        let mut left = usize::from(segment.length);
        while left > 0 {
            let words = codes.together(left.div_ceil(2))?;
            let count = left.min(words.len() * 2);
            left -= count;
            let (pairs, odd) = words.split_at(count / 2);
            for &word in pairs {
                let differ = (word ^ value) & mask;
                examine!(word >> 8, differ & 0xFF00);
                examine!(word & 0xFF, differ & 0xFF);
            }
            if let [word] = odd {
                examine!(word >> 8, (word ^ value) & mask & 0xFF00);
            }
        }
        let unused = cells.len();
        attributes.rest = ahead.as_slice();
        self.latch = latch;
        let (length, words) = (usize::from(segment.length), attributes.count());
        self.trail.listed(segment.code, length, segment.list, words);
        list.next = Some(attributes.address());
        Ok(usize::from(segment.width) - unused)
    }
}

impl Pen for Draw<'_> {
    #[inline]
    fn segment(&mut self, segment: &Segment, from: usize, source: u32) -> Result<List, Stop> {
        let mut list = List::of(segment);
        let taken = if segment.code == 0 {
            0
        } else if segment.list == 0 {
            self.plain_codes(segment, from, source)?
        } else {
            self.listed_codes(segment, from, source, &mut list)?
        };
        self.fill(from + taken, from + usize::from(segment.width), &mut list)?;
        Ok(list)
    }

    #[inline]
    fn fill(&mut self, from: usize, end: usize, list: &mut List) -> Result<(), Stop> {
        if from < end {
            if self.fill_flag {
                if let Some((word, address)) = list.fill_word(self.memory)? {
                    self.latch = word;
                    self.trail.run(address, 1);
                }
            }
            self.cells[from..end].fill(look(self.latch) | self.fill_code);
        }
        Ok(())
    }
}

/// Draws the next row: the cells go to the buffer, the addresses of the words read to the list, and the state becomes
/// the next one. A refusal leaves all three as they were.
pub fn row(
    settings: &Settings,
    memory: &[u16],
    state: &mut State,
    buffer: &mut [u32],
    list: &mut [u32],
) -> Result<Row, Refusal> {
    let row = state.fields.row;
    let buffer = buffer_of(buffer).map_err(|stop| stop.at_row(row))?;
    let list = list_of(list).map_err(|stop| stop.at_row(row))?;
    let mut trail = Trail::new();
    let answer =
        drawn(settings, memory, state, buffer, &mut trail).map_err(|stop| stop.at_row(row))?;
    trail.write(settings.flag, memory, list);
    Ok(answer)
}

/// A row's checks from 2 on, and its cells. The words are all those of the trail.
#[inline(never)]
pub(crate) fn drawn(
    settings: &Settings,
    memory: &[u16],
    state: &mut State,
    buffer: &mut [u32; CELLS],
    trail: &mut Trail,
) -> Result<Row, Stop> {
    let fields = &state.fields;
    let mut spare = [None; 2];
    let mut plan = Plan::new(settings, fields);
    prepare(settings, memory, fields, &mut spare, &mut plan, trail)?;
    let mut draw = Draw {
        memory,
        flag: settings.flag,
        hide: if settings.display_hidden { 0 } else { IGNORE },
        fill_code: u32::from(fields.fill_code),
        fill_flag: fields.fill_flag,
        latch: state.latch,
        trail,
        cells: [0; CELLS],
    };
    walk(&plan, &mut draw)?;
    if settings.cursor && u32::from(fields.cursor_y) == fields.row {
        if let Some(cell) = draw.cells.get_mut(usize::from(fields.cursor_x)) {
            *cell |= CURSOR;
        }
    }
    *buffer = draw.cells;
    let answer = Row {
        row: fields.row,
        lines: plan.lines,
        attributes: plan.next.attributes,
        curs: plan.next.curs,
        cure: plan.next.cure,
        words: draw.trail.words(),
    };
    *state = State {
        latch: draw.latch,
        fields: plan.next,
    };
    Ok(answer)
}

/// Follows a row's latch without drawing its cells.
struct Trace<'m> {
    memory: &'m [u16],
    flag: u16,
    fill_flag: bool,
    /// Whether it matters how many characters a segment shows: only where a fill run
    /// may take a word and ignored characters are hidden.
    counting: bool,
    /// Whether the latch in force has its ignore bit.
    ignoring: bool,
    /// The last word that became the latch.
    set: Option<u16>,
    /// Whether a walk with ignore clear has come to a fill run that ignore set opens.
    parted: bool,
}

/// What a segment's codes did, apart from the latch.
#[derive(Clone, Copy, Default)]
struct Shown {
    /// Characters kept in the row, room or not.
    all: usize,
    /// Of these, those that had the incoming latch.
    by_incoming: usize,
}

impl Trace<'_> {
    #[inline]
    fn latch(&mut self, word: u16) {
        self.set = Some(word);
        self.ignoring = word & IGNORE != 0;
    }

    /// The codes of a segment without a list: their words must be there, no more.
    #[inline]
    fn plain_codes(&mut self, segment: &Segment) -> Result<Shown, Stop> {
        let length = usize::from(segment.length);
        let mut codes = Reader::open(self.memory, segment.code, segment.origin);
        let mut left = length.div_ceil(2);
        while left > 0 {
            left -= codes.together(left)?.len();
        }
        let all = if self.ignoring { 0 } else { length };
        Ok(Shown {
            all,
            by_incoming: if self.set.is_none() { all } else { 0 },
        })
    }

    /// The codes of a segment with a list.
    #[inline]
    fn listed_codes(&mut self, segment: &Segment, list: &mut List) -> Result<Shown, Stop> {
        let mut codes = Reader::open(self.memory, segment.code, segment.origin);
        let mut attributes = Reader::open(self.memory, segment.list, list.origin);
        let mut shown = Shown::default();
        let mut left = usize::from(segment.length);
        while left > 0 {
            let words = codes.together(left.div_ceil(2))?;
            let count = left.min(words.len() * 2);
            left -= count;
            if self.counting {
                self.counted(words, count, &mut attributes, &mut shown)?;
            } else {
                self.uncounted(words, count, &mut attributes)?;
            }
        }
        list.next = Some(attributes.address());
        Ok(shown)
    }

    /// Codes whose number in the row does not matter: only the list's words do.
    #[inline]
    fn uncounted(
        &mut self,
        words: &[u16],
        count: usize,
        attributes: &mut Reader,
    ) -> Result<(), Stop> {
        let mut left = invoking(self.flag, words, count);
        while left > 0 {
            let taken = attributes.together(left)?;
            left -= taken.len();
            if let Some(word) = last_latched(taken) {
                self.latch(word);
            }
        }
        Ok(())
    }

    /// Codes whose number in the row matters.
    #[inline]
    fn counted(
        &mut self,
        words: &[u16],
        count: usize,
        attributes: &mut Reader,
        shown: &mut Shown,
    ) -> Result<(), Stop> {
        let invoked = invoking(self.flag, words, count);
        if let Some((taken, rest)) = attributes.rest.split_at_checked(invoked) {
            let mut ignored = 0;
            let mut latched = 0;
            let mut hides = self.ignoring;
            for &word in taken {
                ignored += word >> 13 & 1;
                latched |= word & LATCHED;
                hides |= word & (LATCHED | IGNORE) == (LATCHED | IGNORE);
            }
            let own = invoked - usize::from(ignored);
            let others = count - invoked;
            if latched == 0 {
                // One latch is in force throughout.
                if !self.ignoring {
                    shown.all += others;
                    shown.by_incoming += if self.set.is_none() { others } else { 0 };
                }
                shown.all += own;
                attributes.rest = rest;
                return Ok(());
            }
            if !hides && self.set.is_some() {
                // No latch in force hides anything, and none came with the row.
                shown.all += others + own;
                if let Some(word) = last_latched(taken) {
                    self.latch(word);
                }
                attributes.rest = rest;
                return Ok(());
            }
        }
        self.counted_one_by_one(words, count, attributes, shown)
    }

    fn counted_one_by_one(
        &mut self,
        words: &[u16],
        count: usize,
        attributes: &mut Reader,
        shown: &mut Shown,
    ) -> Result<(), Stop> {
        let [mask, value] = self.flag.to_be_bytes().map(|byte| u16::from(byte) * 0x101);
        let mut all = 0;
        let mut by_incoming = 0;
        let mut set = self.set;
        let mut ignoring = self.ignoring;
        macro_rules! examine {
            ($differ:expr) => {
                if $differ != 0 {
                    all += usize::from(!ignoring);
                    by_incoming += usize::from(!ignoring && set.is_none());
                } else {
                    let word = attributes.next()?;
                    if word & LATCHED != 0 {
                        set = Some(word);
                        ignoring = word & IGNORE != 0;
                    }
                    all += usize::from(word & IGNORE == 0);
                }
            };
        }
        let (pairs, odd) = words.split_at(count / 2);
        for &word in pairs {
            let differ = (word ^ value) & mask;
            examine!(differ & 0xFF00);
            examine!(differ & 0xFF);
        }
        if let [word] = odd {
            examine!((word ^ value) & mask & 0xFF00);
        }
        self.set = set;
        self.ignoring = ignoring;
        shown.all += all;
        shown.by_incoming += by_incoming;
        Ok(())
    }
}

/// The last of a list's words that becomes the latch.
#[inline]
fn last_latched(words: &[u16]) -> Option<u16> {
    words.iter().rev().copied().find(|word| word & LATCHED != 0)
}

/// How many of the first `count` codes in these words invoke an attribute.
#[inline]
fn invoking(flag: u16, words: &[u16], count: usize) -> usize {
    let [mask, value] = flag.to_be_bytes().map(u16::from);
    let (high_mask, high_value) = (mask << 8, value << 8);
    let (pairs, odd) = words.split_at(count / 2);
    let mut sum: u16 = 0;
    for &word in pairs {
        sum += u16::from((word ^ high_value) & high_mask == 0);
        sum += u16::from((word ^ value) & mask == 0);
    }
    if let [word] = odd {
        sum += u16::from((word ^ high_value) & high_mask == 0);
    }
    usize::from(sum)
}

impl Pen for Trace<'_> {
    #[inline]
    fn segment(&mut self, segment: &Segment, _: usize, _: u32) -> Result<List, Stop> {
        let mut list = List::of(segment);
        let width = usize::from(segment.width);
        let shown = if segment.code == 0 {
            Shown::default()
        } else if segment.list == 0 {
            self.plain_codes(segment)?
        } else {
            self.listed_codes(segment, &mut list)?
        };
        // Runs without a list, and all without the fill flag, change nothing.
        if self.fill_flag && list.next.is_some() {
            if segment.code == 0 {
                self.fill(0, width, &mut list)?;
            } else if self.counting {
                // From a latch with ignore set, the characters that have it are hidden.
                let others = shown.all - shown.by_incoming;
                self.parted |= (shown.all < width) != (others < width);
                self.fill(shown.all.min(width), width, &mut list)?;
            }
        }
        Ok(list)
    }

    #[inline]
    fn fill(&mut self, from: usize, end: usize, list: &mut List) -> Result<(), Stop> {
        if self.fill_flag && from < end {
            if let Some((word, _)) = list.fill_word(self.memory)? {
                self.latch(word);
            }
        }
        Ok(())
    }
}

impl Trace<'_> {
    fn part(&self, walked: Result<(), Stop>, row: u32) -> Part {
        match (walked, self.set) {
            (Err(stop), _) => Part::Refuse(stop.at_row(row)),
            (Ok(()), Some(word)) => Part::Set(word),
            (Ok(()), None) => Part::Keep,
        }
    }
}

/// What the next row does to the latch, and the next state's fields unless both parts refuse.
pub fn effect(settings: &Settings, memory: &[u16], fields: &Fields) -> (Effect, Option<Fields>) {
    let mut spare = [None; 2];
    let mut plan = Plan::new(settings, fields);
    // An effect is lent no list.
    let prepared = prepare(
        settings,
        memory,
        fields,
        &mut spare,
        &mut plan,
        &mut NoTrail,
    );
    if let Err(stop) = prepared {
        let part = Part::Refuse(stop.at_row(fields.row));
        return (
            Effect {
                clear: part,
                set: part,
            },
            None,
        );
    }
    let mut trace = Trace {
        memory,
        flag: settings.flag,
        fill_flag: fields.fill_flag,
        counting: fields.fill_flag && !settings.display_hidden,
        ignoring: false,
        set: None,
        parted: false,
    };
    let walked = walk(&plan, &mut trace);
    let clear = trace.part(walked, fields.row);
    let mut set = clear;
    if trace.parted {
        trace.ignoring = true;
        trace.set = None;
        let walked = walk(&plan, &mut trace);
        set = trace.part(walked, fields.row);
    }
    let refused = matches!((clear, set), (Part::Refuse(_), Part::Refuse(_)));
    (Effect { clear, set }, (!refused).then_some(plan.next))
}

impl Part {
    /// This part, then what comes after it.
    #[inline]
    fn then(self, same: Part, next: &Effect) -> Part {
        match self {
            Part::Refuse(_) => self,
            Part::Keep => same,
            Part::Set(word) => match next.part_for(word) {
                Part::Keep => self,
                part => part,
            },
        }
    }
}

impl Effect {
    /// Keeps the latch.
    pub const EMPTY: Effect = Effect {
        clear: Part::Keep,
        set: Part::Keep,
    };

    /// The part that bit 13 of a latch chooses.
    pub fn part_for(&self, latch: u16) -> Part {
        if latch & IGNORE == 0 {
            self.clear
        } else {
            self.set
        }
    }

    /// This effect and then the next one, as one effect.
    pub fn join(self, next: Effect) -> Effect {
        Effect {
            clear: self.clear.then(next.clear, &next),
            set: self.set.then(next.set, &next),
        }
    }

    /// The latch that the effect makes of one, or its refusal.
    pub fn apply(&self, latch: u16) -> Result<u16, Refusal> {
        match self.part_for(latch) {
            Part::Keep => Ok(latch),
            Part::Set(word) => Ok(word),
            Part::Refuse(refusal) => Err(refusal),
        }
    }
}
