//! Seeded random cases: settings, structured memories, states, row buffers and scripts,
//! sound ones and damaged ones.

use crate::rules::{self, Edition, Fields, Interlace, Pointer, Settings, State, Window, CELLS};
use crate::script;
use crate::trail::PLACES;

/// A xorshift generator.
#[derive(Clone)]
pub struct Rng(u64);

impl Rng {
    pub fn new(seed: u64) -> Rng {
        let mut rng = Rng(seed.wrapping_mul(0x9E37_79B9_7F4A_7C15) ^ 0x2545_F491_4F6C_DD1D);
        if rng.0 == 0 {
            rng.0 = 1;
        }
        for _ in 0..8 {
            rng.draw();
        }
        rng
    }

    pub fn draw(&mut self) -> u64 {
        self.0 ^= self.0 << 13;
        self.0 ^= self.0 >> 7;
        self.0 ^= self.0 << 17;
        self.0.wrapping_mul(0x2545_F491_4F6C_DD1D) >> 16
    }

    pub fn word(&mut self) -> u16 {
        self.draw() as u16
    }

    /// A number below `end`, which is not 0.
    pub fn below(&mut self, end: usize) -> usize {
        (self.draw() % end as u64) as usize
    }

    /// A number from `low` to `high`, both included.
    pub fn range(&mut self, low: usize, high: usize) -> usize {
        low + self.below(high - low + 1)
    }

    /// True once in `times`.
    pub fn once_in(&mut self, times: usize) -> bool {
        self.below(times) == 0
    }

    pub fn pick<T: Copy>(&mut self, among: &[T]) -> T {
        among[self.below(among.len())]
    }
}

/// How large generated frames are.
#[derive(Clone, Copy, Debug)]
pub struct Shape {
    /// Words of memory.
    pub memory: usize,
    /// Most row blocks in the chain.
    pub rows: usize,
    /// Most scan lines for rows.
    pub lines: usize,
    /// Most shown columns.
    pub columns: usize,
    /// How many cases in a hundred are damaged.
    pub damaged: usize,
    /// How many in a hundred are segmented, which only the converter takes.
    pub segmented: usize,
    /// Word number from which blocks are laid in a memory below one page.
    pub first: usize,
}

impl Shape {
    /// Memory of any length below one page.
    pub const fn words(memory: usize) -> Shape {
        Shape {
            memory,
            rows: 10,
            lines: 90,
            columns: 132,
            damaged: 40,
            segmented: 4,
            first: 0,
        }
    }

    /// The draw program's memory, with few rows and columns.
    pub const SCRIPT: Shape = Shape {
        memory: script::MEMORY,
        rows: 5,
        lines: 40,
        columns: 20,
        damaged: 40,
        segmented: 4,
        first: 0,
    };

    /// Two pages and a part of a third: lists can cross page ends.
    pub const PAGES: Shape = Shape {
        memory: 70_000,
        rows: 8,
        lines: 90,
        columns: 132,
        damaged: 25,
        segmented: 4,
        first: 0,
    };

    /// All that 24 bits address: lists can also wrap at FFFFFE.
    pub const WHOLE: Shape = Shape {
        memory: 0x80_0000,
        rows: 8,
        lines: 90,
        columns: 132,
        damaged: 25,
        segmented: 4,
        first: 0,
    };
}

/// What a list of calls begins with.
#[derive(Clone, Debug)]
pub struct Case {
    pub settings: Settings,
    pub memory: Vec<u16>,
    /// The state to begin with, or the start's.
    pub state: Option<State>,
    /// Cells in the row buffer and places in the list of each call.
    pub buffers: Vec<(usize, usize)>,
    /// Tops of the page, for a soft scroll: the main block of the settings, and others.
    pub tops: Vec<[u16; 2]>,
}

/// A fault put into a frame while it is built.
#[derive(Clone, Copy, Debug, PartialEq, Eq)]
enum Fault {
    None,
    VisibleAboveLength,
    WideRow,
    WideWindow,
    LooseEdge,
    WindowRows,
    WindowOrder,
    WindowColumns,
    FillWord,
    NullTop,
    ScrollWindow,
    FarPointer,
    Words,
    Truncated,
    Settings,
    /// Any of those that a mending can mend, at once.
    Many,
    /// Many code and attribute lists outside memory, and fill words: what these cost is a segment's, and no row's.
    Lists,
    /// Lists that begin in words of other blocks and lists.
    Shared,
}

impl Fault {
    /// Whether a mending has a pointer to blame for it.
    fn mendable(self) -> bool {
        !matches!(
            self,
            Fault::NullTop | Fault::ScrollWindow | Fault::Truncated | Fault::Settings
        )
    }
}

const FAULTS: [Fault; 14] = [
    Fault::VisibleAboveLength,
    Fault::WideRow,
    Fault::WideWindow,
    Fault::LooseEdge,
    Fault::WindowRows,
    Fault::WindowOrder,
    Fault::WindowColumns,
    Fault::FillWord,
    Fault::NullTop,
    Fault::ScrollWindow,
    Fault::FarPointer,
    Fault::Words,
    Fault::Truncated,
    Fault::Settings,
];

const PAGE: usize = 0x8000;
const ADDRESSABLE: usize = 0x80_0000;

/// The address of the word after the one at an even address.
fn step(linear: bool, address: u32) -> u32 {
    if linear {
        rules::step(address)
    } else {
        address & 0xFF_0000 | (address + 2) & 0xFFFF
    }
}

/// Memory under construction.
struct Image {
    linear: bool,
    memory: Vec<u16>,
    /// Word number from which blocks are laid one after another.
    next: usize,
    /// The same in other pages.
    others: Vec<usize>,
    /// Word numbers after a page end, or after FFFFFE, that one block or list may cross.
    ends: Vec<usize>,
    /// One of these that is kept for a block: its pointers then begin on either side.
    kept: Option<usize>,
    written: Vec<usize>,
}

impl Image {
    fn new(rng: &mut Rng, linear: bool, shape: &Shape) -> Image {
        let words = shape.memory;
        let mut ends = Vec::new();
        let mut next = shape.first + 1 + rng.below(16);
        let mut others = Vec::new();
        let pages = (words / PAGE).min(if linear { 256 } else { 128 });
        if pages > 0 {
            let page = rng.below(pages);
            next = page * PAGE + 700;
            let other = rng.below(pages);
            if other != page && rng.once_in(2) {
                others.push(other * PAGE + 700);
            }
            for _ in 0..3 {
                let end = (1 + rng.below(pages)) * PAGE;
                if !ends.contains(&end) {
                    ends.push(end);
                }
            }
            if linear && words >= ADDRESSABLE && !ends.contains(&ADDRESSABLE) {
                ends.push(ADDRESSABLE);
            }
        }
        let kept = if rng.once_in(2) { ends.pop() } else { None };
        Image {
            linear,
            memory: vec![0; words],
            next,
            others,
            ends,
            kept,
            written: Vec::new(),
        }
    }

    /// An address for a block or list of so many words.
    fn place(&mut self, rng: &mut Rng, words: usize) -> u32 {
        if words > 1 && !self.ends.is_empty() && rng.once_in(6) {
            let n = rng.below(self.ends.len());
            let end = self.ends.swap_remove(n);
            return self.before(rng, end, words);
        }
        if !self.others.is_empty() && rng.once_in(8) {
            let n = rng.below(self.others.len());
            std::mem::swap(&mut self.next, &mut self.others[n]);
        }
        let gap = if rng.once_in(4) { rng.below(4) } else { 0 };
        let index = (self.next + gap) % ADDRESSABLE;
        self.next = index + words;
        (index.max(1) * 2) as u32
    }

    /// An address from which so many words cross an end; half of the segmented ones come to it, and no further.
    fn before(&self, rng: &mut Rng, end: usize, words: usize) -> u32 {
        let words = if self.linear || rng.once_in(2) {
            rng.range(1, words - 1).min(500)
        } else {
            words
        };
        (end - words) as u32 * 2
    }

    /// An address for a block of a chain; one in `times` crosses the end that is kept.
    fn place_block(&mut self, rng: &mut Rng, words: usize, times: usize) -> u32 {
        match self.kept {
            Some(end) if rng.once_in(times) => {
                self.kept = None;
                self.before(rng, end, words)
            }
            _ => self.place(rng, words),
        }
    }

    /// Writes what of the words lies in memory.
    fn write(&mut self, mut address: u32, words: &[u16]) {
        for &word in words {
            let index = address as usize / 2;
            if let Some(cell) = self.memory.get_mut(index) {
                *cell = word;
                self.written.push(index);
            }
            address = step(self.linear, address);
        }
    }

    fn put(&mut self, rng: &mut Rng, words: &[u16]) -> u32 {
        let address = self.place(rng, words.len());
        self.write(address, words);
        address
    }

    /// A pointer's words, with noise in the bits that are ignored.
    fn pointer(&self, rng: &mut Rng, address: u32) -> [u16; 2] {
        let high = (address >> 16) as u16;
        let noise = if rng.once_in(2) { rng.word() } else { 0 };
        let first = if self.linear {
            noise & 0xFF00 | high & 0xFF
        } else {
            noise & 0x80FF | (high & 0x7F) << 8
        };
        [first, address as u16 & !1 | (noise >> 4 & 1)]
    }
}

/// A frame: settings, memory and where its blocks lie.
struct Frame {
    settings: Settings,
    image: Image,
    fault: Fault,
    /// Where faults come at once, how much rarer each is.
    rarer: usize,
    fill_flag: bool,
    /// One code in this many invokes; 0 for none.
    density: usize,
    rows: Vec<u32>,
    windows: Vec<u32>,
    window_rows: Vec<u32>,
    lists: Vec<u32>,
    tops: Vec<[u16; 2]>,
}

/// M4: soft scroll on or off, in any direction, at any rate. Enable and window are not both set.
pub fn scroll_word(rng: &mut Rng) -> u16 {
    let word = rng.word();
    if rng.once_in(5) {
        word & !0x4000
    } else {
        word & !0x1000 | 0x4000
    }
}

fn any_interlace(rng: &mut Rng) -> Interlace {
    rng.pick(&[
        Interlace::None,
        Interlace::None,
        Interlace::RepeatField,
        Interlace::Video,
    ])
}

fn any_edition(rng: &mut Rng) -> Edition {
    rng.pick(&[Edition::Am8052, Edition::Am8052, Edition::Z8052])
}

/// Good settings with all but TOP and TOW.
fn good_settings(rng: &mut Rng, shape: &Shape) -> Settings {
    let edition = any_edition(rng);
    let interlace = any_interlace(rng);
    let interlaced = interlace != Interlace::None;
    let mut lines = rng.range(1, shape.lines.max(2));
    if rng.once_in(2) {
        lines = shape.lines.max(2);
    }
    let mut vsw = rng.below(64);
    let mut vsd = rng.below(64);
    if interlaced {
        lines += lines & 1;
        vsw |= 1;
        vsd |= 1;
    }
    let val = vsd + lines;
    let mut vtot = rng
        .pick(&[val, val + 1, val + rng.0 as usize % 40, 4094])
        .max(val);
    if interlaced {
        vtot += vtot & 1;
    }
    let columns = match rng.below(4) {
        0 => shape.columns,
        1 => 1,
        _ => rng.range(1, shape.columns),
    };
    let mut hsd = rng.below(512);
    if interlaced && edition == Edition::Z8052 && (hsd + columns).is_multiple_of(2) {
        hsd ^= 1;
    }
    let htd = hsd + columns;
    let mut htc = rng.pick(&[htd, htd + 1, 1023]);
    if interlaced {
        htc |= 1;
    }
    let hsync = rng.below(htc.min(256));
    let mask = rng.pick(&[
        0x80,
        0x80,
        0xFF,
        0xE0,
        0x81,
        0x01,
        0x00,
        rng.0 as u16 & 0xFF,
    ]);
    let value = if edition == Edition::Am8052 && rng.once_in(3) {
        rng.word() & 0xFF
    } else {
        rng.word() & mask
    };
    Settings {
        linear: rng.below(100) >= shape.segmented,
        display_hidden: rng.once_in(4),
        interlace,
        cursor: !rng.once_in(4),
        flag: mask << 8 | value,
        top: [0; 2],
        tow: [0; 2],
        vsw: vsw as u16,
        vsd: vsd as u16,
        val: val as u16,
        vtot: vtot as u16,
        hsync: hsync as u16,
        hsd: hsd as u16,
        htc: htc as u16,
        htd: htd as u16,
        edition,
    }
}

/// Settings with one number changed, usually out of order or range, or with another bit
/// turned, which changes what the memory means.
fn damage_settings(rng: &mut Rng, settings: &mut Settings) {
    if rng.once_in(3) {
        let bit = 1 << rng.below(16);
        match rng.below(10) {
            0 => settings.linear = !settings.linear,
            1 => settings.display_hidden = !settings.display_hidden,
            2 => settings.interlace = any_interlace(rng),
            3 => settings.flag ^= bit,
            4 => settings.top[0] ^= bit,
            5 => settings.top[1] ^= bit,
            6 => settings.tow[0] ^= bit,
            7 => settings.tow[1] ^= bit,
            8 => settings.edition = any_edition(rng),
            _ => settings.htd = settings.htd.wrapping_sub(1),
        }
        return;
    }
    let number = match rng.below(8) {
        0 => &mut settings.vsw,
        1 => &mut settings.vsd,
        2 => &mut settings.val,
        3 => &mut settings.vtot,
        4 => &mut settings.hsync,
        5 => &mut settings.hsd,
        6 => &mut settings.htc,
        _ => &mut settings.htd,
    };
    match rng.below(4) {
        0 => *number ^= 1 << rng.below(16),
        1 => {
            *number = rng.pick(&[
                0, 63, 64, 255, 256, 511, 512, 1023, 1024, 4095, 4096, 0xFFFF,
            ])
        }
        2 => *number = number.wrapping_add(1),
        _ => *number = rng.word() & rng.pick(&[0x3F, 0xFFF, 0x1FF, 0x3FF, 0xFFFF]),
    }
}

/// Splits a width at the given places and some more, with segments of no width between.
fn split(rng: &mut Rng, total: usize, edges: &[usize]) -> Vec<usize> {
    let mut cuts: Vec<usize> = edges
        .iter()
        .copied()
        .filter(|&e| e > 0 && e < total)
        .collect();
    let extra = rng.pick(&[0, 0, 1, 2, 5, 12]);
    for _ in 0..extra {
        if total > 1 && cuts.len() < 14 {
            cuts.push(rng.range(1, total - 1));
        }
    }
    cuts.sort_unstable();
    cuts.dedup();
    cuts.truncate(14);
    let mut widths = Vec::new();
    let mut from = 0;
    for cut in cuts {
        widths.push(cut - from);
        from = cut;
    }
    if total > from {
        widths.push(total - from);
    }
    // Segments of no width, most of all at the edges.
    let zeros = rng.pick(&[0, 0, 0, 1, 2, 4]);
    for _ in 0..zeros {
        if widths.len() < 15 {
            let mut at = rng.below(widths.len() + 1);
            if !edges.is_empty() && rng.once_in(2) {
                let edge = rng.pick(edges);
                let mut sum = 0;
                for (n, width) in widths.iter().enumerate() {
                    if sum == edge {
                        at = n;
                    }
                    sum += width;
                }
            }
            widths.insert(at, 0);
        }
    }
    if rng.once_in(12) {
        while widths.len() < 15 {
            widths.push(0);
        }
    }
    widths
}

impl Frame {
    fn new(rng: &mut Rng, shape: &Shape, fault: Fault) -> Frame {
        let settings = good_settings(rng, shape);
        let image = Image::new(rng, settings.linear, shape);
        let mut frame = Frame {
            settings,
            image,
            fault,
            rarer: rng.pick(&[1, 3, 8, 20]),
            fill_flag: rng.once_in(2) || fault == Fault::FillWord,
            density: rng.pick(&[0, 1, 2, 3, 3, 3, 8, 20]),
            rows: Vec::new(),
            windows: Vec::new(),
            window_rows: Vec::new(),
            lists: Vec::new(),
            tops: Vec::new(),
        };
        frame.build(rng, shape);
        frame
    }

    /// Whether the frame's fault is this one and falls on this place.
    fn falls(&self, rng: &mut Rng, fault: Fault, times: usize) -> bool {
        match self.fault {
            Fault::Many => fault.mendable() && rng.once_in(times * self.rarer),
            Fault::Lists => fault == Fault::FillWord && rng.once_in(times),
            own => own == fault && rng.once_in(times),
        }
    }

    fn code(&self, rng: &mut Rng, invoking: bool) -> u8 {
        let [mask, value] = self.settings.flag.to_be_bytes();
        let mut code = rng.word() as u8;
        if invoking {
            code = code & !mask | value & mask;
        } else if mask != 0 && rules::invokes(self.settings.flag, code) {
            let ones: Vec<u32> = (0..8).filter(|bit| mask >> bit & 1 == 1).collect();
            code ^= 1 << rng.pick(&ones);
        }
        code
    }

    fn attribute(&self, rng: &mut Rng) -> u16 {
        let mut word = rng.word() & 0x1FFF;
        if rng.once_in(3) {
            word |= 0x8000;
        }
        if rng.once_in(8) {
            word |= 0x4000;
        }
        if rng.once_in(6) {
            word |= 0x2000;
        }
        word
    }

    /// Lays a segment's lists and gives its five words.
    fn segment(&mut self, rng: &mut Rng, width: usize) -> [u16; 5] {
        let far = self.falls(rng, Fault::FarPointer, 8)
            || self.fault == Fault::Lists && rng.once_in(self.rarer);
        let null_code = rng.once_in(7);
        let mut length = width;
        let mut visible = width;
        if null_code {
            length = rng.below(256);
        } else if self.settings.display_hidden {
            visible = rng.pick(&[width, width / 2, 0]);
        } else {
            let extra = match rng.below(8) {
                0..=3 => 0,
                4..=6 => rng.below(12),
                _ => rng.below(256),
            };
            length = (width + extra).min(255);
        }
        if self.falls(rng, Fault::VisibleAboveLength, 6) {
            if visible > 0 {
                length = visible - rng.range(1, visible);
            } else {
                visible = length.min(254) + 1;
            }
        }
        let mut code_address = 0;
        let mut invoked = 0;
        if !null_code {
            let mut words = Vec::new();
            for n in 0..length {
                let invoking = self.density > 0 && rng.once_in(self.density);
                let code = self.code(rng, invoking);
                if rules::invokes(self.settings.flag, code) {
                    invoked += 1;
                }
                match words.last_mut() {
                    Some(word) if n % 2 == 1 => *word = *word & 0xFF00 | u16::from(code),
                    _ => words.push(u16::from(code) << 8 | rng.word() & 0xFF),
                }
            }
            code_address = self.image.put(rng, &words);
            if far && rng.once_in(2) {
                code_address = self.far_address(rng);
            }
        }
        let mut list_address = 0;
        if !rng.once_in(5) {
            if !self.lists.is_empty() && rng.once_in(20) {
                list_address = rng.pick(&self.lists);
            } else {
                let mut words: Vec<u16> = (0..invoked).map(|_| self.attribute(rng)).collect();
                for _ in 0..3 {
                    let mut word = self.attribute(rng) | 0x8000;
                    if self.falls(rng, Fault::FillWord, 4) {
                        word &= 0x7FFF;
                    }
                    words.push(word);
                }
                list_address = self.image.put(rng, &words);
                self.lists.push(list_address);
            }
            if far && rng.once_in(2) {
                list_address = self.far_address(rng);
            }
        }
        let code = self.image.pointer(rng, code_address);
        let list = self.image.pointer(rng, list_address);
        let size = (length << 8 | visible) as u16;
        [code[0], code[1], list[0], list[1], size]
    }

    /// An address at or past the end of memory, or just before it.
    fn far_address(&self, rng: &mut Rng) -> u32 {
        let words = self.image.memory.len();
        let index = match rng.below(5) {
            0 => words,
            1 => words.saturating_sub(rng.range(1, 5)),
            2 => words + rng.below(100),
            3 => PAGE - 1,
            _ => ADDRESSABLE - 1 - rng.below(3),
        };
        let address = index.clamp(1, ADDRESSABLE - 1) as u32 * 2;
        if self.settings.linear {
            address
        } else {
            address & 0x7F_FFFE
        }
    }

    /// The words of a row block without its link, and the link's place left open.
    fn row_block(&mut self, rng: &mut Rng, widths: &[usize], background: bool) -> Vec<u16> {
        let mut head = rng.word() & 0x7FF0 | widths.len() as u16;
        let mut words = vec![0, 0, 0];
        if background && rng.once_in(3) {
            head |= 0x8000;
            let mut address = 0;
            if !rng.once_in(4) {
                // Scan lines stay few so that a frame has several rows.
                let lines = rng.pick(&[0, 0, 1, 2, 7, 31]);
                let block = [rng.word(), rng.word() & 0xFFE0 | lines, rng.word()];
                address = self.image.put(rng, &block);
                if self.falls(rng, Fault::FarPointer, 6) {
                    address = self.far_address(rng);
                }
            }
            words.extend(self.image.pointer(rng, address));
        } else if !background && rng.once_in(2) {
            head |= 0x8000;
        }
        words[2] = head;
        for &width in widths {
            let segment = self.segment(rng, width);
            words.extend(segment);
        }
        words
    }

    /// Places a chain of blocks, the first words of each being its link. The last one's link is
    /// chosen among the places of all; one in `far` lies outside memory if that is the fault. One block in
    /// `crosses` may cross an end.
    fn chain(
        &mut self,
        rng: &mut Rng,
        blocks: Vec<Vec<u16>>,
        far: usize,
        crosses: usize,
        last: impl Fn(&mut Rng, &[u32]) -> u32,
    ) -> Vec<u32> {
        let places: Vec<u32> = blocks
            .iter()
            .map(|block| self.image.place_block(rng, block.len(), crosses))
            .collect();
        for (n, mut block) in blocks.into_iter().enumerate() {
            let mut next = match places.get(n + 1) {
                Some(&next) => next,
                None => last(rng, &places),
            };
            if self.falls(rng, Fault::FarPointer, far) {
                next = self.far_address(rng);
            }
            let link = self.image.pointer(rng, next);
            block[..2].copy_from_slice(&link);
            self.image.write(places[n], &block);
        }
        places
    }

    /// Row blocks end in a null link or in a loop.
    fn chain_rows(&mut self, rng: &mut Rng, blocks: Vec<Vec<u16>>) -> Vec<u32> {
        self.chain(rng, blocks, 10, 16, |rng, places| match rng.below(6) {
            0 => places[places.len() - 1],
            1 | 2 => rng.pick(places),
            _ => 0,
        })
    }

    /// Window blocks end in a null link, seldom in a loop: a loop is refused.
    fn chain_windows(&mut self, rng: &mut Rng, blocks: Vec<Vec<u16>>) -> Vec<u32> {
        self.chain(rng, blocks, 4, 2, |rng, places| {
            if rng.once_in(6) {
                rng.pick(places)
            } else {
                0
            }
        })
    }

    fn build(&mut self, rng: &mut Rng, shape: &Shape) {
        // Windows: rows in order, columns at either screen edge, in the middle or whole.
        let count = rng.pick(&[0, 1, 1, 1, 2, 2, 3, 4]);
        let mut windows = Vec::new();
        let mut row = rng.below(3);
        for _ in 0..count {
            let last_row = row + rng.below(3);
            let (mut first, mut last) = match rng.below(6) {
                0 => (0, rng.below(CELLS)),
                1 => (rng.below(CELLS), CELLS - 1),
                2 => (0, CELLS - 1),
                _ => {
                    let (a, b) = (rng.below(CELLS), rng.below(CELLS));
                    (a.min(b), a.max(b))
                }
            };
            let mut rows = (row, last_row);
            if self.falls(rng, Fault::WindowRows, 2) {
                rows = (last_row + 1, row);
            }
            if self.falls(rng, Fault::WindowOrder, 2) {
                rows.0 = row.saturating_sub(1);
            }
            if self.falls(rng, Fault::WindowColumns, 2) {
                match rng.below(3) {
                    0 => (first, last) = (last + 1, first),
                    1 => last = CELLS,
                    _ => last = rng.range(CELLS, 255),
                }
            }
            windows.push((rows, first, last));
            row = last_row + 1 + rng.pick(&[0, 0, 0, 1, 2]);
        }
        let mut edges = Vec::new();
        for &(_, first, last) in &windows {
            edges.push(first);
            edges.push(last + 1);
        }

        // Row blocks.
        let rows = rng.range(1, shape.rows);
        let mut blocks = Vec::new();
        for _ in 0..rows {
            let total = match rng.below(10) {
                0..=3 => CELLS,
                4 => 0,
                5 if !edges.is_empty() => rng.pick(&edges).min(CELLS),
                _ => rng.below(CELLS + 1),
            };
            let loose = self.falls(rng, Fault::LooseEdge, 2);
            let mut widths = split(rng, total, if loose { &[] } else { &edges });
            if self.falls(rng, Fault::WideRow, 3) {
                let missing = CELLS - total;
                let more = missing + rng.pick(&[1, 1, 10, 100]);
                match widths.last_mut() {
                    Some(width) => *width = (*width + more).min(255),
                    None => widths.push(more.min(255)),
                }
            }
            blocks.push(self.row_block(rng, &widths, true));
        }
        self.rows = self.chain_rows(rng, blocks);

        // Window row chains and window blocks.
        let mut window_blocks = Vec::new();
        for &((first_row, last_row), first, last) in &windows {
            let width = (last + 1).saturating_sub(first).min(CELLS);
            let rows = (last_row + 1).saturating_sub(first_row).min(shape.rows);
            let rows = rng.pick(&[rows, rows, rows, rows / 2, 0]);
            let mut blocks = Vec::new();
            for _ in 0..rows {
                let total = match rng.below(4) {
                    0 => rng.below(width + 1),
                    _ => width,
                };
                let mut widths = split(rng, total, &[]);
                if self.falls(rng, Fault::WideWindow, 2) {
                    let more = width - total + rng.pick(&[1, 1, 20]);
                    match widths.last_mut() {
                        Some(width) => *width = (*width + more).min(255),
                        None => widths.push(more.min(255)),
                    }
                }
                blocks.push(self.row_block(rng, &widths, false));
            }
            let places = self.chain_rows(rng, blocks);
            let chain = self
                .image
                .pointer(rng, places.first().copied().unwrap_or(0));
            self.window_rows.extend(places);
            window_blocks.push(vec![
                0,
                0,
                chain[0],
                chain[1],
                (first_row << 8 | last_row) as u16,
                (first << 8 | last) as u16,
            ]);
        }
        self.windows = self.chain_windows(rng, window_blocks);

        // Main block.
        let first = if rng.once_in(20) { 0 } else { self.rows[0] };
        let lines = rng.pick(&[0, 0, 0, 1, 2, 3, 7, 31]);
        let mut top = self.main_block(rng, first, lines);
        if self.falls(rng, Fault::NullTop, 1) {
            top = 0;
        }
        let mut tow = self.windows.first().copied().unwrap_or(0);
        if self.falls(rng, Fault::FarPointer, 6) {
            top = self.far_address(rng);
        }
        if self.falls(rng, Fault::FarPointer, 6) {
            tow = self.far_address(rng);
        }
        self.settings.top = self.image.pointer(rng, top);
        self.settings.tow = self.image.pointer(rng, tow);

        // Main blocks that a scroll can go on to.
        self.tops.push(self.settings.top);
        for _ in 0..rng.range(1, 3) {
            let mut first = if rng.once_in(12) {
                0
            } else {
                rng.pick(&self.rows)
            };
            if self.falls(rng, Fault::FarPointer, 6) {
                first = self.far_address(rng);
            }
            let lines = rng.pick(&[0, 1, 3, 7, 12, 31]);
            let top = self.main_block(rng, first, lines);
            self.tops.push(self.image.pointer(rng, top));
        }

        match self.fault {
            // In a memory too small for the blocks nothing may have been written.
            _ if self.image.written.is_empty() => {}
            Fault::Many if !rng.once_in(3) => {}
            Fault::Words | Fault::Many => {
                for _ in 0..rng.range(1, 12) {
                    let index = rng.pick(&self.image.written);
                    let word = &mut self.image.memory[index];
                    match rng.below(3) {
                        0 => *word ^= 1 << rng.below(16),
                        1 => *word = rng.word(),
                        _ => *word = rng.word() & 0x0F0F,
                    }
                }
            }
            Fault::Settings => damage_settings(rng, &mut self.settings),
            Fault::Shared => {
                for _ in 0..rng.range(1, 3) {
                    self.share(rng);
                }
            }
            // The draw program's memory cannot be cut; any other is cut among the blocks.
            Fault::Truncated if shape.memory != script::MEMORY => {
                let index = rng.pick(&self.image.written);
                self.image.memory.truncate(index + rng.below(2));
            }
            _ => {}
        }
    }

    /// Points a code or an attribute pointer of a row at a word that is written already.
    fn share(&mut self, rng: &mut Rng) {
        let background = self.window_rows.is_empty() || rng.once_in(2);
        let blocks = if background {
            &self.rows
        } else {
            &self.window_rows
        };
        let mut at = rng.pick(blocks);
        let head = step(self.image.linear, step(self.image.linear, at));
        let Some(&head) = self.image.memory.get(head as usize / 2) else {
            return;
        };
        let segments = usize::from(head & 15);
        if segments == 0 {
            return;
        }
        let redefined = background && head & 0x8000 != 0;
        let words = 3 + 2 * usize::from(redefined) + 5 * rng.below(segments);
        for _ in 0..words + rng.pick(&[0, 2]) {
            at = step(self.image.linear, at);
        }
        let near = rng.below(40);
        let word = (rng.pick(&self.image.written) + 8).saturating_sub(near);
        let pointer = self.image.pointer(rng, 2 * word as u32);
        self.image.write(at, &pointer);
    }

    /// Lays a main block with a first row block and the low bits of M6, and gives its address.
    fn main_block(&mut self, rng: &mut Rng, first: u32, lines: u16) -> u32 {
        let row = self.image.pointer(rng, first);
        let noise = rng.word();
        let mut scroll = scroll_word(rng);
        if self.falls(rng, Fault::ScrollWindow, 2) {
            scroll |= 0x5000;
        }
        let main = [
            row[0],
            row[1],
            (rng.below(140) << 8 | rng.below(8)) as u16,
            noise & 0xFE00 | u16::from(self.fill_flag) << 8 | rng.word() & 0xFF,
            scroll,
            rng.word(),
            noise << 5 | lines,
        ];
        self.image.put(rng, &main)
    }

    /// A state that no start need give: anything in range, with blocks of the frame.
    fn state(&self, rng: &mut Rng) -> State {
        let block = |rng: &mut Rng, among: &[u32]| {
            let address = match rng.below(12) {
                0 => 0,
                1 => rng.draw() as u32 & 0xFF_FFFE,
                2 => self.far_address(rng),
                _ if among.is_empty() => 0,
                _ => rng.pick(among),
            };
            // Where it begins is believed, whatever stands there.
            let from = match rng.below(4) {
                _ if address == 0 => 0,
                0 => 0,
                1 => self.far_address(rng),
                _ => rng.draw() as u32 & 0xFF_FFFE,
            };
            Pointer { address, from }
        };
        let row = match rng.below(4) {
            0 => rng.below(4095),
            1 => rng.pick(&[0, 255, 256, 4094, 4095]),
            _ => rng.below(8),
        };
        let most = 4095 - row;
        let lines_left = rng.pick(&[most, most.min(40), most.min(1), most / 2]);
        let window = if rng.once_in(3) {
            None
        } else {
            let from = rng.pick(&[0, row.min(255), row.saturating_sub(2).min(255)]);
            let first_column = rng.below(CELLS);
            let last_column = rng.range(first_column, CELLS - 1);
            let whole = rng.once_in(3);
            Some(Window {
                first_row: from as u32,
                last_row: rng.pick(&[from, (from + 3).min(255), 255]) as u32,
                first_column: if whole { 0 } else { first_column as u32 },
                last_column: if whole { 131 } else { last_column as u32 },
                next_row: block(rng, &self.window_rows),
                next_block: block(rng, &self.windows),
                number: rng.pick(&[0, 0, from, rng.clone().below(from + 1)]) as u32,
            })
        };
        let mut state = State {
            latch: rng.word(),
            fields: Fields {
                row: row as u32,
                lines_left: lines_left as u32,
                cursor_x: rng.pick(&[0, 1, 131, 132, 255, rng.0 as u8]),
                cursor_y: rng.pick(&[row as u8, rng.0 as u8]),
                fill_code: rng.word() as u8,
                fill_flag: rng.once_in(2),
                scan_lines: rng.range(1, 32) as u32,
                attributes: rng.below(1024) as u32,
                curs: rng.below(32) as u32,
                cure: rng.below(32) as u32,
                next_row: block(rng, &self.rows),
                window,
            },
        };
        if rng.once_in(5) {
            damage_state(rng, &mut state.fields);
        }
        state
    }
}

/// Puts a pointer of a state out of range, or at the end of its range: odd, above 24 bits, or null with a
/// place where it begins.
fn damage_pointer(rng: &mut Rng, pointer: &mut Pointer) {
    let number = rng.pick(&[1, 0xFF_FFFE, 0xFF_FFFF, 0x100_0000, u32::MAX]);
    match rng.below(4) {
        0 => pointer.address = number,
        1 => pointer.from = number,
        2 => pointer.from ^= 1 << rng.below(32),
        _ => pointer.address = 0,
    }
}

/// Puts one field of a state out of range, or at the end of its range.
fn damage_state(rng: &mut Rng, fields: &mut Fields) {
    let end = rng.pick(&[0, 1, 2, 0x100, 0xFFFF_F000]);
    match rng.below(12) {
        0 => fields.row = 4095u32.wrapping_add(end).wrapping_sub(fields.lines_left),
        1 => fields.lines_left = 4096u32.wrapping_add(end).wrapping_sub(fields.row),
        2 => fields.scan_lines = rng.pick(&[0, 32, 33, 255, u32::MAX]),
        3 => fields.curs = rng.pick(&[31, 32, 255, u32::MAX]),
        4 => fields.cure = rng.pick(&[31, 32, 255, u32::MAX]),
        5 => fields.attributes = rng.pick(&[1023, 1024, 0xFFFF, u32::MAX]),
        6 => damage_pointer(rng, &mut fields.next_row),
        7 => fields.lines_left = 0,
        _ => {
            if let Some(window) = &mut fields.window {
                match rng.below(8) {
                    0 => window.first_row = window.last_row + 1,
                    6 => window.number = window.first_row + 1,
                    7 => window.number = rng.pick(&[window.first_row, 255, 256, u32::MAX]),
                    1 => window.last_row = rng.pick(&[255, 256, u32::MAX]),
                    2 => window.first_column = window.last_column + 1,
                    3 => window.last_column = rng.pick(&[131, 132, 255, u32::MAX]),
                    4 => damage_pointer(rng, &mut window.next_row),
                    _ => damage_pointer(rng, &mut window.next_block),
                }
            }
        }
    }
}

fn frame(rng: &mut Rng, shape: &Shape) -> Frame {
    let fault = if rng.below(100) < shape.damaged {
        rng.pick(&FAULTS)
    } else {
        Fault::None
    };
    Frame::new(rng, shape, fault)
}

/// A count of cells that is not a row's.
pub fn cells(rng: &mut Rng) -> usize {
    rng.pick(&[0, 1, 131, 133, 264])
}

/// A count of places that is not a list's.
pub fn places(rng: &mut Rng) -> usize {
    rng.pick(&[0, 1, 132, PLACES - 1, PLACES + 1, 13_000])
}

/// A random case for library calls.
pub fn case(rng: &mut Rng, shape: &Shape) -> Case {
    let frame = frame(rng, shape);
    case_of(rng, frame)
}

/// A random case with any number of faults that a mending can mend.
pub fn damaged(rng: &mut Rng, shape: &Shape) -> Case {
    let frame = damaged_frame(rng, shape);
    case_of(rng, frame)
}

fn damaged_frame(rng: &mut Rng, shape: &Shape) -> Frame {
    let fault = rng.pick(&[Fault::Many, Fault::Many, Fault::Many, Fault::Lists]);
    Frame::new(rng, shape, fault)
}

/// A random segmented case, seldom a linear one: sound, with lists that share words, or damaged.
pub fn segmented(rng: &mut Rng, shape: &Shape) -> Case {
    let frame = segmented_frame(rng, shape);
    case_of(rng, frame)
}

fn segmented_frame(rng: &mut Rng, shape: &Shape) -> Frame {
    let fault = match rng.below(10) {
        0..=5 => Fault::None,
        6 | 7 => Fault::Shared,
        8 => Fault::Words,
        _ => rng.pick(&FAULTS),
    };
    let segmented = 97;
    Frame::new(
        rng,
        &Shape {
            segmented,
            ..*shape
        },
        fault,
    )
}

fn case_of(rng: &mut Rng, frame: Frame) -> Case {
    let state = rng.once_in(3).then(|| frame.state(rng));
    let calls = rng.range(1, 16);
    let careless = rng.once_in(4);
    let buffers = (0..calls)
        .map(|_| match rng.below(4) {
            0 if careless => (cells(rng), PLACES),
            1 if careless => (CELLS, places(rng)),
            2 if careless && rng.once_in(3) => (cells(rng), places(rng)),
            _ => (CELLS, PLACES),
        })
        .collect();
    Case {
        settings: frame.settings,
        memory: frame.image.memory,
        state,
        buffers,
        tops: frame.tops,
    }
}

/// Registers without a meaning to the draw program.
const IGNORED: [u8; 13] = [
    0x00, 0x01, 0x02, 0x03, 0x04, 0x05, 0x06, 0x07, 0x0D, 0x0E, 0x0F, 0x10, 0x15,
];

/// A random script, well formed, of a frame with any number of faults that a mending can mend.
pub fn damaged_script(rng: &mut Rng, shape: &Shape) -> Vec<u8> {
    let frame = damaged_frame(rng, shape);
    well_formed(&frame)
}

/// A random script, well formed, of a segmented frame.
pub fn segmented_script(rng: &mut Rng, shape: &Shape) -> Vec<u8> {
    let frame = segmented_frame(rng, shape);
    let mut bytes = Vec::new();
    for register in IGNORED {
        if rng.once_in(3) {
            bytes.extend([1, register, rng.word() as u8, rng.word() as u8]);
        }
    }
    bytes.extend(well_formed(&frame));
    bytes
}

/// Records of the burst register, one or two, of which the last counts; or none.
pub fn burst_records(rng: &mut Rng) -> Vec<u8> {
    let mut bytes = Vec::new();
    for _ in 0..rng.pick(&[0, 1, 1, 1, 1, 2]) {
        let [any_space, any_count] = rng.word().to_be_bytes();
        let space = rng.pick(&[0, 1, 2, 0x10, 0xFF, any_space]);
        let count = rng.pick(&[0, 1, 2, 7, 8, 0x10, 0xFF, any_count]);
        bytes.extend([1, 0x10, space, count]);
    }
    bytes
}

fn well_formed(frame: &Frame) -> Vec<u8> {
    let mut bytes = script::records(&frame.settings, &frame.image.memory).concat();
    bytes.push(0);
    bytes
}

/// A random script: well formed, truncated or damaged.
pub fn script(rng: &mut Rng) -> Vec<u8> {
    script_of(rng, &Shape::SCRIPT)
}

/// A random script whose frame has the given shape; its memory is the draw program's.
pub fn script_of(rng: &mut Rng, shape: &Shape) -> Vec<u8> {
    let frame = frame(
        rng,
        &Shape {
            memory: script::MEMORY,
            ..*shape
        },
    );
    let mut all = script::records(&frame.settings, &frame.image.memory);
    if rng.once_in(2) {
        // Any order gives the same.
        for n in (1..all.len()).rev() {
            all.swap(n, rng.below(n + 1));
        }
    }
    if rng.once_in(3) {
        // Registers without a meaning here, bits that are ignored, records that a later one
        // replaces.
        let register = rng.pick(&IGNORED);
        all.insert(
            rng.below(all.len() + 1),
            vec![1, register, rng.word() as u8, 0x55],
        );
        let doubled = rng.below(all.len());
        let mut early = all[doubled].clone();
        if let Some(last) = early.last_mut() {
            *last ^= 0x01;
        }
        all.insert(0, early);
        for record in &mut all {
            match record[..] {
                [3, switches] => record[1] = switches | (rng.word() as u8 & 0xE0),
                [1, 0x11..=0x13, high, _] => record[2] = high | (rng.word() as u8 & 0xF0),
                _ => {}
            }
        }
    }
    let mut bytes: Vec<u8> = all.concat();
    bytes.push(0);
    if rng.once_in(6) {
        for _ in 0..rng.below(5) {
            bytes.push(rng.word() as u8);
        }
    }
    match rng.below(10) {
        0 => {
            let length = rng.below(bytes.len());
            bytes.truncate(length);
        }
        1 => {
            let bad: Vec<u8> = match rng.below(5) {
                0 => vec![rng.range(4, 255) as u8],
                1 => vec![1, rng.range(0x19, 255) as u8, 0, 0],
                2 => vec![2, 0, 0, rng.word() as u8 | 1, 0, 0],
                3 => vec![2, rng.below(2) as u8, rng.range(0x80, 255) as u8, 0, 0, 0],
                _ => vec![3, 0x0C | rng.word() as u8],
            };
            let n = rng.below(all.len() + 1);
            all.insert(n, bad);
            bytes = all.concat();
            bytes.push(0);
            if rng.once_in(3) {
                let length = rng.below(bytes.len());
                bytes.truncate(length);
            }
        }
        2 => {
            for _ in 0..rng.range(1, 3) {
                let n = rng.below(bytes.len());
                bytes[n] ^= 1 << rng.below(8);
            }
        }
        _ => {}
    }
    bytes
}
