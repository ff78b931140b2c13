//! Each call made on both sides, compared and counted.

use crate::convert::Converted;
use crate::desks::{Desks, Shared, Whole};
use crate::lent::{Differs, Lent, List, Marks};
use crate::mend::Mended;
use crate::panel::Pictures;
use compare::bus::Used;
use compare::desks::Spans;
use compare::host::{Beside, PART, PREFIX, ROW_WORDS};
use compare::picture::Layer;
use compare::{host, library};
use std::fmt::{self, Debug, Formatter};

/// What differed, in words.
pub struct Difference(pub String);

pub type Checked<T> = Result<T, Difference>;

/// The lines of the table.
const LINES: [&str; 20] = [
    "sheet",
    "start",
    "row",
    "effect",
    "its part, ignore clear",
    "its part, ignore set",
    "join",
    "apply",
    "latch",
    "shift",
    "row beside the cut",
    "bus",
    "writer of mail",
    "reader of mail",
    "writer of a word",
    "mending",
    "converter",
    "line",
    "shown",
    "all",
];

/// The statuses of the table: the refusals that these calls can give, 5 to show that none does, and 255.
const STATUSES: [u8; 28] = [
    0, 1, 2, 3, 4, 5, 6, 7, 8, 9, 10, 11, 12, 13, 14, 15, 16, 17, 18, 19, 20, 21, 22, 23, 24, 25,
    26, 255,
];

/// Calls by line and status; any other status is counted with 255.
#[derive(Default)]
pub struct Tally {
    counts: [[u64; STATUSES.len()]; LINES.len()],
    /// Effects whose two parts differ.
    parted: u64,
    /// Accepted starts from a latch that is not 0.
    latched: u64,
    /// Sheets of the second edition, and those of them refused that the first one accepts.
    second: u64,
    second_refused: u64,
    pub in_turn: InTurn,
    pub scrolls: Scrolls,
    pub pictures: Pictures,
    pub desks: Desks,
    pub mended: Mended,
    pub converted: Converted,
}

/// Counts of frames drawn in turn.
#[derive(Default)]
pub struct InTurn {
    frames: u64,
    /// Started from a latch that is not 0.
    latched: u64,
    /// That handed on another latch than they were started with.
    changed: u64,
    pub refused_starts: u64,
    refused_rows: u64,
    /// A row refused after rows that changed the latch.
    dropped: u64,
    pub left: u64,
}

impl InTurn {
    pub fn count(&mut self, latch: u16, handed_on: u16) {
        self.frames += 1;
        self.latched += u64::from(latch != 0);
        self.changed += u64::from(handed_on != latch);
    }

    pub fn refused_row(&mut self, latch: u16, reached: u16) {
        self.refused_rows += 1;
        self.dropped += u64::from(reached != latch);
    }

    fn print(&self) {
        println!(
            "{} frames in turn: {} from a latch not 0, {} handed on another one; {} refused at the start, {} \
             at a row, {} of these after rows that changed the latch; {} left",
            self.frames,
            self.latched,
            self.changed,
            self.refused_starts,
            self.refused_rows,
            self.dropped,
            self.left
        );
    }
}

/// Counts of shift calls and of rows beside the cut.
#[derive(Default)]
pub struct Scrolls {
    calls: u64,
    accepted: u64,
    /// Accepted ones that give a shift up, and down.
    shifted: [u64; 2],
    /// Accepted ones that give another hard top.
    ended: u64,
    /// Accepted ones that turned from a shift that was not 0.
    turned: u64,
    /// Rows beside the cut, up and down, and those refused.
    beside: [u64; 2],
    refused: [u64; 2],
    /// Calls without a row.
    no_row: u64,
}

impl Scrolls {
    /// A call that fits, with the scroll and top that it was given and, if accepted, those that it gave.
    pub fn count(&mut self, last: &[u32], top: &[u32], given: Option<(&[u32], &[u32])>) {
        self.calls += 1;
        if let Some((scroll, hard)) = given {
            self.accepted += 1;
            self.ended += u64::from(hard != top);
            self.turned += u64::from(last[0] != 0 && last[2] != scroll[2]);
            if scroll[0] != 0 {
                self.shifted[usize::from((scroll[0] as i32) < 0)] += 1;
            }
        }
    }

    fn count_beside(&mut self, shift: i32, status: u8) {
        let way = usize::from(shift < 0);
        match (shift, status) {
            (_, host::UNFIT) => {}
            (0, _) => self.no_row += 1,
            (_, 0) => self.beside[way] += 1,
            _ => self.refused[way] += 1,
        }
    }

    fn print(&self) {
        println!(
            "{} shift calls: {} accepted, {} with a shift up, {} down; {} scrolls ended at another top, {} turned",
            self.calls,
            self.accepted,
            self.shifted[0],
            self.shifted[1],
            self.ended,
            self.turned
        );
        println!(
            "rows beside the cut: up {}, refused {}; down {}, refused {}; {} calls without a row",
            self.beside[0], self.refused[0], self.beside[1], self.refused[1], self.no_row
        );
    }
}

impl Tally {
    fn count(&mut self, line: usize, status: u32) {
        let found = STATUSES.iter().position(|&s| u32::from(s) == status);
        self.counts[line][found.unwrap_or(STATUSES.len() - 1)] += 1;
    }

    fn count_call(&mut self, line: usize, status: u8) {
        self.count(line, status.into());
        self.count(LINES.len() - 1, status.into());
    }

    fn count_edition(&mut self, settings: &[u32], status: u8) {
        if let &[ref others @ .., 1] = settings {
            self.second += 1;
            let first = [others, &[0]].concat();
            let accepted = || host::sheet(&first, &mut [0; host::SHEET_ANSWER]) == 0;
            self.second_refused += u64::from(status == 2 && accepted());
        }
    }

    fn count_parts(&mut self, effect: &[u32]) {
        let (clear, set) = effect.split_at(PART);
        self.count(4, clear[0]);
        self.count(5, set[0]);
        self.parted += u64::from(clear != set);
    }

    /// A table of counts in markdown, and sums.
    pub fn print(&self) {
        println!(
            "| status | {} |",
            STATUSES.map(|s| s.to_string()).join(" | ")
        );
        println!("|---|{}", "---|".repeat(STATUSES.len()));
        for (line, counts) in LINES.iter().zip(&self.counts) {
            let counts: Vec<String> = counts.iter().map(u64::to_string).collect();
            println!("| {line} | {} |", counts.join(" | "));
        }
        let calls: u64 = self.counts[LINES.len() - 1].iter().sum();
        println!(
            "{calls} calls; {} effects with two parts that differ; {} accepted starts from a latch not 0",
            self.parted, self.latched
        );
        println!(
            "{} sheets of the second edition, {} of these refused that the first one accepts",
            self.second, self.second_refused
        );
        self.in_turn.print();
        self.scrolls.print();
        self.pictures.print();
        self.desks.print();
        self.mended.print();
        self.converted.print();
    }
}

/// The slices that calls write, and the counts of calls.
pub struct Calls {
    pub tally: Tally,
    pub settings: Lent,
    pub state: Lent,
    pub cells: Lent,
    pub list: List,
    pub answer: Lent,
    pub effect: Lent,
    pub scroll: Lent,
    pub totals: Lent<u64>,
    pub taken: Lent<u64>,
    pub text: Lent<u8>,
    pub mail: Lent<u16>,
}

/// A text as it stands in a difference.
pub struct Bytes<'t>(pub &'t [u8]);

impl Debug for Bytes<'_> {
    fn fmt(&self, to: &mut Formatter) -> fmt::Result {
        write!(to, "{}", self.0.escape_ascii())
    }
}

/// Compares what a call left. `given` are its name and what it was given, for a difference.
fn compare(statuses: [u8; 2], lent: &[&dyn Differs], given: &dyn Debug) -> Checked<u8> {
    let [ours, theirs] = statuses;
    let found = if ours == theirs {
        lent.iter().find_map(|lent| lent.difference())
    } else {
        Some(format!("status: here {ours}, library {theirs}"))
    };
    match found {
        None => Ok(ours),
        Some(found) => Err(Difference(format!("{found}\nin the call {given:?}"))),
    }
}

impl Calls {
    pub fn new() -> Calls {
        Calls {
            tally: Tally::default(),
            settings: Lent::new("settings"),
            state: Lent::new("state"),
            cells: Lent::new("cells"),
            list: List::new(),
            answer: Lent::new("answer"),
            effect: Lent::new("effect"),
            scroll: Lent::new("scroll"),
            totals: Lent::new("totals"),
            taken: Lent::new("answer of the bus"),
            text: Lent::new("text"),
            mail: Lent::new("cells of the text"),
        }
    }

    pub fn sheet(&mut self, settings: &[u32], answers: usize) -> Checked<u8> {
        let answer = &mut self.answer;
        answer.mark(answers);
        let statuses = [
            host::sheet(settings, answer.ours()),
            library::sheet(settings, answer.theirs()),
        ];
        self.tally.count_call(0, statuses[0]);
        self.tally.count_edition(settings, statuses[0]);
        compare(statuses, &[answer], &("sheet", settings))
    }

    pub fn start(
        &mut self,
        settings: &[u32],
        memory: &[u16],
        latch: u16,
        states: usize,
        places: usize,
        answers: usize,
    ) -> Checked<u8> {
        let given = ("start", settings, memory.len(), latch, places);
        let (state, list, answer) = (&mut self.state, &mut self.list, &mut self.answer);
        state.mark(states);
        list.lend(places);
        answer.mark(answers);
        let ours = host::start(
            settings,
            memory,
            latch,
            state.ours(),
            list.ours(),
            answer.ours(),
        );
        let theirs = library::start(
            settings,
            memory,
            latch,
            state.theirs(),
            list.theirs(),
            answer.theirs(),
        );
        if ours == 0 {
            list.wrote(answer.ours()[PREFIX]);
        }
        self.tally.count_call(1, ours);
        self.tally.latched += u64::from(ours == 0 && latch != 0);
        compare([ours, theirs], &[state, list, answer], &given)
    }

    pub fn row(
        &mut self,
        settings: &[u32],
        memory: &[u16],
        from: &[u32],
        cells: usize,
        places: usize,
        answers: usize,
    ) -> Checked<u8> {
        let given = ("row", settings, memory.len(), from, cells, places, answers);
        self.cells.mark(cells);
        let (state, cells, answer) = (&mut self.state, &mut self.cells, &mut self.answer);
        let list = &mut self.list;
        state.put(from);
        list.lend(places);
        answer.mark(answers);
        let ours = host::row(
            settings,
            memory,
            state.ours(),
            cells.ours(),
            list.ours(),
            answer.ours(),
        );
        let theirs = library::row(
            settings,
            memory,
            state.theirs(),
            cells.theirs(),
            list.theirs(),
            answer.theirs(),
        );
        if ours == 0 {
            list.wrote(answer.ours()[ROW_WORDS]);
        }
        self.tally.count_call(2, ours);
        compare([ours, theirs], &[state, cells, list, answer], &given)
    }

    pub fn effect(
        &mut self,
        settings: &[u32],
        memory: &[u16],
        from: &[u32],
        effects: usize,
    ) -> Checked<u8> {
        let (state, effect) = (&mut self.state, &mut self.effect);
        state.put(from);
        effect.mark(effects);
        let statuses = [
            host::effect(settings, memory, state.ours(), effect.ours()),
            library::effect(settings, memory, state.theirs(), effect.theirs()),
        ];
        self.tally.count_call(3, statuses[0]);
        if statuses[0] == 0 {
            self.tally.count_parts(effect.ours());
        }
        compare(statuses, &[state, effect], &("effect", settings, from))
    }

    pub fn join(&mut self, first: &[u32], second: &[u32], effects: usize) -> Checked<u8> {
        let effect = &mut self.effect;
        effect.mark(effects);
        let statuses = [
            host::join(first, second, effect.ours()),
            library::join(first, second, effect.theirs()),
        ];
        self.tally.count_call(6, statuses[0]);
        compare(statuses, &[effect], &("join", first, second))
    }

    pub fn apply(&mut self, effect: &[u32], latch: u16, answers: usize) -> Checked<u8> {
        let answer = &mut self.answer;
        answer.mark(answers);
        let statuses = [
            host::apply(effect, latch, answer.ours()),
            library::apply(effect, latch, answer.theirs()),
        ];
        self.tally.count_call(7, statuses[0]);
        compare(statuses, &[answer], &("apply", effect, latch))
    }

    pub fn latch(&mut self, latch: u16, state: &[u32], answers: usize) -> Checked<u8> {
        let answer = &mut self.answer;
        answer.mark(answers);
        let statuses = [
            host::latch(latch, state, answer.ours()),
            library::latch(latch, state, answer.theirs()),
        ];
        self.tally.count_call(8, statuses[0]);
        compare(statuses, &[answer], &("latch", latch, state))
    }

    pub fn shift(
        &mut self,
        settings: &[u32],
        memory: &[u16],
        soft: [u16; 2],
        last: &[u32],
        answers: usize,
    ) -> Checked<u8> {
        let given = ("shift", settings, memory.len(), soft, last);
        let (scroll, answer) = (&mut self.scroll, &mut self.answer);
        scroll.put(last);
        answer.mark(answers);
        let statuses = [
            host::shift(settings, memory, soft, scroll.ours(), answer.ours()),
            library::shift(settings, memory, soft, scroll.theirs(), answer.theirs()),
        ];
        self.tally.count_call(9, statuses[0]);
        if statuses[0] != host::UNFIT {
            let given = (statuses[0] == 0).then(|| (&*scroll.ours(), &answer.ours()[PREFIX..]));
            self.tally.scrolls.count(last, &settings[5..7], given);
        }
        compare(statuses, &[scroll, answer], &given)
    }

    pub fn beside(
        &mut self,
        settings: &[u32],
        memory: &[u16],
        from: &Beside,
        cells: usize,
        places: usize,
        answers: usize,
    ) -> Checked<u8> {
        let given = (
            "beside",
            settings,
            memory.len(),
            from,
            cells,
            places,
            answers,
        );
        self.cells.mark(cells);
        let (state, cells, answer) = (&mut self.state, &mut self.cells, &mut self.answer);
        let list = &mut self.list;
        state.put(from.state);
        list.lend(places);
        answer.mark(answers);
        let ours = Beside {
            state: state.ours(),
            ..*from
        };
        let ours = host::beside(
            settings,
            memory,
            &ours,
            cells.ours(),
            list.ours(),
            answer.ours(),
        );
        let theirs = Beside {
            state: state.theirs(),
            ..*from
        };
        let theirs = library::beside(
            settings,
            memory,
            &theirs,
            cells.theirs(),
            list.theirs(),
            answer.theirs(),
        );
        if ours == 0 {
            list.wrote(answer.ours()[ROW_WORDS]);
        }
        self.tally.count_call(10, ours);
        self.tally.scrolls.count_beside(from.shift, ours);
        compare([ours, theirs], &[state, cells, list, answer], &given)
    }

    pub fn line(
        &mut self,
        shift: i32,
        above: u32,
        heights: &[u32],
        rows: usize,
        y: u32,
        answers: usize,
    ) -> Checked<u8> {
        let answer = &mut self.answer;
        answer.mark(answers);
        let statuses = [
            host::line(shift, above, heights, rows, y, answer.ours()),
            library::line(shift, above, heights, rows, y, answer.theirs()),
        ];
        self.tally.count_call(17, statuses[0]);
        let given = ("line", shift, above, heights, rows, y, answers);
        compare(statuses, &[answer], &given)
    }

    pub fn shown(
        &mut self,
        still: &Layer,
        gliding: &Layer,
        behind: &[u32],
        count: usize,
    ) -> Checked<u8> {
        let cells = &mut self.cells;
        cells.mark(count);
        let statuses = [
            host::shown(still, gliding, behind, cells.ours()),
            library::shown(still, gliding, behind, cells.theirs()),
        ];
        self.tally.count_call(18, statuses[0]);
        let given = ("shown", still, gliding, behind, count);
        compare(statuses, &[cells], &given)
    }

    pub fn write_word(
        &mut self,
        memory: &mut Shared,
        spans: &Spans,
        address: u32,
        word: u16,
    ) -> Checked<u8> {
        let statuses = [
            host::write_word(&mut memory.ours, spans, address, word),
            library::write_word(&mut memory.theirs, spans, address, word),
        ];
        self.tally.count_call(14, statuses[0]);
        memory.near = address as usize / 2;
        compare(statuses, &[memory], &("write_word", spans, address, word))
    }

    /// One step of mending, of settings and memory that it may change.
    pub fn mend(
        &mut self,
        from: &[u32],
        memory: &mut Shared,
        latch: u16,
        answers: usize,
    ) -> Checked<u8> {
        let (settings, answer) = (&mut self.settings, &mut self.answer);
        settings.put(from);
        answer.mark(answers);
        let statuses = [
            host::mend(settings.ours(), &mut memory.ours, latch, answer.ours()),
            library::mend(
                settings.theirs(),
                &mut memory.theirs,
                latch,
                answer.theirs(),
            ),
        ];
        self.tally.count_call(15, statuses[0]);
        let given = ("mend", from, memory.ours.len(), latch, answers);
        compare(statuses, &[settings, answer, &Whole(memory)], &given)
    }

    /// A conversion of settings and memory that it may change.
    pub fn convert(
        &mut self,
        from: &[u32],
        memory: &mut Shared,
        marks: &mut Marks,
        latch: u16,
        answers: usize,
    ) -> Checked<u8> {
        let (settings, answer) = (&mut self.settings, &mut self.answer);
        settings.put(from);
        answer.mark(answers);
        let statuses = [
            host::convert(
                settings.ours(),
                &mut memory.ours,
                marks.ours(),
                latch,
                answer.ours(),
            ),
            library::convert(
                settings.theirs(),
                &mut memory.theirs,
                marks.theirs(),
                latch,
                answer.theirs(),
            ),
        ];
        self.tally.count_call(16, statuses[0]);
        let given = ("convert", from, memory.ours.len(), latch, answers);
        let memory = Whole(memory);
        compare(statuses, &[settings, &memory, marks, answer], &given)
    }

    pub fn bus(&mut self, burst: u16, used: &Used, from: &[u64], answers: usize) -> Checked<u8> {
        let (totals, answer) = (&mut self.totals, &mut self.taken);
        totals.put(from);
        answer.mark(answers);
        let statuses = [
            host::bus(burst, used, totals.ours(), answer.ours()),
            library::bus(burst, used, totals.theirs(), answer.theirs()),
        ];
        self.tally.count_call(11, statuses[0]);
        compare(statuses, &[totals, answer], &("bus", burst, used, from))
    }

    pub fn write_mail(
        &mut self,
        settings: &[u32],
        cells: &[u32],
        bytes: usize,
        answers: usize,
    ) -> Checked<u8> {
        let (text, answer) = (&mut self.text, &mut self.answer);
        text.mark(bytes);
        answer.mark(answers);
        let statuses = [
            host::write_mail(settings, cells, text.ours(), answer.ours()),
            library::write_mail(settings, cells, text.theirs(), answer.theirs()),
        ];
        self.tally.count_call(12, statuses[0]);
        let given = ("write_mail", settings, cells, bytes, answers);
        compare(statuses, &[text, answer], &given)
    }

    pub fn read_mail(&mut self, text: &[u8], cells: usize, answers: usize) -> Checked<u8> {
        let (mail, answer) = (&mut self.mail, &mut self.answer);
        mail.mark(cells);
        answer.mark(answers);
        let statuses = [
            host::read_mail(text, mail.ours(), answer.ours()),
            library::read_mail(text, mail.theirs(), answer.theirs()),
        ];
        self.tally.count_call(13, statuses[0]);
        let given = ("read_mail", Bytes(text), cells, answers);
        compare(statuses, &[mail, answer], &given)
    }
}
