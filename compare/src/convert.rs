//! The converter, from segmented memory to linear: the frame is drawn call by call in the plain form, which notes each word that it
//! wants and what for. The notes are judged, and in the end the pointers among them are turned.

use crate::plain::{self, refuse, Drawn, Notes, Role, Wanted};
use crate::rules::{Refusal, Row, Settings, State};

/// The last word of a page.
const LAST: u32 = 0xFFFE;

/// Turns the pointers that a frame from a latch reads, and TOP and TOW, into linear form. Gives how many of them changed. A
/// refusal leaves settings and memory.
pub fn convert(
    settings: &mut Settings,
    memory: &mut [u16],
    marks: &mut [u8],
    latch: u16,
) -> Result<u32, Refusal> {
    if marks.len() != memory.len() {
        return refuse(22, 0, 0);
    }
    if !plain::good(settings) {
        return refuse(2, 0, 0);
    }
    if settings.linear {
        return refuse(26, 0, 0);
    }
    marks.fill(0);
    follow(settings, memory, latch, |row, notes, _| {
        judge(&notes.wanted, row, marks)
    })?;
    let mut changed = turn(&mut settings.top[0]) + turn(&mut settings.tow[0]);
    for (word, mark) in memory.iter_mut().zip(marks) {
        if *mark == mark_of(Role::First) {
            changed += turn(word);
        }
    }
    settings.linear = true;
    Ok(changed)
}

/// A frame of good settings, its start and then its rows, each handed on with its row's number, what it met and, unless it is
/// refused or the start, what it drew. Gives the state at its end.
fn follow(
    settings: &Settings,
    memory: &[u16],
    latch: u16,
    mut each: impl FnMut(u32, &Notes, Option<&Drawn>) -> Result<(), Refusal>,
) -> Result<State, Refusal> {
    let mut notes = Notes::default();
    let begun = plain::begin(settings, memory, latch, &mut notes);
    each(0, &notes, None)?;
    let mut state = begun?;
    while state.fields.lines_left > 0 {
        let mut notes = Notes::default();
        let drawn = plain::draw(settings, memory, &state, &mut notes);
        each(state.fields.row, &notes, drawn.as_ref().ok())?;
        state = drawn?.next;
    }
    Ok(state)
}

/// 18 and 19 among the words of a call, the first that is met, and the marks of those before it.
fn judge(wanted: &[Wanted], row: u32, marks: &mut [u8]) -> Result<(), Refusal> {
    for word in wanted {
        match word.after {
            Some(last) if last & 0xFFFF == LAST => return refuse(18, row, last),
            _ => {}
        }
        // A word that is missing is the last one: the drawing refuses it.
        let Some(mark) = marks.get_mut(word.address as usize / 2) else {
            break;
        };
        let role = mark_of(word.role);
        if *mark != 0 && *mark != role {
            return refuse(19, row, word.address);
        }
        *mark = role;
    }
    Ok(())
}

fn mark_of(role: Role) -> u8 {
    match role {
        Role::First => 1,
        Role::Second => 2,
        Role::Other => 3,
    }
}

/// Puts the page of a pointer's first word into its low byte. Gives 1 if that changes the word.
pub fn turn(word: &mut u16) -> u32 {
    let [high, _] = word.to_be_bytes();
    let turned = u16::from(high & 0x7F);
    u32::from(std::mem::replace(word, turned) != turned)
}

/// A frame drawn in the plain form.
#[derive(Debug, PartialEq)]
pub struct Screen {
    /// The rows' answers and cells.
    pub rows: Vec<(Row, Vec<u32>)>,
    /// The addresses of all words read, the start's first.
    pub read: Vec<u32>,
    /// The state at its end, or its refusal.
    pub ended: Result<State, Refusal>,
}

/// Draws a frame of good settings, segmented or linear.
pub fn screen(settings: &Settings, memory: &[u16], latch: u16) -> Screen {
    let (mut rows, mut read) = (Vec::new(), Vec::new());
    let ended = follow(settings, memory, latch, |_, notes, drawn| {
        read.extend(&notes.read);
        rows.extend(drawn.map(|drawn| (drawn.answer, drawn.cells.clone())));
        Ok(())
    });
    Screen { rows, read, ended }
}
