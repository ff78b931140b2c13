//! Mending damaged lists: at each refusal of a frame one pointer is set to 0, and the frame is drawn again.

use crate::rules::{begin, drawn, step, Blame, Refusal, Settings, CELLS};
use crate::trail::Trail;

/// Where a pointer stands.
#[derive(Clone, Copy, Debug, PartialEq, Eq)]
pub enum Place {
    /// In the hard top of window.
    Tow,
    /// In memory, from an address on.
    At(u32),
}

/// A pointer that was set to 0: where it stands, its words, and the refusal that it was blamed for.
#[derive(Clone, Copy, Debug, PartialEq, Eq)]
pub struct Change {
    pub place: Place,
    pub words: [u16; 2],
    pub refusal: Refusal,
}

impl Change {
    /// The address to print: 0 for a register.
    pub fn address(&self) -> u32 {
        match self.place {
            Place::Tow => 0,
            Place::At(address) => address,
        }
    }
}

/// Draws a frame from a latch. Where it is refused, sets the pointer to blame to 0 and says which. Nothing is changed where the
/// frame is drawn to its end, nor where it is refused with nobody to blame: that refusal is given.
pub fn mend(
    settings: &mut Settings,
    memory: &mut [u16],
    latch: u16,
) -> Result<Option<Change>, Refusal> {
    let Some((place, refusal)) = damage(settings, memory, latch)? else {
        return Ok(None);
    };
    let words = match place {
        Place::Tow => std::mem::take(&mut settings.tow),
        Place::At(first) => {
            [first, step(first)].map(|address| std::mem::take(&mut memory[address as usize / 2]))
        }
    };
    Ok(Some(Change {
        place,
        words,
        refusal,
    }))
}

/// The pointer to blame for a frame's refusal, if it has one.
fn damage(
    settings: &Settings,
    memory: &[u16],
    latch: u16,
) -> Result<Option<(Place, Refusal)>, Refusal> {
    let mut state = match begin(settings, memory, latch, &mut Trail::new()) {
        Ok(start) => start.state,
        Err(stop) => {
            let refusal = stop.at_row(0);
            return match stop.blame {
                Blame::Nobody => Err(refusal),
                _ => Ok(Some((Place::Tow, refusal))),
            };
        }
    };
    // The pointer that led to the window in hand: no state has it.
    let mut led = Place::Tow;
    let mut cells = [0; CELLS];
    while state.fields.lines_left > 0 {
        let row = state.fields.row;
        if let Some(window) = &state.fields.window {
            if row > window.last_row {
                led = Place::At(window.next_block.from);
            }
        }
        if let Err(stop) = drawn(settings, memory, &mut state, &mut cells, &mut Trail::new()) {
            let refusal = stop.at_row(row);
            return match stop.blame {
                Blame::Nobody => Err(refusal),
                Blame::Pointer => Ok(Some((Place::At(stop.from), refusal))),
                Blame::Window => Ok(Some((led, refusal))),
            };
        }
    }
    Ok(None)
}
