//! Two desks on one memory: the writer call.

/// Addresses from the first to the last, both included; none where the first is above the last.
#[derive(Clone, Copy, Debug, PartialEq, Eq)]
pub struct Span {
    pub first: u32,
    pub last: u32,
}

impl Span {
    pub fn holds(&self, address: u32) -> bool {
        self.first <= address && address <= self.last
    }

    /// Whether an address is in both.
    pub fn shares(&self, other: &Span) -> bool {
        self.first.max(other.first) <= self.last.min(other.last)
    }
}

/// The two spans of a writer call.
#[derive(Clone, Copy, Debug)]
pub struct Spans {
    /// Of the desk that writes.
    pub own: Span,
    pub other: Span,
}

/// Writes a word, or gives the number of the refusal, 16 before 15: nothing is then written.
pub fn write(memory: &mut [u16], spans: &Spans, address: u32, word: u16) -> Result<(), u8> {
    if spans.own.shares(&spans.other) {
        return Err(16);
    }
    if address & 1 == 1 || !spans.own.holds(address) {
        return Err(15);
    }
    let place = memory.get_mut(address as usize / 2).ok_or(15)?;
    *place = word;
    Ok(())
}
