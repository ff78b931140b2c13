//! The calls of include/thagaduvin.h by this implementation, for a console in C. The header says what
//! the slices are; a caller keeps to it, so each pointer with its count is a slice.

use compare::header;
use std::slice::{from_raw_parts, from_raw_parts_mut};

/// A function in C for each call. What it is lent is gone through one by one: on the left what C declares for it, on the right
/// what is handed on. A `count` is that of its own slice.
macro_rules! console {
    ($($call:ident $symbol:ident($($lent:tt)*);)*) => {
        $(console! { $call $symbol [] [] $($lent)*, })*
    };
    ($call:ident $symbol:ident [$($c:tt)*] [$($given:tt)*] $name:ident: &mut [$t:ty], $($rest:tt)*) => {
        console! {
            $call $symbol [$($c)* $name: *mut $t, count: usize,] [$($given)* from_raw_parts_mut($name, count),] $($rest)*
        }
    };
    ($call:ident $symbol:ident [$($c:tt)*] [$($given:tt)*] $name:ident: &[$t:ty], $($rest:tt)*) => {
        console! {
            $call $symbol [$($c)* $name: *const $t, count: usize,] [$($given)* from_raw_parts($name, count),] $($rest)*
        }
    };
    ($call:ident $symbol:ident [$($c:tt)*] [$($given:tt)*] $name:ident: $t:ty, $($rest:tt)*) => {
        console! { $call $symbol [$($c)* $name: $t,] [$($given)* $name,] $($rest)* }
    };
    ($call:ident $symbol:ident [$($c:tt)*] [$($given:tt)*]) => {
        #[no_mangle]
        unsafe extern "C" fn $symbol($($c)*) -> u8 {
            calls::$call($($given)*)
        }
    };
}

header!(console);

/// What answers each call.
mod calls {
    pub use compare::host::{
        apply, convert, effect, join, latch, line, mend, read_mail, row, sheet, start, write_mail,
    };

    use compare::bus::Used;
    use compare::desks::{Span, Spans};
    use compare::host::{self, Beside};

    pub fn flat_shift(
        settings: &[u32],
        memory: &[u16],
        soft_first: u16,
        soft_second: u16,
        scroll: &mut [u32],
        answer: &mut [u32],
    ) -> u8 {
        host::shift(settings, memory, [soft_first, soft_second], scroll, answer)
    }

    #[allow(clippy::too_many_arguments)]
    pub fn flat_beside(
        settings: &[u32],
        memory: &[u16],
        shift: i32,
        soft_first: u16,
        soft_second: u16,
        latch: u16,
        state: &[u32],
        cells: &mut [u32],
        list: &mut [u32],
        answer: &mut [u32],
    ) -> u8 {
        let from = Beside {
            shift,
            soft: [soft_first, soft_second],
            latch,
            state,
        };
        host::beside(settings, memory, &from, cells, list, answer)
    }

    #[allow(clippy::too_many_arguments)]
    pub fn flat_shown(
        still: &[u32],
        still_first: u32,
        still_last: u32,
        gliding: &[u32],
        gliding_first: u32,
        gliding_last: u32,
        behind: &[u32],
        cells: &mut [u32],
    ) -> u8 {
        let still = host::layer(still, still_first, still_last);
        let gliding = host::layer(gliding, gliding_first, gliding_last);
        host::shown(&still, &gliding, behind, cells)
    }

    pub fn flat_write_word(
        memory: &mut [u16],
        own_first: u32,
        own_last: u32,
        other_first: u32,
        other_last: u32,
        address: u32,
        word: u16,
    ) -> u8 {
        let span = |first, last| Span { first, last };
        let spans = Spans {
            own: span(own_first, own_last),
            other: span(other_first, other_last),
        };
        host::write_word(memory, &spans, address, word)
    }

    pub fn flat_bus(
        burst: u16,
        words: u32,
        screen: u32,
        row: u32,
        totals: &mut [u64],
        answer: &mut [u64],
    ) -> u8 {
        host::bus(burst, &Used { words, screen, row }, totals, answer)
    }
}
