//! The calls of include/thagaduvin.h as the proved library has them. All are inlined into their
//! callers, so that only a program that calls one needs the library when it is linked.

use crate::bus::Used;
use crate::desks::Spans;
use crate::header;
use crate::host::{window_columns, Beside};
use crate::picture::Layer;

/// A function for each call, which declares it and makes it. What the function is lent is gone through one by one: on the left
/// what C declares for it, on the right what is handed over.
macro_rules! library {
    ($($call:ident $symbol:ident($($lent:tt)*);)*) => {
        $(library! { $call $symbol($($lent)*) [] [] $($lent)*, })*
    };
    ($call:ident $symbol:ident $all:tt [$($c:tt)*] [$($given:tt)*] $name:ident: &mut [$t:ty], $($rest:tt)*) => {
        library! {
            $call $symbol $all [$($c)* _: *mut $t, _: usize,] [$($given)* $name.as_mut_ptr(), $name.len(),] $($rest)*
        }
    };
    ($call:ident $symbol:ident $all:tt [$($c:tt)*] [$($given:tt)*] $name:ident: &[$t:ty], $($rest:tt)*) => {
        library! {
            $call $symbol $all [$($c)* _: *const $t, _: usize,] [$($given)* $name.as_ptr(), $name.len(),] $($rest)*
        }
    };
    ($call:ident $symbol:ident $all:tt [$($c:tt)*] [$($given:tt)*] $name:ident: $t:ty, $($rest:tt)*) => {
        library! { $call $symbol $all [$($c)* _: $t,] [$($given)* $name,] $($rest)* }
    };
    ($call:ident $symbol:ident($($lent:tt)*) [$($c:tt)*] [$($given:tt)*]) => {
        #[inline]
        #[allow(clippy::too_many_arguments)]
        pub fn $call($($lent)*) -> u8 {
            extern "C" {
                fn $symbol($($c)*) -> u8;
            }
            unsafe { $symbol($($given)*) }
        }
    };
}

header!(library);

#[inline]
pub fn shift(
    settings: &[u32],
    memory: &[u16],
    [first, second]: [u16; 2],
    scroll: &mut [u32],
    answer: &mut [u32],
) -> u8 {
    flat_shift(settings, memory, first, second, scroll, answer)
}

#[inline]
pub fn beside(
    settings: &[u32],
    memory: &[u16],
    from: &Beside,
    cells: &mut [u32],
    list: &mut [u32],
    answer: &mut [u32],
) -> u8 {
    let Beside {
        shift,
        soft: [first, second],
        latch,
        state,
    } = *from;
    flat_beside(
        settings, memory, shift, first, second, latch, state, cells, list, answer,
    )
}

#[inline]
pub fn shown(still: &Layer, gliding: &Layer, behind: &[u32], cells: &mut [u32]) -> u8 {
    let [still_first, still_last] = window_columns(still);
    let [first, last] = window_columns(gliding);
    flat_shown(
        still.cells,
        still_first,
        still_last,
        gliding.cells,
        first,
        last,
        behind,
        cells,
    )
}

#[inline]
pub fn write_word(memory: &mut [u16], spans: &Spans, address: u32, word: u16) -> u8 {
    let Spans { own, other } = spans;
    flat_write_word(
        memory,
        own.first,
        own.last,
        other.first,
        other.last,
        address,
        word,
    )
}

#[inline]
pub fn bus(burst: u16, used: &Used, totals: &mut [u64], answer: &mut [u64]) -> u8 {
    flat_bus(burst, used.words, used.screen, used.row, totals, answer)
}
