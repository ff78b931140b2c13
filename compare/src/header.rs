//! The calls of include/thagaduvin.h, each said once: its name and what it is lent. In C a slice is a pointer and a count.

/// Hands all calls to the macro of a side: `library` makes them, `console` answers them. A call whose name begins with `flat`
/// has the fields of a record, or of a pair, one by one.
#[macro_export]
macro_rules! header {
    ($side:ident) => {
        $side! {
            sheet thagaduvin_sheet(settings: &[u32], answer: &mut [u32]);
            start thagaduvin_start(
                settings: &[u32], memory: &[u16], latch: u16, state: &mut [u32], list: &mut [u32], answer: &mut [u32]
            );
            row thagaduvin_row(
                settings: &[u32], memory: &[u16], state: &mut [u32], cells: &mut [u32], list: &mut [u32], answer: &mut [u32]
            );
            effect thagaduvin_effect(settings: &[u32], memory: &[u16], state: &mut [u32], effect: &mut [u32]);
            join thagaduvin_join(first: &[u32], second: &[u32], joined: &mut [u32]);
            apply thagaduvin_apply(effect: &[u32], latch: u16, answer: &mut [u32]);
            latch thagaduvin_latch(latch: u16, state: &[u32], answer: &mut [u32]);
            flat_shift thagaduvin_shift(
                settings: &[u32], memory: &[u16], soft_first: u16, soft_second: u16, scroll: &mut [u32], answer: &mut [u32]
            );
            flat_beside thagaduvin_beside(
                settings: &[u32], memory: &[u16], shift: i32, soft_first: u16, soft_second: u16, latch: u16, state: &[u32],
                cells: &mut [u32], list: &mut [u32], answer: &mut [u32]
            );
            line thagaduvin_line(shift: i32, above: u32, heights: &[u32], rows: usize, y: u32, answer: &mut [u32]);
            flat_shown thagaduvin_shown(
                still: &[u32], still_first: u32, still_last: u32, gliding: &[u32], gliding_first: u32, gliding_last: u32,
                behind: &[u32], cells: &mut [u32]
            );
            flat_write_word thagaduvin_write_word(
                memory: &mut [u16], own_first: u32, own_last: u32, other_first: u32, other_last: u32, address: u32, word: u16
            );
            mend thagaduvin_mend(settings: &mut [u32], memory: &mut [u16], latch: u16, answer: &mut [u32]);
            convert thagaduvin_convert(
                settings: &mut [u32], memory: &mut [u16], marks: &mut [u8], latch: u16, answer: &mut [u32]
            );
            flat_bus thagaduvin_bus(
                burst: u16, words: u32, screen: u32, row: u32, totals: &mut [u64], answer: &mut [u64]
            );
            write_mail thagaduvin_write_mail(settings: &[u32], cells: &[u32], text: &mut [u8], answer: &mut [u32]);
            read_mail thagaduvin_read_mail(text: &[u8], cells: &mut [u16], answer: &mut [u32]);
        }
    };
}
