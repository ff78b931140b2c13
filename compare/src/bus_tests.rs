//! The bus report: each rule by itself, and random rows held against a bus that is followed word by word.

use crate::bus::{Largest, Taken, Totals, Used};
use crate::generate::Rng;
use crate::host::{self, totals_numbers, BUS_ANSWER, TOTALS, UNFIT};
use crate::script;
use crate::vectors;

fn used(words: u32, screen: u32, row: u32) -> Used {
    Used { words, screen, row }
}

/// One row's bursts and released time.
fn one(register: u16, words: u32) -> Result<(u64, u64), u8> {
    let taken = Totals::default().report(register, &used(words, 0, 0));
    taken
        .map(|t| (t.bursts, t.released))
        .map_err(|refusal| refusal.number)
}

/// A row word by word: a burst ends when it is full, and the bus is released before the next one.
fn by_words(space: u8, count: u8, words: u32) -> (u64, u64) {
    let (mut bursts, mut released, mut room) = (0, 0, 0);
    for _ in 0..words {
        let first = bursts == 0;
        if first || (room == 0 && space != 0) {
            if !first {
                released += 15 * u64::from(space);
            }
            bursts += 1;
            room = u32::from(count);
        }
        room = room.saturating_sub(1);
    }
    (bursts, released)
}

#[test]
fn one_row() {
    // Space 2, count 16.
    assert_eq!(one(0x0210, 0), Ok((0, 0)));
    assert_eq!(one(0x0210, 1), Ok((1, 0)));
    assert_eq!(one(0x0210, 16), Ok((1, 0)));
    assert_eq!(one(0x0210, 17), Ok((2, 30)));
    assert_eq!(one(0x0210, 48), Ok((3, 60)));
    assert_eq!(one(0x0210, 49), Ok((4, 90)));
    // A space of 0 keeps the bus.
    assert_eq!(one(0x0001, 0), Ok((0, 0)));
    assert_eq!(one(0x0001, 12_000), Ok((1, 0)));
    assert_eq!(one(0x00FF, u32::MAX), Ok((1, 0)));
    // A count of 0 is refused, whatever else.
    for register in [0x0000, 0x0100, 0xFF00] {
        for words in [0, 1, u32::MAX] {
            assert_eq!(one(register, words), Err(20));
        }
    }
    let bursts = u64::from(u32::MAX);
    let released = 15 * 255 * (bursts - 1);
    assert_eq!(one(0xFF01, u32::MAX), Ok((bursts, released)));
}

#[test]
fn every_register_by_words() {
    for space in 0..=255 {
        for count in 1..=255 {
            for words in [0, 1, 2, 137, 254, 255, 256, 511, 700] {
                let register = u16::from_be_bytes([space, count]);
                assert_eq!(one(register, words), Ok(by_words(space, count, words)));
            }
        }
    }
}

/// Sheet S with space 1 and count 4: the start's 7 words go with row 0.
#[test]
fn sheet_s() {
    let mut totals = Totals::default();
    let taken = |bursts, released| Ok(Taken { bursts, released });
    assert_eq!(totals.report(0x0104, &used(7 + 12, 0, 0)), taken(5, 60));
    assert_eq!(totals.report(0x0104, &used(3, 0, 1)), taken(1, 0));
    assert_eq!(totals_numbers(&totals), [22, 6, 60, 19, 0, 0, 1]);
}

#[test]
fn first_of_the_largest() {
    let mut totals = Totals::default();
    assert_eq!(totals_numbers(&totals), [0; TOTALS]);
    // A first row without a word is the largest so far.
    for (row, largest) in [
        (used(0, 5, 9), (0, 5, 9)),
        (used(0, 5, 10), (0, 5, 9)),
        (used(3, 6, 1), (3, 6, 1)),
        (used(2, 6, 2), (3, 6, 1)),
        (used(3, 6, 3), (3, 6, 1)),
        (used(4, 7, 0), (4, 7, 0)),
        (used(4, 7, 0xFFFF_FFFF), (4, 7, 0)),
    ] {
        totals.report(0x0101, &row).unwrap();
        let Some(Largest { words, screen, row }) = totals.largest else {
            panic!("none");
        };
        assert_eq!((words, screen, row), largest);
    }
}

#[test]
fn sums_that_do_not_fit() {
    let near = |place: usize, below: u64| {
        let mut numbers = [0; TOTALS];
        numbers[place] = u64::MAX - below;
        numbers
    };
    // 10 words in 5 bursts with 4 gaps of 15.
    for (place, added) in [(0, 10), (1, 5), (2, 60)] {
        let mut totals = near(place, added);
        let mut answer = [9; BUS_ANSWER];
        let row = used(10, 1, 2);
        assert_eq!(host::bus(0x0102, &row, &mut totals, &mut answer), 0);
        assert_eq!(answer, [5, 60]);
        assert_eq!((totals[place], totals[6]), (u64::MAX, 1));
        let mut totals = near(place, added - 1);
        let before = totals;
        let mut answer = [9; BUS_ANSWER];
        assert_eq!(host::bus(0x0102, &row, &mut totals, &mut answer), 21);
        assert_eq!((totals, answer), (before, [9; BUS_ANSWER]));
        // 20 comes first.
        assert_eq!(host::bus(0x0100, &row, &mut totals, &mut answer), 20);
        assert_eq!((totals, answer), (before, [9; BUS_ANSWER]));
    }
}

#[test]
fn slices() {
    let row = used(10, 1, 2);
    for any in [2, 255, u64::MAX] {
        let mut totals = [0, 0, 0, 0, 0, 0, any];
        // Judged before 20.
        assert_eq!(host::bus(0, &row, &mut totals, &mut [0; 2]), UNFIT);
        assert_eq!(totals, [0, 0, 0, 0, 0, 0, any]);
    }
    assert_eq!(host::bus(0x0101, &row, &mut [0; 6], &mut [0; 2]), UNFIT);
    assert_eq!(host::bus(0x0101, &row, &mut [0; 8], &mut [0; 2]), UNFIT);
    assert_eq!(host::bus(0x0101, &row, &mut [0; 7], &mut [0; 1]), UNFIT);
    assert_eq!(host::bus(0x0101, &row, &mut [0; 7], &mut []), UNFIT);
    // Before the first row, what stands for the largest one does not matter; after it, it does.
    let mut totals = [1, 2, 3, 99, 98, 97, 0];
    assert_eq!(host::bus(0x0101, &row, &mut totals, &mut [0; 2]), 0);
    assert_eq!(totals, [11, 12, 138, 10, 1, 2, 1]);
    let mut totals = [1, 2, 3, 10, u64::MAX, 97, 1];
    assert_eq!(host::bus(0x0101, &row, &mut totals, &mut [0; 2]), 0);
    assert_eq!(totals, [11, 12, 138, 10, u64::MAX, 97, 1]);
}

/// Totals over random lists of rows, against sums made over the whole list.
#[test]
fn random_lists() {
    let mut rng = Rng::new(10);
    for _ in 0..3_000 {
        let mut totals = Totals::default();
        let (mut rows, mut sums) = (Vec::new(), [0; 3]);
        for _ in 0..rng.below(60) {
            let [space, count] = rng.word().to_be_bytes();
            let row = used(rng.below(600) as u32, rng.word().into(), rng.word().into());
            let made = totals.report(u16::from_be_bytes([space, count]), &row);
            if count == 0 {
                assert_eq!(made.unwrap_err().number, 20);
                continue;
            }
            let (bursts, released) = by_words(space, count, row.words);
            assert_eq!(made, Ok(Taken { bursts, released }));
            for (sum, more) in sums.iter_mut().zip([row.words.into(), bursts, released]) {
                *sum += more;
            }
            rows.push(row);
        }
        let [words, bursts, released] = sums;
        let most = rows.iter().map(|row| row.words).max();
        let largest = rows.iter().find(|row| Some(row.words) == most);
        let largest = largest.map(|row| Largest {
            words: row.words.into(),
            screen: row.screen.into(),
            row: row.row.into(),
        });
        let expected = Totals {
            words,
            bursts,
            released,
            largest,
        };
        assert_eq!(totals, expected);
    }
}

#[test]
fn report_of_a_script() {
    // The script of sheet S, without a burst count and with one; the last record of the register counts.
    let s = vectors::sheet_s();
    assert_eq!(script::reported(&s), b"refused 20 row 0 at 000000\n");
    let with = |records: &[u8]| {
        String::from_utf8(script::reported(&[records, &s].concat())).expect("text")
    };
    let told = "row 0: words 19, bursts 3, clocks released at least 480\n\
                row 1: words 3, bursts 1, clocks released at least 0\n\
                all rows: words 22, bursts 4, clocks released at least 480\n\
                largest: words 19, screen 0, row 0\n";
    assert_eq!(with(&[1, 0x10, 0x10, 0x08]), told);
    assert_eq!(with(&[1, 0x10, 0, 1, 1, 0x10, 0x10, 0x08]), told);
    // A refusal of the frame, after the rows before it, and of the script.
    assert_eq!(script::reported(&[3, 1, 0]), b"refused 2 row 0 at 000000\n");
    assert_eq!(script::reported(&[3, 1]), b"refused script at 2\n");
}
