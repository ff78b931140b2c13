//! Text for mail: each rule by itself, texts read back, and refused ones held against a search for a text that
//! goes on as they do.

use crate::generate::Rng;
use crate::host::{self, settings_numbers, MAIL_ANSWER, UNFIT};
use crate::mail::{cell, cells, text};
use crate::rules::{Settings, CELLS};
use crate::script;
use crate::tests::wide;
use crate::vectors::sheet_s;

const HIGHLIGHT: u16 = 0x100;
const UNDERLINE: u16 = 0x200;
const BLINK: u16 = 0x400;
const REVERSE: u16 = 0x800;
const ALL: u16 = 0xF00;

/// Cells of characters with marks.
fn marked(set: u16, characters: &[u8]) -> Vec<u16> {
    characters.iter().map(|&c| set | u16::from(c)).collect()
}

fn columns(count: u16) -> Settings {
    Settings {
        htd: wide().hsd + count,
        ..wide()
    }
}

/// A row with these first cells; the others have marks that are not shown.
fn row(first: &[u32]) -> [u32; CELLS] {
    let mut row = [0x20_6341; CELLS];
    row[..first.len()].copy_from_slice(first);
    row
}

fn written(count: u16, first: &[u32]) -> String {
    let mut buffer = [7; 2000];
    let mut answer = [9; MAIL_ANSWER];
    let settings = settings_numbers(&columns(count));
    let status = host::write_mail(&settings, &row(first), &mut buffer, &mut answer);
    assert_eq!(status, 0);
    let (text, rest) = buffer.split_at(answer[0] as usize);
    assert!(rest.iter().all(|&byte| byte == 7));
    String::from_utf8(text.to_vec()).unwrap()
}

#[test]
fn written_texts() {
    // Sheet S's row 0: underline on the third and fourth.
    let s = [0x100041, 0x500042, 0x100281, 0x000220];
    assert_eq!(written(4, &s), "\x1B[0mAB\x1B[0;4m? \x1B[0m\n", "sheet S");
    assert_eq!(written(1, &[0x20]), "\x1B[0m \x1B[0m\n");
    // Each mark by its attribute bit, 8 places up: 6, 1, 0 and 5.
    assert_eq!(written(1, &[0x4041]), "\x1B[0m\x1B[0;1mA\x1B[0m\n");
    assert_eq!(written(1, &[0x0241]), "\x1B[0m\x1B[0;4mA\x1B[0m\n");
    assert_eq!(written(1, &[0x0141]), "\x1B[0m\x1B[0;5mA\x1B[0m\n");
    assert_eq!(written(1, &[0x2041]), "\x1B[0m\x1B[0;7mA\x1B[0m\n");
    assert_eq!(written(1, &[0x6341]), "\x1B[0m\x1B[0;1;4;5;7mA\x1B[0m\n");
    // Cursor, source, window and the other attribute bits do not show.
    assert_eq!(written(1, &[0xFFFF_9C41]), "\x1B[0mA\x1B[0m\n");
    // A change to none, and to a part of what was on.
    assert_eq!(
        written(4, &[0x4241, 0x4041, 0x41, 0x42]),
        "\x1B[0m\x1B[0;1;4mA\x1B[0;1mA\x1B[0mAB\x1B[0m\n"
    );
    // The ends of the characters.
    assert_eq!(
        written(6, &[0x1F, 0x20, 0x7E, 0x7F, 0x00, 0xFF]),
        "\x1B[0m? ~???\x1B[0m\n"
    );
}

#[test]
fn marks_of_cells() {
    assert_eq!(cell(0x4041), HIGHLIGHT | 0x41);
    assert_eq!(cell(0x0241), UNDERLINE | 0x41);
    assert_eq!(cell(0x0141), BLINK | 0x41);
    assert_eq!(cell(0x2041), REVERSE | 0x41);
    assert_eq!(cell(0xFFFF_FF80), ALL | 0x3F);
    assert_eq!(cell(!0x6341), 0x3F);
}

#[test]
fn writer_refusals() {
    let good = settings_numbers(&columns(4));
    let bad = settings_numbers(&Settings { vsd: 99, ..wide() });
    let write = |settings: &[u32], cells: usize, bytes: usize, answers: usize| {
        let (mut buffer, mut answer) = (vec![7; bytes], vec![9; answers]);
        let status = host::write_mail(settings, &vec![0x41; cells], &mut buffer, &mut answer);
        if status != 0 {
            assert!(buffer.iter().all(|&byte| byte == 7));
            assert!(answer.iter().all(|&number| number == 9));
        }
        status
    };
    assert_eq!(write(&good, 131, 0, 2), UNFIT);
    assert_eq!(write(&good[1..], 131, 0, 1), UNFIT);
    assert_eq!(write(&bad, 131, 0, 1), 1);
    assert_eq!(write(&bad, 133, 100, 1), 1);
    assert_eq!(write(&bad, CELLS, 0, 1), 2);
    // 4 + 4 + 5 bytes.
    assert_eq!(write(&good, CELLS, 0, 1), 23);
    assert_eq!(write(&good, CELLS, 12, 1), 23);
    assert_eq!(write(&good, CELLS, 13, 1), 0);
    assert_eq!(write(&good, CELLS, 14, 1), 0);
}

/// A text's cells, or where it is refused.
fn read(text: &str) -> Result<Vec<u16>, usize> {
    cells(text.as_bytes())
}

#[test]
fn read_back() {
    assert_eq!(read("\x1B[0mA\x1B[0m\n"), Ok(vec![0x41]));
    let two = [marked(ALL, b"?"), marked(0, b"~")].concat();
    assert_eq!(read("\x1B[0m\x1B[0;1;4;5;7m?\x1B[0m~\x1B[0m\n"), Ok(two));
    // Every change from one set of marks to another.
    for from in 0..16 {
        for to in 0..16 {
            let all = [marked(from << 8, b"A"), marked(to << 8, b"B")].concat();
            assert_eq!(cells(&text(&all)), Ok(all));
        }
    }
    for count in 1..=CELLS {
        let all = marked(UNDERLINE, &vec![b'x'; count]);
        assert_eq!(cells(&text(&all)), Ok(all));
    }
}

#[test]
fn offsets() {
    // Cut and wrong beginnings.
    assert_eq!(read(""), Err(0));
    assert_eq!(read("A"), Err(0));
    assert_eq!(read("\x1B[0"), Err(3));
    assert_eq!(read("\x1B[0;1mA"), Err(3));
    assert_eq!(read("\x1B[0m"), Err(4));
    // No cell: the end cannot come, so what follows is a set of marks.
    assert_eq!(read("\x1B[0m\n"), Err(4));
    assert_eq!(read("\x1B[0m\x1B[0m\n"), Err(7));
    assert_eq!(read("\x1B[0m\x1B[0m\x1B[0m\n"), Err(7));
    // Characters.
    assert_eq!(read("\x1B[0mA\x7F"), Err(5));
    assert_eq!(read("\x1B[0mA\x1F"), Err(5));
    assert_eq!(read("\x1B[0mAé"), Err(5));
    assert_eq!(read("\x1B[0mA\n"), Err(5));
    // The end: with none on, it is all that can follow.
    assert_eq!(read("\x1B[0mA\x1B[0m"), Err(9));
    assert_eq!(read("\x1B[0mA\x1B[0mB"), Err(9));
    assert_eq!(read("\x1B[0mA\x1B[0m\r\n"), Err(9));
    assert_eq!(read("\x1B[0mA\x1B[0m\n\n"), Err(10));
    assert_eq!(read("\x1B[0mA\x1B[0m\n\x1B[0mA\x1B[0m\n"), Err(10));
    // With marks on, another cell or the end.
    assert_eq!(read("\x1B[0m\x1B[0;1mA\x1B[0m"), Err(15));
    assert_eq!(read("\x1B[0m\x1B[0;1mA\x1B[0m\x1B"), Err(15));
    assert_eq!(read("\x1B[0m\x1B[0;1m\x1B[0m\n"), Err(10));
    // Marks: none of these, falling, twice, without a 0, without a number.
    assert_eq!(read("\x1B[0m\x1B[0;2mA"), Err(8));
    assert_eq!(read("\x1B[0m\x1B[0;4;1mA"), Err(10));
    assert_eq!(read("\x1B[0m\x1B[0;4;4mA"), Err(10));
    assert_eq!(read("\x1B[0m\x1B[0;7;mA"), Err(9));
    assert_eq!(read("\x1B[0m\x1B[1mA"), Err(6));
    assert_eq!(read("\x1B[0m\x1B[;1mA"), Err(6));
    assert_eq!(read("\x1B[0m\x1B[mA"), Err(6));
    assert_eq!(read("\x1B[0m\x1B[00;1mA"), Err(7));
    assert_eq!(read("\x1B[0m\x1B[0;m"), Err(8));
    assert_eq!(read("\x1B[0m\x1B[0;1;4;5;7;mA"), Err(15));
    assert_eq!(read("\x1B[0m\x1B[0;14mA"), Err(9));
}

/// A sequence that changes nothing is refused at the byte from which no other set goes on.
#[test]
fn sequences_that_change_nothing() {
    let again = |set: u16, sequence: &str| {
        let mut bytes = text(&marked(set, b"A"));
        bytes.truncate(bytes.len() - 5);
        let at = bytes.len();
        bytes.extend(b"\x1B[");
        bytes.extend(sequence.bytes());
        bytes.extend(b"B\x1B[0m\n");
        cells(&bytes).unwrap_err() - at
    };
    // 1 may go on to 1;4: the m is too early.
    assert_eq!(again(HIGHLIGHT, "0;1m"), 5);
    // Nothing comes after 7: no other set begins so.
    assert_eq!(again(REVERSE, "0;7m"), 4);
    // After 5 comes 7.
    assert_eq!(again(BLINK, "0;5m"), 5);
    // All four: the set without 7 ends with an m.
    assert_eq!(again(ALL, "0;1;4;5;7m"), 9);
    // 1, 7: after 1 come 4 and 5 too, so the 7 is refused.
    assert_eq!(again(HIGHLIGHT | REVERSE, "0;1;7m"), 6);
    // 1, 5: 1, 5, 7 goes on.
    assert_eq!(again(HIGHLIGHT | BLINK, "0;1;5m"), 7);
    // None: the end only, so the character is refused.
    assert_eq!(again(0, "0m"), 4);
}

#[test]
fn widths() {
    let full = |count: usize| text(&marked(0, &vec![b'x'; count]));
    assert!(cells(&full(131)).is_ok() && cells(&full(132)).is_ok());
    // The 133rd character.
    assert_eq!(cells(&full(133)), Err(4 + 132));
    let mut bytes = full(132);
    bytes.truncate(4 + 132);
    bytes.extend(b"\x1B[0;1mx");
    assert_eq!(cells(&bytes), Err(4 + 132 + 3));
    // With marks on, too: after 132 cells the end alone.
    let mut bytes = text(&marked(UNDERLINE, &[b'x'; 132]));
    let end = bytes.len() - 5;
    bytes.truncate(end);
    bytes.extend(b"\x1B[0;1mx");
    assert_eq!(cells(&bytes), Err(end + 3));
    bytes.truncate(end);
    bytes.extend(b"\x1B[0mx");
    assert_eq!(cells(&bytes), Err(end + 4));
}

/// The longest text: all four and three of them in turn.
#[test]
fn longest_text() {
    let all: Vec<u16> = (0..CELLS)
        .map(|n| [ALL, ALL - HIGHLIGHT][n % 2] | 0x41)
        .collect();
    assert_eq!(text(&all).len(), 1593);
    assert_eq!(cells(&text(&all)), Ok(all));
}

#[test]
fn reader_refusals() {
    let bytes = text(&marked(UNDERLINE, b"ABC"));
    let read = |text: &[u8], count: usize, answers: usize| {
        let (mut cells, mut answer) = (vec![7; count], vec![9; answers]);
        let status = host::read_mail(text, &mut cells, &mut answer);
        let places = if status == 0 { 3 } else { 0 };
        assert!(cells[places..].iter().all(|&cell| cell == 7));
        if status == 23 || status == UNFIT {
            assert!(answer.iter().all(|&number| number == 9));
        }
        (status, cells, answer)
    };
    assert_eq!(read(&bytes, 3, 0).0, UNFIT);
    assert_eq!(read(b"", 0, 2).0, UNFIT);
    // 24 before 23.
    let (status, _, answer) = read(&bytes[..bytes.len() - 1], 2, 1);
    assert_eq!((status, answer), (24, vec![bytes.len() as u32 - 1]));
    assert_eq!(read(&bytes, 2, 1).0, 23);
    assert_eq!(read(&bytes, 0, 1).0, 23);
    let (status, cells, answer) = read(&bytes, 5, 1);
    assert_eq!((status, answer), (0, vec![3]));
    assert_eq!(cells, [0x241, 0x242, 0x243, 7, 7]);
}

/// What a text would say if its characters and marks were taken as they come, whatever its form.
fn loosely(text: &[u8]) -> Vec<u16> {
    let (mut cells, mut set, mut at) = (Vec::new(), 0, 0);
    while at < text.len() {
        if text[at] == 0x1B {
            let end = text[at..].iter().position(|&byte| byte == b'm');
            let end = end.map_or(text.len(), |n| at + n);
            set = 0;
            for &byte in &text[at..end] {
                set |= match byte {
                    b'1' => HIGHLIGHT,
                    b'4' => UNDERLINE,
                    b'5' => BLINK,
                    b'7' => REVERSE,
                    _ => 0,
                };
            }
            at = end + 1;
        } else {
            if (0x20..=0x7E).contains(&text[at]) {
                cells.push(set | u16::from(text[at]));
            }
            at += 1;
        }
    }
    cells
}

/// Whether some row has this text: that of the cells which it would say.
fn is_text(bytes: &[u8]) -> bool {
    let cells = loosely(bytes);
    (1..=CELLS).contains(&cells.len()) && text(&cells) == bytes
}

/// All ends of texts of one cell: what a beginning of any text can go on with, cut in its marks, before a
/// character or in its end.
fn ends() -> Vec<Vec<u8>> {
    let mut ends = std::collections::BTreeSet::new();
    for set in 0..16 {
        let whole = text(&marked(set << 8, b"x"));
        for from in 0..=whole.len() {
            ends.insert(whole[from..].to_vec());
        }
    }
    ends.into_iter().collect()
}

/// Whether some row's text begins so.
fn goes_on(beginning: &[u8], ends: &[Vec<u8>]) -> bool {
    ends.iter()
        .any(|end| is_text(&[beginning, &end[..]].concat()))
}

/// The longest beginning of a text that some row's text has, by bisection: what a longer one goes on to, a
/// shorter one does.
fn searched(bytes: &[u8], ends: &[Vec<u8>]) -> usize {
    let (mut good, mut bad) = (0, bytes.len() + 1);
    while bad - good > 1 {
        let middle = (good + bad) / 2;
        if goes_on(&bytes[..middle], ends) {
            good = middle;
        } else {
            bad = middle;
        }
    }
    good
}

fn random_cells(rng: &mut Rng) -> Vec<u16> {
    let count = match rng.below(4) {
        0 => rng.range(128, CELLS),
        _ => rng.range(1, 12),
    };
    let sets = rng.pick(&[0, 1, 3, 0xF]);
    let often = rng.pick(&[1, 2, 6]);
    let mut set = 0;
    (0..count)
        .map(|_| {
            if rng.once_in(often) {
                set = rng.word() & sets;
            }
            set << 8 | rng.range(0x20, 0x7E) as u16
        })
        .collect()
}

/// Texts damaged at random, each offset against the search.
#[test]
fn random_damage() {
    let ends = ends();
    let mut rng = Rng::new(12);
    let mut refused = 0;
    for _ in 0..3_000 {
        let all = random_cells(&mut rng);
        let mut bytes = text(&all);
        assert_eq!(cells(&bytes), Ok(all));
        assert!(is_text(&bytes));
        for _ in 0..rng.range(1, 2) {
            let at = rng.below(bytes.len());
            let byte = rng.pick(b"\x1B[01457;m\nAx~\x7F2");
            match rng.below(4) {
                0 => bytes[at] = byte,
                1 => bytes.insert(at, byte),
                2 => drop(bytes.remove(at)),
                _ => bytes.truncate(at + 1),
            }
        }
        match cells(&bytes) {
            Ok(all) => assert!(is_text(&bytes) && text(&all) == bytes),
            Err(offset) => {
                assert!(!is_text(&bytes));
                let found = searched(&bytes, &ends);
                assert_eq!(offset, found, "{}", bytes.escape_ascii());
                refused += 1;
            }
        }
    }
    println!("refused {refused}");
    assert!(refused > 1_500);
}

/// One short text damaged at each offset by each byte.
#[test]
fn every_byte() {
    let ends = ends();
    let all = [
        marked(0, b"A"),
        marked(HIGHLIGHT | BLINK, b"B"),
        marked(REVERSE, b"C"),
    ]
    .concat();
    let whole = text(&all);
    for at in 0..whole.len() {
        for byte in 0..=255 {
            let mut bytes = whole.clone();
            bytes[at] = byte;
            match cells(&bytes) {
                Ok(all) => assert_eq!(text(&all), bytes),
                Err(offset) => {
                    assert!(offset >= at);
                    assert_eq!(offset, searched(&bytes, &ends), "{}", bytes.escape_ascii());
                }
            }
        }
    }
}

#[test]
fn text_of_a_script() {
    let s = sheet_s();
    let rows = "\x1B[0mAB\x1B[0;4m? \x1B[0m\n\x1B[0m\x1B[0;4m    \x1B[0m\n";
    assert_eq!(script::mailed(&s), rows.as_bytes());
    // Row 1's block past memory: the text of row 0, then the refusal's line.
    let mut cut = s[..s.len() - 1].to_vec();
    cut.extend([2, 0, 0, 0x20, 0, 1, 0]);
    let mut expected = rows.as_bytes()[..rows.find('\n').unwrap() + 1].to_vec();
    expected.extend(b"refused 7 row 1 at 010030 from 000020\n");
    assert_eq!(script::mailed(&cut), expected);
    assert_eq!(script::mailed(&[0]), b"refused 2 row 0 at 000000\n");
    assert_eq!(script::mailed(b""), b"refused script at 0\n");
}
