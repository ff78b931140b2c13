//! Numbers past their range through the calls over slices: which are refused and in what order, and which are no
//! state or no effect.

use crate::host::{
    self, settings_numbers, state_numbers, APPLY_ANSWER, EFFECT, LATCH_ANSWER, MAIL_ANSWER, PART,
    PLACES, ROW_ANSWER, ROW_BLOCK_FROM, SCROLL, SETTINGS, SETTINGS_MOST, SHEET_ANSWER,
    SHIFT_ANSWER, START_ANSWER, STATE, UNFIT, WINDOW_NUMBER, WINDOW_ROW_BLOCK_FROM,
};
use crate::rules::{Settings, CELLS};
use crate::tests::{start, wide, Board};

/// A frame with a window, its settings and its first state.
fn begun() -> (Board, [u32; SETTINGS], [u32; STATE]) {
    let mut board = Board::new(0x20);
    board
        .window(0x400, 0, 0x420, (3, 9), (2, 5))
        .row(0x420, 0, &[]);
    let settings = Settings {
        tow: [0, 0x400],
        ..wide()
    };
    let state = start(&settings, &board.memory, 0x1234).unwrap().state;
    (board, settings_numbers(&settings), state_numbers(&state))
}

/// A row call: its status, and the answer. Refused, it leaves state and cells.
fn row(board: &Board, settings: &[u32], state: &[u32], cells: usize) -> (u8, [u32; ROW_ANSWER]) {
    let (mut after, mut drawn) = (state.to_vec(), vec![7; cells]);
    let mut answer = [9; ROW_ANSWER];
    let mut list = [5; PLACES];
    let status = host::row(
        settings,
        &board.memory,
        &mut after,
        &mut drawn,
        &mut list,
        &mut answer,
    );
    if status != 0 {
        assert_eq!(after, state);
        assert_eq!(list, [5; PLACES]);
        assert!(drawn.iter().all(|&cell| cell == 7));
        let written = if status == UNFIT { 0 } else { 3 };
        assert!(answer[written..].iter().all(|&number| number == 9));
    }
    (status, answer)
}

/// An effect call: both parts, where they refuse alike, or the status.
fn effect(board: &Board, settings: &[u32], state: &[u32]) -> Result<[u32; PART], u8> {
    let mut after = state.to_vec();
    let mut effect = [9; EFFECT];
    let status = host::effect(settings, &board.memory, &mut after, &mut effect);
    if status != 0 {
        assert_eq!((&after[..], effect), (state, [9; EFFECT]));
        return Err(status);
    }
    assert_eq!(effect[..PART], effect[PART..]);
    if effect[0] != 0 {
        assert_eq!(after, state);
    }
    let mut part = [0; PART];
    part.copy_from_slice(&effect[..PART]);
    Ok(part)
}

#[test]
fn settings_past_their_range() {
    let (board, good, state) = begun();
    let memory = &board.memory;
    for place in 0..SETTINGS {
        let most = SETTINGS_MOST[place];
        for number in [most + 1, good[place] | 0x1_0000, 1 << 31, u32::MAX] {
            let mut settings = good;
            settings[place] = number;
            assert_eq!(host::sheet(&settings, &mut [0; SHEET_ANSWER]), 2);
            let (mut begun, mut answer) = ([7; STATE], [9; START_ANSWER]);
            let mut list = [5; PLACES];
            let status = host::start(&settings, memory, 0, &mut begun, &mut list, &mut answer);
            assert_eq!((status, begun, list), (2, [7; STATE], [5; PLACES]));
            assert_eq!(answer, [0, 0, 0, 9]);
            let mut scroll = [0, 99, 0];
            let shifted = host::shift(
                &settings,
                memory,
                [0, 0],
                &mut scroll,
                &mut [0; SHIFT_ANSWER],
            );
            assert_eq!(shifted, 2);
            let written = host::write_mail(&settings, &[0; CELLS], &mut [], &mut [0; MAIL_ANSWER]);
            assert_eq!(written, 2);
            // 1 first; then 2, before the state's 3, and with its row.
            let mut state = state;
            (state[1], state[7]) = (77, u32::MAX);
            assert_eq!(row(&board, &settings, &state, 131).0, 1);
            let (status, answer) = row(&board, &settings, &state, CELLS);
            assert_eq!((status, &answer[..3]), (2, &[77, 0, 0][..]));
            let part = effect(&board, &settings, &state);
            assert_eq!(part, Ok([2, 77, 0, 0, 0, 0]));
            // A state that is none is judged before all.
            state[0] = 0x1_0000;
            assert_eq!(row(&board, &settings, &state, 131).0, UNFIT);
        }
    }
    let mut scroll = [0; SCROLL];
    let short = &good[1..];
    let mut answer = [0; SHIFT_ANSWER];
    assert_eq!(host::sheet(short, &mut [0; SHEET_ANSWER]), UNFIT);
    assert_eq!(
        host::shift(short, memory, [0, 0], &mut scroll, &mut answer),
        UNFIT
    );
}

#[test]
fn states_past_their_range() {
    let (board, settings, good) = begun();
    let bad_settings = settings_numbers(&Settings { vsd: 99, ..wide() });
    assert_eq!(row(&board, &settings, &good, CELLS).0, 0);
    // Judged: refusal 3, after 1 and 2.
    let judged = [
        1, 2, 7, 8, 9, 10, 11, 13, 14, 15, 16, 17, 18, 19, 20, 21, 22,
    ];
    for place in judged {
        for number in [good[place] ^ 0x200_0000, 1 << 31, u32::MAX] {
            let mut state = good;
            state[place] = number;
            let (status, answer) = row(&board, &settings, &state, CELLS);
            assert_eq!(status, 3, "place {place}, number {number:X}");
            assert_eq!(answer[..3], [state[1], 0, 0]);
            let part = effect(&board, &settings, &state);
            assert_eq!(part, Ok([3, state[1], 0, 0, 0, 0]));
            assert_eq!(row(&board, &settings, &state, 133).0, 1);
            assert_eq!(row(&board, &bad_settings, &state, CELLS).0, 2);
        }
    }
    // The ends of ranges, with aliases of a byte or of 16 bits.
    for (place, fits, past) in [
        (1, 4079, 4080),
        (2, 4095, 4096),
        (7, 32, 33),
        (7, 1, 0),
        (7, 1, 257),
        (8, 1023, 1024),
        (9, 31, 32),
        (10, 31, 256),
        (14, 255, 256),
        (16, 131, 132),
        (WINDOW_NUMBER, 3, 4),
        (WINDOW_NUMBER, 3, 256),
    ] {
        let mut state = good;
        state[place] = fits;
        assert_eq!(row(&board, &settings, &state, CELLS).0, 0, "place {place}");
        state[place] = past;
        assert_eq!(row(&board, &settings, &state, CELLS).0, 3, "place {place}");
    }
    // Any row is told as it stands.
    let mut state = good;
    state[1] = u32::MAX;
    let (status, answer) = row(&board, &settings, &state, CELLS - 1);
    assert_eq!((status, &answer[..3]), (1, &[u32::MAX, 0, 0][..]));
}

#[test]
fn numbers_that_make_no_state() {
    let (board, settings, good) = begun();
    let bad_settings = [u32::MAX; SETTINGS];
    for (place, most) in [(0, 0xFFFF), (3, 255), (4, 255), (5, 255), (6, 1), (12, 1)] {
        for number in [most + 1, most + 0x1_0001, 1 << 31, u32::MAX] {
            let mut state = good;
            state[place] = number;
            for cells in [CELLS, 0] {
                assert_eq!(row(&board, &settings, &state, cells).0, UNFIT);
                assert_eq!(row(&board, &bad_settings, &state, cells).0, UNFIT);
            }
            assert_eq!(effect(&board, &settings, &state), Err(UNFIT));
            let mut answer = [9; LATCH_ANSWER];
            assert_eq!(host::latch(5, &state, &mut answer), UNFIT);
            assert_eq!(answer, [9; LATCH_ANSWER]);
        }
        let mut state = good;
        state[place] = most;
        assert_ne!(row(&board, &settings, &state, CELLS).0, UNFIT);
    }
    // A latch call judges nothing else.
    let mut state = [u32::MAX; STATE];
    for (place, number) in [(0, 0xABCD), (3, 255), (4, 255), (5, 255), (6, 1), (12, 1)] {
        state[place] = number;
    }
    let mut answer = [9; LATCH_ANSWER];
    assert_eq!(host::latch(5, &state, &mut answer), 0);
    assert_eq!(answer, [0, 0, 0, 5]);
    state[2] = 0;
    assert_eq!(host::latch(5, &state, &mut answer), 0);
    assert_eq!(answer, [0, 0, 0, 0xABCD]);
}

/// Without a window its places are not judged, and are written as 0.
#[test]
fn places_of_no_window() {
    let (board, settings, mut state) = begun();
    state[12] = 0;
    for place in (13..ROW_BLOCK_FROM).chain(WINDOW_ROW_BLOCK_FROM..STATE) {
        state[place] = u32::MAX - place as u32;
    }
    let mut cells = [0; CELLS];
    let mut after = state;
    let mut answer = [0; ROW_ANSWER];
    let status = host::row(
        &settings,
        &board.memory,
        &mut after,
        &mut cells,
        &mut [0; PLACES],
        &mut answer,
    );
    assert_eq!(status, 0);
    assert_eq!(after[12..ROW_BLOCK_FROM], [0; 8]);
    assert_eq!(after[WINDOW_ROW_BLOCK_FROM..], [0; 2]);
    let mut made = [0; EFFECT];
    assert_eq!(
        host::effect(&settings, &board.memory, &mut state, &mut made),
        0
    );
    after[0] = state[0];
    assert_eq!(state, after);
}

#[test]
fn numbers_that_make_no_effect() {
    let join = |first: &[u32], second: &[u32]| {
        let mut joined = [9; EFFECT];
        let status = host::join(first, second, &mut joined);
        if status != 0 {
            assert_eq!(joined, [9; EFFECT]);
        }
        status
    };
    let fits = |part: [u32; PART]| {
        let empty = [0; EFFECT];
        let mut statuses = Vec::new();
        for from in [0, PART] {
            let mut effect = empty;
            effect[from..from + PART].copy_from_slice(&part);
            statuses.push(join(&effect, &empty));
            statuses.push(join(&empty, &effect));
            let latch = if from == 0 { 0 } else { 0x2000 };
            let mut answer = [9; APPLY_ANSWER];
            let status = host::apply(&effect, latch, &mut answer);
            statuses.push(if status == UNFIT { UNFIT } else { 0 });
            if status == UNFIT {
                assert_eq!(answer, [9; APPLY_ANSWER]);
            } else if part[0] != 0 {
                assert_eq!((u32::from(status), &answer[..3]), (part[0], &part[1..4]));
            }
        }
        let fit = statuses[0] == 0;
        assert!(statuses.iter().all(|&s| s == if fit { 0 } else { UNFIT }));
        fit
    };
    // Keep, set, and the refusals that an effect can have, with any row and address.
    assert!(fits([0; PART]));
    assert!(fits([0, 0, 0, 0, 1, 0]) && fits([0, 0, 0, 0, 1, 0xFFFF]));
    for number in 1..=300 {
        let can = matches!(number, 2..=4 | 7..=13 | 17);
        assert_eq!(fits([number, 0, 0, 0, 0, 0]), can, "{number}");
        assert_eq!(fits([number, u32::MAX, u32::MAX, 0, 0, 0]), can);
        assert_eq!(fits([number, 1, 2, u32::MAX, 0, 0]), number == 7);
        assert!(!fits([number, 0, 0, 0, 1, 0]) && !fits([number, 0, 0, 0, 0, 1]));
    }
    // What a part does not use.
    for part in [
        [0, 1, 0, 0, 0, 0],
        [0, 0, 2, 0, 0, 0],
        [0, 0, 0, 2, 0, 0],
        [0, 0, 0, 0, 0, 1],
        [0, 1, 0, 0, 1, 5],
        [0, 0, 2, 0, 1, 5],
        [0, 0, 0, 2, 1, 5],
        [0, 0, 0, 0, 2, 5],
        [0, 0, 0, 0, 1, 0x1_0000],
        [0, 0, 0, 0, u32::MAX, 0],
        [u32::MAX, 0, 0, 0, 0, 0],
        [0x107, 0, 0, 0, 0, 0],
    ] {
        assert!(!fits(part), "{part:?}");
    }
    assert_eq!(join(&[0; EFFECT], &[0; EFFECT - 1]), UNFIT);
    assert_eq!(join(&[0; EFFECT + PART], &[0; EFFECT]), UNFIT);
    assert_eq!(join(&[0; PART], &[0; EFFECT]), UNFIT);
}
