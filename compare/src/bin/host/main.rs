//! Compares the proved library with this implementation, call by call over random frames: status
//! and every number of every slice that the call is lent. Stops at the first difference, which it
//! keeps as differs.txt and, where it is a frame of the draw program, as differs.script.
//!
//! Usage: host [FRAMES [SEED]]; frame n of a seed is frame 0 of the seed n higher.

mod bus;
mod calls;
mod convert;
mod desks;
mod frame;
mod in_turn;
mod lent;
mod mail;
mod mend;
mod odd;
mod panel;
mod scroll;

use calls::{Calls, Checked, Difference};
use compare::bus::Used;
use compare::generate::{self, Rng};
use compare::host::{
    Beside, APPLY_ANSWER, BUS_ANSWER, EFFECT, LATCH_ANSWER, MAIL_ANSWER, PLACES, PREFIX,
    ROW_ANSWER, SCROLL, SETTINGS, SHEET_ANSWER, SHEET_EVEN, SHEET_ODD, SHIFT_ANSWER, START_ANSWER,
    STATE, TOTALS, UNFIT,
};
use compare::rules::CELLS;
use frame::Frame;
use std::fmt::Debug;
use std::hint::black_box;
use std::{env, process};

/// Most row calls on the states of a frame.
const ROWS: usize = 60;

/// What a row call left.
#[derive(PartialEq)]
struct Drawn {
    status: u8,
    state: [u32; STATE],
    cells: [u32; CELLS],
    list: Vec<u32>,
    answer: [u32; ROW_ANSWER],
}

/// What has to hold between calls. `given` is what the calls were given, for where it does not.
fn must(holds: bool, what: &str, given: &dyn Debug) -> Checked<()> {
    if holds {
        return Ok(());
    }
    Err(Difference(format!("does not hold: {what}\nof {given:?}")))
}

fn draw(calls: &mut Calls, frame: &Frame, from: &[u32; STATE]) -> Checked<Drawn> {
    let (settings, memory) = (&frame.settings, frame.memory());
    let status = calls.row(settings, memory, from, CELLS, PLACES, ROW_ANSWER)?;
    Ok(Drawn {
        status,
        state: calls.state.left(),
        cells: calls.cells.left(),
        list: calls.list.read().to_vec(),
        answer: calls.answer.left(),
    })
}

/// A row drawn alone: from the latch that the joined effects make of the first one.
fn draw_alone(
    calls: &mut Calls,
    frame: &Frame,
    drawn: &Drawn,
    joined: &[u32; EFFECT],
    latch: u32,
    reached: &[u32; STATE],
) -> Checked<()> {
    let refused = calls.apply(joined, latch as u16, APPLY_ANSWER)?;
    let answer: [u32; APPLY_ANSWER] = calls.answer.left();
    if refused != 0 {
        let same = refused == drawn.status && answer[..PREFIX] == drawn.answer[..PREFIX];
        let what = "the joined effects refuse as the row in turn";
        return must(same, what, &(joined, latch, reached));
    }
    let mut from = *reached;
    from[0] = answer[PREFIX];
    let alone = draw(calls, frame, &from)?;
    let same = if drawn.status == 0 {
        alone == *drawn
    } else {
        alone.status == drawn.status && alone.answer[..PREFIX] == drawn.answer[..PREFIX]
    };
    must(same, "a row drawn alone is the row in turn", &from)
}

/// Joins effects in a random grouping, with empty ones among them.
fn group(calls: &mut Calls, rng: &mut Rng, mut effects: Vec<[u32; EFFECT]>) -> Checked<()> {
    let mut joined = [0; EFFECT];
    for effect in &effects {
        calls.join(&joined, effect, EFFECT)?;
        joined = calls.effect.left();
    }
    effects.insert(rng.below(effects.len() + 1), [0; EFFECT]);
    while effects.len() > 1 {
        let n = rng.below(effects.len() - 1);
        let second = effects.remove(n + 1);
        calls.join(&effects[n], &second, EFFECT)?;
        effects[n] = calls.effect.left();
    }
    let same = effects[0] == joined;
    must(same, "effects join alike in any grouping", &joined)
}

/// Rows from a state on, each in turn and alone, and their effects. Gives the states met.
fn walk(
    calls: &mut Calls,
    rng: &mut Rng,
    frame: &Frame,
    first: [u32; STATE],
) -> Checked<Vec<[u32; STATE]>> {
    let (settings, memory) = (&frame.settings, frame.memory());
    let mut states = vec![first];
    let mut state = first;
    let mut reached = first;
    let mut joined = [0; EFFECT];
    let mut effects = Vec::new();
    let mut refused = 0;
    while states.len() < ROWS && refused < 2 {
        if rng.once_in(12) {
            let (cells, places) = odd::sizes(rng);
            calls.row(settings, memory, &state, cells, places, ROW_ANSWER)?;
        }
        let drawn = draw(calls, frame, &state)?;
        if drawn.status == UNFIT {
            break;
        }
        draw_alone(calls, frame, &drawn, &joined, first[0], &reached)?;
        if drawn.status == 0 && rng.once_in(10) {
            mail::row(calls, rng, settings, &drawn.cells)?;
        }
        reached[0] = rng.word().into();
        calls.effect(settings, memory, &reached, EFFECT)?;
        reached = calls.state.left();
        let effect = calls.effect.left();
        effects.push(effect);
        calls.join(&joined, &effect, EFFECT)?;
        joined = calls.effect.left();
        refused += u32::from(drawn.status != 0);
        state = drawn.state;
        states.push(state);
    }
    group(calls, rng, effects)?;
    Ok(states)
}

/// A state's row and its effect: same refusal, or same latch and other fields of the next state.
fn row_and_effect(calls: &mut Calls, frame: &Frame, from: &[u32; STATE]) -> Checked<()> {
    let drawn = draw(calls, frame, from)?;
    let status = calls.effect(&frame.settings, frame.memory(), from, EFFECT)?;
    if status == UNFIT {
        return must(drawn.status == UNFIT, "an effect is unfit as its row", from);
    }
    let reached: [u32; STATE] = calls.state.left();
    let effect: [u32; EFFECT] = calls.effect.left();
    let status = calls.apply(&effect, from[0] as u16, APPLY_ANSWER)?;
    let answer: [u32; APPLY_ANSWER] = calls.answer.left();
    let same = if status == 0 {
        answer[PREFIX] == drawn.state[0] && reached[1..] == drawn.state[1..]
    } else {
        answer[..PREFIX] == drawn.answer[..PREFIX]
    };
    let same = same && status == drawn.status;
    must(same, "an effect is that of its row", from)
}

/// Rows and effects of states that no start gives, and the latches that they would hand on.
fn odd_states(
    calls: &mut Calls,
    rng: &mut Rng,
    frame: &Frame,
    real: &[[u32; STATE]],
) -> Checked<()> {
    for _ in 0..8 {
        let real = rng.pick(real);
        let state = odd::state(rng, &real, frame.memory().len());
        row_and_effect(calls, frame, &state)?;
        for lines_left in [state[2], 0] {
            let mut state = state;
            state[2] = lines_left;
            calls.latch(rng.word(), &state, LATCH_ANSWER)?;
        }
    }
    Ok(())
}

/// A sheet: the parts of each field make its length; one that is interlaced ends on a half line.
fn sheet(calls: &mut Calls, settings: &[u32; SETTINGS]) -> Checked<()> {
    if calls.sheet(settings, SHEET_ANSWER)? != 0 {
        return Ok(());
    }
    let answer: [u32; SHEET_ANSWER] = calls.answer.left();
    for from in [SHEET_EVEN, SHEET_ODD] {
        let [sync, back, rise, active, front, field] = answer[from..from + 6] else {
            continue;
        };
        let whole = sync + rise + front == field && back + active == rise;
        must(whole, "a field is its parts", &(settings, answer))?;
        let half = settings[2] != 0;
        let right = (field % 2 == 1) == half;
        must(right, "an interlaced field ends on a half line", settings)?;
    }
    Ok(())
}

/// Sheets, starts and rows of settings changed at random.
fn odd_settings(
    calls: &mut Calls,
    rng: &mut Rng,
    frame: &Frame,
    real: &[[u32; STATE]],
) -> Checked<()> {
    for _ in 0..4 {
        let settings = odd::settings(rng, &frame.settings);
        sheet(calls, &settings)?;
        let latch = in_turn::latch(rng);
        let (mut cells, mut places) = (CELLS, PLACES);
        if rng.once_in(8) {
            (cells, places) = odd::sizes(rng);
        }
        let memory = frame.memory();
        calls.start(&settings, memory, latch, STATE, places, START_ANSWER)?;
        let state = rng.pick(real);
        calls.row(&settings, memory, &state, cells, places, ROW_ANSWER)?;
        calls.effect(&settings, frame.memory(), &state, EFFECT)?;
    }
    Ok(())
}

/// Effects of no row, joined in two groupings and applied.
fn odd_effects(calls: &mut Calls, rng: &mut Rng) -> Checked<()> {
    let effects: Vec<_> = (0..4).map(|_| odd::effect(rng)).collect();
    let mut fit = Vec::new();
    for effect in &effects {
        if calls.apply(effect, rng.word(), APPLY_ANSWER)? != UNFIT {
            fit.push(*effect);
        }
        calls.join(&rng.pick(&effects), effect, EFFECT)?;
    }
    group(calls, rng, fit)
}

/// One call with a slice that does not fit: 255, and nothing is written.
fn unfit(calls: &mut Calls, rng: &mut Rng, frame: &Frame, real: &[u32; STATE]) -> Checked<()> {
    let (settings, memory) = (&frame.settings, frame.memory());
    let bad_settings = odd::recounted(rng, settings);
    let bad_state = odd::no_state(rng, real);
    let effect = odd::effect(rng);
    let bad_effect = odd::no_effect(rng);
    let cells = rng.pick(&[CELLS, CELLS, 0, 133]);
    let places = rng.pick(&[PLACES, PLACES, generate::places(&mut rng.clone())]);
    let latch = rng.word();
    let soft = scroll::soft_top(rng, frame);
    let last = odd::scroll(rng);
    let beside = |shift, state| Beside {
        shift,
        soft,
        latch,
        state,
    };
    let used = Used {
        words: rng.word().into(),
        screen: 0,
        row: 0,
    };
    let status = match rng.below(31) {
        0 => calls.sheet(&bad_settings, SHEET_ANSWER),
        1 => calls.sheet(settings, odd::count(rng, SHEET_ANSWER)),
        2 => calls.start(&bad_settings, memory, latch, STATE, places, START_ANSWER),
        3 => calls.start(
            settings,
            memory,
            latch,
            odd::count(rng, STATE),
            places,
            START_ANSWER,
        ),
        4 => calls.start(
            settings,
            memory,
            latch,
            STATE,
            places,
            odd::count(rng, START_ANSWER),
        ),
        5 => calls.row(&bad_settings, memory, real, cells, places, ROW_ANSWER),
        6 => calls.row(settings, memory, &bad_state, cells, places, ROW_ANSWER),
        7 => {
            let answers = odd::count(rng, ROW_ANSWER);
            calls.row(settings, memory, real, cells, places, answers)
        }
        8 => calls.effect(&bad_settings, memory, real, EFFECT),
        9 => calls.effect(settings, memory, &bad_state, EFFECT),
        10 => calls.effect(settings, memory, real, odd::count(rng, EFFECT)),
        11 => calls.join(&bad_effect, &effect, EFFECT),
        12 => calls.join(&effect, &bad_effect, EFFECT),
        13 => calls.apply(&bad_effect, latch, APPLY_ANSWER),
        14 => calls.apply(&effect, latch, odd::count(rng, APPLY_ANSWER)),
        15 => calls.latch(latch, &bad_state, LATCH_ANSWER),
        16 => calls.latch(latch, real, odd::count(rng, LATCH_ANSWER)),
        17 => calls.shift(&bad_settings, memory, soft, &last, SHIFT_ANSWER),
        18 => {
            let scroll = vec![0; odd::count(rng, SCROLL)];
            calls.shift(settings, memory, soft, &scroll, SHIFT_ANSWER)
        }
        19 => {
            let answers = odd::count(rng, SHIFT_ANSWER);
            calls.shift(settings, memory, soft, &last, answers)
        }
        20 | 21 => {
            let from = beside(odd::shift(rng), real);
            calls.beside(&bad_settings, memory, &from, cells, places, ROW_ANSWER)
        }
        22 => {
            let from = beside(odd::shift(rng), real);
            let answers = odd::count(rng, ROW_ANSWER);
            calls.beside(settings, memory, &from, cells, places, answers)
        }
        23 => {
            let totals = vec![0; odd::count(rng, TOTALS)];
            calls.bus(bus::register(rng), &used, &totals, BUS_ANSWER)
        }
        24 => {
            let totals = bus::totals(rng);
            let answers = odd::count(rng, BUS_ANSWER);
            calls.bus(bus::register(rng), &used, &totals, answers)
        }
        25 => calls.write_mail(
            &bad_settings,
            &[0; CELLS][..cells.min(CELLS)],
            400,
            MAIL_ANSWER,
        ),
        26 => calls.write_mail(settings, &[0; CELLS], 400, odd::count(rng, MAIL_ANSWER)),
        27 => calls.read_mail(b"\x1B[0mA\x1B[0m\n", 1, odd::count(rng, MAIL_ANSWER)),
        28 => calls.read_mail(b"", 0, odd::count(rng, MAIL_ANSWER)),
        29 => {
            let mut totals = bus::totals(rng);
            totals[6] = rng.draw() + 2;
            calls.bus(bus::register(rng), &used, &totals, BUS_ANSWER)
        }
        _ => {
            let from = beside(
                odd::shift(rng).unsigned_abs().clamp(1, 32) as i32,
                &bad_state,
            );
            calls.beside(settings, memory, &from, cells, places, ROW_ANSWER)
        }
    }?;
    let given = (bad_settings, bad_state, bad_effect);
    must(
        status == UNFIT,
        "a slice that does not fit gives 255",
        &given,
    )
}

/// All calls of a frame.
fn compare(calls: &mut Calls, rng: &mut Rng, frame: &Frame) -> Checked<()> {
    sheet(calls, &frame.settings)?;
    let latch = in_turn::latch(rng);
    let (settings, memory) = (&frame.settings, frame.memory());
    if rng.once_in(6) {
        let places = generate::places(rng);
        calls.start(settings, memory, latch, STATE, places, START_ANSWER)?;
    }
    let status = calls.start(settings, memory, latch, STATE, PLACES, START_ANSWER)?;
    let mut real = Vec::new();
    if status == 0 {
        let first = calls.state.left();
        real.extend(walk(calls, rng, frame, first)?);
    }
    if let Some(state) = frame.state {
        real.extend(walk(calls, rng, frame, state)?);
    }
    if real.is_empty() {
        real.push([0; STATE]);
    }
    in_turn::frames(calls, rng, frame)?;
    scroll::frames(calls, rng, frame)?;
    scroll::odd_rows(calls, rng, frame, &real)?;
    panel::pictures(calls, rng, frame)?;
    panel::odd_lines(calls, rng)?;
    panel::odd_cells(calls, rng)?;
    desks::take_turns(calls, rng, frame)?;
    mend::frames(calls, rng, frame)?;
    convert::frames(calls, rng, frame)?;
    if rng.once_in(8) {
        mend::unfit(calls, rng, frame)?;
        convert::unfit(calls, rng, frame)?;
    }
    odd_settings(calls, rng, frame, &real)?;
    odd_states(calls, rng, frame, &real)?;
    odd_effects(calls, rng)?;
    bus::lists(calls, rng)?;
    mail::odd(calls, rng, &frame.settings)?;
    for _ in 0..8 {
        unfit(calls, rng, frame, &rng.clone().pick(&real))?;
    }
    Ok(())
}

/// The numbers of the command line: frames and seed.
fn arguments() -> Option<(u64, u64)> {
    let numbers: Result<Vec<u64>, _> = env::args().skip(1).map(|a| a.parse()).collect();
    match numbers.ok()?[..] {
        [] => Some((1000, 8052)),
        [frames] => Some((frames, 8052)),
        [frames, seed] => Some((frames, seed)),
        _ => None,
    }
}

fn main() {
    let Some((frames, seed)) = arguments() else {
        eprintln!("usage: host [FRAMES [SEED]]");
        process::exit(2);
    };
    let mut calls = Calls::new();
    for seed in seed..seed + frames {
        let frame = Frame::new(&mut Rng::new(seed));
        let compared = compare(&mut calls, &mut Rng::new(!seed), black_box(&frame));
        let compared = compared.and_then(|()| {
            let again = Frame::new(&mut Rng::new(seed));
            must(frame.same(&again), "settings and memory stay", &())
        });
        if let Err(Difference(text)) = compared {
            let text = format!("seed {seed}: {text}");
            eprintln!("{text}");
            if let Err(error) = frame.keep(&text) {
                eprintln!("not kept: {error}");
            }
            process::exit(1);
        }
    }
    println!("{frames} frames: all equal; calls by status:");
    calls.tally.print();
}
