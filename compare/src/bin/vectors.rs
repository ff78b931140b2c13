//! Writes numbered scripts with their outputs to a folder: first the named set, then, if more are asked for, the same set with a
//! burst register and small random ones. The outputs are those of the draw program (out), the mail program (mail) and
//! the bus program (bus).
//!
//! Usage: vectors FOLDER [COUNT]

use compare::generate::{burst_records, script_of, Rng, Shape};
use compare::{folder, script, vectors};

const LARGEST: usize = 3000;

fn main() {
    let named: Vec<folder::Named> = vectors::all()
        .into_iter()
        .map(|v| (v.name, v.script))
        .collect();
    let bursts = named.clone();
    let mut rng = Rng::new(52);
    let mut burst_rng = Rng::new(10);
    let shape = Shape {
        rows: 2,
        lines: 6,
        columns: 12,
        ..Shape::SCRIPT
    };
    let outputs = |bytes: &[u8]| {
        vec![
            ("out", script::run(bytes)),
            ("mail", script::mailed(bytes)),
            ("bus", script::reported(bytes)),
        ]
    };
    folder::fill(named, outputs, |n| {
        let (name, bytes) = match bursts.get(n) {
            Some((name, script)) => (*name, script.clone()),
            None => loop {
                let bytes = script_of(&mut rng, &shape);
                if bytes.len() <= LARGEST {
                    break ("random", bytes);
                }
            },
        };
        (name, [burst_records(&mut burst_rng), bytes].concat())
    });
}
