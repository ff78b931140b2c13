//! Writes numbered scripts with the outputs of the converting program to a folder, and beside each script that it writes the
//! screen: first the named set, then, if more are asked for, random ones.
//!
//! Usage: converted FOLDER [COUNT]

use compare::generate::{script_of, segmented_script, Rng, Shape};
use compare::{converted, folder, script};

fn main() {
    let named = converted::all();
    let named = named.into_iter().map(|v| (v.name, v.script)).collect();
    let mut rng = Rng::new(17);
    let shape = Shape {
        rows: 4,
        lines: 12,
        columns: 16,
        segmented: 97,
        ..Shape::SCRIPT
    };
    folder::fill(named, outputs, |n| match n % 6 {
        // Well formed or not.
        0 => ("random", script_of(&mut rng, &shape)),
        _ => ("segmented", segmented_script(&mut rng, &shape)),
    });
}

/// What the converting program gives; of a script also what it draws, which is what the one before would have drawn.
fn outputs(bytes: &[u8]) -> Vec<folder::Output> {
    let out = script::converted(bytes);
    let mut all = Vec::new();
    if !out.starts_with(b"refused ") {
        all.push(("drawn", script::drawn_below(bytes)));
    }
    all.push(("out", out));
    all
}
