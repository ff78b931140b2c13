//! Writes numbered scripts with the outputs of mending to a folder: first the named set, then, if more are asked for, one with
//! several hundred damages and random ones.
//!
//! Usage: mended FOLDER [COUNT]

use compare::generate::{damaged_script, script_of, Rng, Shape};
use compare::{folder, mended, script};

/// Rows of the script with several hundred damages: 31 for each.
const ROWS: u16 = 20;

fn main() {
    let named = mended::all();
    let named = named.into_iter().map(|v| (v.name, v.script)).collect();
    let mut rng = Rng::new(9);
    let shape = Shape {
        rows: 6,
        lines: 12,
        columns: 16,
        ..Shape::SCRIPT
    };
    let outputs = |bytes: &[u8]| vec![("out", script::mended(bytes))];
    folder::fill(named, outputs, |n| match n {
        0 => ("many", mended::many(ROWS)),
        // Well formed or not, and seldom damaged.
        n if n % 8 == 0 => ("random", script_of(&mut rng, &shape)),
        _ => ("damaged", damaged_script(&mut rng, &shape)),
    });
}
