//! The mending program: a script on standard input, its output on standard output.

use compare::script;
use std::io;

fn main() -> io::Result<()> {
    script::program(script::mended)
}
