//! A soft scroll, frame by frame and line by line: a script with a draw for each frame on standard input, its text on standard
//! output.

use compare::{glide, script};

fn main() -> std::io::Result<()> {
    script::program(glide::output)
}
