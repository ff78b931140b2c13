//! Named soft scrolls: a script for each, and what is printed of it, which was read line by line.

/// A name, a script and its output.
pub struct Glide {
    pub name: &'static str,
    pub script: &'static [u8],
    pub output: &'static [u8],
}

macro_rules! glides {
    ($($name:literal)*) => {
        [$(Glide {
            name: $name,
            script: include_bytes!(concat!("../glides/", $name, ".script")),
            output: include_bytes!(concat!("../glides/", $name, ".out")),
        }),*]
    };
}

/// Up at two lines a frame over three rows; down at a slow rate; windows at the top, beside and at the bottom; turned back on the
/// way; rows of unequal heights, the last one cut; a row behind a window that is refused; rows of two lines and a window.
pub const ALL: [Glide; 7] = glides!["up" "down" "windows" "turned" "heights" "behind" "window"];
