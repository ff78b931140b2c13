//! A second implementation of the display rules: timing, the walk over the blocks,
//! row effects, soft scroll, the picture of a shifted frame, two desks on one memory, the converter, mending, the bus report, text for mail and the draw
//! program, with a generator of test cases.

pub mod bus;
pub mod convert;
pub mod converted;
pub mod desks;
pub mod folder;
pub mod generate;
pub mod glide;
pub mod glides;
mod header;
pub mod host;
pub mod library;
pub mod mail;
pub mod mend;
pub mod mended;
pub mod picture;
pub mod plain;
pub mod rules;
pub mod script;
pub mod scroll;
mod trail;
pub mod vectors;

#[cfg(test)]
mod bus_tests;
#[cfg(test)]
mod convert_tests;
#[cfg(test)]
mod desks_tests;
#[cfg(test)]
mod glide_tests;
#[cfg(test)]
mod host_tests;
#[cfg(test)]
mod mail_tests;
#[cfg(test)]
mod mend_tests;
#[cfg(test)]
mod scroll_tests;
#[cfg(test)]
mod tests;
