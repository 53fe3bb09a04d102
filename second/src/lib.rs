//! A second coder, channel front for one antenna and for two, decoder, report
//! and tidy writer for polar blocks, with a tally for each radio and a summary
//! of these.
//!
//! Written from document 01 of the tender (`01-scope.md`) and the change
//! requests to it, not from the proved code. It exists to be compared with the
//! proved library, so it shares nothing with it: it aims at being plain, not at
//! being fast. Numbers are held in 64 bits inside, columns are separate vectors,
//! and nothing is written to a lent slice before every test has passed.

#![forbid(unsafe_code)]

pub mod code;
pub mod decode;
pub mod endings;
pub mod front;
pub mod messages;
pub mod radios;
pub mod refusal;
pub mod report;
pub mod summary;
pub mod tally;
pub mod text;
pub mod tidy;

pub use code::{encode, read_out};
pub use decode::{decode, Ending, Lent, Settings, LARGEST_LIMIT};
pub use front::{front, front_two, Channel, Receiver};
pub use radios::{decode_radio, Radios, RADIOS};
pub use refusal::Refusal;
pub use report::report;
pub use summary::summary;
pub use tally::{Tally, MOST_ITERATIONS};
pub use text::read;
pub use tidy::{tidy, write};

#[cfg(test)]
mod front_tests;
#[cfg(test)]
mod radios_tests;
#[cfg(test)]
mod summary_tests;
#[cfg(test)]
mod tests;
#[cfg(test)]
mod text_tests;
