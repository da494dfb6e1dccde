//! The rules of `docs/RULES.md` as a plain Rust program, to compare the proved library with.
//!
//! It is written from the rules alone, sentence by sentence, and shares nothing with the library nor with the crate
//! that wraps it. It takes a container apart into its parts, makes new parts by the rules, and writes all bytes out
//! again; it is simple where the library is quick. Comments name the section of the rules that a piece is written from.
//! [`fast`] is a second writing of the same rules, for the benchmark.

mod answer;
mod apply;
mod bytes;
mod container;
mod create;
pub mod fast;
mod listed;
mod never_written;
mod new_share;
mod offsets;
mod request;
mod share;

pub use answer::Answer;
pub use apply::apply;
pub use container::{Container, Lease, LENGTHS, MAGIC};
pub use create::create;
pub use listed::{apply_listed, read_listed};
pub use never_written::{NeverWritten, LIST_LENGTH, MOST_ROWS};
pub use new_share::{write_share, NewEdition, NewShare, WrittenShare};
pub use offsets::{grow, place, resolve};
pub use request::{Read, Request, Test, TestAndWrite, Write, LONGEST_REQUEST};
pub use share::{check_container, check_share, Edition, Share};
