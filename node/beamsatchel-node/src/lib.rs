//! The Beamsatchel slot container, for a Rust storage node.
//!
//! A [`Container`] is one Tahoe-LAFS mutable slot in a buffer that the node lends or hands over. The rules are those of
//! `docs/RULES.md`, and the work is done by the proved library behind nine C-callable functions; this crate gives them
//! types. Whatever bytes arrive, every call ends in one of the numbered outcomes: done, or a [`Reason`], or a
//! [`NewShareError`] where a share was to be written. A refused request changes no byte of the container, and a share
//! that is not written no byte of the space for it. Tests, writes and reads begin at an [`Offset`], which counts from
//! the start of the data or from its end. A slot's data is usually a share, SDMF of a small file or MDMF of a large
//! one: [`Share`] checks one and tells its [`Edition`], and [`NewShare`] writes one. A [`ListedContainer`] is a slot
//! with its list of the stretches that hold zeros only because nobody wrote there.
//!
//! ```
//! use beamsatchel_node::{Container, NodeId, Opcode, ReadData, TestAndWrite, WriteEnabler};
//!
//! # fn main() -> Result<(), beamsatchel_node::Error> {
//! let mut buffer = vec![0; 4096];
//! let enabler = WriteEnabler::new([0xEE; 32]);
//! let mut slot = Container::create(&mut buffer[..], NodeId([7; 20]), enabler)?;
//!
//! // Writes "AB" at 3, provided that the slot is still empty.
//! let request = TestAndWrite::new(enabler)
//!     .test(0, 1, Opcode::Equal, b"")?
//!     .write(3, b"AB")?;
//! let mut space = vec![0; request.reply_bound()];
//! assert!(slot.test_and_write(&request, &mut space)?.is_done());
//!
//! // What was never written is zero. Reading needs the buffer for reading only.
//! let slot = Container::open(&buffer[..])?;
//! let request = ReadData::new().read(0, 5)?;
//! let mut space = vec![0; request.reply_bound()];
//! let reply = slot.read(&request, &mut space)?;
//! assert_eq!(reply.pieces().next(), Some(&b"\0\0\0AB"[..]));
//! # Ok(())
//! # }
//! ```
//!
//! # Commands
//!
//! In `node/`:
//!
//! - `cargo test --release` compares the library with an independent model of the rules, over a million cases;
//!   `BEAMSATCHEL_CASES` sets more, `BEAMSATCHEL_SEED` others.
//! - `cargo run --release --bin beamsatchel-dump -- FILE...` tells in words what container files hold, or why they are
//!   refused and at which byte; `--help` has its options.
//! - `cargo run --release --bin beamsatchel-chart -- OPTIONS CONTAINER LIST` draws the samples in a slot as SVG, with a
//!   line that breaks where nobody wrote; `--help` has its options.
//! - `cargo run --release --bin beamsatchel-bench` times the library against plain Rust, and with
//!   `-- BEFORE.a AFTER.a` archives of the library against each other.
//!
//! # The archive
//!
//! The build links `crates/beamsatchel/out/libbeamsatchel.a` of the repository. It runs `rt lib --cpu x86-64` in
//! `crates/beamsatchel` to make it, at first and whenever a source has changed; cargo tells that by the files' times,
//! as for sources in Rust. From nothing that takes minutes, in which cargo shows nothing. On a machine without the
//! Rattle kit, `BEAMSATCHEL_ARCHIVE` names an archive that was made elsewhere, of the same version as this crate; a
//! relative path is relative to where cargo is started. One of another version may link all the same, and goes by its
//! own version's rules: only a program that calls what it lacks does not link. One before 0.7 knows no MDMF and has
//! other names for what checks and writes shares, so that a program that opens a container, or checks or writes a
//! share, does not link with it. One before 0.8 knows no list, so that a program that uses lists does not link with it.

#![warn(missing_docs)]

mod answers;
mod container;
mod faults;
pub mod ffi;
pub mod layout;
mod list_faults;
mod listed;
mod offsets;
mod requests;
mod secrets;
mod shares;
mod stretches;

pub use answers::{Answer, Error, Reason, Refusal, Reply, Written};
pub use container::{Container, Lease, NodeId, View};
pub use faults::{Clause, Fault};
pub use list_faults::{ListClause, ListFault};
pub use listed::ListedContainer;
pub use offsets::Offset;
pub use requests::{AddLease, BuildError, CancelLease, Opcode, ReadData, RenewLease, TestAndWrite};
pub use secrets::{CancelToken, RenewalToken, WriteEnabler};
pub use shares::{Edition, NewEdition, NewShare, NewShareError, Part, Share};
pub use stretches::Stretches;
