//! The never-written list: every request beside one, good and bad, alone and in histories.

mod aimed;
mod case;
mod checker;
pub mod edges;
mod faults;
pub mod histories;
mod listing;
pub mod long;
mod made;
pub mod pairs;
mod routes;
mod rows;
pub mod singles;
mod told;
pub mod woven;

pub use listing::Listing;
