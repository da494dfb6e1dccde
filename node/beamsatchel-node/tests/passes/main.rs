//! How often a request passes over a container of 16 MiB: prints a row for each request, and fails where a page inside a
//! pass is visited more than once to judge the container, more than once for what changes, or more than once for a piece
//! that is handed out; a tested piece is looked at once more, as far as the specimen goes.

#[cfg(all(target_os = "linux", target_pointer_width = "64"))]
#[path = "../common/mod.rs"]
mod common;
#[cfg(all(target_os = "linux", target_pointer_width = "64"))]
mod pages;
#[cfg(all(target_os = "linux", target_pointer_width = "64"))]
mod rows;

fn main() {
    #[cfg(all(target_os = "linux", target_pointer_width = "64"))]
    rows::run();
}
