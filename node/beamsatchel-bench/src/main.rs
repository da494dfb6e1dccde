//! The library against plain Rust written for speed (`beamsatchel_model::fast`), which makes every check and
//! gives the same answers, and in long containers against plain passes over the same memory too; the library beside a
//! never-written list against itself without one; or, where archives of the library are named, these against each
//! other.
//! Run by hand: `cargo run --release --bin beamsatchel-bench [-- BEFORE.a AFTER.a...]`.

mod archives;
mod contest;
mod lengths;
mod listed;
mod work;

use beamsatchel_model::fast;
use beamsatchel_node::ffi;
use contest::{contest, Side};
use std::hint::black_box;
use std::path::PathBuf;
use work::{Player, Slot};

const USAGE: &str = "usage: beamsatchel-bench [BEFORE.a AFTER.a...]";

fn main() {
    let named: Vec<PathBuf> = std::env::args_os().skip(1).map(PathBuf::from).collect();
    let done = match &named[..] {
        [] => {
            against_rust();
            listed::against_no_list();
            lengths::against_rust_and_memory();
            Ok(())
        }
        [help] if help.as_os_str() == "--help" => {
            println!("{USAGE}");
            Ok(())
        }
        [_] => Err("one archive has nothing beside it".to_string()),
        archives => archives::against_each_other(archives),
    };
    if let Err(fault) = done {
        eprintln!("{fault}; {USAGE}");
        std::process::exit(2);
    }
}

fn against_rust() {
    println!("60 KiB containers with six leases, or lengths as named with half of the room data;");
    println!("medians, ns per call");
    println!(
        "{:<40} {:>9} {:>11} {:>6}",
        "", "library", "plain Rust", "ratio"
    );
    for workload in work::rows() {
        // Each side has a container of its own.
        let mut library = Player::new(&workload);
        let mut rust = Player::new(&workload);
        row(
            &workload.name,
            || library.play(&|c, q, r| ffi::apply(c, q, r).number),
            || rust.play(&|c, q, r| fast::apply(c, q, r).number),
        );
        assert!(library.container == rust.container, "the containers differ");
    }
    for (name, share) in work::bare_shares() {
        row(
            name,
            || assert_eq!(ffi::check_share(black_box(&share)).number, 0),
            || assert_eq!(fast::check_share(black_box(&share)).number, 0),
        );
    }
    let container = Slot::with_share(60 * 1024);
    row(
        "check a share in a 60 KiB container",
        || assert_eq!(ffi::check_container(black_box(&container)).number, 0),
        || assert_eq!(fast::check_container(black_box(&container)).number, 0),
    );
    for (name, source) in work::new_shares() {
        let (arguments, new_share) = (source.arguments(), source.new_share());
        let length = new_share.length() as usize;
        let (mut by_library, mut by_rust) = (vec![1; length], vec![2; length]);
        row(
            name,
            || {
                let written = ffi::write_share(black_box(&arguments), &mut by_library);
                assert_eq!(written.number, 0);
            },
            || {
                let written = fast::write_share(black_box(&new_share), &mut by_rust);
                assert_eq!(written.number, 0);
            },
        );
        assert!(by_library == by_rust, "the shares differ");
    }
}

/// One row of the table.
fn row(name: &str, library: impl FnMut(), rust: impl FnMut()) {
    let mut sides: [Side; 2] = [Box::new(library), Box::new(rust)];
    let times = contest(&mut sides, |_| {});
    let (library, rust) = (times[0].median(), times[1].median());
    let ratio = times[0].over(&times[1]);
    println!("{name:<40} {library:>9.0} {rust:>11.0} {ratio:>6.2}");
}
