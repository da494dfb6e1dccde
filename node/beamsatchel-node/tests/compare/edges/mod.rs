//! Sizes, offsets and counts at and one past each edge.

mod buffers;
mod ends;
mod entries;
mod leases;
mod replies;
mod room;
mod slack;

use crate::case::Case;
use crate::checker::Checker;
use crate::rng::Rng;
use beamsatchel_model::{Container, Test, TestAndWrite, Write};

const ENABLER: [u8; 32] = [0xEE; 32];

pub fn run(rng: &mut Rng, checker: &mut Checker) {
    buffers::run(rng, checker);
    room::run(checker);
    slack::run(rng, checker);
    entries::run(rng, checker);
    ends::run(rng, checker);
    replies::run(rng, checker);
    leases::run(rng, checker);
}

fn fresh(length: usize) -> Container {
    Container {
        length,
        node: [7; 20],
        enabler: ENABLER,
        data: Vec::new(),
        slack: 0,
        places: vec![None; 4],
    }
}

/// A container without leases.
fn holding(length: usize, data: Vec<u8>) -> Container {
    Container {
        data,
        ..fresh(length)
    }
}

/// A test-and-write with one write.
fn write(offset: i32, data: Vec<u8>) -> TestAndWrite {
    TestAndWrite {
        enabler: ENABLER,
        tests: Vec::new(),
        writes: vec![Write { offset, data }],
        cut: None,
    }
}

/// A test-and-write with one test, by ge.
fn test(offset: i32, length: u32, specimen: Vec<u8>) -> TestAndWrite {
    TestAndWrite {
        enabler: ENABLER,
        tests: vec![Test {
            offset,
            length,
            opcode: 5,
            specimen,
        }],
        writes: Vec::new(),
        cut: None,
    }
}

/// Compares a case with so much reply space; gives the outcome.
fn run_case(checker: &mut Checker, container: &[u8], request: Vec<u8>, space: usize) -> u32 {
    let mut case = Case {
        container: container.to_vec(),
        request,
        reply: vec![0xA5; space],
    };
    checker.apply(&mut case).number
}
