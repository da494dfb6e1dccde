//! The library beside a never-written list against the same library without one: what the list costs.

use crate::contest::{contest, Side};
use crate::work::{Slot, REPLY_SPACE};
use beamsatchel_node::ffi;
use beamsatchel_node::layout::list;
use std::cell::RefCell;
use std::hint::black_box;
use std::ops::Range;

/// So many bytes at the data's front are zeros.
const ZEROS: usize = 512;
/// Bytes of a write, and of the one stretch that is longer than a byte.
const PART: usize = 64;

/// What a row calls: apply, or read, for which container and list are lent for reading only.
#[derive(Clone, Copy)]
pub enum Kind {
    Apply,
    Read,
}

/// A row of the benchmark: a slot with its list, and the requests that come in turn. A round of them leaves the list as
/// it was.
pub struct Row {
    pub name: &'static str,
    pub kind: Kind,
    container: Vec<u8>,
    list: Vec<u8>,
    requests: Vec<Vec<u8>>,
    /// The most rows that the list has during a round.
    most: usize,
}

pub fn rows() -> Vec<Row> {
    let slot = Slot::new(60 * 1024, 56 * 1024);
    let size = slot.data().len();
    let row = |name, stretches: &[Range<usize>], requests| Row {
        name,
        kind: Kind::Apply,
        container: container_of(&slot, stretches),
        list: list_of(stretches),
        requests,
        most: stretches.len(),
    };
    let full = every_second(list::MAX_ROWS);
    // The last one is longer, and ends where the data does.
    let mut two_hundred = every_second(199);
    two_hundred.push(size - PART..size);
    vec![
        row("write 64 bytes, no rows", &[], slot.writes(PART)),
        row(
            "write 64 bytes, 256 rows",
            &full,
            slot.writes_from(ZEROS, PART),
        ),
        Row {
            most: 201,
            ..row(
                "refill and split the last of 200, or cut",
                &two_hundred,
                slot.split(PART),
            )
        },
        Row {
            most: 1,
            ..row("write past the end, or cut, no rows", &[], slot.gap(PART))
        },
        Row {
            kind: Kind::Read,
            ..row("read 4 KiB, 256 rows", &full, slot.reads(4096))
        },
        row("renew a lease, no rows", &[], slot.renewals()),
        row("renew a lease, 256 rows", &full, slot.renewals()),
    ]
}

/// So many stretches of a byte each, from the data's front on.
fn every_second(count: usize) -> Vec<Range<usize>> {
    (0..count).map(|row| 2 * row..2 * row + 1).collect()
}

/// The slot's container, with zeros at the data's front and in the stretches.
fn container_of(slot: &Slot, stretches: &[Range<usize>]) -> Vec<u8> {
    let mut container = slot.container();
    let data = &mut container[slot.data()];
    data[..ZEROS].fill(0);
    for stretch in stretches {
        data[stretch.clone()].fill(0);
    }
    container
}

fn list_of(stretches: &[Range<usize>]) -> Vec<u8> {
    let mut bytes = vec![0; list::LENGTH];
    bytes[list::COUNT..list::ROWS].copy_from_slice(&number(stretches.len()));
    for (row, stretch) in bytes[list::ROWS..].chunks_mut(list::ROW).zip(stretches) {
        row.copy_from_slice(&[number(stretch.start), number(stretch.len())].concat());
    }
    bytes
}

fn number(value: usize) -> [u8; 4] {
    (value as u32).to_be_bytes()
}

/// A side: container, list, request and reply space in, the outcome's number out.
pub type Call<'a> = dyn Fn(&mut [u8], &mut [u8], &[u8], &mut [u8]) -> u32 + 'a;

/// A slot with its list, and the requests that are applied to it in turn.
pub struct Player<'a> {
    row: &'a Row,
    container: Vec<u8>,
    list: Vec<u8>,
    reply: Vec<u8>,
    next: usize,
    /// The outcomes of all calls, bit by bit; 0 where each was.
    outcomes: u32,
}

impl<'a> Player<'a> {
    pub fn new(row: &'a Row) -> Player<'a> {
        Player {
            row,
            container: row.container.clone(),
            list: row.list.clone(),
            reply: vec![0; REPLY_SPACE],
            next: 0,
            outcomes: 0,
        }
    }

    /// Begins anew with container and list as they were made, and a round of requests, which leaves slack and expiries
    /// as later rounds find them.
    pub fn begin(&mut self, call: &Call) {
        self.container.copy_from_slice(&self.row.container);
        self.list.copy_from_slice(&self.row.list);
        self.next = 0;
        for _ in &self.row.requests {
            self.play(call);
        }
    }

    /// Whether a round from the beginning is done: what follows other rules may refuse it.
    pub fn takes(&mut self, call: &Call) -> bool {
        self.begin(call);
        std::mem::take(&mut self.outcomes) == 0
    }

    /// Sends the next request. Nothing of `call` is known here, so neither side is compiled into its caller.
    pub fn play(&mut self, call: &Call) {
        if self.next == self.row.requests.len() {
            self.next = 0;
        }
        let request = black_box(&self.row.requests[self.next]);
        self.next += 1;
        let (container, list) = (&mut self.container, &mut self.list);
        self.outcomes |= black_box(call)(container, list, request, &mut self.reply);
    }

    /// Every call was answered 0.
    pub fn assert_done(&self) {
        assert_eq!(self.outcomes, 0, "not each call was done");
    }

    /// How many rows the list has.
    fn count(&self) -> usize {
        let count = &self.list[list::COUNT..list::ROWS];
        u32::from_be_bytes(count.try_into().expect("four bytes")) as usize
    }
}

/// Prints a row for each workload.
pub fn against_no_list() {
    println!("\nthe library beside a never-written list, and without one;");
    println!("60 KiB containers with six leases, medians, ns per call");
    println!(
        "{:<40} {:>9} {:>11} {:>6}",
        "", "beside", "without", "ratio"
    );
    rows().iter().for_each(print);
}

fn print(row: &Row) {
    let calls: [&Call; 2] = match row.kind {
        Kind::Apply => [
            &|c, l, q, r| ffi::apply_listed(c, l, q, r).number,
            &|c, _, q, r| ffi::apply(c, q, r).number,
        ],
        Kind::Read => [
            &|c, l, q, r| ffi::read_listed(c, l, q, r).number,
            &|c, _, q, r| ffi::read(c, q, r).number,
        ],
    };
    assert_alike(row, calls);
    // One slot for both, so that it lies in the same caches for both.
    let player = RefCell::new(Player::new(row));
    let play = |side: usize| player.borrow_mut().play(calls[side]);
    let mut sides: [Side; 2] = [Box::new(|| play(0)), Box::new(|| play(1))];
    let times = contest(&mut sides, |side| player.borrow_mut().begin(calls[side]));
    player.borrow().assert_done();
    let (beside, without) = (times[0].median(), times[1].median());
    let ratio = times[0].over(&times[1]);
    println!(
        "{:<40} {beside:>9.0} {without:>11.0} {ratio:>6.2}",
        row.name
    );
}

/// Both leave the same container and reply after each request, and a round leaves the list as it was.
fn assert_alike(row: &Row, calls: [&Call; 2]) {
    let mut players = [Player::new(row), Player::new(row)];
    let mut most = players[0].count();
    for _ in 0..2 * row.requests.len() {
        for (player, call) in players.iter_mut().zip(calls) {
            player.play(call);
            player.assert_done();
        }
        let [beside, without] = &players;
        assert!(
            beside.container == without.container,
            "the containers differ"
        );
        assert!(beside.reply == without.reply, "the replies differ");
        most = most.max(beside.count());
    }
    assert!(players[0].list == row.list, "the list has changed");
    assert_eq!(most, row.most, "the list has other rows than meant");
}
