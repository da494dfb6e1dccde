//! The containers, requests and shares of the benchmark.

use beamsatchel_model::{fast, NewEdition, NewShare};
use beamsatchel_node::ffi::{EditionArguments, ShareArguments};
use beamsatchel_node::{
    AddLease, CancelLease, CancelToken, Container, Lease, NodeId, Offset, Opcode, ReadData,
    RenewLease, RenewalToken, TestAndWrite, WriteEnabler,
};
use std::hint::black_box;
use std::num::NonZeroU32;
use std::ops::Range;

const NODE: NodeId = NodeId([7; 20]);
const ENABLER: WriteEnabler = WriteEnabler::new([0xEE; 32]);
const LEASES: u8 = 6;
/// Those of the leases that stand behind the data.
const EXTRAS: usize = LEASES as usize - 4;
/// Different requests of a workload, which come in turn.
const REQUESTS: usize = 256;
/// Enough for every reply.
pub const REPLY_SPACE: usize = 8192;

/// A slot with six leases.
pub struct Slot {
    length: usize,
    size: usize,
}

impl Slot {
    /// A slot in a buffer of `length` bytes with `size` bytes of data.
    pub fn new(length: usize, size: usize) -> Slot {
        Slot { length, size }
    }

    /// A slot whose data is the share.
    pub fn with_share(length: usize) -> Vec<u8> {
        let share = share();
        let mut container = Slot::new(length, share.len()).container();
        container[468..468 + share.len()].copy_from_slice(&share);
        container
    }

    /// A slot in a buffer of `length` bytes with as much data as there is room for.
    pub fn full(length: usize) -> Slot {
        Slot::new(length, length - 472 - EXTRAS * 92)
    }

    pub fn container(&self) -> Vec<u8> {
        let mut bytes = vec![0; self.length];
        let mut slot = Container::create(&mut bytes[..], NODE, ENABLER).expect("a good length");
        // As many requests as it takes.
        for body in vec![b'A'; self.size].chunks(60_000) {
            let request = TestAndWrite::new(ENABLER).append(body);
            let done = slot.test_and_write(&request.expect("fits"), &mut []);
            assert!(done.expect("room").is_done());
        }
        for number in 0..LEASES {
            slot.add_lease(lease(number)).expect("room");
        }
        bytes
    }

    /// Where its data lies.
    pub fn data(&self) -> Range<usize> {
        468..468 + self.size
    }

    /// Its used length.
    pub fn used(&self) -> usize {
        472 + self.size + EXTRAS * 92
    }

    /// A byte at the last place that there is.
    pub fn far_write(&self) -> Vec<u8> {
        let last = Slot::full(self.length).size - 1;
        checked().write(last as u32, b"F").expect("fits").to_bytes()
    }

    /// A cut to nothing.
    pub fn cut_all(&self) -> Vec<u8> {
        checked().cut(0).to_bytes()
    }

    /// One read of all data.
    pub fn read_all(&self) -> Vec<u8> {
        let read = ReadData::new().read(0, self.size as u32);
        read.expect("fits").to_bytes()
    }

    /// Writes at random offsets inside the data, each with a test of the first 41 bytes, as a
    /// Tahoe client's checkstring is.
    pub fn writes(&self, count: usize) -> Vec<Vec<u8>> {
        self.writes_from(0, count)
    }

    /// The same behind the first `low` bytes of the data.
    pub fn writes_from(&self, low: usize, count: usize) -> Vec<Vec<u8>> {
        let body = vec![b'B'; count];
        self.at_random(low, count, |offset| {
            checked().write(offset, &body).expect("fits").to_bytes()
        })
    }

    /// Writes 4 KiB that begin before and end after the data's end, and cuts that undo them. The first cut leaves
    /// slack, into which all later writes go.
    pub fn growth(&self, past: usize) -> Vec<Vec<u8>> {
        let offset = (self.size + past - 4096) as u32;
        let grow = checked().write(offset, &[b'C'; 4096]).expect("fits");
        let cut = checked().cut(self.size as u32);
        vec![grow.to_bytes(), cut.to_bytes()]
    }

    /// As many appends of `count` bytes as there is room for, each at the position where the one before it ends.
    pub fn appends(&self, count: usize) -> Vec<Vec<u8>> {
        self.appends_at(count, |end| Offset::FromStart(end as u32))
    }

    /// The same by requests that do not know the size.
    pub fn appends_at_end(&self, count: usize) -> Vec<Vec<u8>> {
        self.appends_at(count, |_| Offset::END)
    }

    fn appends_at(&self, count: usize, offset: impl Fn(usize) -> Offset) -> Vec<Vec<u8>> {
        let room = Slot::full(self.length).size - self.size;
        let body = vec![b'D'; count];
        let appends = (0..room / count).map(|number| {
            let offset = offset(self.size + number * count);
            checked().write(offset, &body).expect("fits").to_bytes()
        });
        appends.collect()
    }

    /// Such appends, and the cut that undoes them all. The first one leaves slack, into which all later appends go.
    pub fn then_cut(&self, appends: Vec<Vec<u8>>) -> Vec<Vec<u8>> {
        let cut = checked().cut(self.size as u32).to_bytes();
        appends.into_iter().chain([cut]).collect()
    }

    /// One write at the end, and the cut that undoes it, so that every second call is a cut. The first one leaves
    /// slack, into which all later writes go.
    pub fn undone(&self, count: usize) -> Vec<Vec<u8>> {
        let grow = checked().write(self.size as u32, &vec![b'E'; count]);
        let cut = checked().cut(self.size as u32);
        vec![grow.expect("fits").to_bytes(), cut.to_bytes()]
    }

    /// A write of `count` bytes behind a gap of as many, and the cut that undoes both. The first one leaves slack, into
    /// which all later writes go.
    pub fn gap(&self, count: usize) -> Vec<Vec<u8>> {
        let past = checked().write((self.size + count) as u32, &vec![b'G'; count]);
        let cut = checked().cut(self.size as u32);
        vec![past.expect("fits").to_bytes(), cut.to_bytes()]
    }

    /// A write behind a gap of twice as many bytes, which makes a stretch longer that ends at the data's end, and one
    /// into the gap's first half, which splits that stretch where it ended; and the cut that undoes them.
    pub fn split(&self, count: usize) -> Vec<Vec<u8>> {
        let body = vec![b'H'; count];
        let past = checked().write((self.size + 2 * count) as u32, &body);
        let split = past.expect("fits").write(self.size as u32, &body);
        let cut = checked().cut(self.size as u32);
        vec![split.expect("fits").to_bytes(), cut.to_bytes()]
    }

    /// Reads at random offsets inside the data.
    pub fn reads(&self, count: usize) -> Vec<Vec<u8>> {
        self.at_random(0, count, |offset| {
            let read = ReadData::new().read(offset, count as u32);
            read.expect("fits").to_bytes()
        })
    }

    /// Renewals of the last lease. Their expiries rise, so that after the first round none is later.
    pub fn renewals(&self) -> Vec<Vec<u8>> {
        (0..REQUESTS as u32)
            .map(|expiry| RenewLease {
                token: lease(LEASES - 1).renewal,
                expiry,
            })
            .map(|renew| renew.to_bytes().to_vec())
            .collect()
    }

    /// A seventh lease comes and goes.
    pub fn lease_lives(&self) -> Vec<Vec<u8>> {
        let add = AddLease(lease(LEASES)).to_bytes().to_vec();
        let cancel = CancelLease(lease(LEASES).cancel).to_bytes().to_vec();
        vec![add, cancel]
    }

    /// Tests that are false at the last byte only.
    pub fn false_tests(&self, count: usize) -> Vec<Vec<u8>> {
        let mut specimen = vec![b'A'; count];
        specimen[count - 1] = b'B';
        self.at_random(0, count, |offset| {
            let test =
                TestAndWrite::new(ENABLER).test(offset, count as u32, Opcode::Equal, &specimen);
            test.expect("fits").to_bytes()
        })
    }

    /// Requests for `count` bytes of the data each, at `low` or behind.
    fn at_random(
        &self,
        low: usize,
        count: usize,
        request: impl Fn(u32) -> Vec<u8>,
    ) -> Vec<Vec<u8>> {
        let mut state: u64 = 0xBEA5_A7C4;
        (0..REQUESTS)
            .map(|_| {
                // The upper bits of a linear congruential generator.
                state = state
                    .wrapping_mul(6_364_136_223_846_793_005)
                    .wrapping_add(1);
                let offset = low + (state >> 33) as usize % (self.size - low - count + 1);
                request(offset as u32)
            })
            .collect()
    }
}

/// A test-and-write whose one test holds.
fn checked() -> TestAndWrite {
    TestAndWrite::new(ENABLER)
        .test(0, 41, Opcode::GreaterOrEqual, b"")
        .expect("fits")
}

fn lease(number: u8) -> Lease {
    Lease {
        owner: NonZeroU32::MIN,
        expiry: 0,
        renewal: RenewalToken::new([number + 1; 32]),
        cancel: CancelToken::new([number + 101; 32]),
        node: NODE,
    }
}

/// A row of the benchmark: a name, the slot, and the requests that come in turn.
pub struct Workload {
    pub name: String,
    slot: Slot,
    requests: Vec<Vec<u8>>,
    put_back: bool,
}

impl Workload {
    fn new(name: &str, slot: Slot, requests: Vec<Vec<u8>>) -> Workload {
        Workload {
            name: name.to_string(),
            slot,
            requests,
            put_back: false,
        }
    }

    /// Puts the slot back as it was after each round of requests, which only append, so that it never has slack.
    fn put_back(self) -> Workload {
        Workload {
            put_back: true,
            ..self
        }
    }
}

/// The rows of the benchmark.
pub fn rows() -> Vec<Workload> {
    let long = || Slot::new(60 * 1024, 56 * 1024);
    let row = |name, requests| Workload::new(name, long(), requests);
    let slot = long();
    let mut rows = vec![
        row("write 4 KiB at random offsets", slot.writes(4096)),
        row("write 4 KiB past the end, or cut it", slot.growth(2048)),
        row("write 64 bytes at random offsets", slot.writes(64)),
        row(
            "append 64 bytes, 53 times, then cut them",
            slot.then_cut(slot.appends(64)),
        ),
        row(
            "append 64 bytes at -1, then cut them",
            slot.then_cut(slot.appends_at_end(64)),
        ),
        row("append 64 bytes, 53 times, without slack", slot.appends(64)).put_back(),
        row(
            "append 64 bytes at -1, without slack",
            slot.appends_at_end(64),
        )
        .put_back(),
        row(
            "write 3,392 bytes at the end, or cut it",
            slot.undone(53 * 64),
        ),
        row("read 4 KiB at random offsets", slot.reads(4096)),
        row("renew the last of six leases", slot.renewals()),
        row("add a lease, or cancel it", slot.lease_lives()),
        row("a false test of 4 KiB", slot.false_tests(4096)),
    ];
    for kibibytes in [2, 8, 32, 64] {
        let length = kibibytes * 1024;
        // Half of the room is data.
        let slot = || Slot::new(length, Slot::full(length).size / 2);
        let timed = slot();
        for (name, requests) in [
            ("write 512 bytes", timed.writes(512)),
            ("read 512 bytes", timed.reads(512)),
            ("renew a lease", timed.renewals()),
        ] {
            let name = format!("{name}, {kibibytes} KiB");
            rows.push(Workload::new(&name, slot(), requests));
        }
    }
    rows
}

/// The share of 2,043 bytes, of Numbers at the edges in docs/RULES.md.
fn share() -> Vec<u8> {
    let mut share = vec![0; 2043];
    share[8] = 1;
    share[57..59].copy_from_slice(&[3, 10]);
    share[66] = 12;
    share[74] = 10;
    for (field, offset) in [
        (77, 399_u16),
        (81, 655),
        (85, 791),
        (89, 823),
        (97, 827),
        (105, 2043),
    ] {
        share[field..field + 2].copy_from_slice(&offset.to_be_bytes());
    }
    for (entry, node) in [2, 4, 8, 16].into_iter().enumerate() {
        share[656 + 34 * entry] = node;
    }
    share
}

/// What a share is written from: numbers and parts of that of 2,043 bytes, with other data.
pub struct Source {
    share: Vec<u8>,
    data_length: u64,
    block_tree: Vec<u8>,
    share_data: Vec<u8>,
    /// None for SDMF.
    segment_size: Option<u64>,
}

impl Source {
    /// The source of an SDMF share of so many bytes, at least 2,043.
    fn sdmf(length: usize) -> Source {
        // Of the 2,043 bytes, 4 are share data.
        let blocks = 4 + length - 2043;
        Source {
            share: share(),
            data_length: data_length(blocks),
            block_tree: vec![0; 32],
            share_data: vec![0; blocks],
            segment_size: None,
        }
    }

    /// The source of an MDMF share with so many segments, and blocks of so many bytes.
    fn mdmf(segments: usize, block: usize) -> Source {
        Source {
            share: share(),
            data_length: data_length(segments * block),
            block_tree: vec![0; 32 * (2 * segments.next_power_of_two() - 1)],
            share_data: vec![0; segments * (16 + block)],
            segment_size: Some(3 * block as u64),
        }
    }

    /// For the library.
    pub fn arguments(&self) -> ShareArguments<'_> {
        let share = &self.share;
        ShareArguments {
            sequence_number: 1,
            root_hash: &share[9..41],
            k: 3,
            n: 10,
            data_length: self.data_length,
            verification_key: &share[107..399],
            signature: &share[399..655],
            hash_chain: &share[655..791],
            block_tree: &self.block_tree,
            share_data: &self.share_data,
            encrypted_private_key: &share[827..],
            edition: match self.segment_size {
                None => EditionArguments::Sdmf { iv: &share[41..57] },
                Some(segment_size) => EditionArguments::Mdmf {
                    segment_size,
                    spare: &[],
                },
            },
        }
    }

    /// For plain Rust.
    pub fn new_share(&self) -> NewShare<'_> {
        let share = self.arguments();
        NewShare {
            sequence_number: share.sequence_number,
            root_hash: share.root_hash,
            k: share.k,
            n: share.n,
            data_length: share.data_length,
            verification_key: share.verification_key,
            signature: share.signature,
            hash_chain: share.hash_chain,
            block_tree: share.block_tree,
            share_data: share.share_data,
            encrypted_private_key: share.encrypted_private_key,
            edition: match share.edition {
                EditionArguments::Sdmf { iv } => NewEdition::Sdmf { iv },
                EditionArguments::Mdmf {
                    segment_size,
                    spare,
                } => NewEdition::Mdmf {
                    segment_size,
                    spare,
                },
            },
        }
    }

    /// The share itself.
    pub fn written(&self) -> Vec<u8> {
        let share = self.new_share();
        let mut bytes = vec![0; share.length() as usize];
        assert_eq!(fast::write_share(&share, &mut bytes).number, 0);
        bytes
    }
}

/// The data of a share of k = 3 with so many bytes of blocks, the last one not full.
fn data_length(blocks: usize) -> u64 {
    3 * blocks as u64 - 2
}

/// The rows of bare shares that are checked.
pub fn bare_shares() -> [(&'static str, Vec<u8>); 3] {
    [
        ("check a bare share of 2,043 bytes", share()),
        (
            "check a bare MDMF share of 2,075 bytes",
            Source::mdmf(1, 4).written(),
        ),
        (
            "check a bare MDMF share of 8 segments",
            Source::mdmf(8, 7351).written(),
        ),
    ]
}

/// The rows of shares that are written. That of 8 segments has 60 KiB too, but for a byte.
pub fn new_shares() -> [(&'static str, Source); 4] {
    [
        ("write a share of 2,043 bytes", Source::sdmf(2043)),
        ("write a share of 60 KiB", Source::sdmf(60 * 1024)),
        ("write an MDMF share of 2,075 bytes", Source::mdmf(1, 4)),
        ("write an MDMF share of 8 segments", Source::mdmf(8, 7351)),
    ]
}

/// A side: container, request and reply space in, the outcome's number out.
pub type Apply<'a> = dyn Fn(&mut [u8], &[u8], &mut [u8]) -> u32 + 'a;

/// Done, or with a false test.
fn is_taken(number: u32) -> bool {
    matches!(number, 0 | 8)
}

/// A container, and the requests that are applied to it in turn.
pub struct Player<'a> {
    pub container: Vec<u8>,
    /// The container as it was made.
    made: Vec<u8>,
    workload: &'a Workload,
    reply: Vec<u8>,
    next: usize,
}

impl<'a> Player<'a> {
    pub fn new(workload: &'a Workload) -> Player<'a> {
        let made = workload.slot.container();
        Player {
            container: made.clone(),
            made,
            workload,
            reply: vec![0; REPLY_SPACE],
            next: 0,
        }
    }

    /// Begins anew with the container as it was made, and a round of requests, which leaves slack and expiries as later
    /// rounds find them.
    pub fn begin(&mut self, apply: &Apply) {
        self.container.copy_from_slice(&self.made);
        self.next = 0;
        for _ in 0..self.workload.requests.len() {
            self.play(apply);
        }
    }

    /// Whether the first request is taken: what follows other rules may refuse it.
    pub fn takes(&mut self, apply: &Apply) -> bool {
        self.container.copy_from_slice(&self.made);
        let request = &self.workload.requests[0];
        is_taken(apply(&mut self.container, request, &mut self.reply))
    }

    /// Applies the next request, which is done or has a false test. Nothing of `apply` is known
    /// here, so neither side is compiled into its caller.
    pub fn play(&mut self, apply: &Apply) {
        if self.next == self.workload.requests.len() {
            self.next = 0;
            if self.workload.put_back {
                self.put_back();
            }
        }
        let request = &self.workload.requests[self.next];
        self.next += 1;
        let number = black_box(apply)(&mut self.container, black_box(request), &mut self.reply);
        assert!(is_taken(number), "outcome {number}");
    }

    /// Puts back what appends change: the fields of size and offset, and all from the data's end on.
    fn put_back(&mut self) {
        for changed in [84..100, 468 + self.workload.slot.size..self.made.len()] {
            self.container[changed.clone()].copy_from_slice(&self.made[changed]);
        }
    }
}
