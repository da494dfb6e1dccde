//! Bad input through each of the seven functions of the C interface that take no list: empty slices and lengths at the
//! edges of what is allowed, for every argument.

mod common;

use beamsatchel_model as model;
use beamsatchel_node::ffi::{self, EditionArguments, ShareArguments};
use beamsatchel_node::Edition;
use common::raw::{reads, write, ENABLER};

const LENGTHS: [usize; 8] = [0, 1, 471, 472, 473, 65_537, LONGEST, LONGEST + 1];
/// The most bytes of a container's buffer.
const LONGEST: usize = 16_777_216;
/// The most bytes of a request.
const LONGEST_REQUEST: usize = 65_536;

/// Buffers of each length: zeros, ones, and a container's bytes as far as they go.
fn buffers() -> Vec<Vec<u8>> {
    let mut buffers = Vec::new();
    for length in LENGTHS {
        buffers.push(vec![0; length]);
        buffers.push(vec![0xFF; length]);
        let mut container = vec![0; length.clamp(472, LONGEST)];
        assert_eq!(model::create(&mut container, &[7; 20], &ENABLER).number, 0);
        container.resize(length, 0);
        buffers.push(container);
    }
    buffers
}

/// Requests of 0 and 65,537 bytes and between, of each kind; beside a long buffer few, since each costs a pass over it.
fn requests(buffer: &[u8]) -> Vec<Vec<u8>> {
    if !is_long(buffer) {
        return all_requests();
    }
    let mut add = vec![2, 0, 0, 0, 1];
    add.resize(93, 7);
    let mut few = vec![Vec::new(), add, vec![3; 37], vec![4; 33], vec![5, 0, 0, 0]];
    few.extend(longest_requests());
    few.extend(extreme_offsets());
    few
}

fn is_long(buffer: &[u8]) -> bool {
    buffer.len() > 100_000
}

fn all_requests() -> Vec<Vec<u8>> {
    let mut requests = vec![Vec::new()];
    for length in [1, 4, 33, 37, 40, 93, LONGEST_REQUEST, LONGEST_REQUEST + 1] {
        for kind in 0..=6 {
            let mut request = vec![0; length];
            request[0] = kind;
            requests.push(request.clone());
            if kind == 2 && length > 4 {
                request[4] = 1;
                requests.push(request);
            } else if kind == 1 && length >= 40 {
                request[8..40].copy_from_slice(&ENABLER);
                requests.push(request);
            }
        }
    }
    requests.extend(longest_requests());
    requests.extend(extreme_offsets());
    requests
}

/// The longest that is well formed, and one byte more. All that it writes is cut.
fn longest_requests() -> [Vec<u8>; 2] {
    let mut longest = vec![1, 0, 1, 1, 0, 0, 0, 0];
    longest.extend(ENABLER);
    longest.extend([0; 4]);
    longest.extend((LONGEST_REQUEST as u32 - 48).to_be_bytes());
    longest.resize(LONGEST_REQUEST, 0);
    let mut longer = longest.clone();
    longer.push(0);
    [longest, longer]
}

/// Reads and writes at the end, far behind it, a byte before an empty container's start and at the lowest offset. All
/// that they write is cut.
fn extreme_offsets() -> Vec<Vec<u8>> {
    let offsets = [-1, i32::MAX, -2, i32::MIN];
    let requests = offsets.into_iter().flat_map(|offset| {
        let read = reads(&[(offset, u32::MAX)]);
        [read, write(&[(offset, b"A")], Some(0))]
    });
    requests.collect()
}

/// How often each outcome was met, beside short buffers and beside long ones.
#[derive(Default)]
struct Met([[u32; 13]; 2]);

impl Met {
    fn count(&mut self, buffer: &[u8], number: u32) {
        self.0[usize::from(is_long(buffer))][number as usize] += 1;
    }

    fn demand(&self, outcomes: [&[usize]; 2]) {
        for (met, outcomes) in self.0.iter().zip(outcomes) {
            for number in outcomes {
                assert!(met[*number] > 0, "outcome {number} was never met: {met:?}");
            }
        }
    }
}

#[test]
fn apply_takes_any_lengths() {
    let mut met = Met::default();
    for buffer in buffers() {
        for request in requests(&buffer) {
            for space in [0, 1, 65_537] {
                let (mut container, mut reply) = (buffer.clone(), vec![0xA5; space]);
                let (mut by_model, mut reply_by_model) = (buffer.clone(), reply.clone());
                let answer = ffi::apply(&mut container, &request, &mut reply);
                let modelled = model::apply(&mut by_model, &request, &mut reply_by_model);
                let lengths = (buffer.len(), request.len(), space);
                assert_eq!(answer.number, modelled.number, "{lengths:?}");
                assert_eq!((answer.node, answer.count), (modelled.node, modelled.count));
                assert!(
                    container == by_model && reply == reply_by_model,
                    "{lengths:?}"
                );
                met.count(&buffer, answer.number);
            }
        }
    }
    met.demand([&[0, 1, 2, 3, 4, 5, 7, 9], &[0, 1, 2, 3, 4, 7, 9]]);
}

/// Lent for reading only, a container answers reads; any other request is as the empty one.
#[test]
fn read_takes_any_lengths() {
    let mut met = Met::default();
    for buffer in buffers() {
        for request in requests(&buffer) {
            let taken = match request.first() {
                Some(5) => &request[..],
                _ => &[],
            };
            for space in [0, 1, 65_537] {
                let (mut reply, mut by_model) = (vec![0xA5; space], buffer.clone());
                let mut reply_by_model = reply.clone();
                let answer = ffi::read(&buffer, &request, &mut reply);
                let modelled = model::apply(&mut by_model, taken, &mut reply_by_model);
                let lengths = (buffer.len(), request.len(), space);
                assert_eq!(answer.number, modelled.number, "{lengths:?}");
                assert_eq!((answer.node, answer.count), (modelled.node, modelled.count));
                assert!(buffer == by_model && reply == reply_by_model, "{lengths:?}");
                met.count(&buffer, answer.number);
            }
        }
    }
    met.demand([&[0, 1, 2, 3, 4, 7]; 2]);
}

#[test]
fn create_takes_any_lengths() {
    for buffer in buffers() {
        for node in [0, 19, 20, 21, 65_537] {
            for enabler in [0, 31, 32, 33, 65_537] {
                let (node, enabler) = (vec![7; node], vec![0xEE; enabler]);
                let (mut container, mut by_model) = (buffer.clone(), buffer.clone());
                let answer = ffi::create(&mut container, &node, &enabler);
                let modelled = model::create(&mut by_model, &node, &enabler);
                assert_eq!(answer.number, modelled.number);
                assert_eq!((answer.node, answer.count), ([0; 20], 0));
                assert!(container == by_model);
            }
        }
    }
}

#[test]
fn checks_take_any_lengths() {
    for buffer in buffers() {
        let in_container = ffi::check_container(&buffer);
        let modelled = model::check_container(&buffer);
        assert_eq!(
            (in_container.number, in_container.edition),
            (modelled.number, modelled.edition)
        );
        assert_eq!(in_container.bounds, [0; 8]);
        // As it is, and as an SDMF or MDMF share.
        let mut bare = buffer;
        assert_ne!(common::check_share(&bare).number, 0);
        for version in [0, 1] {
            bare.iter_mut().take(1).for_each(|byte| *byte = version);
            assert_ne!(common::check_share(&bare).number, 0);
        }
    }
}

/// Every slice of both writers at each length, beside good ones and beside empty ones; every length of the space.
#[test]
fn write_share_takes_any_lengths() {
    let bytes = vec![0; 65_537];
    for edition in Edition::ALL {
        // R, IV or spare bytes, and the six parts of a share of k = 1 and N = 2, whose one node number is 0.
        let good = match edition {
            Edition::Sdmf => [32, 16, 292, 256, 34, 32, 10, 1216],
            Edition::Mdmf => [32, 5, 292, 256, 34, 32, 26, 1216],
        };
        let mut lengths = vec![good, [0; 8]];
        for slice in 0..8 {
            for length in [0, 1, 15, 16, 17, 31, 32, 33, 34, 35, 65_537] {
                for mut beside in [good, [0; 8]] {
                    beside[slice] = length;
                    lengths.push(beside);
                }
            }
        }
        let mut met = [0; 30];
        for lengths in lengths {
            let slices = lengths.map(|length| &bytes[..length]);
            let header = edition.header().len;
            let counted = match edition {
                Edition::Sdmf => &lengths[2..],
                Edition::Mdmf => &lengths[1..],
            };
            let needed = header + counted.iter().sum::<usize>();
            for space in [
                0,
                1,
                header - 1,
                header,
                needed - 1,
                needed,
                needed + 1,
                65_537,
            ] {
                for (k, n, data_length) in [(1, 2, 10), (0, 0, 0), (255, 254, 0), (2, 3, u64::MAX)]
                {
                    let share = ShareArguments {
                        sequence_number: 1,
                        root_hash: slices[0],
                        k,
                        n,
                        data_length,
                        verification_key: slices[2],
                        signature: slices[3],
                        hash_chain: slices[4],
                        block_tree: slices[5],
                        share_data: slices[6],
                        encrypted_private_key: slices[7],
                        edition: match edition {
                            Edition::Sdmf => EditionArguments::Sdmf { iv: slices[1] },
                            Edition::Mdmf => EditionArguments::Mdmf {
                                segment_size: data_length,
                                spare: slices[1],
                            },
                        },
                    };
                    let (number, _) = common::write_share(&share, &mut vec![0xA5; space]);
                    met[number as usize] += 1;
                }
            }
        }
        for number in [0, 3, 7, 23, 24, 25, 26, 27, 28] {
            assert!(met[number] > 0, "{edition}: outcome {number} was never met");
        }
    }
}
