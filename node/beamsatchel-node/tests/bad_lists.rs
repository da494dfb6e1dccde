//! Bad input through the two functions that take a list: lists of any length and any bytes, beside buffers, requests
//! and reply space of any length.

mod common;

use beamsatchel_model as model;
use beamsatchel_node::ffi;
use common::raw::{add, append, cancel, reads, write, ENABLER, NODE};

/// The most bytes of a container's buffer.
const LONGEST: usize = 16_777_216;

/// Buffers of each length: zeros, and a container's bytes as far as they go.
fn buffers() -> Vec<Vec<u8>> {
    let mut buffers = Vec::new();
    for length in [0, 1, 471, 472, 473, 600, LONGEST + 1] {
        buffers.push(vec![0; length]);
        let mut container = vec![0; length.clamp(472, LONGEST)];
        assert_eq!(ffi::create(&mut container, &NODE, &ENABLER).number, 0);
        let request = write(&[(9, b"A")], None);
        let number = ffi::apply(&mut container, &request, &mut []).number;
        assert_eq!(number, if length < 482 { 11 } else { 0 });
        container.resize(length, 0);
        buffers.push(container);
    }
    buffers
}

/// Zeros, ones, a row of five bytes, and every word the greatest number, as far as they go.
fn lists() -> Vec<Vec<u8>> {
    let mut row = vec![0, 0, 0, 1, 0, 0, 0, 2, 0, 0, 0, 5];
    row.resize(65_537, 0);
    let mut lists = Vec::new();
    for length in [0, 1, 3, 4, 11, 12, 2_051, 2_052, 2_053, 65_537] {
        lists.extend([vec![0; length], vec![1; length], vec![0xFF; length]]);
        lists.push(row[..length].to_vec());
    }
    lists
}

fn requests() -> Vec<Vec<u8>> {
    vec![
        Vec::new(),
        vec![0],
        vec![6; 100],
        vec![1; 40],
        vec![5; 65_537],
        add(1),
        cancel(1),
        reads(&[]),
        reads(&[(0, u32::MAX)]),
        reads(&[(i32::MIN, 1)]),
        append(b"Z"),
        write(&[(3, b"Z")], None),
        write(&[(i32::MAX, b"Z")], Some(5)),
        write(&[(i32::MIN, b"Z")], None),
        write(&[], Some(u32::MAX)),
    ]
}

#[test]
fn any_list_beside_any_buffer() {
    let mut met = [0; 17];
    for buffer in buffers() {
        for list in lists() {
            for request in requests() {
                for space in [0, 30] {
                    let number = apply(&buffer, &list, &request, space);
                    met[number as usize] += 1;
                    read(&buffer, &list, &request, space);
                }
            }
        }
    }
    for number in [0, 1, 2, 3, 4, 7, 9, 11, 16] {
        assert!(met[number] > 0, "outcome {number} was never met: {met:?}");
    }
}

/// By the library and by the model, which must agree; gives the outcome.
fn apply(buffer: &[u8], list: &[u8], request: &[u8], space: usize) -> u32 {
    // On a buffer that is too long nothing changes, and nothing is copied.
    if buffer.len() > LONGEST {
        return read(buffer, list, request, space);
    }
    let [mut by_library, mut by_model] = [0; 2].map(|_| (buffer.to_vec(), list.to_vec()));
    let [mut reply, mut reply_by_model] = [0; 2].map(|_| vec![0xA5; space]);
    let answer = ffi::apply_listed(&mut by_library.0, &mut by_library.1, request, &mut reply);
    let modelled = model::apply_listed(
        &mut by_model.0,
        &mut by_model.1,
        request,
        &mut reply_by_model,
    );
    assert_eq!(
        (answer.number, answer.node, answer.count),
        (modelled.number, modelled.node, modelled.count)
    );
    assert!(by_library == by_model && reply == reply_by_model);
    answer.number
}

fn read(buffer: &[u8], list: &[u8], request: &[u8], space: usize) -> u32 {
    let [mut reply, mut reply_by_model] = [0; 2].map(|_| vec![0xA5; space]);
    let answer = ffi::read_listed(buffer, list, request, &mut reply);
    let modelled = match buffer.len() > LONGEST {
        true => model::Answer::refused(1),
        false => model::read_listed(buffer, list, request, &mut reply_by_model),
    };
    assert_eq!(
        (answer.number, answer.node, answer.count),
        (modelled.number, modelled.node, modelled.count)
    );
    assert_eq!(reply, reply_by_model);
    answer.number
}
