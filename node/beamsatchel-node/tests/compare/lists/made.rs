//! Containers with stretches of zeros, and lists for them: good ones, and bad ones by each fault.

use super::faults::Fault;
use super::rows::{encode, of_fields};
use crate::containers::{self, Sizes};
use crate::rng::Rng;
use beamsatchel_model::{Container, LIST_LENGTH, MOST_ROWS};
use std::ops::Range;

/// A container with some zeros for a list to name, now and then as many as a list can name apart.
pub fn container(rng: &mut Rng) -> Container {
    if rng.chance(5) {
        let slack = containers::slack(rng).min(1000);
        return comb(rng, slack);
    }
    let mut container = containers::any(rng);
    let size = container.data.len();
    for _ in 0..rng.below(5) {
        let start = rng.below(size + 1);
        let end = (start + rng.below(12)).min(size);
        container.data[start..end].fill(0);
    }
    container
}

/// A container whose first 512 bytes are a zero and a letter in turn, with room for more.
pub fn comb(rng: &mut Rng, slack: usize) -> Container {
    let sizes = Sizes {
        data: 512 + rng.below(40),
        slack,
        extras: rng.below(3),
        room: rng.within(60..=200),
    };
    let mut container = containers::with(rng, sizes, 20);
    for (position, byte) in container.data[..512].iter_mut().enumerate() {
        *byte = [0, b'A'][position % 2];
    }
    container.data[512..].fill(b'B');
    container
}

/// So many rows of one byte, in a comb.
pub fn teeth(count: usize) -> Vec<Range<u64>> {
    let starts = (0..count as u64).map(|tooth| 2 * tooth);
    starts.map(|start| start..start + 1).collect()
}

/// Rows that are good for a container: none, all of its zeros, or some.
pub fn rows(rng: &mut Rng, container: &Container) -> Vec<Range<u64>> {
    let mut rows = zeros(&container.data);
    match rng.below(10) {
        0 => rows.clear(),
        1..5 => {}
        5..7 => rows.retain(|_| rng.chance(60)),
        _ => {
            for row in &mut rows {
                let length = row.end - row.start;
                row.start += rng.below(length as usize) as u64;
                row.end -= rng.below((row.end - row.start) as usize) as u64;
            }
        }
    }
    let first = rng.below(rows.len().saturating_sub(MOST_ROWS) + 1);
    rows.drain(..first);
    rows.truncate(MOST_ROWS);
    rows
}

/// The stretches of zeros.
fn zeros(data: &[u8]) -> Vec<Range<u64>> {
    let mut zeros: Vec<Range<u64>> = Vec::new();
    for (position, _) in data.iter().enumerate().filter(|(_, byte)| **byte == 0) {
        let position = position as u64;
        match zeros.last_mut() {
            Some(last) if last.end == position => last.end += 1,
            _ => zeros.push(position..position + 1),
        }
    }
    zeros
}

/// A list that is bad beside a container, made from these rows.
pub fn bad_list(rng: &mut Rng, rows: &[Range<u64>], container: &Container) -> Vec<u8> {
    loop {
        let list = damaged(rng, rows, container);
        if !Fault::all_of(&list, container).is_empty() {
            return list;
        }
    }
}

/// Breaks a clause of what is good, where rows and container allow.
fn damaged(rng: &mut Rng, rows: &[Range<u64>], container: &Container) -> Vec<u8> {
    let mut list = encode(rows);
    let size = container.data.len() as u64;
    let behind = 4 + 8 * rows.len();
    match rng.below(14) {
        0 => list.resize(rng.pick(&[0, 1, 4, 2_051, 2_053, 4_104]), 0),
        1 => list[..4].copy_from_slice(
            &rng.pick(&[257, 258, 1 << 16, 1 << 31, u32::MAX])
                .to_be_bytes(),
        ),
        // the last row is none, or behind the count
        2 => list[3] = list[3].wrapping_add(1),
        3 => list[3] = list[3].wrapping_sub(1),
        4 if behind < LIST_LENGTH => {
            let anywhere = rng.within(behind..=LIST_LENGTH - 1);
            list[rng.pick(&[behind, LIST_LENGTH - 1, anywhere])] = rng.not_zero();
        }
        // behind the data, by a byte or more
        5 | 6 => {
            let (start, length) = rng.pick(&[
                (size.saturating_sub(1), 2),
                (size, 1),
                (size + 1, 1),
                (size, container.slack.max(1) as u64),
                (u64::from(u32::MAX), 1),
                (size.saturating_sub(1), u64::from(u32::MAX)),
            ]);
            let mut fields: Vec<(u32, u32)> = as_fields(rows);
            fields.truncate(MOST_ROWS - 1);
            while fields
                .last()
                .is_some_and(|(before, count)| u64::from(before + count) >= start)
            {
                fields.pop();
            }
            fields.push((start as u32, length as u32));
            list = of_fields(&fields);
        }
        7..11 if !rows.is_empty() => {
            let mut fields = as_fields(rows);
            let row = rng.below(fields.len());
            let (start, length) = fields[row];
            match rng.below(7) {
                0 => fields[row].1 = 0,
                1 => fields[row].1 = 0_u32.wrapping_sub(rng.pick(&[1, start, start / 2])),
                2 => fields.insert(row, (start, length)),
                3 => fields.swap(row, 0),
                4 => fields.insert(row + 1, (start + length, 1)),
                5 => fields[row].1 += 1,
                _ => fields[row].0 = start.wrapping_sub(1),
            }
            fields.truncate(MOST_ROWS);
            list = of_fields(&fields);
        }
        // a row of any bytes of the data
        11 if size > 0 => {
            let start = rng.below(size as usize);
            let length = rng.within(1..=size as usize - start);
            list = of_fields(&[(start as u32, length as u32)]);
        }
        12 => {
            let at = rng.below(list.len());
            list[at] ^= 1 << rng.below(8);
        }
        _ => list = rng.bytes(LIST_LENGTH),
    }
    list
}

fn as_fields(rows: &[Range<u64>]) -> Vec<(u32, u32)> {
    let rows = rows.iter();
    rows.map(|row| (row.start as u32, (row.end - row.start) as u32))
        .collect()
}
