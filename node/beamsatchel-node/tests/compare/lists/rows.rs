//! Rows as a list has them, good or not, and what writes and a cut make of them.

use beamsatchel_model::{grow, LIST_LENGTH};
use std::ops::Range;

/// A list with these starts and lengths, whatever they are.
pub fn of_fields(fields: &[(u32, u32)]) -> Vec<u8> {
    let mut list = (fields.len() as u32).to_be_bytes().to_vec();
    for (start, length) in fields {
        list.extend(start.to_be_bytes());
        list.extend(length.to_be_bytes());
    }
    list.resize(LIST_LENGTH, 0);
    list
}

/// A list with these rows.
pub fn encode(rows: &[Range<u64>]) -> Vec<u8> {
    let fields = rows
        .iter()
        .map(|row| (row.start as u32, (row.end - row.start) as u32));
    of_fields(&fields.collect::<Vec<_>>())
}

/// The rows of a list, as many as its count says and it has place for. Their ends are numbers: no sum wraps.
pub fn decode(list: &[u8]) -> Vec<Range<u64>> {
    let number = |bytes: &[u8]| u32::from_be_bytes(bytes.try_into().expect("four bytes"));
    let (count, rows) = list.split_at(4);
    let rows = rows.chunks_exact(8).take(number(count) as usize);
    rows.map(|row| {
        let start = u64::from(number(&row[..4]));
        start..start + u64::from(number(&row[4..]))
    })
    .collect()
}

/// What a request makes of rows, from row to row.
pub struct Rewritten {
    pub rows: Vec<Range<u64>>,
    /// The most rows that there were behind one of the writes.
    pub most: usize,
    /// How many there were behind the last of them.
    pub before_cut: usize,
    /// The gaps that the writes left, each as it was then.
    pub gaps: Vec<Range<u64>>,
}

/// Rows beside data of this size, after writes to these places and a cut to `final_size`.
pub fn rewrite(
    mut rows: Vec<Range<u64>>,
    size: u64,
    places: &[Range<u64>],
    final_size: u64,
) -> Rewritten {
    let (mut met, mut most, mut gaps) = (size, rows.len(), Vec::new());
    for place in places.iter().filter(|place| !place.is_empty()) {
        if met < place.start {
            gaps.push(met..place.start);
            match rows.last_mut() {
                Some(last) if last.end == met => last.end = place.start,
                _ => rows.push(met..place.start),
            }
        }
        rows = rows.iter().flat_map(|row| without(row, place)).collect();
        most = most.max(rows.len());
        met = grow(met, place);
    }
    let before_cut = rows.len();
    rows.retain(|row| row.start < final_size);
    if let Some(last) = rows.last_mut() {
        last.end = last.end.min(final_size);
    }
    Rewritten {
        rows,
        most,
        before_cut,
        gaps,
    }
}

/// What is left of a row on both sides of a write.
fn without(row: &Range<u64>, place: &Range<u64>) -> impl Iterator<Item = Range<u64>> {
    let left = row.start..row.end.min(place.start);
    let right = row.start.max(place.end)..row.end;
    [left, right].into_iter().filter(|part| !part.is_empty())
}
