//! The never-written list: which data bytes are zeros only because nobody wrote there.
//!
//! Here it is a mark on each data byte. Rows are the longest stretches of marked bytes, so that given marks have one
//! list, and a list is good when it is the one of the bytes that it names.

use super::bytes::u32_at;
use super::offsets::grow;
use std::ops::Range;

/// The bytes of a list: a count, and start and length of each row.
pub const LIST_LENGTH: usize = 4 + 8 * MOST_ROWS;

/// The most rows of a list.
pub const MOST_ROWS: usize = 256;

/// For each data byte, whether it is listed.
#[derive(Clone, Debug, PartialEq, Eq)]
pub struct NeverWritten(Vec<bool>);

impl NeverWritten {
    /// What a list names of this data; `None` is outcome 16.
    pub fn from_bytes(list: &[u8], data: &[u8]) -> Option<NeverWritten> {
        if list.len() != LIST_LENGTH {
            return None;
        }
        let count = u32_at(list, 0) as usize;
        if count > MOST_ROWS {
            return None;
        }
        let mut marks = vec![false; data.len()];
        for row in list[4..].chunks(8).take(count) {
            let start = u64::from(u32_at(row, 0));
            for position in start..start + u64::from(u32_at(row, 4)) {
                let position = position as usize;
                // A zero inside the data, that no other row names.
                if data.get(position) != Some(&0) || marks[position] {
                    return None;
                }
                marks[position] = true;
            }
        }
        // An empty row, another order, rows that touch, or a byte behind them: that list is not the one of these marks.
        let named = NeverWritten(marks);
        (named.to_bytes()? == list).then_some(named)
    }

    /// The list; `None` where it would have too many rows.
    pub fn to_bytes(&self) -> Option<Vec<u8>> {
        let stretches = self.stretches();
        if stretches.len() > MOST_ROWS {
            return None;
        }
        let mut list = (stretches.len() as u32).to_be_bytes().to_vec();
        for stretch in stretches {
            list.extend((stretch.start as u32).to_be_bytes());
            list.extend((stretch.len() as u32).to_be_bytes());
        }
        list.resize(LIST_LENGTH, 0);
        Some(list)
    }

    /// The longest stretches of listed bytes, in rising order.
    pub fn stretches(&self) -> Vec<Range<usize>> {
        let mut stretches: Vec<Range<usize>> = Vec::new();
        for (position, _) in self.0.iter().enumerate().filter(|(_, mark)| **mark) {
            match stretches.last_mut() {
                Some(last) if last.end == position => last.end += 1,
                _ => stretches.push(position..position + 1),
            }
        }
        stretches
    }

    /// After writes to these places, one after the other, and the cut to `size`.
    pub fn after(&self, places: &[Range<u64>], size: u64) -> NeverWritten {
        let mut marks = self.0.clone();
        // What is not there in the end needs no mark on the way, however far the writes reach.
        marks.resize(size as usize, false);
        let below = |start: u64, end: u64| start.min(size) as usize..end.min(size) as usize;
        let mut met = self.0.len() as u64;
        for place in places.iter().filter(|place| !place.is_empty()) {
            // What a write skips nobody wrote; what it covers somebody did, zeros as well.
            marks[below(met, met.max(place.start))].fill(true);
            marks[below(place.start, place.end)].fill(false);
            met = grow(met, place);
        }
        NeverWritten(marks)
    }
}

#[cfg(test)]
mod tests {
    use super::*;

    fn list(rows: &[(u32, u32)]) -> Vec<u8> {
        let mut list = (rows.len() as u32).to_be_bytes().to_vec();
        for (start, length) in rows {
            list.extend(start.to_be_bytes());
            list.extend(length.to_be_bytes());
        }
        list.resize(LIST_LENGTH, 0);
        list
    }

    /// Whether rows are good beside this data.
    fn good(rows: &[(u32, u32)], data: &[u8]) -> bool {
        NeverWritten::from_bytes(&list(rows), data).is_some()
    }

    /// The stretches after writes to these places and a cut to `size`.
    fn after(
        data: usize,
        rows: &[(u32, u32)],
        places: &[Range<u64>],
        size: u64,
    ) -> Vec<[usize; 2]> {
        let before = NeverWritten::from_bytes(&list(rows), &vec![0; data]).expect("good");
        let after = before.after(places, size);
        let list = after.to_bytes().expect("few rows");
        let again = NeverWritten::from_bytes(&list, &vec![0; size as usize]);
        assert_eq!(again.as_ref(), Some(&after));
        let stretches = after.stretches().into_iter();
        stretches.map(|row| [row.start, row.end]).collect()
    }

    #[test]
    fn rows_that_are_good_and_rows_that_are_not() {
        let data = [0; 20];
        for rows in [
            &[][..],
            &[(0, 1)],
            &[(0, 20)],
            &[(19, 1)],
            &[(3, 2), (6, 1)],
            &[(0, 1), (2, 1), (4, 16)],
        ] {
            assert!(good(rows, &data), "{rows:?}");
        }
        for rows in [
            &[(0, 0)][..],
            &[(20, 0)],
            &[(u32::MAX, 0)],
            &[(3, 2), (5, 1)],
            &[(3, 2), (4, 1)],
            &[(3, 2), (3, 2)],
            &[(6, 1), (3, 2)],
            &[(3, 2), (7, 0)],
            &[(19, 2)],
            &[(20, 1)],
            &[(0, u32::MAX)],
            &[(1, u32::MAX)],
            &[(u32::MAX, 1)],
            &[(u32::MAX, 5)],
        ] {
            assert!(!good(rows, &data), "{rows:?}");
        }
    }

    #[test]
    fn a_list_has_its_length_and_nothing_behind_its_rows() {
        let good = list(&[(1, 2), (4, 1)]);
        let is_good = |list: &[u8]| NeverWritten::from_bytes(list, &[0; 5]).is_some();
        assert!(is_good(&good) && is_good(&[0; 2_052]));
        for length in [0, 3, 4, 20, 2_051, 2_053, 4_104] {
            let mut other = good.clone();
            other.resize(length, 0);
            assert!(!is_good(&other), "{length} bytes");
        }
        for at in 20..2_052 {
            let mut other = good.clone();
            other[at] = 1;
            assert!(!is_good(&other), "byte {at}");
        }
    }

    #[test]
    fn a_count_of_256_and_one_more() {
        let rows: Vec<(u32, u32)> = (0..256).map(|row| (2 * row, 1)).collect();
        let full = list(&rows);
        for (count, is_good) in [
            (255_u32, false),
            (256, true),
            (257, false),
            (u32::MAX, false),
        ] {
            let mut list = full.clone();
            list[..4].copy_from_slice(&count.to_be_bytes());
            let found = NeverWritten::from_bytes(&list, &[0; 600]);
            assert_eq!(found.is_some(), is_good, "{count}");
        }
        let before = NeverWritten::from_bytes(&full, &[0; 512]).expect("good");
        let fits =
            |places: &[Range<u64>], size: u64| before.after(places, size).to_bytes().is_some();
        assert!(!fits(&[513..514], 514) && !fits(&[513..514], 513));
        assert!(fits(&[513..514], 512) && fits(&[513..514, 0..1], 514));
    }

    #[test]
    fn a_listed_byte_is_zero() {
        for (at, is_good) in [(1, true), (2, false), (3, false), (4, false), (5, true)] {
            let mut data = [0; 9];
            data[at] = 1;
            assert_eq!(good(&[(2, 3)], &data), is_good, "byte {at}");
        }
    }

    #[test]
    fn gaps_join_what_was_listed() {
        assert_eq!(after(0, &[], &[3..5], 5), [[0, 3]]);
        assert_eq!(after(5, &[(3, 2)], &[7..8], 8), [[3, 7]]);
        assert_eq!(after(5, &[(2, 2)], &[7..8], 8), [[2, 4], [5, 7]]);
        assert_eq!(after(5, &[], &[5..6, 8..9], 9), [[6, 8]]);
    }

    #[test]
    fn what_is_written_is_not_listed() {
        let rows = [(2, 6)];
        assert_eq!(after(9, &rows, &[0..4], 9), [[4, 8]]);
        assert_eq!(after(9, &rows, &[6..9], 9), [[2, 6]]);
        assert_eq!(after(9, &rows, &[4..5], 9), [[2, 4], [5, 8]]);
        assert!(after(9, &rows, &[2..8], 9).is_empty());
        assert_eq!(after(9, &rows, &[0..2, 8..9, 5..5], 9), [[2, 8]]);
    }

    #[test]
    fn a_cut_drops_what_is_above_it() {
        let rows = [(1, 2), (4, 3)];
        assert_eq!(after(9, &rows, &[], 7), [[1, 3], [4, 7]]);
        assert_eq!(after(9, &rows, &[], 5), [[1, 3], [4, 5]]);
        assert_eq!(after(9, &rows, &[], 4), [[1, 3]]);
        assert!(after(9, &rows, &[], 1).is_empty());
        assert_eq!(
            after(0, &[], &[2_147_483_647..2_147_483_648], 10),
            [[0, 10]]
        );
    }
}
