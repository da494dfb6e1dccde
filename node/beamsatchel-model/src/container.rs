//! The container's table and The lease record: the parts, read from the bytes and written to them.

use super::bytes::{all_zero, array_at, u32_at, u64_at};
use std::ops::RangeInclusive;

/// 26 bytes of ASCII and six that are binary.
pub const MAGIC: [u8; 32] = *b"tahoe mutable container v1\x0A\x75\x09\x44\x03\x8E";

/// The lengths that a buffer may have.
pub const LENGTHS: RangeInclusive<usize> = 472..=16_777_216;

/// The lease record: the five fields in the order in which they lie. Owner 0 means none.
#[derive(Clone, Debug, PartialEq, Eq)]
pub struct Lease {
    pub owner: u32,
    pub expiry: u32,
    pub renewal: [u8; 32],
    pub cancel: [u8; 32],
    pub node: [u8; 20],
}

impl Lease {
    /// Takes a record apart, whatever its owner.
    pub fn from_record(record: &[u8]) -> Lease {
        Lease {
            owner: u32_at(record, 0),
            expiry: u32_at(record, 4),
            renewal: array_at(record, 8),
            cancel: array_at(record, 40),
            node: array_at(record, 72),
        }
    }

    pub fn to_record(&self) -> Vec<u8> {
        [
            &self.owner.to_be_bytes()[..],
            &self.expiry.to_be_bytes(),
            &self.renewal,
            &self.cancel,
            &self.node,
        ]
        .concat()
    }
}

/// The parts and the round trip: the parts that determine every byte of a well-formed one.
#[derive(Clone, Debug, PartialEq, Eq)]
pub struct Container {
    pub length: usize,
    pub node: [u8; 20],
    pub enabler: [u8; 32],
    pub data: Vec<u8>,
    /// How many zeros stand between the data and the count.
    pub slack: usize,
    /// The four places, then the extras. An empty place is `None`.
    pub places: Vec<Option<Lease>>,
}

impl Container {
    /// Well-formedness, clause by clause: the parts, or `None` where one clause fails.
    pub fn from_bytes(buffer: &[u8]) -> Option<Container> {
        // The buffer has an allowed length.
        if !LENGTHS.contains(&buffer.len()) {
            return None;
        }
        // It begins with the magic.
        if buffer[..32] != MAGIC {
            return None;
        }
        // The offset field names the end of data or a place behind it, as a number: a sum does not wrap.
        let length = buffer.len() as u128;
        let size = u128::from(u64_at(buffer, 84));
        let count = u128::from(u64_at(buffer, 92));
        if count < 468 + size {
            return None;
        }
        // The used length fits the buffer: whatever e is, the count itself must lie inside.
        if count + 4 > length {
            return None;
        }
        let (data_end, count) = (468 + size as usize, count as usize);
        // There are no more than 60 extras, and they fit as well.
        let extras = u32_at(buffer, count) as usize;
        if extras > 60 || count + 4 + 92 * extras > buffer.len() {
            return None;
        }
        let used = count + 4 + 92 * extras;
        // The slack is zero.
        if !all_zero(&buffer[data_end..count]) {
            return None;
        }
        // A record without owner is all zeros, in the four places and in the extras.
        let mut places = Vec::new();
        for record in [&buffer[100..468], &buffer[count + 4..used]]
            .iter()
            .flat_map(|records| records.chunks(92))
        {
            let lease = Lease::from_record(record);
            if lease.owner != 0 {
                places.push(Some(lease));
            } else if all_zero(record) {
                places.push(None);
            } else {
                return None;
            }
        }
        // The extras do not end with an empty place.
        if places.len() > 4 && places.last() == Some(&None) {
            return None;
        }
        // What is not used is zero.
        if !all_zero(&buffer[used..]) {
            return None;
        }
        Some(Container {
            length: buffer.len(),
            node: array_at(buffer, 32),
            enabler: array_at(buffer, 52),
            data: buffer[468..data_end].to_vec(),
            slack: count - data_end,
            places,
        })
    }

    /// All bytes of the buffer, by the table of fields.
    pub fn to_bytes(&self) -> Vec<u8> {
        let size = self.data.len() as u64;
        let record = |place: &Option<Lease>| place.as_ref().map_or(vec![0; 92], Lease::to_record);
        let mut buffer = Vec::with_capacity(self.length);
        buffer.extend(MAGIC);
        buffer.extend(self.node);
        buffer.extend(self.enabler);
        buffer.extend(size.to_be_bytes());
        buffer.extend(self.count().to_be_bytes());
        self.places[..4]
            .iter()
            .for_each(|place| buffer.extend(record(place)));
        buffer.extend(&self.data);
        buffer.extend(vec![0; self.slack]);
        buffer.extend((self.extras() as u32).to_be_bytes());
        self.places[4..]
            .iter()
            .for_each(|place| buffer.extend(record(place)));
        buffer.resize(self.length, 0);
        buffer
    }

    /// The number e of extra places, empty ones included.
    pub fn extras(&self) -> usize {
        self.places.len() - 4
    }

    /// The leases present, in the order of their places.
    pub fn leases(&self) -> impl Iterator<Item = &Lease> {
        self.places.iter().flatten()
    }

    /// Where the count stands: behind the data and the slack.
    pub fn count(&self) -> u64 {
        468 + self.data.len() as u64 + self.slack as u64
    }

    /// The used length.
    pub fn used(&self) -> u64 {
        used(self.count(), self.extras())
    }
}

/// The used length with the count at a place and `extras` extra places behind it.
pub fn used(count: u64, extras: usize) -> u64 {
    count + 4 + 92 * extras as u64
}
