//! Requests that break the format.

use super::encode;
use crate::rng::Rng;
use beamsatchel_model::Request;

/// Request bytes that break the format on purpose.
pub fn broken(rng: &mut Rng, request: &Request) -> Vec<u8> {
    loop {
        let mut bytes = encode(request);
        break_format(rng, &mut bytes);
        if Request::from_bytes(&bytes).is_none() {
            return bytes;
        }
    }
}

/// Breaks the format and keeps the kind.
fn break_format(rng: &mut Rng, bytes: &mut Vec<u8>) {
    let variant = rng.below(8);
    match (bytes[0], variant) {
        // one byte more, one less, or cut anywhere
        (_, 0) => bytes.push(rng.byte()),
        (_, 1) => bytes.truncate(bytes.len() - 1),
        (_, 2) => bytes.truncate(rng.within(1..=bytes.len())),
        // a wrong count of tests or writes
        (1, 3) => bytes[rng.within(1..=2)] = rng.pick(&[0, 1, 16, 17, 255]),
        // a wrong flag, or a new length without it
        (1, 4) => bytes[3] = rng.pick(&[0, 2, 255]),
        (1, 5) => bytes[rng.within(4..=7)] ^= 1 << rng.below(8),
        // a test's opcode, zero byte or specimen length
        (1, 6) if bytes[1] > 0 => {
            let test = 40 + 12 * rng.below(usize::from(bytes[1]));
            match rng.below(3) {
                0 => bytes[test + 8] = rng.pick(&[0, 7, 8, 255]),
                1 => bytes[test + 9] = rng.not_zero(),
                _ => bytes[test + 11] ^= 1 << rng.below(8),
            }
        }
        // a write's length
        (1, 7) if bytes[2] > 0 => {
            let write = 40 + 12 * usize::from(bytes[1]) + 8 * rng.below(usize::from(bytes[2]));
            bytes[write + rng.within(4..=7)] ^= 1 << rng.below(8);
        }
        // no owner
        (2, 3..) => bytes[1..5].fill(0),
        // a wrong count of reads, or zero bytes that are not
        (5, 3..6) => bytes[1] = rng.pick(&[0, 1, 16, 17, 255]),
        (5, 6..) => bytes[rng.within(2..=3)] = rng.not_zero(),
        _ => bytes.push(0),
    }
}

/// A request that is none: empty, of an unknown kind, or any bytes.
pub fn unknown(rng: &mut Rng) -> Vec<u8> {
    let count = rng.below(100);
    let mut bytes = rng.bytes(count);
    if let Some(kind) = bytes.first_mut() {
        *kind = match *kind {
            1..=5 => rng.pick(&[0, 6, 7, 255]),
            other => other,
        };
    }
    bytes
}
