//! The row format: what a record is, which of its bytes are drawn, and when it was taken.

use crate::arguments::whole;
use std::ops::Range;

/// How the data is read.
pub struct Format {
    /// Bytes of a record.
    pub record: usize,
    pub value: Field,
    pub scale: Scale,
    pub clock: Clock,
    /// How many seconds neighbouring samples may be apart so that the line goes on, where that is bounded.
    pub most_apart: Option<u64>,
}

impl Format {
    /// Whether the line breaks between neighbouring samples of these times.
    pub fn breaks(&self, before: i128, after: i128) -> bool {
        let apart = (after - before).abs();
        self.most_apart.is_some_and(|most| apart > most.into())
    }
}

/// When a record was taken.
pub enum Clock {
    /// Seconds since 1970 in a field of the record.
    Field(Field),
    /// So many seconds after the record before it, the first one at a time since 1970 where that is known.
    Steps { step: u64, start: Option<i128> },
}

impl Clock {
    /// Whether times count from 1970, and not from the first record.
    pub fn is_dated(&self) -> bool {
        match self {
            Clock::Field(_) => true,
            Clock::Steps { start, .. } => start.is_some(),
        }
    }
}

/// A number in a record.
pub struct Field {
    /// Its first byte.
    pub at: usize,
    /// How many bytes it has: 1, 2, 4 or 8.
    pub width: usize,
    signed: bool,
    little_endian: bool,
}

impl Field {
    /// A field such as `4:i16` or `4:i16le`.
    pub fn parse(text: &str) -> Option<Field> {
        let (at, kind) = text.split_once(':')?;
        let (kind, little_endian) = match kind.strip_suffix("le") {
            Some(kind) => (kind, true),
            None => (kind, false),
        };
        let (signed, width) = match kind {
            "u8" => (false, 1),
            "u16" => (false, 2),
            "u32" => (false, 4),
            "u64" => (false, 8),
            "i8" => (true, 1),
            "i16" => (true, 2),
            "i32" => (true, 4),
            "i64" => (true, 8),
            _ => return None,
        };
        let at = usize::try_from(whole(at, 0..=u64::MAX)?).ok()?;
        Some(Field {
            at,
            width,
            signed,
            little_endian,
        })
    }

    /// Its bytes in a record that begins at a position of the data.
    pub fn bytes(&self, record: usize) -> Range<usize> {
        record + self.at..record + self.at + self.width
    }

    /// The number in these bytes.
    pub fn number(&self, bytes: &[u8]) -> i128 {
        let add = |number: i128, byte: &u8| number << 8 | i128::from(*byte);
        let number = match self.little_endian {
            true => bytes.iter().rev().fold(0, add),
            false => bytes.iter().fold(0, add),
        };
        let half = 1 << (8 * self.width - 1);
        match self.signed && number >= half {
            true => number - 2 * half,
            false => number,
        }
    }
}

/// What a field is multiplied by: a fraction, so that nothing is rounded before it is drawn.
#[derive(Clone, Copy)]
pub struct Scale {
    /// Not 0.
    pub numerator: i128,
    /// Above 0.
    pub denominator: i128,
}

/// The most of either number: with a field of 64 bits and a picture of 4096 pixels all products fit 128 bits.
const MOST: u64 = 999_999;

impl Scale {
    pub const ONE: Scale = Scale {
        numerator: 1,
        denominator: 1,
    };

    /// A factor such as `10`, `-0.1` or `1/3`.
    pub fn parse(text: &str) -> Option<Scale> {
        let (sign, text) = match text.strip_prefix('-') {
            Some(text) => (-1, text),
            None => (1, text),
        };
        let (numerator, denominator) = if let Some((above, below)) = text.split_once('/') {
            (whole(above, 1..=MOST)?, whole(below, 1..=MOST)?)
        } else if let Some((before, behind)) = text.split_once('.') {
            whole(behind, 0..=u64::MAX)?;
            let behind = behind.trim_end_matches('0');
            let power = match behind.len() {
                digits @ 0..=6 => 10_u64.pow(digits as u32),
                _ => return None,
            };
            let behind = whole(behind, 0..=MOST).unwrap_or(0);
            let number = whole(before, 0..=MOST)? * power + behind;
            (
                Some(number).filter(|number| (1..=MOST).contains(number))?,
                power,
            )
        } else {
            (whole(text, 1..=MOST)?, 1)
        };
        Some(Scale {
            numerator: sign * i128::from(numerator),
            denominator: i128::from(denominator),
        })
    }
}
