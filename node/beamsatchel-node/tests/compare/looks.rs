//! Where in the data tests and reads looked, and what reply space their short pieces had.

use crate::case::Case;
use crate::requests;
use beamsatchel_model::{Container, Request};
use std::cmp::Ordering;

/// What one entry asked of the data, or a whole request of its reply space.
#[derive(Clone, Copy, Debug, PartialEq, Eq, PartialOrd, Ord)]
pub enum Look {
    Inside,
    UpToTheEnd,
    AcrossTheEnd,
    AtTheEnd,
    PastTheEnd,
    /// From the data across its end, where slack stands.
    IntoTheSlack,
    /// At or past the data's end, where slack stands.
    InTheSlack,
    /// Length 0.
    NothingInside,
    NothingAtTheEnd,
    NothingPastTheEnd,
    /// Some piece is short, and the reply fits exactly.
    ShortFits,
    /// Some piece is short, and a byte of space is missing.
    ShortLacksAByte,
}

impl Look {
    pub const ALL: [Look; 12] = [
        Look::Inside,
        Look::UpToTheEnd,
        Look::AcrossTheEnd,
        Look::AtTheEnd,
        Look::PastTheEnd,
        Look::IntoTheSlack,
        Look::InTheSlack,
        Look::NothingInside,
        Look::NothingAtTheEnd,
        Look::NothingPastTheEnd,
        Look::ShortFits,
        Look::ShortLacksAByte,
    ];

    /// What an entry that looks from a position on asks of so many bytes of data.
    fn of(start: u64, length: u32, size: usize) -> Look {
        let size = size as u64;
        let end = start + u64::from(length);
        match (start.cmp(&size), length, end.cmp(&size)) {
            (Ordering::Less, 0, _) => Look::NothingInside,
            (Ordering::Equal, 0, _) => Look::NothingAtTheEnd,
            (Ordering::Greater, 0, _) => Look::NothingPastTheEnd,
            (Ordering::Equal, ..) => Look::AtTheEnd,
            (Ordering::Greater, ..) => Look::PastTheEnd,
            (_, _, Ordering::Less) => Look::Inside,
            (_, _, Ordering::Equal) => Look::UpToTheEnd,
            (_, _, Ordering::Greater) => Look::AcrossTheEnd,
        }
    }

    /// What an entry asks of the slack.
    fn beside_slack(start: u64, length: u32, container: &Container) -> Option<Look> {
        let (start, size) = (start as usize, container.data.len());
        let end = start + length as usize;
        if start < size && size < end && container.slack > 0 {
            return Some(Look::IntoTheSlack);
        }
        let slack = size..size + container.slack;
        (slack.contains(&start) && start < end).then_some(Look::InTheSlack)
    }

    fn is_short(&self) -> bool {
        matches!(self, Look::AcrossTheEnd | Look::AtTheEnd | Look::PastTheEnd)
    }

    /// The looks of a case that was answered with this number: all entries' where the reply was written.
    pub fn of_case(case: &Case, number: u32) -> Vec<Look> {
        let (Some(container), Some(request)) = (
            Container::from_bytes(&case.container),
            Request::from_bytes(&case.request),
        ) else {
            return Vec::new();
        };
        let size = container.data.len();
        let entries = requests::extents(&request, size);
        let needed = requests::reply_length(&request, &container);
        let looks = entries.iter().map(|entry| Look::of(entry.0, entry.1, size));
        match number {
            0 | 8 => {
                let fits = case.reply.len() == needed && looks.clone().any(|look| look.is_short());
                let beside_slack = entries
                    .iter()
                    .filter_map(|entry| Look::beside_slack(entry.0, entry.1, &container));
                looks
                    .chain(beside_slack)
                    .chain(fits.then_some(Look::ShortFits))
                    .collect()
            }
            7 if case.reply.len() + 1 == needed && looks.clone().any(|look| look.is_short()) => {
                vec![Look::ShortLacksAByte]
            }
            _ => Vec::new(),
        }
    }
}
