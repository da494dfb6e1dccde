//! Where the count stood, at and one past each edge, and what requests did beside slack.

use crate::case::Case;
use beamsatchel_model::{Container, Request};

/// How a container lay that came with a request, or what the request did to one with slack.
#[derive(Clone, Copy, Debug, PartialEq, Eq, PartialOrd, Ord)]
pub enum Slack {
    /// Of a container that was taken: the count stands at the data's end.
    No,
    OneByte,
    Longer,
    /// Count and extras end with the buffer.
    UpToTheEnd,
    UpToTheEndBesideExtras,
    /// Of a container that was refused, and would be taken but for this: the offset field is a byte below the data's
    /// end.
    OffsetByteLess,
    /// The count ends a byte behind the buffer.
    CountByteOutside,
    /// The last extra does.
    ExtraByteOutside,
    FirstByteNotZero,
    LastByteNotZero,
    OnlyByteNotZero,
    /// The size is so large that the data would end at 2^64 or beyond.
    SizeNearTheMost,
    /// The offset field is so large that count and extras would.
    OffsetNearTheMost,
    /// A lease came into an empty place.
    Added,
    /// It became an extra, with room to spare.
    AddedExtra,
    /// The room was just enough.
    AddedExtraFits,
    /// A byte of room was missing.
    AddedExtraLacksAByte,
    /// There would be room without the slack.
    AddedExtraLacksThatRoom,
    Renewed,
    Cancelled,
    CancelledWithExtras,
    /// The data grew past the slack up to the last byte that there is.
    GrownFits,
    /// A byte of room was missing for that.
    GrownLacksAByte,
    /// The data is a good share.
    Share,
    /// Of two containers that differ in slack and length, one moved its count.
    MovedInOneAlone,
}

impl Slack {
    pub const ALL: [Slack; 25] = [
        Slack::No,
        Slack::OneByte,
        Slack::Longer,
        Slack::UpToTheEnd,
        Slack::UpToTheEndBesideExtras,
        Slack::OffsetByteLess,
        Slack::CountByteOutside,
        Slack::ExtraByteOutside,
        Slack::FirstByteNotZero,
        Slack::LastByteNotZero,
        Slack::OnlyByteNotZero,
        Slack::SizeNearTheMost,
        Slack::OffsetNearTheMost,
        Slack::Added,
        Slack::AddedExtra,
        Slack::AddedExtraFits,
        Slack::AddedExtraLacksAByte,
        Slack::AddedExtraLacksThatRoom,
        Slack::Renewed,
        Slack::Cancelled,
        Slack::CancelledWithExtras,
        Slack::GrownFits,
        Slack::GrownLacksAByte,
        Slack::Share,
        Slack::MovedInOneAlone,
    ];

    /// What a case met that was answered with this number.
    pub fn of_case(before: &Case, number: u32, after: &Case) -> Vec<Slack> {
        let Some(old) = Container::from_bytes(&before.container) else {
            return match number {
                2 => of_refused(&before.container),
                _ => Vec::new(),
            };
        };
        let mut met = vec![match old.slack {
            0 => return vec![Slack::No],
            1 => Slack::OneByte,
            _ => Slack::Longer,
        }];
        if old.used() == old.length as u64 {
            met.push(Slack::UpToTheEnd);
            met.extend((old.extras() > 0).then_some(Slack::UpToTheEndBesideExtras));
        }
        met.extend(of_request(&old, before, number, after));
        met
    }

    /// What the check of a container met that was answered with this number.
    pub fn of_share(container: &[u8], number: u32) -> Vec<Slack> {
        let slack = Container::from_bytes(container).map_or(0, |container| container.slack);
        match (number, slack) {
            (2, _) => of_refused(container),
            (0, 1..) => vec![Slack::Share],
            _ => Vec::new(),
        }
    }
}

/// What a request did to a container that has slack.
fn of_request(old: &Container, before: &Case, number: u32, after: &Case) -> Vec<Slack> {
    let Some(request) = Request::from_bytes(&before.request) else {
        return Vec::new();
    };
    let new = Container::from_bytes(&after.container).expect("well formed");
    let room = old.length - old.used() as usize;
    let met = match (request, number) {
        (Request::Add(_), 0) if new.extras() == old.extras() => Slack::Added,
        (Request::Add(_), 0) if room == 92 => Slack::AddedExtraFits,
        (Request::Add(_), 0) => Slack::AddedExtra,
        (Request::Add(_), 11) => {
            let lacks_slack = (room + old.slack >= 92).then_some(Slack::AddedExtraLacksThatRoom);
            let lacks_byte = (room == 91).then_some(Slack::AddedExtraLacksAByte);
            return lacks_slack.into_iter().chain(lacks_byte).collect();
        }
        (Request::Renew { .. }, 0) => Slack::Renewed,
        (Request::Cancel { .. }, 0) if new.extras() < old.extras() => Slack::CancelledWithExtras,
        (Request::Cancel { .. }, 0) => Slack::Cancelled,
        (Request::TestAndWrite(_), 0)
            if new.count() > old.count() && new.used() == new.length as u64 =>
        {
            Slack::GrownFits
        }
        (Request::TestAndWrite(_), 11) => {
            // With a byte more of buffer it would be done.
            let mut longer = before.clone();
            longer.container.push(0);
            let answer =
                beamsatchel_model::apply(&mut longer.container, &longer.request, &mut longer.reply);
            return match answer.number {
                0 => vec![Slack::GrownLacksAByte],
                _ => Vec::new(),
            };
        }
        _ => return Vec::new(),
    };
    vec![met]
}

/// How a container lay that was refused with 2. Each is told by the change that makes it well formed.
fn of_refused(container: &[u8]) -> Vec<Slack> {
    let good_with = |change: &dyn Fn(&mut Vec<u8>)| {
        let mut changed = container.to_vec();
        change(&mut changed);
        Container::from_bytes(&changed)
    };
    let number = |at: usize| {
        let field = container[at..at + 8].try_into().expect("eight bytes");
        u64::from_be_bytes(field)
    };
    let (size, offset) = (number(84), number(92));
    let set = |at: usize, value: u64| {
        good_with(&|bytes| bytes[at..at + 8].copy_from_slice(&value.to_be_bytes()))
    };
    let length = container.len() as u64;
    let mut met = Vec::new();
    // With all bytes up to the count for data.
    if size.checked_add(468).is_none() && set(84, offset.wrapping_sub(468)).is_some() {
        met.push(Slack::SizeNearTheMost);
    }
    if size.checked_add(468) == offset.checked_add(1) && set(84, size.wrapping_sub(1)).is_some() {
        met.push(Slack::OffsetByteLess);
    }
    // With the count at some place not far behind the data.
    let near_the_most = offset > u64::MAX - 4 - 92 * 60 && size < length;
    if near_the_most && (468 + size..length.min(600 + size)).any(|at| set(92, at).is_some()) {
        met.push(Slack::OffsetNearTheMost);
    }
    if let Some(longer) = good_with(&|bytes| bytes.push(0)) {
        met.push(match longer.extras() {
            0 => Slack::CountByteOutside,
            _ => Slack::ExtraByteOutside,
        });
    }
    // The places of the slack, where both fields are inside the buffer.
    if size < length && offset < length && 468 + size < offset {
        let (first, last) = (468 + size as usize, offset as usize - 1);
        let only = |at: usize| container[at] != 0 && good_with(&|bytes| bytes[at] = 0).is_some();
        met.extend((first < last && only(first)).then_some(Slack::FirstByteNotZero));
        met.extend((first < last && only(last)).then_some(Slack::LastByteNotZero));
        met.extend((first == last && only(first)).then_some(Slack::OnlyByteNotZero));
    }
    met
}
