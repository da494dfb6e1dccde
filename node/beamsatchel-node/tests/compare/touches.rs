//! What done test-and-writes touched, and that no byte elsewhere changed.

use crate::case::Case;
use beamsatchel_model::{place, Container, Request, TestAndWrite};
use std::cmp::Ordering;
use std::ops::Range;

/// The field that follows the data's size.
const SIZE_FIELD: Range<usize> = 84..92;
/// The field that follows the count's place.
const OFFSET_FIELD: Range<usize> = 92..100;
/// Where a container's data begins.
const DATA: usize = 468;

/// What a test-and-write did to the data's end, or where one of its writes fell.
#[derive(Clone, Copy, Debug, PartialEq, Eq, PartialOrd, Ord)]
pub enum Touch {
    SizeStays,
    SizeStaysBesideSlack,
    /// No byte changed, and there is slack.
    NothingBesideSlack,
    Grows,
    GrowsBesideExtras,
    /// Some slack is left.
    GrowsInsideTheSlack,
    GrowsInsideTheSlackBesideExtras,
    /// None is left, and the count stays.
    GrowsToTheSlacksEnd,
    GrowsToTheSlacksEndBesideExtras,
    GrowsPastTheSlack,
    GrowsPastTheSlackBesideExtras,
    Shrinks,
    ShrinksBesideExtras,
    ShrinksBesideSlack,
    /// The writes reach past the slack, and the cut takes that back.
    PastTheSlackOnTheWay,
    WriteInside,
    WriteAcrossTheEnd,
    WriteAtTheEnd,
    WritePastTheEnd,
    /// Past the end once more, so that the request leaves two gaps.
    SecondGap,
    /// Over bytes of a gap that an earlier write left.
    GapFilled,
    /// All or some of it at or past the final size.
    WriteCut,
    WriteBeginsInTheSlack,
    WriteBeginsAtTheSlacksEnd,
    WriteBeginsPastTheSlack,
    WriteEndsInTheSlack,
    WriteEndsAtTheSlacksEnd,
    WriteEndsPastTheSlack,
}

impl Touch {
    pub const ALL: [Touch; 28] = [
        Touch::SizeStays,
        Touch::SizeStaysBesideSlack,
        Touch::NothingBesideSlack,
        Touch::Grows,
        Touch::GrowsBesideExtras,
        Touch::GrowsInsideTheSlack,
        Touch::GrowsInsideTheSlackBesideExtras,
        Touch::GrowsToTheSlacksEnd,
        Touch::GrowsToTheSlacksEndBesideExtras,
        Touch::GrowsPastTheSlack,
        Touch::GrowsPastTheSlackBesideExtras,
        Touch::Shrinks,
        Touch::ShrinksBesideExtras,
        Touch::ShrinksBesideSlack,
        Touch::PastTheSlackOnTheWay,
        Touch::WriteInside,
        Touch::WriteAcrossTheEnd,
        Touch::WriteAtTheEnd,
        Touch::WritePastTheEnd,
        Touch::SecondGap,
        Touch::GapFilled,
        Touch::WriteCut,
        Touch::WriteBeginsInTheSlack,
        Touch::WriteBeginsAtTheSlacksEnd,
        Touch::WriteBeginsPastTheSlack,
        Touch::WriteEndsInTheSlack,
        Touch::WriteEndsAtTheSlacksEnd,
        Touch::WriteEndsPastTheSlack,
    ];

    /// What a test-and-write that was done touched; for any other request, nothing.
    pub fn of_case(before: &Case, number: u32, after: &Case) -> Vec<Touch> {
        let (0, Some(Request::TestAndWrite(request))) =
            (number, Request::from_bytes(&before.request))
        else {
            return Vec::new();
        };
        let old = Container::from_bytes(&before.container).expect("well formed");
        let new = Container::from_bytes(&after.container).expect("well formed");
        demand_elsewhere(before, &request, after, &old, &new);
        let mut touches = of_writes(&request, old.data.len(), new.data.len());
        let extras = old.places.len() > 4;
        touches.extend(match (new.data.len().cmp(&old.data.len()), extras) {
            (Ordering::Equal, _) => [Touch::SizeStays].as_slice(),
            (Ordering::Greater, false) => &[Touch::Grows],
            (Ordering::Greater, true) => &[Touch::Grows, Touch::GrowsBesideExtras],
            (Ordering::Less, false) => &[Touch::Shrinks],
            (Ordering::Less, true) => &[Touch::Shrinks, Touch::ShrinksBesideExtras],
        });
        if old.slack > 0 {
            touches.extend(beside_slack(&request, &old, &new));
            let nothing = before.container == after.container;
            touches.extend(nothing.then_some(Touch::NothingBesideSlack));
        }
        touches
    }
}

/// What a test-and-write did to a container that has slack.
fn beside_slack(request: &TestAndWrite, old: &Container, new: &Container) -> Vec<Touch> {
    let slack_end = old.data.len() + old.slack;
    let extras = old.places.len() > 4;
    let growth = new.data.len().cmp(&slack_end);
    let mut touches = match (new.data.len().cmp(&old.data.len()), growth, extras) {
        (Ordering::Equal, ..) => vec![Touch::SizeStaysBesideSlack],
        (Ordering::Less, ..) => vec![Touch::ShrinksBesideSlack],
        (_, Ordering::Less, false) => vec![Touch::GrowsInsideTheSlack],
        (_, Ordering::Less, true) => vec![Touch::GrowsInsideTheSlackBesideExtras],
        (_, Ordering::Equal, false) => vec![Touch::GrowsToTheSlacksEnd],
        (_, Ordering::Equal, true) => vec![Touch::GrowsToTheSlacksEndBesideExtras],
        (_, Ordering::Greater, false) => vec![Touch::GrowsPastTheSlack],
        (_, Ordering::Greater, true) => vec![Touch::GrowsPastTheSlackBesideExtras],
    };
    for Range { start, end } in places(request, old.data.len()) {
        if old.data.len() <= start {
            touches.push(match start.cmp(&slack_end) {
                Ordering::Less => Touch::WriteBeginsInTheSlack,
                Ordering::Equal => Touch::WriteBeginsAtTheSlacksEnd,
                Ordering::Greater => Touch::WriteBeginsPastTheSlack,
            });
        }
        if old.data.len() < end {
            touches.push(match end.cmp(&slack_end) {
                Ordering::Less => Touch::WriteEndsInTheSlack,
                Ordering::Equal => Touch::WriteEndsAtTheSlacksEnd,
                Ordering::Greater => Touch::WriteEndsPastTheSlack,
            });
        }
        if slack_end < end && new.data.len() <= slack_end {
            touches.push(Touch::PastTheSlackOnTheWay);
        }
    }
    touches
}

/// Where each write fell that is not empty.
fn of_writes(request: &TestAndWrite, size: usize, final_size: usize) -> Vec<Touch> {
    let mut touches = Vec::new();
    let mut reached = size;
    let mut gaps: Vec<Range<usize>> = Vec::new();
    for Range { start, end } in places(request, size) {
        touches.push(if end <= reached {
            Touch::WriteInside
        } else if start < reached {
            Touch::WriteAcrossTheEnd
        } else if start == reached {
            Touch::WriteAtTheEnd
        } else if gaps.is_empty() {
            Touch::WritePastTheEnd
        } else {
            Touch::SecondGap
        });
        if gaps.iter().any(|gap| start < gap.end && gap.start < end) {
            touches.push(Touch::GapFilled);
        }
        if final_size < end {
            touches.push(Touch::WriteCut);
        }
        if reached < start {
            gaps.push(reached..start);
        }
        reached = reached.max(end);
    }
    touches
}

/// Where the writes of a request that was done went in data of this size, but for empty ones.
fn places(request: &TestAndWrite, size: usize) -> impl Iterator<Item = Range<usize>> {
    let places = place(&request.writes, size as u64).expect("or it was refused");
    let places = places.into_iter().filter(|place| !place.is_empty());
    places.map(|place| place.start as usize..place.end as usize)
}

/// Outside the fields, the written bytes that remain and the stretch from the lower data end to the
/// higher used end, no byte changed. Where the count stays, none but the size field, written bytes and
/// what a cut freed; where the size stays too, none but written ones.
fn demand_elsewhere(
    before: &Case,
    request: &TestAndWrite,
    after: &Case,
    old: &Container,
    new: &Container,
) {
    let (old_end, data_end) = (DATA + old.data.len(), DATA + new.data.len());
    let (from, to) = match old.count() == new.count() {
        true => (data_end, old_end.max(data_end)),
        false => (old_end.min(data_end), old.used().max(new.used()) as usize),
    };
    let mut may_change = vec![false; before.container.len()];
    may_change[SIZE_FIELD].fill(old_end != data_end);
    may_change[OFFSET_FIELD].fill(old.count() != new.count());
    may_change[from..to].fill(true);
    for Range { start, end } in places(request, old.data.len()) {
        let written = (DATA + start).min(data_end)..(DATA + end).min(data_end);
        may_change[written].fill(true);
    }
    for (place, may_change) in may_change.iter().enumerate() {
        assert!(
            *may_change || before.container[place] == after.container[place],
            "byte {place} changed, outside the written bytes and the stretch from {from} to {to}\n{}",
            crate::checker::show(before)
        );
    }
}
