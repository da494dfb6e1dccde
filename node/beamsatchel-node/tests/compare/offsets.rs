//! What offsets from the end named, at and one past each edge, and on which size.

use crate::case::Case;
use beamsatchel_model::{grow, resolve, Container, Request, TestAndWrite};
use std::cmp::Ordering;

/// The first position that no offset from the start can name.
const FAR: u64 = 1 << 31;

/// The sort of an entry. One that would do nothing is judged as well.
#[derive(Clone, Copy, Debug, PartialEq, Eq, PartialOrd, Ord)]
pub enum Sort {
    Test,
    TestOfNothing,
    Read,
    ReadOfNothing,
    Write,
    EmptyWrite,
}

/// What an offset from the end named in the data that its entry met.
#[derive(Clone, Copy, Debug, PartialEq, Eq, PartialOrd, Ord)]
pub enum Spot {
    End,
    LastByte,
    Inside,
    FirstByte,
    /// One byte before the start.
    Before,
    FarBefore,
}

/// What a request was done or refused with that counted from the end.
#[derive(Clone, Copy, Debug, PartialEq, Eq, PartialOrd, Ord)]
pub enum Named {
    /// By an entry that was done, or for which alone its request was refused.
    At(Sort, Spot),
    /// By a write that was done: it met what writes before it made of the data.
    OnTheWay,
    /// They had left a gap.
    BehindAGap,
    /// Without them it would be before the start.
    ThanksToGrowth,
    /// Behind the cut it would be.
    BeforeTheCut,
    /// It met a size of more than 2^31, or named a position that no offset from the start can name.
    OnFarSize,
    FarPosition,
    /// The lowest offset named the first byte, or another one that was not cut, or a place for nothing.
    LowestFirstByte,
    LowestOtherByte,
    LowestEmptyWrite,
    /// By a request that was refused for one entry: a write, though one before it made the data grow.
    DespiteGrowth,
    /// Since one before it that would do is empty.
    BehindEmptyWrite,
    /// A test, though the writes would do.
    TestDespiteGrowth,
    /// The lowest offset was refused.
    LowestTest,
    LowestRead,
    LowestWrite,
    /// Though it met a size of more than 2^30.
    LowestDespiteFarWrite,
    /// By a request with a lone append: where there is slack, some is left, or none, or more was needed.
    AppendInsideTheSlack,
    AppendToTheSlacksEnd,
    AppendPastTheSlack,
    /// Extras moved.
    AppendBeforeExtras,
    /// The room was just enough, or a byte too little.
    AppendFits,
    AppendLacksAByte,
    /// One append behind another, in one request.
    TwoAppends,
    AppendInHistory,
    /// Woven with the same lease requests in two ways, it did the same.
    AppendInWovenHistories,
    /// It did the same to two containers that differ in slack.
    AppendBesideOtherSlack,
}

impl Named {
    pub fn all() -> Vec<Named> {
        let sorts = [
            Sort::Test,
            Sort::TestOfNothing,
            Sort::Read,
            Sort::ReadOfNothing,
            Sort::Write,
            Sort::EmptyWrite,
        ];
        let spots = [
            Spot::End,
            Spot::LastByte,
            Spot::Inside,
            Spot::FirstByte,
            Spot::Before,
            Spot::FarBefore,
        ];
        let mut all: Vec<Named> = sorts
            .into_iter()
            .flat_map(|sort| spots.map(|spot| Named::At(sort, spot)))
            .collect();
        all.extend([
            Named::OnTheWay,
            Named::BehindAGap,
            Named::ThanksToGrowth,
            Named::BeforeTheCut,
            Named::OnFarSize,
            Named::FarPosition,
            Named::LowestFirstByte,
            Named::LowestOtherByte,
            Named::LowestEmptyWrite,
            Named::DespiteGrowth,
            Named::BehindEmptyWrite,
            Named::TestDespiteGrowth,
            Named::LowestTest,
            Named::LowestRead,
            Named::LowestWrite,
            Named::LowestDespiteFarWrite,
            Named::AppendInsideTheSlack,
            Named::AppendToTheSlacksEnd,
            Named::AppendPastTheSlack,
            Named::AppendBeforeExtras,
            Named::AppendFits,
            Named::AppendLacksAByte,
            Named::TwoAppends,
            Named::AppendInHistory,
            Named::AppendInWovenHistories,
            Named::AppendBesideOtherSlack,
        ]);
        all
    }

    /// What a case met that was answered with this number.
    pub fn of_case(case: &Case, number: u32) -> Vec<Named> {
        let (Some(container), Some(request)) = (
            Container::from_bytes(&case.container),
            Request::from_bytes(&case.request),
        ) else {
            return Vec::new();
        };
        let entries = entries(&request, container.data.len() as u64);
        let from_end = entries.iter().filter(|entry| entry.offset < 0);
        let mut named: Vec<Named> = match number {
            0 => from_end.flat_map(|entry| entry.done(&request)).collect(),
            // The tests have been made.
            8 => from_end
                .filter(|entry| !entry.sort.writes())
                .flat_map(|entry| entry.done(&request))
                .collect(),
            4 => of_refused(&entries),
            _ => Vec::new(),
        };
        if let Request::TestAndWrite(request) = &request {
            named.extend(of_appends(&container, request, number));
        }
        named
    }
}

impl Sort {
    fn writes(self) -> bool {
        matches!(self, Sort::Write | Sort::EmptyWrite)
    }
}

/// An entry of a request, with the sizes that it meets and could meet.
struct Entry {
    sort: Sort,
    offset: i32,
    /// The size before the request.
    size: u64,
    /// The size that it counts from.
    met: u64,
    /// Whether the writes before it leave a gap.
    gap: bool,
    /// The size that it would meet if empty writes before it counted, and all writes for a test.
    could_meet: u64,
}

impl Entry {
    fn position(&self) -> Option<u64> {
        resolve(self.offset, self.met)
    }

    fn spot(&self) -> Spot {
        match self.position() {
            Some(position) if position == self.met => Spot::End,
            Some(position) if position + 1 == self.met => Spot::LastByte,
            Some(0) => Spot::FirstByte,
            Some(_) => Spot::Inside,
            None if resolve(self.offset, self.met + 1).is_some() => Spot::Before,
            None => Spot::FarBefore,
        }
    }

    fn at(&self) -> Named {
        Named::At(self.sort, self.spot())
    }

    /// What it named in a request that was done.
    fn done(&self, request: &Request) -> Vec<Named> {
        let mut named = vec![self.at()];
        let Request::TestAndWrite(TestAndWrite { cut, .. }) = request else {
            return named;
        };
        let mut meet = |what: Named, here: bool| named.extend(here.then_some(what));
        let lowest = self.offset == i32::MIN;
        if self.sort == Sort::EmptyWrite {
            meet(Named::LowestEmptyWrite, lowest);
        }
        if self.sort == Sort::Write {
            let position = self.position().expect("done");
            let before_start = |size: u64| resolve(self.offset, size).is_none();
            meet(Named::OnTheWay, self.size < self.met);
            meet(Named::BehindAGap, self.gap);
            meet(Named::ThanksToGrowth, before_start(self.size));
            let kept = cut.map_or(self.met, |cut| self.met.min(cut.into()));
            meet(Named::BeforeTheCut, before_start(kept));
            meet(Named::OnFarSize, FAR < self.met);
            meet(Named::FarPosition, FAR <= position);
            meet(Named::LowestFirstByte, lowest && position == 0 && 0 < kept);
            meet(
                Named::LowestOtherByte,
                lowest && (1..kept).contains(&position),
            );
        }
        named
    }

    /// What it named in a request that was refused for it alone.
    fn refused(&self) -> Vec<Named> {
        let mut named = vec![self.at()];
        let would_do = resolve(self.offset, self.could_meet).is_some();
        named.extend(match (self.sort.writes(), would_do) {
            (true, true) => Some(Named::BehindEmptyWrite),
            (true, false) => (self.size < self.met).then_some(Named::DespiteGrowth),
            (false, true) => Some(Named::TestDespiteGrowth),
            (false, false) => None,
        });
        if self.offset == i32::MIN {
            named.push(match self.sort {
                Sort::Test | Sort::TestOfNothing => Named::LowestTest,
                Sort::Read | Sort::ReadOfNothing => Named::LowestRead,
                Sort::Write | Sort::EmptyWrite => Named::LowestWrite,
            });
            named.extend((FAR / 2 < self.met).then_some(Named::LowestDespiteFarWrite));
        }
        named
    }
}

/// The entries of a request on data of this size.
fn entries(request: &Request, size: u64) -> Vec<Entry> {
    let looking = |sorts: [Sort; 2], offset: i32, length: u32, could_meet: u64| Entry {
        sort: sorts[usize::from(length == 0)],
        offset,
        size,
        met: size,
        gap: false,
        could_meet,
    };
    match request {
        Request::TestAndWrite(request) => {
            let (mut entries, grown) = write_entries(request, size);
            entries.extend(request.tests.iter().map(|test| {
                let sorts = [Sort::Test, Sort::TestOfNothing];
                looking(sorts, test.offset, test.length, grown)
            }));
            entries
        }
        Request::Read(reads) => {
            let sorts = [Sort::Read, Sort::ReadOfNothing];
            let reads = reads.iter();
            reads
                .map(|read| looking(sorts, read.offset, read.length, size))
                .collect()
        }
        _ => Vec::new(),
    }
}

/// The writes of a request on data of this size, and the size that they give. What reaches before the start gives
/// nothing.
fn write_entries(request: &TestAndWrite, size: u64) -> (Vec<Entry>, u64) {
    let (mut met, mut could_meet, mut gap) = (size, size, false);
    let mut entries = Vec::new();
    for write in &request.writes {
        entries.push(Entry {
            sort: match write.data.is_empty() {
                true => Sort::EmptyWrite,
                false => Sort::Write,
            },
            offset: write.offset,
            size,
            met,
            gap,
            could_meet,
        });
        if let Some(start) = resolve(write.offset, met) {
            let place = start..start + write.data.len() as u64;
            gap |= met < start && !place.is_empty();
            met = grow(met, &place);
            could_meet = could_meet.max(place.end);
        }
    }
    (entries, met)
}

/// What a request met that was refused with 4: where one entry alone reaches before the start, what that is.
fn of_refused(entries: &[Entry]) -> Vec<Named> {
    let mut before = entries.iter().filter(|entry| entry.position().is_none());
    match (before.next(), before.next()) {
        (Some(entry), None) => entry.refused(),
        _ => Vec::new(),
    }
}

/// Whether a request has a write at the end that is not empty.
pub fn appends(request: &[u8]) -> bool {
    match Request::from_bytes(request) {
        Some(Request::TestAndWrite(request)) => appended(&request) > 0,
        _ => false,
    }
}

/// How many such writes it has.
fn appended(request: &TestAndWrite) -> usize {
    let writes = request.writes.iter();
    let appends = writes.filter(|write| write.offset == -1 && !write.data.is_empty());
    appends.count()
}

/// What appends did to a container.
fn of_appends(old: &Container, request: &TestAndWrite, number: u32) -> Vec<Named> {
    let mut named = Vec::new();
    if number == 0 && appended(request) > 1 {
        named.push(Named::TwoAppends);
    }
    if (appended(request), request.writes.len(), request.cut) != (1, 1, None) {
        return named;
    }
    let size = old.data.len() + request.writes[0].data.len();
    let slack_end = old.data.len() + old.slack;
    // By as much as the data reaches past the slack, the used length grows.
    let past = size.saturating_sub(slack_end);
    let used = old.used() as usize + past;
    match number {
        0 => {
            if old.slack > 0 {
                named.push(match size.cmp(&slack_end) {
                    Ordering::Less => Named::AppendInsideTheSlack,
                    Ordering::Equal => Named::AppendToTheSlacksEnd,
                    Ordering::Greater => Named::AppendPastTheSlack,
                });
            }
            named.extend((past > 0 && old.extras() > 0).then_some(Named::AppendBeforeExtras));
            named.extend((past > 0 && used == old.length).then_some(Named::AppendFits));
        }
        11 => named.extend((used == old.length + 1).then_some(Named::AppendLacksAByte)),
        _ => {}
    }
    named
}
