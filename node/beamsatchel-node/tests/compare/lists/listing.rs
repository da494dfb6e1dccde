//! What lists were like that came with a request, and what became of them.

use super::case::ListedCase;
use super::faults::Fault;
use super::routes::Route;
use super::rows::{decode, rewrite, Rewritten};
use crate::calls::{Call, Kind};
use beamsatchel_model::{place, Container, Request, TestAndWrite, LONGEST_REQUEST, MOST_ROWS};
use std::ops::Range;

/// The last position that an offset from the start can name.
const FARTHEST: u64 = (1 << 31) - 1;

#[derive(Clone, Copy, Debug, PartialEq, Eq, PartialOrd, Ord)]
pub enum Listing {
    /// Of a list that was refused, and would be taken but for this.
    Bad(Fault),
    /// Of a list that was taken: no row, beside no data, and beside data that has zeros.
    NoRowsNoData,
    NoRowsBesideZeros,
    /// All zeros of the data, or some.
    NamesAllZeros,
    NamesFewer,
    /// 256 rows.
    Full,
    /// One row for all data.
    AllData,
    FromTheFirstByte,
    UpToTheLastByte,
    UpToTheSlack,
    /// A row of more than a request's length, and one behind so many bytes.
    LongRow,
    FarRow,
    /// A request had this outcome beside a list that has rows.
    Beside(Kind, u32),
    /// Of a test-and-write that was done: it says nothing of any byte.
    Nothing,
    EmptyWriteBehindTheEnd,
    /// A gap became a row, or went on with one; or stands behind zeros that somebody wrote.
    GapApart,
    GapJoins,
    GapBehindZeros,
    LongGap,
    /// Part of a gap was filled by the same request, or all of it.
    GapFilledInPart,
    GapFilledWhole,
    /// The cut took part of a gap, or all of it, or all but what is below the farthest position.
    GapCut,
    GapCutAway,
    FarGap,
    /// Of a lone write, where it covers a row or some of it.
    FillsExactly,
    FillsWhole,
    FillsFromLeft,
    FillsFromRight,
    FillsInside,
    FillsAcross,
    /// With zeros, which are written like other bytes.
    FillsWithZeros,
    /// By an offset that counts from the end.
    FillsFromTheEnd,
    /// It ends where a row begins, begins where one ends, or begins at the end of the data behind one.
    RightBeforeARow,
    RightBehindARow,
    AppendBehindARow,
    /// Of a cut without writes.
    CutThroughARow,
    CutAtARowsStart,
    CutAtARowsEnd,
    CutBetweenRows,
    CutAboveTheRows,
    CutToNothing,
    CutAboveTheSize,
    /// It left slack where rows were.
    CutRowsToSlack,
    /// The list became full.
    Fills256,
    /// More than 256 rows on the way, and not in the end: by another write, by the cut.
    MoreOnTheWay,
    MoreBeforeTheCut,
    /// Sixteen writes, and a row more by each.
    SixteenRows,
    /// Of a request that was refused with 13: row 257, or more.
    OneTooMany,
    MoreTooMany,
    TooManyByAGap,
    TooManyByASplit,
    TooManyDespiteACut,
    /// It had tests, which held, and reply space.
    TooManyWithReply,
    /// In a history: where a request of a kind went.
    Went(Kind, Route),
    /// What somebody wrote was cut, and is a gap now.
    WrittenBeforeTheCut,
    /// A test-and-write left 256 rows, or was refused for more.
    FullInHistory,
    TooManyInHistory,
    /// Two woven histories ended with the same list, and it has rows.
    SameInWovenHistories,
}

impl Listing {
    pub fn all() -> Vec<Listing> {
        let mut all: Vec<Listing> = Fault::ALL.map(Listing::Bad).to_vec();
        all.extend(Listing::PLAIN);
        for kind in Kind::ALL {
            let outcomes = Call::ApplyListed(kind).outcomes().iter();
            let judged = outcomes.filter(|number| !matches!(number, 1 | 2 | 16));
            all.extend(judged.map(|number| Listing::Beside(kind, *number)));
            all.extend(
                Route::all(kind)
                    .iter()
                    .map(|route| Listing::Went(kind, *route)),
            );
        }
        all
    }

    const PLAIN: [Listing; 55] = [
        Listing::NoRowsNoData,
        Listing::NoRowsBesideZeros,
        Listing::NamesAllZeros,
        Listing::NamesFewer,
        Listing::Full,
        Listing::AllData,
        Listing::FromTheFirstByte,
        Listing::UpToTheLastByte,
        Listing::UpToTheSlack,
        Listing::LongRow,
        Listing::FarRow,
        Listing::Nothing,
        Listing::EmptyWriteBehindTheEnd,
        Listing::GapApart,
        Listing::GapJoins,
        Listing::GapBehindZeros,
        Listing::LongGap,
        Listing::GapFilledInPart,
        Listing::GapFilledWhole,
        Listing::GapCut,
        Listing::GapCutAway,
        Listing::FarGap,
        Listing::FillsExactly,
        Listing::FillsWhole,
        Listing::FillsFromLeft,
        Listing::FillsFromRight,
        Listing::FillsInside,
        Listing::FillsAcross,
        Listing::FillsWithZeros,
        Listing::FillsFromTheEnd,
        Listing::RightBeforeARow,
        Listing::RightBehindARow,
        Listing::AppendBehindARow,
        Listing::CutThroughARow,
        Listing::CutAtARowsStart,
        Listing::CutAtARowsEnd,
        Listing::CutBetweenRows,
        Listing::CutAboveTheRows,
        Listing::CutToNothing,
        Listing::CutAboveTheSize,
        Listing::CutRowsToSlack,
        Listing::Fills256,
        Listing::MoreOnTheWay,
        Listing::MoreBeforeTheCut,
        Listing::SixteenRows,
        Listing::OneTooMany,
        Listing::MoreTooMany,
        Listing::TooManyByAGap,
        Listing::TooManyByASplit,
        Listing::TooManyDespiteACut,
        Listing::TooManyWithReply,
        Listing::WrittenBeforeTheCut,
        Listing::FullInHistory,
        Listing::TooManyInHistory,
        Listing::SameInWovenHistories,
    ];

    /// What a case met that was answered with this number.
    pub fn of_case(before: &ListedCase, number: u32) -> Vec<Listing> {
        let Some(container) = Container::from_bytes(&before.case.container) else {
            return Vec::new();
        };
        if number == 16 {
            let faults = Fault::all_of(&before.list, &container);
            return match faults[..] {
                [fault] => vec![Listing::Bad(fault)],
                _ => Vec::new(),
            };
        }
        let rows = decode(&before.list);
        let mut met = lying_in(&rows, &container);
        if !rows.is_empty() {
            let kind = Kind::of_request(&before.case.request);
            met.push(Listing::Beside(kind, number));
        }
        if let Some(Request::TestAndWrite(asked)) = Request::from_bytes(&before.case.request) {
            if matches!(number, 0 | 13) {
                met.extend(Update::of(&asked, &rows, &container).met(number));
            }
        }
        met
    }
}

/// What a good list was like.
fn lying_in(rows: &[Range<u64>], container: &Container) -> Vec<Listing> {
    let size = container.data.len() as u64;
    let zeros = container.data.iter().filter(|byte| **byte == 0).count() as u64;
    let named: u64 = rows.iter().map(|row| row.end - row.start).sum();
    let (Some(first), Some(last)) = (rows.first(), rows.last()) else {
        return match (size, zeros) {
            (0, _) => vec![Listing::NoRowsNoData],
            (_, 0) => Vec::new(),
            _ => vec![Listing::NoRowsBesideZeros],
        };
    };
    let mut met = vec![match named == zeros {
        true => Listing::NamesAllZeros,
        false => Listing::NamesFewer,
    }];
    let mut meet = |what: Listing, here: bool| met.extend(here.then_some(what));
    meet(Listing::Full, rows.len() == MOST_ROWS);
    meet(Listing::AllData, named == size);
    meet(Listing::FromTheFirstByte, first.start == 0);
    meet(
        Listing::UpToTheLastByte,
        last.end == size && container.slack == 0,
    );
    meet(
        Listing::UpToTheSlack,
        last.end == size && container.slack > 0,
    );
    meet(
        Listing::LongRow,
        rows.iter()
            .any(|row| row.end - row.start > LONGEST_REQUEST as u64),
    );
    meet(Listing::FarRow, last.start > LONGEST_REQUEST as u64);
    met
}

/// A test-and-write whose writes and cut have been taken from row to row.
struct Update<'a> {
    asked: &'a TestAndWrite,
    rows: &'a [Range<u64>],
    container: &'a Container,
    size: u64,
    final_size: u64,
    /// Where its writes go that are not empty.
    places: Vec<Range<u64>>,
    after: Rewritten,
}

impl<'a> Update<'a> {
    fn of(asked: &'a TestAndWrite, rows: &'a [Range<u64>], container: &'a Container) -> Update<'a> {
        let size = container.data.len() as u64;
        let mut places = place(&asked.writes, size).expect("or it was refused with 4");
        places.retain(|place| !place.is_empty());
        let grown = places.iter().fold(size, |size, place| size.max(place.end));
        let final_size = asked.cut.map_or(grown, |cut| grown.min(u64::from(cut)));
        Update {
            asked,
            rows,
            container,
            size,
            final_size,
            after: rewrite(rows.to_vec(), size, &places, final_size),
            places,
        }
    }

    fn met(&self, number: u32) -> Vec<Listing> {
        if number == 13 {
            return self.too_many();
        }
        let mut met = self.gaps();
        met.extend(self.rows_on_the_way());
        match &self.places[..] {
            [] => met.extend(self.cut()),
            [alone] if self.size <= self.final_size => met.extend(self.fills(alone)),
            _ => {}
        }
        met
    }

    fn too_many(&self) -> Vec<Listing> {
        let count = self.after.rows.len();
        assert!(count > MOST_ROWS, "refused with 13 for {count} rows");
        let mut met = vec![match count - MOST_ROWS {
            1 => Listing::OneTooMany,
            _ => Listing::MoreTooMany,
        }];
        let mut meet = |what: Listing, here: bool| met.extend(here.then_some(what));
        let lone = self.places.len() == 1;
        meet(Listing::TooManyByAGap, lone && !self.after.gaps.is_empty());
        meet(Listing::TooManyByASplit, lone && self.after.gaps.is_empty());
        let grown = self.places.iter().map(|place| place.end).max();
        meet(Listing::TooManyDespiteACut, grown > Some(self.final_size));
        meet(Listing::TooManyWithReply, !self.asked.tests.is_empty());
        met
    }

    fn gaps(&self) -> Vec<Listing> {
        let mut met = Vec::new();
        for gap in &self.after.gaps {
            let mut meet = |what: Listing, here: bool| met.extend(here.then_some(what));
            let kept = gap.start..gap.end.min(self.final_size);
            let is_row = self.after.rows.contains(&kept);
            let written_before = gap.start == self.size && 0 < self.size;
            let zero_before = written_before && self.container.data.last() == Some(&0);
            let row_before = self.rows.last().filter(|row| row.end == gap.start);
            meet(Listing::GapApart, is_row);
            meet(
                Listing::GapBehindZeros,
                is_row && zero_before && row_before.is_none(),
            );
            if let Some(before) = row_before {
                let joined = before.start..kept.end;
                meet(Listing::GapJoins, self.after.rows.contains(&joined));
            }
            meet(
                Listing::LongGap,
                is_row && kept.end - kept.start > LONGEST_REQUEST as u64,
            );
            meet(
                Listing::GapCut,
                (gap.start + 1..gap.end).contains(&self.final_size),
            );
            meet(Listing::GapCutAway, self.final_size <= gap.start);
            meet(
                Listing::FarGap,
                gap.end >= FARTHEST && gap.start < self.final_size,
            );
            let overlaps = |other: &Range<u64>| other.start < kept.end && kept.start < other.end;
            if gap.end <= self.final_size && self.places.iter().any(overlaps) {
                met.push(match self.after.rows.iter().any(overlaps) {
                    true => Listing::GapFilledInPart,
                    false => Listing::GapFilledWhole,
                });
            }
        }
        met
    }

    fn rows_on_the_way(&self) -> Vec<Listing> {
        let after = &self.after;
        let mut met = Vec::new();
        let mut meet = |what: Listing, here: bool| met.extend(here.then_some(what));
        meet(
            Listing::Fills256,
            after.rows.len() == MOST_ROWS && self.rows.len() < MOST_ROWS,
        );
        meet(
            Listing::MoreOnTheWay,
            after.most > MOST_ROWS && after.before_cut <= MOST_ROWS,
        );
        meet(Listing::MoreBeforeTheCut, after.before_cut > MOST_ROWS);
        meet(
            Listing::SixteenRows,
            self.places.len() == 16 && after.rows.len() == self.rows.len() + 16,
        );
        met
    }

    /// Of a request that writes nothing.
    fn cut(&self) -> Vec<Listing> {
        let mut met = Vec::new();
        let mut meet = |what: Listing, here: bool| met.extend(here.then_some(what));
        let (rows, cut) = (self.rows, self.final_size);
        let Some(asked) = self.asked.cut else {
            let positions = place(&self.asked.writes, self.size).expect("or it was refused");
            let behind = positions.iter().any(|place| place.start > self.size);
            meet(Listing::Nothing, !rows.is_empty());
            meet(Listing::EmptyWriteBehindTheEnd, behind && !rows.is_empty());
            return met;
        };
        if u64::from(asked) >= self.size {
            meet(Listing::CutAboveTheSize, !rows.is_empty());
            return met;
        }
        let through = rows.iter().any(|row| row.start < cut && cut < row.end);
        let at_start = rows.iter().any(|row| row.start == cut);
        let at_end = rows.iter().any(|row| row.end == cut);
        let above = rows.iter().any(|row| row.start > cut);
        let below = rows.iter().any(|row| row.end < cut);
        meet(Listing::CutThroughARow, through);
        meet(Listing::CutAtARowsStart, at_start && cut > 0);
        meet(Listing::CutAtARowsEnd, at_end);
        meet(
            Listing::CutBetweenRows,
            below && above && !through && !at_start && !at_end,
        );
        meet(
            Listing::CutAboveTheRows,
            below && !above && !through && !at_start && !at_end,
        );
        meet(Listing::CutToNothing, cut == 0 && !rows.is_empty());
        meet(Listing::CutRowsToSlack, through || at_start || above);
        met
    }

    /// Of a request with one write that is not empty, and no cut that takes anything.
    fn fills(&self, place: &Range<u64>) -> Vec<Listing> {
        let mut met = Vec::new();
        let mut meet = |what: Listing, here: bool| met.extend(here.then_some(what));
        let overlaps = |row: &&Range<u64>| row.start < place.end && place.start < row.end;
        let filled: Vec<&Range<u64>> = self.rows.iter().filter(overlaps).collect();
        let behind = self.rows.iter().any(|row| row.end == place.start);
        if let Some(first) = filled.first() {
            let whole = (place.start <= first.start, first.end <= place.end);
            meet(
                match (filled.len(), whole) {
                    (1, (true, true)) if *first == place => Listing::FillsExactly,
                    (1, (true, true)) => Listing::FillsWhole,
                    (1, (true, false)) => Listing::FillsFromLeft,
                    (1, (false, true)) => Listing::FillsFromRight,
                    (1, (false, false)) => Listing::FillsInside,
                    _ => Listing::FillsAcross,
                },
                true,
            );
            let write = self
                .asked
                .writes
                .iter()
                .find(|write| !write.data.is_empty());
            let write = write.expect("the one that fills");
            meet(
                Listing::FillsWithZeros,
                write.data.iter().all(|byte| *byte == 0),
            );
            meet(Listing::FillsFromTheEnd, write.offset < 0);
        } else {
            let before = self.rows.iter().any(|row| row.start == place.end);
            meet(Listing::RightBeforeARow, before);
            meet(Listing::RightBehindARow, behind && place.start < self.size);
        }
        meet(
            Listing::AppendBehindARow,
            behind && place.start == self.size,
        );
        met
    }
}
