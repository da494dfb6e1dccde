//! The whole chart: texts, legend, plot, and the table of what was never written.

use crate::arguments::Arguments;
use crate::page::{Anchor, Page, MARGIN};
use crate::panel::Panel;
use crate::samples::Samples;
use crate::survey::{Gap, Survey};
use crate::text::{counted, grouped, width, wrapped, Px};
use crate::ticks::{scaled, FONT};
use crate::times;

/// The text size of the title, and of the rows where there are many; all else has that of the labels.
const TITLE: i64 = 20;
const SMALL: i64 = 12;
/// Up to so many gaps have a row of the table each, with all that is known of them.
const LONG_ROWS: usize = 16;

/// What a gap is called.
pub const NEVER_WRITTEN: &str = "never written";
/// What the dotted line in a gap is.
const SMOOTH: &str = "smooth, as the old code drew";

pub struct Chart<'a> {
    pub samples: &'a Samples<'a>,
    pub arguments: &'a Arguments,
    pub survey: Survey,
}

impl<'a> Chart<'a> {
    pub fn new(samples: &'a Samples<'a>, arguments: &'a Arguments) -> Chart<'a> {
        let survey = Survey::of(samples);
        Chart {
            samples,
            arguments,
            survey,
        }
    }

    /// What of the data is not drawn as one would expect.
    pub fn warnings(&self) -> Vec<String> {
        let left_over = match self.samples.left_over() {
            0 => None,
            1 => Some("The last byte of the data is no whole record and is left out.".to_string()),
            bytes => Some(format!(
                "The last {bytes} bytes of the data are no whole record and are left out."
            )),
        };
        let goes_back = self.survey.goes_back.map(|record| {
            format!(
                "The time of record {record} is before that of an earlier one, so the records stand in their order, \
                 at equal distances."
            )
        });
        left_over.into_iter().chain(goes_back).collect()
    }

    pub fn to_svg(&self) -> String {
        let panel = Panel::new(self);
        let mut page = Page::new(panel.picture_width());
        let title = wrapped(&self.arguments.title, TITLE, page.room(), 2);
        page.lines("title", &title, 24);
        let summary = wrapped(&self.summary(), FONT, page.room(), 4);
        page.lines("muted", &summary, 20);
        let bridged = panel.has_bridge();
        self.legend(bridged, &mut page);
        let unit = wrapped(&self.arguments.unit, FONT, page.room(), 1);
        page.lines("muted", &unit, 26);
        let thinned = panel.draw(&mut page);
        self.table(&mut page);
        let mut notes = self.warnings();
        if thinned {
            notes.push(
                "Where several samples fall into one column of pixels, the lowest and the highest are drawn."
                    .to_string(),
            );
        }
        page.space(8);
        for note in notes {
            let note = wrapped(&note, FONT, page.room(), 4);
            page.lines("muted", &note, 18);
        }
        page.space(18);
        page.to_svg(&self.arguments.title, &self.description(bridged))
    }

    /// A time as it is told.
    pub fn stamp(&self, time: i128) -> String {
        match self.samples.format().clock.is_dated() {
            true => times::dated(time),
            false => times::elapsed(time),
        }
    }

    /// What the line below the title says.
    fn summary(&self) -> String {
        let count = self.samples.count();
        let when = match (self.survey.times, self.survey.goes_back) {
            (Some((first, last)), None) if first < last => {
                format!("{} to {}, ", self.stamp(first), self.stamp(last))
            }
            (Some((first, _)), None) => format!("{}, ", self.stamp(first)),
            _ => String::new(),
        };
        let (records, bytes) = (
            counted(count, "record"),
            counted(self.samples.format().record, "byte"),
        );
        let mut words = format!("{when}{records} of {bytes}");
        let missing = count - self.survey.points;
        if missing > 0 {
            let missing = grouped(missing as u128);
            words += &format!(", {missing} of them {NEVER_WRITTEN}");
        }
        if let Some(most) = self.samples.format().most_apart {
            let (silences, most) = (counted(self.survey.breaks, "silence"), grouped(most.into()));
            words += &format!(", {silences} of more than {most} s between samples");
        }
        words
    }

    /// The chart in words, for those who do not see it.
    fn description(&self, bridged: bool) -> String {
        let mut words = format!("A chart of samples: {}.", self.summary());
        if let Some((low, high)) = self.survey.values {
            let scale = self.samples.format().scale;
            let (low, high) = match scale.numerator > 0 {
                true => (low, high),
                false => (high, low),
            };
            let reach = format!("{} to {}", scaled(low, scale), scaled(high, scale));
            let reach = format!("{reach} {}", self.arguments.unit.trim());
            words += &format!(" The values reach from {}.", reach.trim_end());
        }
        if !self.survey.gaps.is_empty() {
            let gaps = self.survey.gaps.iter().map(|gap| self.row(gap));
            let gaps: Vec<String> = gaps.collect();
            words += &format!(" The line breaks where nobody wrote: {}.", gaps.join("; "));
        }
        if bridged {
            words += &format!(" The dotted line there is {SMOOTH}.");
        }
        words
    }

    /// Between which samples a gap is, how long, and which records it has.
    pub fn row(&self, gap: &Gap) -> String {
        let when = match (gap.from(), gap.to()) {
            (Some(from), Some(to)) if from <= to => format!(
                "from {} to {}, {}",
                self.stamp(from),
                self.stamp(to),
                times::duration(to - from)
            ),
            (Some(from), Some(to)) => format!("from {} to {}", self.stamp(from), self.stamp(to)),
            (Some(from), None) => format!("from {} on", self.stamp(from)),
            (None, Some(to)) => format!("up to {}", self.stamp(to)),
            (None, None) => "at no known time".to_string(),
        };
        let (first, last) = (gap.records.start, gap.records.end - 1);
        match first == last {
            true => format!("{when}, record {first}"),
            false => format!("{when}, records {first} to {last}"),
        }
    }

    /// The times alone, and on the same day its date once.
    fn short_row(&self, gap: &Gap) -> String {
        let (Some(from), Some(to)) = (gap.from(), gap.to()) else {
            return self.row(gap);
        };
        let (from, to) = (self.stamp(from), self.stamp(to));
        match (from.split_once('T'), to.split_once('T')) {
            (Some((day, _)), Some((same, time))) if day == same && !day.is_empty() => {
                format!("{from} to {time}")
            }
            _ => format!("{from} to {to}"),
        }
    }

    fn legend(&self, bridged: bool, page: &mut Page) {
        let entries = [
            ("line", "samples as written", self.survey.points > 0),
            ("gap", NEVER_WRITTEN, !self.survey.gaps.is_empty()),
            ("old", SMOOTH, bridged),
        ];
        let (key, before_words, between) = (Px::whole(28), Px::whole(36), Px::whole(16));
        // The first one begins a line.
        let mut x = page.width;
        for (class, words, _) in entries.into_iter().filter(|(.., there)| *there) {
            let needed = before_words + width(words, FONT);
            if x + needed > page.width - MARGIN {
                page.space(26);
                x = MARGIN;
            }
            let (middle, end) = (page.y - Px(450), x + key);
            match class {
                "gap" => page.hatched(x, middle - Px::whole(7), key, Px::whole(14)),
                _ => page.path(class, format_args!("M{x},{middle}H{end}")),
            }
            page.text(x + before_words, page.y, "muted", Anchor::Start, words);
            x = x + needed + between;
        }
    }

    /// From when to when each gap is: a row each, or where there are many several columns.
    fn table(&self, page: &mut Page) {
        let gaps = &self.survey.gaps;
        if gaps.is_empty() {
            return;
        }
        page.space(12);
        let head = "Never written: between these times there is no sample";
        page.lines("head", &wrapped(head, FONT, page.room(), 2), 18);
        page.space(3);
        let number = width(&gaps.len().to_string(), FONT);
        let indent = number + Px::whole(10);
        let rows = gaps.iter().enumerate();
        if gaps.len() <= LONG_ROWS {
            for (index, gap) in rows {
                for (line, part) in wrapped(&self.row(gap), FONT, page.room() - indent, 4)
                    .iter()
                    .enumerate()
                {
                    page.space(if line == 0 { 20 } else { 17 });
                    if line == 0 {
                        let label = (index + 1).to_string();
                        page.text(MARGIN + number, page.y, "number", Anchor::End, &label);
                    }
                    page.text(MARGIN + indent, page.y, "muted", Anchor::Start, part);
                }
            }
            return;
        }
        let rows: Vec<(usize, String)> = rows
            .map(|(index, gap)| (index, self.short_row(gap)))
            .collect();
        let widest = rows.iter().map(|(_, row)| width(row, SMALL)).max();
        let column = indent + widest.unwrap_or(Px(0)) + Px::whole(20);
        let columns = (page.room().0 / column.0).max(1) as usize;
        let lines = rows.len().div_ceil(columns);
        for (index, row) in &rows {
            let x = MARGIN + Px(column.0 * (index / lines) as i64);
            let y = page.y + Px::whole(17 * (index % lines + 1) as i64);
            page.text(
                x + number,
                y,
                "number small",
                Anchor::End,
                &(index + 1).to_string(),
            );
            page.text(x + indent, y, "muted small", Anchor::Start, row);
        }
        page.space(17 * lines as i64);
    }
}
