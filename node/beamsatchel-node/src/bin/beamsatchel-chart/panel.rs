//! The plot in the picture: its axes, the line, and the gaps in it.

use crate::chart::{Chart, NEVER_WRITTEN};
use crate::page::{Anchor, Page, MARGIN, OWN};
use crate::plot::{Dot, Line, Plot};
use crate::survey::Gap;
use crate::text::{escaped, width, Px};
use crate::ticks::FONT;
use crate::times;
use std::fmt::Write;
use std::ops::Range;

/// A gap that is narrower is not hatched, and has no dots at its ends, which would hide it.
const WIDE: Px = Px::whole(10);
/// Between the plot and the right edge: half a date has room behind the last time.
const BEHIND: Px = Px::whole(44);
/// The least width of a plot.
const LEAST_WIDTH: Px = Px::whole(160);
/// Lines of text in a gap stand so far below each other.
const LINE: i64 = 18;

pub struct Panel<'a> {
    chart: &'a Chart<'a>,
    plot: Plot<'a>,
}

impl<'a> Panel<'a> {
    /// The plot of a picture as wide as it is asked for.
    pub fn new(chart: &'a Chart<'a>) -> Panel<'a> {
        let (samples, survey) = (chart.samples, &chart.survey);
        let height = Px::whole(chart.arguments.height.into());
        let values = Plot::value_axis(samples, survey, chart.arguments.height);
        let labels = values.iter().flat_map(|axis| axis.ticks(height));
        let widest = labels.map(|(_, label)| width(&label, FONT)).max();
        // Half a date has room before the first time.
        let beside = (widest.unwrap_or(Px(0)) + Px::whole(10)).max(Px::whole(28));
        let left = MARGIN + beside;
        let right = Px::whole(chart.arguments.width.into()) - BEHIND;
        let x = left..right.max(left + LEAST_WIDTH);
        let plot = Plot::new(samples, survey, values, x, Px(0)..height);
        Panel { chart, plot }
    }

    /// How wide the picture is: wider than asked for where the values need so much room before the plot.
    pub fn picture_width(&self) -> Px {
        self.plot.x.end + BEHIND
    }

    /// Whether a smooth line, as the old code drew, is in any gap.
    pub fn has_bridge(&self) -> bool {
        let mut gaps = self.chart.survey.gaps.iter();
        gaps.any(|gap| self.plot.bridge(gap).is_some())
    }

    /// Draws the plot with its axes, and tells whether samples were left out.
    pub fn draw(mut self, page: &mut Page) -> bool {
        let Chart {
            samples, survey, ..
        } = self.chart;
        // The marks and numbers of the gaps stand above.
        page.space(if survey.gaps.is_empty() { 12 } else { 32 });
        self.plot.y = page.y..page.y + self.plot.y.end;
        let plot = &self.plot;
        let (left, right, top, bottom) = (plot.x.start, plot.x.end, plot.y.start, plot.y.end);
        for (y, label) in plot.value_ticks() {
            page.path("grid", format_args!("M{left},{y}H{right}"));
            page.text(
                left - Px::whole(8),
                y + Px(450),
                "muted",
                Anchor::End,
                &label,
            );
        }
        let line = plot.line();
        let drawn: usize = line.runs.iter().map(Vec::len).sum();
        if !line.runs.is_empty() {
            let path = path(line.runs.iter());
            page.add(format_args!(
                r#"<path id="bs-line{OWN}" class="line" d="{path}"/>"#
            ));
        }
        let mut last_number = Px(0);
        for (index, gap) in survey.gaps.iter().enumerate() {
            self.gap(gap, page);
            // A number that would stand on the one before is left out: they rise from left to right.
            let number = (index + 1).to_string();
            let (middle, half) = (middle(&plot.band(gap)), Px(width(&number, FONT).0 / 2));
            if middle - half >= last_number {
                let y = top - Px::whole(12);
                page.text(middle, y, "number", Anchor::Middle, &number);
                last_number = middle + half + Px::whole(4);
            }
        }
        self.ends(&line, page);
        page.path("axis", format_args!("M{left},{top}V{bottom}H{right}"));
        if samples.count() == 0 {
            let (x, y) = (middle(&plot.x), middle(&plot.y));
            page.text(x, y, "muted", Anchor::Middle, "no records");
        }
        self.places(page);
        drawn < survey.points
    }

    /// A gap: shaded, with words where there is room, and the dotted line in it.
    fn gap(&self, gap: &Gap, page: &mut Page) {
        let plot = &self.plot;
        let (Range { start, end }, top, bottom) = (plot.band(gap), plot.y.start, plot.y.end);
        let told = escaped(&format!("{NEVER_WRITTEN} {}", self.chart.row(gap)));
        page.add(format_args!("<g><title>{told}</title>"));
        // A mark above the plot, which no line can hide.
        page.rect(
            r#"class="mark""#,
            start,
            top - Px::whole(7),
            end - start,
            Px::whole(5),
        );
        if end - start < WIDE {
            page.rect(r#"class="narrow""#, start, top, end - start, bottom - top);
        } else {
            page.hatched(start, top, end - start, bottom - top);
            page.path(
                "edge",
                format_args!("M{start},{top}V{bottom}M{end},{top}V{bottom}"),
            );
        }
        let bridge = plot.bridge(gap);
        if let Some((from, to)) = bridge {
            page.path(
                "old",
                format_args!("M{},{}L{},{}", from.x, from.y, to.x, to.y),
            );
        }
        self.words(gap, bridge, page);
        page.add(format_args!("</g>"));
    }

    /// The most of what is known of a gap that has room in it: in lines, or else upright.
    fn words(&self, gap: &Gap, bridge: Option<(Dot, Dot)>, page: &mut Page) {
        let plot = &self.plot;
        let band = plot.band(gap);
        let (wide, high) = (band.end - band.start, plot.y.end - plot.y.start);
        let mut choices = Vec::new();
        if let (Some(from), Some(to)) = (gap.from(), gap.to()) {
            let (first, last) = (self.chart.stamp(from), self.chart.stamp(to));
            choices.push(vec![format!("from {first}"), format!("to {last}")]);
            if from <= to {
                choices.push(vec![times::duration(to - from)]);
            }
        }
        choices.push(Vec::new());
        let widest = |lines: &[String]| lines.iter().map(|line| width(line, FONT)).max();
        for mut lines in choices {
            lines.insert(0, NEVER_WRITTEN.to_string());
            let block = Px::whole(LINE * lines.len() as i64);
            let across = widest(&lines).unwrap_or(Px(0));
            if across + Px::whole(12) > wide || Px(3 * block.0) > high {
                continue;
            }
            let x = middle(&band);
            let half = Px(across.0 / 2);
            let below = below_the_line(bridge, x - half..x + half, plot, block);
            let first = if below {
                plot.y.end - block - Px::whole(6)
            } else {
                plot.y.start + Px::whole(8)
            };
            for (line, words) in lines.iter().enumerate() {
                let y = first + Px::whole(LINE * line as i64 + 13);
                page.text(x, y, "halo", Anchor::Middle, words);
            }
            return;
        }
        let length = width(NEVER_WRITTEN, FONT);
        if wide < Px::whole(22) || high < length + Px::whole(16) {
            return;
        }
        let below = below_the_line(bridge, band.clone(), plot, length);
        let (y, anchor) = match below {
            true => (plot.y.end - Px::whole(8), "start"),
            false => (plot.y.start + Px::whole(8), "end"),
        };
        let x = middle(&band) + Px(450);
        page.add(format_args!(
            r#"<text class="halo" text-anchor="{anchor}" transform="translate({x} {y}) rotate(-90)">{NEVER_WRITTEN}</text>"#
        ));
    }

    /// Dots where the line breaks. A run that is too short for a line is drawn above the gaps beside it.
    fn ends(&self, line: &Line, page: &mut Page) {
        let runs = &line.runs;
        let short: Vec<&Vec<Dot>> = runs.iter().filter(|run| is_short(run)).collect();
        if !short.is_empty() {
            page.path("line thin", format_args!("{}", path(short.into_iter())));
        }
        let mut dots = Vec::new();
        if let [run] = &runs[..] {
            dots.extend(run.first().filter(|_| run.len() == 1));
        }
        for gap in &self.chart.survey.gaps {
            let band = self.plot.band(gap);
            if band.end - band.start >= WIDE {
                let beside = [gap.before, gap.after].into_iter().flatten();
                dots.extend(beside.map(|point| self.plot.dot(point)));
            }
        }
        for after in &line.breaks {
            if let (Some(from), Some(to)) = (runs[after - 1].last(), runs[*after].first()) {
                if to.x - from.x >= WIDE {
                    dots.extend([from, to]);
                }
            }
        }
        // A sample between two breaks ends the line on either side.
        dots.sort_by_key(|dot| (dot.x, dot.y));
        dots.dedup_by_key(|dot| (dot.x, dot.y));
        for Dot { x, y, .. } in dots {
            page.add(format_args!(
                r#"<circle class="dot" cx="{x}" cy="{y}" r="3.5"/>"#
            ));
        }
    }

    /// The axis below the plot.
    fn places(&self, page: &mut Page) {
        let (samples, plot) = (self.chart.samples, &self.plot);
        let bottom = plot.y.end;
        page.y = bottom;
        let ticks = plot.place_ticks(|record| match samples.time(record) {
            Some(time) => self.chart.stamp(time),
            None => "no time".to_string(),
        });
        for tick in &ticks {
            let x = plot.x_of(tick.at);
            page.path("axis", format_args!("M{x},{bottom}v5"));
            for (below, words) in [(20, &tick.label), (37, &tick.below)] {
                // Inside the picture also at its edges.
                let half = Px(width(words, FONT).0 / 2) + Px::whole(4);
                let x = x.min(page.width - half).max(half);
                if !words.is_empty() {
                    page.text(x, bottom + Px::whole(below), "muted", Anchor::Middle, words);
                }
            }
        }
        if ticks.is_empty() {
            return;
        }
        let two_lines = ticks.iter().any(|tick| !tick.below.is_empty());
        page.space(if two_lines { 57 } else { 40 });
        let caption = match (
            self.chart.survey.goes_back,
            samples.format().clock.is_dated(),
        ) {
            (Some(_), _) => "number of the record, and its time",
            (None, true) => "time, UTC",
            (None, false) => "time since the first record",
        };
        page.text(middle(&plot.x), page.y, "muted", Anchor::Middle, caption);
    }
}

/// Whether words of this height have more room below the dotted line than above it.
fn below_the_line(bridge: Option<(Dot, Dot)>, x: Range<Px>, plot: &Plot<'_>, high: Px) -> bool {
    let Some((from, to)) = bridge else {
        return false;
    };
    let y_at = |x: Px| {
        let (run, rise) = ((to.x - from.x).0.max(1), (to.y - from.y).0);
        from.y + Px(rise * (x - from.x).0 / run)
    };
    let (left, right) = (y_at(x.start), y_at(x.end));
    let above = left.min(right) - (plot.y.start + high);
    let below = (plot.y.end - high) - left.max(right);
    below > above
}

/// Whether a run is hardly wider than its line.
fn is_short(run: &[Dot]) -> bool {
    match run {
        [first, .., last] => last.x - first.x < Px::whole(3),
        _ => true,
    }
}

fn middle(range: &Range<Px>) -> Px {
    Px((range.start + range.end).0 / 2)
}

/// A path with a part for each run.
fn path<'a>(runs: impl Iterator<Item = &'a Vec<Dot>>) -> String {
    let mut path = String::new();
    for run in runs {
        for (index, dot) in run.iter().enumerate() {
            let before = match index {
                0 if path.is_empty() => "M",
                0 => "\nM",
                _ => " ",
            };
            write!(path, "{before}{},{}", dot.x, dot.y).expect("a string takes all");
        }
        if run.len() == 1 {
            path += "h0";
        }
    }
    path
}
