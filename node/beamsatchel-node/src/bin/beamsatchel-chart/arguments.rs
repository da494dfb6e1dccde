//! The command line.

use crate::format::{Clock, Field, Format, Scale};
use crate::times;
use beamsatchel_node::layout::MAX_LENGTH;
use std::ffi::OsString;
use std::ops::RangeInclusive;
use std::path::PathBuf;

pub const USAGE: &str = "usage: beamsatchel-chart OPTIONS [--] CONTAINER LIST
       beamsatchel-chart --help
Draws the samples in a slot as SVG, with a line that breaks where nobody wrote.
CONTAINER and LIST are the files of the slot and of the never-written list
beside it. The data is records of one length, one behind the other.

  --record BYTES   the length of a record
  --value AT:TYPE  the field that is drawn: its first byte in the record, and its
                   type: u8 u16 u32 u64, or with a sign i8 i16 i32 i64; they are
                   big-endian, and little-endian with le behind, as in u16le
  --scale FACTOR   what the field is multiplied by, such as 10, -0.1 or 1/3: it is
                   other than 0, may be negative, and has at most six digits in
                   all, not counting leading zeros before the point and trailing
                   zeros behind it, or six on either side of the /; 1 where it is
                   not given
  --unit TEXT      the unit, as in km/h
  --title TEXT     the title

When each record was taken, in whole seconds, by one of the two:
  --time AT:TYPE   a field of the record: seconds since 1970-01-01T00:00:00Z
  --step SECONDS   the time from one record to the next; the first was taken at
  --start TIME     2026-03-02T06:00:00Z, or seconds since 1970; where it is not
                   given, times count from the first record

  --break SECONDS  break the line also where the times of neighbouring samples are
                   more than so many seconds apart and fall into different
                   columns of pixels; only with --time

  --width PIXELS   of the picture, 320 to 4096; 800 where it is not given
  --height PIXELS  of the plot in it, 120 to 2160; 300 where it is not given
  --out FILE       write to FILE, which is replaced when all is written; to
                   standard output where it is - or not given
  --help, -h       show this, wherever it stands before --

A record of which a byte of the value or of the time was never written has no
point. Runs of such records are shaded and dated, and the dotted line in them is
smooth, as the old code drew: straight from sample to sample, since what was cut
away is not in the slot. Only a gap in the data breaks the line; where a sample
was appended after a silence, the line goes straight to it, unless --break is
given. Bytes behind the last whole record are left out. Where a time is before an
earlier one, records stand in their order, at equal distances.
The exit code is 0 when the chart is drawn, 1 when container or list is refused,
2 when a file cannot be read, the chart cannot be written, or the command line is
wrong.
";

const WIDTHS: RangeInclusive<u32> = 320..=4096;
const HEIGHTS: RangeInclusive<u32> = 120..=2160;
/// Times stay numbers of a size that a calendar can be asked about.
const MOST_STEP: u64 = 1_000_000_000;

pub struct Arguments {
    pub format: Format,
    pub unit: String,
    pub title: String,
    pub width: u32,
    pub height: u32,
    pub out: Option<PathBuf>,
    pub container: PathBuf,
    pub list: PathBuf,
}

/// The options as they are given, each at most once.
#[derive(Default)]
struct Given {
    record: Option<OsString>,
    value: Option<OsString>,
    scale: Option<OsString>,
    unit: Option<OsString>,
    title: Option<OsString>,
    time: Option<OsString>,
    step: Option<OsString>,
    start: Option<OsString>,
    most_apart: Option<OsString>,
    width: Option<OsString>,
    height: Option<OsString>,
    out: Option<OsString>,
    files: Vec<PathBuf>,
}

impl Given {
    fn option(&mut self, name: &[u8]) -> Option<&mut Option<OsString>> {
        Some(match name {
            b"--record" => &mut self.record,
            b"--value" => &mut self.value,
            b"--scale" => &mut self.scale,
            b"--unit" => &mut self.unit,
            b"--title" => &mut self.title,
            b"--time" => &mut self.time,
            b"--step" => &mut self.step,
            b"--start" => &mut self.start,
            b"--break" => &mut self.most_apart,
            b"--width" => &mut self.width,
            b"--height" => &mut self.height,
            b"--out" => &mut self.out,
            _ => return None,
        })
    }

    fn collect(mut arguments: impl Iterator<Item = OsString>) -> Result<Given, String> {
        let mut given = Given::default();
        let mut only_files = false;
        while let Some(argument) = arguments.next() {
            let name = argument.as_encoded_bytes();
            if only_files || !name.starts_with(b"-") {
                given.files.push(argument.into());
            } else if name == b"--" {
                only_files = true;
            } else {
                let place = given.option(name);
                let place = place.ok_or_else(|| format!("there is no option {argument:?}"))?;
                let value = arguments.next();
                let name = argument.to_string_lossy();
                let value = value.ok_or_else(|| format!("{name} needs a value"))?;
                if place.replace(value).is_some() {
                    return Err(format!("{name} is given twice"));
                }
            }
        }
        Ok(given)
    }
}

impl Arguments {
    /// What is asked for, or what is wrong with the command line.
    pub fn parse(arguments: impl Iterator<Item = OsString>) -> Result<Arguments, String> {
        let given = Given::collect(arguments)?;
        let Ok([container, list]) = <[PathBuf; 2]>::try_from(given.files) else {
            return Err("two files are asked for, CONTAINER and LIST".to_string());
        };
        let record = text("--record", given.record)?.ok_or("--record is missing")?;
        let record = number("--record", &record, 1..=MAX_LENGTH as u64)? as usize;
        let value = field("--value", given.value, record)?.ok_or("--value is missing")?;
        let scale = match text("--scale", given.scale)? {
            Some(factor) => Scale::parse(&factor).ok_or_else(|| {
                format!(
                    "--scale {factor:?}: a factor is other than 0, may be negative, and has at most six digits in \
                     all, not counting leading zeros before the point and trailing zeros behind it, or six on either \
                     side of the /"
                )
            })?,
            None => Scale::ONE,
        };
        let time = field("--time", given.time, record)?;
        let (step, start) = (text("--step", given.step)?, text("--start", given.start)?);
        let most_apart = text("--break", given.most_apart)?;
        let clock = match (time, step) {
            (Some(field), None) if start.is_none() => Clock::Field(field),
            (Some(_), _) => return Err("--time is given beside --step or --start".to_string()),
            (None, None) => return Err("--time or --step is missing".to_string()),
            (None, Some(_)) if most_apart.is_some() => {
                return Err("--break is given beside --step".to_string());
            }
            (None, Some(step)) => Clock::Steps {
                step: number("--step", &step, 1..=MOST_STEP)?,
                start: match start {
                    Some(start) => Some(times::parse(&start).ok_or_else(|| {
                        format!(
                            "--start {start:?} is neither a time such as 2026-03-02T06:00:00Z nor seconds of at most \
                             18 digits"
                        )
                    })?),
                    None => None,
                },
            },
        };
        Ok(Arguments {
            format: Format {
                record,
                value,
                scale,
                clock,
                most_apart: match most_apart {
                    Some(seconds) => Some(number("--break", &seconds, 1..=MOST_STEP)?),
                    None => None,
                },
            },
            unit: text("--unit", given.unit)?.unwrap_or_default(),
            title: text("--title", given.title)?.unwrap_or("Samples in a slot".to_string()),
            width: pixels("--width", given.width, WIDTHS)?.unwrap_or(800),
            height: pixels("--height", given.height, HEIGHTS)?.unwrap_or(300),
            out: given.out.filter(|out| out != "-").map(PathBuf::from),
            container,
            list,
        })
    }
}

fn text(name: &str, value: Option<OsString>) -> Result<Option<String>, String> {
    let value = value.map(OsString::into_string).transpose();
    value.map_err(|value| format!("{name} {value:?} is not UTF-8"))
}

/// A field that lies inside the record.
fn field(name: &str, value: Option<OsString>, record: usize) -> Result<Option<Field>, String> {
    let Some(value) = text(name, value)? else {
        return Ok(None);
    };
    let field = Field::parse(&value)
        .ok_or_else(|| format!("{name} {value:?} is no field such as 4:u16, 0:i32 or 2:u16le"))?;
    match field.at.checked_add(field.width) {
        Some(end) if end <= record => Ok(Some(field)),
        _ => Err(format!(
            "{name} {value:?} reaches outside the record of {record} bytes"
        )),
    }
}

fn pixels(
    name: &str,
    value: Option<OsString>,
    allowed: RangeInclusive<u32>,
) -> Result<Option<u32>, String> {
    let (least, most) = (*allowed.start(), *allowed.end());
    let Some(value) = text(name, value)? else {
        return Ok(None);
    };
    let pixels = number(name, &value, least.into()..=most.into())?;
    Ok(Some(pixels as u32))
}

fn number(name: &str, value: &str, allowed: RangeInclusive<u64>) -> Result<u64, String> {
    let (least, most) = (*allowed.start(), *allowed.end());
    whole(value, allowed)
        .ok_or_else(|| format!("{name} {value:?} is no number from {least} to {most}"))
}

/// A number in digits alone. One that is too large for 64 bits counts as the largest.
pub fn whole(text: &str, allowed: RangeInclusive<u64>) -> Option<u64> {
    let digits = !text.is_empty() && text.bytes().all(|byte| byte.is_ascii_digit());
    let number = digits.then(|| text.parse().unwrap_or(u64::MAX))?;
    allowed.contains(&number).then_some(number)
}
