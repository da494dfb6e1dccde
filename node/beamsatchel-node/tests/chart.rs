//! What the chart command draws, the shipped example first, and how it ends.

#![allow(clippy::single_range_in_vec_init)] // A stretch is a range.

mod common;

use beamsatchel_node::{ListedContainer, NodeId, TestAndWrite, WriteEnabler};
use common::{fresh, with_data};
use std::ffi::OsStr;
use std::fs::{self, File, Permissions};
use std::io::Write;
use std::ops::Range;
use std::os::unix::ffi::OsStrExt;
use std::os::unix::fs::{MetadataExt, PermissionsExt};
use std::path::{Path, PathBuf};
use std::process::{ChildStdin, Command, Output, Stdio};
use std::time::{Duration, Instant};

/// Writes the shipped example anew where it is set.
const BLESS: &str = "BEAMSATCHEL_BLESS";

fn command() -> Command {
    Command::new(env!("CARGO_BIN_EXE_beamsatchel-chart"))
}

/// Standard output, standard error and exit code. A panic would have another code, and would be told.
fn ends(output: Output) -> (String, String, i32) {
    let stdout = String::from_utf8(output.stdout).unwrap();
    let stderr = String::from_utf8(output.stderr).unwrap();
    assert!(!stderr.contains("panicked"), "{stderr}");
    let code = output.status.code().expect("not ended by a signal");
    (stdout, stderr, code)
}

/// Where a test may leave a file with this name; each test has its own folder, since they run at the same time.
fn place(test: &str, name: &str) -> PathBuf {
    let folder = Path::new(env!("CARGO_TARGET_TMPDIR"))
        .join("chart")
        .join(test);
    fs::create_dir_all(&folder).unwrap();
    folder.join(name)
}

fn file(test: &str, name: &str, bytes: &[u8]) -> PathBuf {
    let path = place(test, name);
    fs::write(&path, bytes).unwrap();
    path
}

/// A list that names these stretches.
fn list(stretches: &[Range<usize>]) -> Vec<u8> {
    let mut list = (stretches.len() as u32).to_be_bytes().to_vec();
    for stretch in stretches {
        list.extend((stretch.start as u32).to_be_bytes());
        list.extend((stretch.len() as u32).to_be_bytes());
    }
    list.resize(2_052, 0);
    list
}

/// Files of a slot with this data, in which these stretches are made zeros, and of its list.
fn files(test: &str, data: &[u8], stretches: &[Range<usize>]) -> [PathBuf; 2] {
    let mut data = data.to_vec();
    for stretch in stretches {
        data[stretch.clone()].fill(0);
    }
    let container = with_data(data.len() + 472, &data);
    [
        file(test, "slot", &container),
        file(test, "list", &list(stretches)),
    ]
}

/// Draws a slot, and gives the picture and what standard error says.
fn draw_and_hear(
    test: &str,
    options: &[&str],
    data: &[u8],
    stretches: &[Range<usize>],
) -> (String, String) {
    let files = files(test, data, stretches);
    let output = command().args(options).args(files).output().unwrap();
    let (svg, stderr, code) = ends(output);
    assert_eq!(code, 0, "{stderr}");
    check_picture(&svg);
    (svg, stderr)
}

/// Draws a slot, of which there is nothing to tell.
fn draw(test: &str, options: &[&str], data: &[u8], stretches: &[Range<usize>]) -> String {
    let (svg, stderr) = draw_and_hear(test, options, data, stretches);
    assert_eq!(stderr, "");
    svg
}

/// A record of most tests: a time in 4 bytes, a value in 2 and 2 bytes more.
fn record(time: u32, value: i16) -> [u8; 8] {
    let mut record = [0xAB; 8];
    record[..4].copy_from_slice(&time.to_be_bytes());
    record[4..6].copy_from_slice(&value.to_be_bytes());
    record
}

/// The options for it.
const OPTIONS: [&str; 6] = ["--record", "8", "--time", "0:u32", "--value", "4:i16"];

/// So many records, each a minute after the one before.
fn records(count: u32) -> Vec<u8> {
    let records = (0..count).map(|at| record(FIRST_SAMPLE + 60 * at, (at % 50) as i16));
    records.collect::<Vec<_>>().concat()
}

/// The bytes of the records with these numbers.
fn bytes_of(records: Range<usize>) -> Range<usize> {
    8 * records.start..8 * records.end
}

/// What stands between two texts, each time.
fn between<'a>(svg: &'a str, before: &str, behind: &str) -> Vec<&'a str> {
    let parts = svg.split(before).skip(1);
    parts
        .map(|part| part.split(behind).next().unwrap())
        .collect()
}

/// The runs of the line, each with the places of its samples in pixels.
fn line(svg: &str) -> Vec<Vec<(f64, f64)>> {
    let begin = format!(r#"<path id="{}" class="line" d=""#, id(svg, "line"));
    let paths = between(svg, &begin, "\"");
    assert!(paths.len() <= 1);
    let runs = paths.iter().flat_map(|path| path.split('M').skip(1));
    let runs = runs.map(|run| {
        let places = run.trim_end().trim_end_matches("h0").split(' ');
        places
            .map(|place| {
                let (x, y) = place.split_once(',').unwrap();
                (x.parse().unwrap(), y.parse().unwrap())
            })
            .collect()
    });
    runs.collect()
}

/// How many gaps are shaded.
fn gaps(svg: &str) -> usize {
    svg.matches(r#"<rect class="mark""#).count()
}

/// An id, which has the picture's own number behind it.
fn id(svg: &str, name: &str) -> String {
    let own = between(svg, r#" aria-labelledby="bs-title"#, " ")[0];
    format!("bs-{name}{own}")
}

fn name(svg: &str) -> &str {
    let begin = format!(r#"<title id="{}">"#, id(svg, "title"));
    between(svg, &begin, "</title>")[0]
}

fn description(svg: &str) -> &str {
    let begin = format!(r#"<desc id="{}">"#, id(svg, "desc"));
    between(svg, &begin, "</desc>")[0]
}

/// The labels of the values, from below.
fn value_labels(svg: &str) -> Vec<&str> {
    let texts = between(svg, r#"<text class="muted""#, "</text>");
    let labels = texts
        .into_iter()
        .filter(|text| text.contains(r#"text-anchor="end""#));
    labels.map(|text| text.split_once('>').unwrap().1).collect()
}

/// A picture is well-formed XML, has its name and itself in words, and draws nothing outside itself.
fn check_picture(svg: &str) {
    check_xml(svg);
    let head = svg.lines().next().unwrap();
    let labels = format!("{} {}", id(svg, "title"), id(svg, "desc"));
    let labels = format!(r#" role="img" aria-labelledby="{labels}""#);
    assert!(head.starts_with("<svg ") && head.contains(&labels));
    assert!(!name(svg).is_empty() && !description(svg).is_empty());
    // Every id has the number, and what is hatched is hatched by the picture's own pattern.
    for named in between(svg, " id=\"bs-", "\"") {
        let (name, own) = named.split_once('-').unwrap();
        assert!(own.len() == 8 && id(svg, name) == format!("bs-{named}"));
    }
    for hatch in between(svg, "url(#", ")") {
        assert_eq!(hatch, id(svg, "hatch"));
    }
    let size = |name: &str| -> f64 { between(head, name, "\"")[0].parse().unwrap() };
    let (width, height) = (size(r#" width=""#), size(r#" height=""#));
    for run in line(svg) {
        assert!(run.is_sorted_by_key(|(x, _)| *x), "{run:?}");
        for (x, y) in run {
            assert!(
                (0.0..=width).contains(&x) && (0.0..=height).contains(&y),
                "{x} {y}"
            );
        }
    }
    // What stands below the plot has room on both sides; a letter is about half as wide as it is high.
    for text in between(svg, r#"<text class="muted" x=""#, "</text>") {
        if let Some((place, label)) = text.split_once(r#" text-anchor="middle">"#) {
            let x: f64 = place.split('"').next().unwrap().parse().unwrap();
            let half = 13.0 / 4.0 * label.chars().count() as f64;
            assert!(x >= half && x + half <= width, "{text}");
        }
    }
    for text in between(svg, "<text ", ">") {
        for (name, most) in [(r#" x=""#, width), (r#" y=""#, height)] {
            for place in between(text, name, "\"") {
                let place: f64 = place.parse().unwrap();
                assert!((0.0..=most).contains(&place), "{text}");
            }
        }
    }
    // Shaded inside the picture, and never empty.
    for rect in between(svg, "<rect ", "/>") {
        let number = |name: &str| -> f64 {
            between(rect, name, "\"")
                .first()
                .map_or(0.0, |number| number.parse().unwrap())
        };
        let (x, wide) = (number(r#" x=""#), number(r#" width=""#));
        assert!(x >= 0.0 && wide >= 2.0 && x + wide <= width, "{rect}");
    }
}

/// A small check of XML without declarations and comments: tags in order, attributes once and quoted, text escaped.
fn check_xml(xml: &str) {
    let mut open: Vec<&str> = Vec::new();
    let mut left = xml;
    let check_text = |text: &str| {
        assert!(!text.contains('>'), "{text}");
        let controls = |character: char| character.is_control() && character != '\n';
        assert!(!text.contains(controls), "{text:?}");
        for part in text.split('&').skip(1) {
            let entities = ["amp;", "lt;", "gt;", "quot;", "#39;"];
            assert!(
                entities.iter().any(|entity| part.starts_with(entity)),
                "{part}"
            );
        }
    };
    while let Some((text, rest)) = left.split_once('<') {
        check_text(text);
        assert!(!open.is_empty() || text.is_empty());
        let (tag, rest) = rest.split_once('>').expect("a tag that ends");
        left = rest;
        if let Some(name) = tag.strip_prefix('/') {
            assert_eq!(open.pop(), Some(name));
            continue;
        }
        let (tag, closed) = match tag.strip_suffix('/') {
            Some(tag) => (tag, true),
            None => (tag, false),
        };
        let (name, mut attributes) = tag.split_once(' ').unwrap_or((tag, ""));
        assert!(name.bytes().all(|byte| byte.is_ascii_lowercase()), "{name}");
        let mut names = Vec::new();
        while let Some((name, rest)) = attributes.split_once("=\"") {
            let (value, rest) = rest.split_once('"').expect("a value that ends");
            check_text(value);
            assert!(!names.contains(&name.trim()), "{tag}");
            names.push(name.trim());
            attributes = rest;
        }
        assert_eq!(attributes.trim(), "", "{tag}");
        if !closed {
            open.push(name);
        }
        assert!(!open.is_empty() || left.trim().is_empty());
    }
    assert_eq!((left, open.len()), ("\n", 0));
}

/// The folder of the shipped example.
fn gallery() -> PathBuf {
    Path::new(env!("CARGO_MANIFEST_DIR")).join("../../docs/gallery")
}

/// 2026-03-02T05:30:00Z.
const FIRST_SAMPLE: u32 = 1_772_429_400;

/// The sample of a minute: the time, the cabin's temperature in tenths of a degree, and the speed in tenths of km/h.
fn sample(minute: u32) -> [u8; 8] {
    // Up and down by a little, and the same each time.
    let wave = |period: u32, height: i32| {
        let at = (minute % period) as i32;
        let half = period as i32 / 2;
        height * (half - (at - half).abs()) / half
    };
    let unrest = (minute * 7919 % 31) as i32 / 10;
    let temperature = match minute {
        0..46 => 211 + wave(24, 6) + unrest,
        // What is cut away: a slope from the sample before it, 21.3, to the one behind it, 9.6.
        46..75 => 213 - 117 * (minute as i32 - 45) / 30,
        75..88 => 94 - (minute as i32 - 75) + unrest,
        _ => 82 + 3 * (minute as i32 - 88) + unrest,
    };
    let speed = 300 + wave(13, 240) + wave(5, 90);
    let mut record = [0; 8];
    record[..4].copy_from_slice(&(FIRST_SAMPLE + 60 * minute).to_be_bytes());
    record[4..6].copy_from_slice(&(temperature as i16).to_be_bytes());
    record[6..].copy_from_slice(&(speed as u16).to_be_bytes());
    record
}

/// The incident in a slot: samples, a cut, and later a write at its own place behind the gap.
fn incident() -> (Vec<u8>, Vec<u8>) {
    let enabler = WriteEnabler::new([0xEE; 32]);
    let node = NodeId([7; 20]);
    let slot = ListedContainer::create(vec![0; 1_600], vec![0; 2_052], node, enabler);
    let mut slot = slot.unwrap();
    let mut send = |request: TestAndWrite| {
        assert!(slot.test_and_write(&request, &mut []).unwrap().is_done());
    };
    let request = || TestAndWrite::new(enabler);
    for minute in 0..80 {
        send(request().append(&sample(minute)).unwrap());
    }
    send(request().cut(8 * 46));
    send(request().write(8 * 75, &sample(75)).unwrap());
    for minute in 76..120 {
        send(request().append(&sample(minute)).unwrap());
    }
    assert_eq!(
        slot.stretches().unwrap().iter().collect::<Vec<_>>(),
        [8 * 46..8 * 75]
    );
    slot.into_parts()
}

/// The shipped container, list and picture are what API and command make.
#[test]
fn the_shipped_example() {
    let (container, list) = incident();
    let files =
        ["incident.container", "incident.list", "incident.svg"].map(|name| gallery().join(name));
    let bless = std::env::var_os(BLESS).is_some();
    if bless {
        fs::write(&files[0], &container).unwrap();
        fs::write(&files[1], &list).unwrap();
    }
    assert!(
        fs::read(&files[0]).unwrap() == container,
        "another container"
    );
    assert!(fs::read(&files[1]).unwrap() == list, "another list");
    let output = command()
        .args([
            "--record", "8", "--time", "0:u32", "--value", "4:i16", "--scale", "0.1", "--unit",
            "°C",
        ])
        .args(["--title", "Ambulance 7: cabin temperature"])
        .args(&files[..2])
        .output();
    let (svg, stderr, code) = ends(output.unwrap());
    assert_eq!((&stderr[..], code), ("", 0));
    if bless {
        fs::write(&files[2], &svg).unwrap();
    }
    assert!(
        fs::read_to_string(&files[2]).unwrap() == svg,
        "another picture"
    );
}

/// In the example the dotted line is what the old code showed: the samples that were cut away lie on it.
#[test]
fn the_dotted_line_of_the_example() {
    let temperature = |minute| {
        let sample = sample(minute);
        i32::from(i16::from_be_bytes([sample[4], sample[5]]))
    };
    let (before, behind) = (temperature(45), temperature(75));
    for minute in 45..=75 {
        let on_the_line = 30 * before + (behind - before) * (minute as i32 - 45);
        assert!((30 * temperature(minute) - on_the_line).abs() < 30);
    }
}

/// The line breaks once, and what is told of the gap is told everywhere.
#[test]
fn the_gap_of_the_example() {
    let svg = fs::read_to_string(gallery().join("incident.svg")).unwrap();
    check_picture(&svg);
    let runs: Vec<usize> = line(&svg).iter().map(Vec::len).collect();
    assert_eq!((runs, gaps(&svg)), (vec![46, 45], 1));
    let gap = "from 2026-03-02T06:15:00Z to 2026-03-02T06:45:00Z, 30 min, records 46 to 74";
    assert_eq!(svg.matches(gap).count(), 3);
    assert!(svg.contains("<title>never written from"));
    let words = "A chart of samples: 2026-03-02T05:30:00Z to 2026-03-02T07:29:00Z, 120 records of 8 bytes, \
                 29 of them never written. The values reach from 8.2 to 21.9 °C. The line breaks where nobody wrote: ";
    let smooth = "The dotted line there is smooth, as the old code drew.";
    assert_eq!(description(&svg), format!("{words}{gap}. {smooth}"));
    // The dotted line goes from the last sample before the gap to the first behind it.
    let line = line(&svg);
    let ((from_x, from_y), (to_x, to_y)) = (line[0][45], line[1][0]);
    let dotted = format!(r#"<path class="old" d="M{from_x},{from_y}L{to_x},{to_y}"/>"#);
    assert_eq!(svg.matches(&dotted).count(), 1);
    for words in [
        "samples as written",
        "never written",
        "smooth, as the old code drew",
    ] {
        assert!(svg.contains(&format!(">{words}</text>")), "{words}");
    }
    assert_eq!(value_labels(&svg), ["5", "10", "15", "20", "25"]);
    for time in ["05:30", "05:45", "06:00", "07:15", "2026-03-02"] {
        assert!(svg.contains(&format!(">{time}</text>")), "{time}");
    }
}

/// Only what is drawn of a record has to be written.
#[test]
fn a_record_is_missing_by_its_own_bytes() {
    let data = records(9);
    let runs = |stretches: &[Range<usize>]| {
        let svg = draw("bytes", &OPTIONS, &data, stretches);
        let runs: Vec<usize> = line(&svg).iter().map(Vec::len).collect();
        assert_eq!(gaps(&svg), runs.len() - 1);
        runs
    };
    assert_eq!(runs(&[]), [9]);
    // Record 4 begins at byte 32. Each byte of its time and its value, and no other.
    for byte in 32..38 {
        assert_eq!(runs(&[byte..byte + 1]), [4, 4], "{byte}");
    }
    assert_eq!(runs(&[30..32]), [9]);
    assert_eq!(runs(&[38..40]), [9]);
    assert_eq!(runs(&[22..24, 38..40, 70..72]), [9]);
    // Several stretches in one record are one gap, and one stretch over two records too.
    assert_eq!(runs(&[32..33, 34..35, 36..37, 39..40]), [4, 4]);
    assert_eq!(runs(&[37..41]), [4, 3]);
    assert_eq!(runs(&[38..41]), [5, 3]);
    assert_eq!(runs(&[33..34, 41..42, 56..57]), [4, 1, 1]);
    // Where the times are counted, the bytes right before the value do not count either.
    let steps = ["--record", "8", "--step", "60", "--value", "4:i16"];
    for (stretch, missing) in [(32..36, 0), (32..37, 1), (37..40, 1), (38..40, 0)] {
        assert_eq!(gaps(&draw("bytes", &steps, &data, &[stretch])), missing);
    }
}

/// Zeros that somebody wrote are samples.
#[test]
fn written_zeros_are_drawn() {
    let data = [record(0, 0), record(60, 0), record(120, 5)].concat();
    let svg = draw("zeros", &OPTIONS, &data, &[]);
    assert_eq!((line(&svg)[0].len(), gaps(&svg)), (3, 0));
    assert!(!svg.contains("never written") && !svg.contains("the old code"));
}

/// As many runs as there are, each gap shaded and dated, however many.
#[test]
fn many_gaps() {
    // Of eight records the fourth to sixth.
    let stretches: Vec<_> = (0..256)
        .map(|at| bytes_of(8 * at + 3..8 * at + 6))
        .collect();
    let svg = draw("many", &OPTIONS, &records(2_048), &stretches);
    assert_eq!((line(&svg).len(), gaps(&svg)), (257, 256));
    for number in 1..=256 {
        let row = format!(r#" text-anchor="end">{number}</text>"#);
        let svg = svg.split("Never written:").last().unwrap();
        assert_eq!(svg.matches(&row).count(), 1, "{number}");
    }
    let dated = between(&svg, r#"<text class="muted small""#, "</text>");
    assert_eq!(dated.len(), 256);
    assert!(dated[0].ends_with(">2026-03-02T05:32:00Z to 05:36:00Z"));
    assert!(dated[255].ends_with(">2026-03-03T15:32:00Z to 15:36:00Z"));
    // Over midnight both days stand there.
    assert!(dated[138].ends_with(">2026-03-02T23:56:00Z to 2026-03-03T00:00:00Z"));
    // Numbers above the plot rise, and stand clear of each other.
    let numbers = between(&svg, r#"<text class="number" x=""#, "</text>");
    let numbers = numbers.iter().filter(|text| text.contains("middle"));
    let mut last = (0, 0.0);
    for text in numbers {
        let x: f64 = text.split('"').next().unwrap().parse().unwrap();
        let number: i32 = text.split_once('>').unwrap().1.parse().unwrap();
        let half = 4.16 * number.to_string().len() as f64;
        assert!(number > last.0 && x - half > last.1, "{text}");
        last = (number, x + half);
    }
    assert!(last.0 > 240);
    // Times that count from the first record have no day.
    let steps = ["--record", "8", "--step", "60", "--value", "4:i16"];
    let svg = draw("many", &steps, &records(2_048), &stretches);
    let counted = between(&svg, r#"<text class="muted small""#, "</text>");
    assert!(counted[0].ends_with(">T+00:02:00 to T+00:06:00"));
}

/// Up to sixteen gaps have a row each, with all that is known of them; from seventeen on the times alone.
#[test]
fn rows_of_the_table() {
    for (count, short) in [(16, 0), (17, 17)] {
        let stretches: Vec<_> = (0..count)
            .map(|at| bytes_of(4 * at + 1..4 * at + 2))
            .collect();
        let svg = draw("rows", &OPTIONS, &records(80), &stretches);
        let short_rows = svg.matches(r#"<text class="muted small""#).count();
        assert_eq!((gaps(&svg), short_rows), (count, short));
        let table = svg.split("Never written:").last().unwrap();
        let long_rows = table.matches(", record ").count();
        assert_eq!(long_rows, count - short);
        // They are counted from one.
        let numbers = between(table, r#" text-anchor="end">"#, "<");
        let expected: Vec<_> = (1..=count).map(|number| number.to_string()).collect();
        assert_eq!(numbers, expected);
    }
}

/// Where the ends of the data were never written, the time there is not known, unless it is counted.
#[test]
fn gaps_at_the_ends() {
    let (data, stretches) = (records(30), [bytes_of(0..5), bytes_of(20..30)]);
    let svg = draw("ends", &OPTIONS, &data, &stretches);
    assert_eq!((line(&svg).len(), gaps(&svg)), (1, 2));
    // They are seen all the same, beside the samples.
    for mark in between(&svg, r#"<rect class="mark""#, "/>") {
        assert!(mark.contains(r#" width="34""#), "{mark}");
    }
    assert!(
        svg.contains(">up to 2026-03-02T05:35:00Z, records 0 to 4<"),
        "{svg}"
    );
    assert!(svg.contains(">from 2026-03-02T05:49:00Z on, records 20 to 29<"));
    // Nothing stands on both sides that a line could go between.
    assert!(!svg.contains("the old code"));

    let steps = ["--record", "8", "--step", "60", "--value", "4:i16"];
    let dated = [&steps[..], &["--start", "2026-03-02T05:30:00Z"]].concat();
    let svg = draw("ends", &dated, &data, &stretches);
    assert!(
        svg.contains(">from 2026-03-02T05:30:00Z to 2026-03-02T05:35:00Z, 5 min, records 0 to 4<")
    );
    assert!(svg
        .contains(">from 2026-03-02T05:49:00Z to 2026-03-02T05:59:00Z, 10 min, records 20 to 29<"));
    let svg = draw("ends", &steps, &data, &stretches);
    assert!(svg.contains(">from T+00:00:00 to T+00:05:00, 5 min, records 0 to 4<"));
    assert!(svg.contains(">time since the first record<"));

    // The time of a record without a value is known too.
    let stretches = [4..6, 236..238];
    let svg = draw("ends", &OPTIONS, &data, &stretches);
    assert!(svg.contains(">from 2026-03-02T05:30:00Z to 2026-03-02T05:31:00Z, 1 min, record 0<"));
    assert!(svg.contains(">from 2026-03-02T05:58:00Z to 2026-03-02T05:59:00Z, 1 min, record 29<"));
}

#[test]
fn nothing_written() {
    let data = records(30);
    let svg = draw("nothing", &OPTIONS, &data, &[0..240]);
    assert_eq!((line(&svg).len(), gaps(&svg)), (0, 1));
    assert!(svg.contains(">at no known time, records 0 to 29<"));
    assert!(value_labels(&svg).is_empty() && !svg.contains("samples as written"));
    let steps = [
        "--record", "8", "--step", "60", "--start", "0", "--value", "4:i16",
    ];
    let svg = draw("nothing", &steps, &data, &[0..240]);
    assert!(svg
        .contains(">from 1970-01-01T00:00:00Z to 1970-01-01T00:29:00Z, 29 min, records 0 to 29<"));
    let svg = draw("nothing", &steps, &data[..8], &[0..8]);
    assert!(svg.contains(">from 1970-01-01T00:00:00Z to 1970-01-01T00:00:00Z, 0 s, record 0<"));
}

#[test]
fn few_records() {
    let svg = draw("few", &OPTIONS, &[], &[]);
    assert!(svg.contains(">no records<") && line(&svg).is_empty());
    assert_eq!(
        description(&svg),
        "A chart of samples: 0 records of 8 bytes."
    );
    let svg = draw("few", &OPTIONS, &record(FIRST_SAMPLE, -7), &[]);
    assert_eq!(line(&svg), [line(&svg)[0].clone()]);
    assert_eq!(
        (line(&svg)[0].len(), svg.matches("<circle").count()),
        (1, 1)
    );
    assert_eq!(
        description(&svg),
        "A chart of samples: 2026-03-02T05:30:00Z, 1 record of 8 bytes. The values reach from \u{2212}7 to \u{2212}7."
    );
    assert!(svg.contains(">05:30:00<") && svg.contains(">2026-03-02<"));
    // A sample of its own is a line of no length, below the gaps and above them.
    assert_eq!(svg.matches("h0\"").count(), 2);
    // One sample between two gaps is seen.
    let svg = draw(
        "few",
        &OPTIONS,
        &records(21),
        &[bytes_of(0..10), bytes_of(11..21)],
    );
    assert_eq!((line(&svg).len(), line(&svg)[0].len()), (1, 1));
    assert!(svg.contains("<circle"));
}

/// One value stands in the middle of an axis that has round values.
#[test]
fn a_constant_value() {
    let data: Vec<u8> = (0..20).flat_map(|at| record(at, 215)).collect();
    for (scale, labels) in [
        ("1", "214.0 214.5 215.0 215.5 216.0"),
        ("0.1", "20.5 21.0 21.5 22.0 22.5"),
        ("1000", "214,000 214,500 215,000 215,500 216,000"),
        // -0.215 is between two of them.
        ("-1/1000", "\u{2212}1.5 \u{2212}1.0 \u{2212}0.5 0.0 0.5 1.0"),
    ] {
        let options = [&OPTIONS[..], &["--scale", scale]].concat();
        let svg = draw("constant", &options, &data, &[]);
        assert_eq!(value_labels(&svg).join(" "), labels);
        let run = &line(&svg)[0];
        assert!(run.iter().all(|(_, y)| *y == run[0].1));
    }
}

/// Values and times at the ends of what eight bytes hold, and factors at the ends of what is taken.
#[test]
fn extreme_numbers() {
    let values = [u64::MAX, 0, 1 << 63, (1 << 63) - 1, 1, u64::MAX - 1];
    let data: Vec<u8> = values
        .iter()
        .flat_map(|value| value.to_be_bytes())
        .collect();
    for kind in ["0:u64", "0:i64"] {
        for scale in [
            "1",
            "999999",
            "-999999",
            "1/999999",
            "-0.000001",
            "999999/999998",
        ] {
            for width in ["320", "800", "4096"] {
                let options = ["--record", "8", "--value", kind, "--step", "1000000000"];
                let options = [&options[..], &["--scale", scale, "--width", width]].concat();
                let svg = draw("extreme", &options, &data, &[]);
                assert_eq!(line(&svg)[0].len(), 6);
                let same = [&data[..8], &data[..8]].concat();
                draw("extreme", &options, &same, &[]);
            }
        }
    }
    let svg = draw(
        "extreme",
        &["--record", "8", "--value", "0:i64", "--step", "1"],
        &data,
        &[],
    );
    let words = "from \u{2212}9,223,372,036,854,775,808 to 9,223,372,036,854,775,807.";
    assert!(description(&svg).ends_with(words), "{}", description(&svg));

    // As times, rising.
    let mut times = values;
    times.sort();
    let data: Vec<u8> = times.iter().flat_map(|time| time.to_be_bytes()).collect();
    let svg = draw(
        "extreme",
        &["--record", "8", "--value", "7:u8", "--time", "0:u64"],
        &data,
        &[],
    );
    assert!(description(&svg).contains("1970-01-01T00:00:00Z to +584554051223-11-09T07:00:15Z"));
    times.sort_by_key(|time| *time as i64);
    let data: Vec<u8> = times.iter().flat_map(|time| time.to_be_bytes()).collect();
    let svg = draw(
        "extreme",
        &["--record", "8", "--value", "7:u8", "--time", "0:i64"],
        &data,
        &[],
    );
    assert!(description(&svg)
        .contains("-292277022657-01-27T08:29:52Z to +292277026596-12-04T15:30:07Z"));
}

/// What stands behind the last whole record is left out, and said.
#[test]
fn a_record_that_is_not_whole() {
    for (length, words) in [
        (
            79,
            "The last 7 bytes of the data are no whole record and are left out.",
        ),
        (
            73,
            "The last byte of the data is no whole record and is left out.",
        ),
        (
            7,
            "The last 7 bytes of the data are no whole record and are left out.",
        ),
    ] {
        let (svg, stderr) = draw_and_hear("partial", &OPTIONS, &records(10)[..length], &[]);
        assert_eq!(stderr, format!("beamsatchel-chart: {words}\n"));
        assert!(svg.contains(&format!(">{words}</text>")));
        let drawn: usize = line(&svg).iter().map(Vec::len).sum();
        assert_eq!(drawn, length / 8);
    }
    // What was never written there does not count either.
    let (svg, _) = draw_and_hear("partial", &OPTIONS, &records(10)[..79], &[72..79]);
    assert_eq!(gaps(&svg), 0);
}

/// Where the time goes back, records stand in their order, and the picture says so.
#[test]
fn time_that_goes_back() {
    let times = [100, 200, 300, 250, 350, 360, 370, 380];
    let data: Vec<u8> = times.iter().flat_map(|time| record(*time, 5)).collect();
    let (svg, stderr) = draw_and_hear("back", &OPTIONS, &data, &[bytes_of(5..6)]);
    let words = "The time of record 3 is before that of an earlier one, so the records stand in their order, \
                 at equal distances.";
    assert_eq!(stderr, format!("beamsatchel-chart: {words}\n"));
    assert!(svg.contains(">number of the record, and its time<"));
    let x: Vec<f64> = line(&svg).concat().iter().map(|(x, _)| *x).collect();
    // From one end of the axis to the other.
    let axis = between(&svg, r#"<path class="axis" d="M"#, "\"");
    let axis = axis.iter().find(|axis| axis.contains('V')).unwrap();
    assert!(axis.starts_with(&format!("{},", x[0])) && axis.ends_with(&format!("H{}", x[6])));
    let steps = [1.0, 1.0, 1.0, 1.0, 2.0, 1.0];
    let step = (x[6] - x[0]) / 7.0;
    for (at, steps) in steps.into_iter().enumerate() {
        assert!((x[at + 1] - x[at] - steps * step).abs() < 0.02, "{x:?}");
    }
    // Gaps are dated all the same.
    assert!(svg.contains(">from 1970-01-01T00:05:50Z to 1970-01-01T00:06:10Z, 20 s, record 5<"));
    // Of several the first one is named.
    let data: Vec<u8> = [100, 90, 300, 200]
        .iter()
        .flat_map(|time| record(*time, 5))
        .collect();
    let (_, stderr) = draw_and_hear("back", &OPTIONS, &data, &[]);
    assert!(stderr.contains("The time of record 1 is before"));
    // The same time twice does not go back; nor does the zero of a time that was never written.
    let data: Vec<u8> = [100, 100, 200, 300]
        .iter()
        .flat_map(|time| record(*time, 5))
        .collect();
    draw("back", &OPTIONS, &data, &[bytes_of(2..3)]);
    // Also in the gap itself the samples beside it are told, in their order.
    let data: Vec<u8> = [100, 900, 0, 200]
        .iter()
        .flat_map(|time| record(*time, 5))
        .collect();
    let (svg, _) = draw_and_hear("back", &OPTIONS, &data, &[bytes_of(2..3)]);
    assert!(svg.contains(">from 1970-01-01T00:15:00Z to 1970-01-01T00:03:20Z, record 2<"));
}

/// A chart of many records has no more samples than pixels can show, and neither a spike nor a gap is lost.
#[test]
fn many_records_are_thinned() {
    let count = 1_000_000;
    let mut data = vec![100; count];
    let unrest = data.iter_mut().zip((0..7).cycle());
    unrest.for_each(|(byte, more)| *byte += more);
    (data[123_456], data[654_321]) = (255, 1);
    let options = ["--record", "1", "--value", "0:u8", "--step", "1"];
    let svg = draw("thinned", &options, &data, &[500_000..500_001]);
    let runs = line(&svg);
    assert_eq!((runs.len(), gaps(&svg)), (2, 1));
    let drawn: usize = runs.iter().map(Vec::len).sum();
    assert!((1_300..=2 * 800 + 8).contains(&drawn), "{drawn}");
    let heights = |runs: &[(f64, f64)]| {
        let heights = runs.iter().map(|(_, y)| *y);
        (
            heights.clone().fold(f64::MAX, f64::min),
            heights.fold(0.0, f64::max),
        )
    };
    // Of labels from 0 to 300 the spikes are by far the highest and the lowest.
    assert_eq!(
        value_labels(&svg),
        ["0", "50", "100", "150", "200", "250", "300"]
    );
    let (first, second) = (heights(&runs[0]), heights(&runs[1]));
    assert_eq!((first.1 - first.0, second.1 - second.0), (155.0, 105.0));
    assert!(svg.contains(
        ">Where several samples fall into one column of pixels, the lowest and the highest are drawn.<"
    ));
    assert!(svg.contains(", 2 s, record 500000<"));
    // A sample of a run is drawn where a run is shorter than a pixel.
    let svg = draw(
        "thinned",
        &options,
        &data,
        &[500_000..500_001, 500_002..500_003],
    );
    assert_eq!(
        (line(&svg).len(), line(&svg)[1].len(), gaps(&svg)),
        (3, 1, 2)
    );
    // The samples at both sides of a gap are drawn, whatever else is in their columns.
    let svg = draw("thinned", &options, &data, &[400_000..600_000]);
    let runs = line(&svg);
    let ((from_x, from_y), (to_x, to_y)) = (runs[0][runs[0].len() - 1], runs[1][0]);
    assert!(svg.contains(&format!(r#" d="M{from_x},{from_y}L{to_x},{to_y}"/>"#)));
}

#[test]
fn the_longest_slot() {
    let data = vec![7; 16_776_744];
    let stretches: Vec<_> = (0..256).map(|at| 65_000 * at..65_000 * at + 1).collect();
    let options = [
        "--record",
        "1",
        "--value",
        "0:u8",
        "--step",
        "1",
        "--start",
        "2026-03-02T00:00:00Z",
    ];
    let svg = draw("longest", &options, &data, &stretches);
    assert_eq!((line(&svg).len(), gaps(&svg)), (256, 256));
    assert!(svg.len() < 400_000, "{}", svg.len());
}

/// The same numbers in either order of bytes, and with either spelling of a factor, are the same picture.
#[test]
fn fields_and_factors() {
    let numbers: [i64; 5] = [0, -1, 77, -128, 127];
    for (width, kind) in [(1, "8"), (2, "16"), (4, "32"), (8, "64")] {
        let big: Vec<u8> = numbers
            .iter()
            .flat_map(|number| number.to_be_bytes()[8 - width..].to_vec())
            .collect();
        let little: Vec<u8> = numbers
            .iter()
            .flat_map(|number| number.to_le_bytes()[..width].to_vec())
            .collect();
        let record = width.to_string();
        let chart = |data: &[u8], field: &str| {
            draw(
                "fields",
                &["--record", &record, "--step", "1", "--value", field],
                data,
                &[],
            )
        };
        for sign in ["u", "i"] {
            let svg = chart(&big, &format!("0:{sign}{kind}"));
            assert_eq!(chart(&little, &format!("0:{sign}{kind}le")), svg);
            let (low, high) = match sign {
                "i" => ("\u{2212}128".to_string(), "127".to_string()),
                _ => ("0".to_string(), format!("{}", u64::MAX >> (64 - 8 * width))),
            };
            let words = description(&svg).replace(',', "");
            assert!(
                words.ends_with(&format!("from {low} to {high}.")),
                "{words}"
            );
        }
    }
    let data = records(40);
    let scaled = |scale: &str| {
        draw(
            "fields",
            &[&OPTIONS[..], &["--scale", scale]].concat(),
            &data,
            &[],
        )
    };
    assert_eq!(scaled("0.1"), scaled("1/10"));
    assert_eq!(scaled("1"), draw("fields", &OPTIONS, &data, &[]));
    assert_eq!(scaled("-2.50"), scaled("-250/100"));
    assert!(description(&scaled("1/3")).ends_with("from 0 to 13."));
    assert!(description(&scaled("-1/3")).ends_with("from \u{2212}13 to 0."));
    assert!(description(&scaled("2/7")).ends_with("from 0 to 11.142857."));
    assert!(description(&scaled("-2/7")).ends_with("from \u{2212}11.142857 to 0."));
}

/// Dates are those of the calendar.
#[test]
fn times_are_dated() {
    for (time, dated) in [
        ("0", "1970-01-01T00:00:00Z"),
        ("-1", "1969-12-31T23:59:59Z"),
        ("951782400", "2000-02-29T00:00:00Z"),
        ("1709164800", "2024-02-29T00:00:00Z"),
        ("4107542400", "2100-03-01T00:00:00Z"),
        ("253402300799", "9999-12-31T23:59:59Z"),
        ("253402300800", "+10000-01-01T00:00:00Z"),
        ("-62135596800", "0001-01-01T00:00:00Z"),
        ("-62167219200", "0000-01-01T00:00:00Z"),
        ("-62167219201", "-0001-12-31T23:59:59Z"),
    ] {
        let chart = |start: &str| {
            let options = [
                "--record", "8", "--value", "4:i16", "--step", "60", "--start", start,
            ];
            draw("dated", &options, &records(1), &[])
        };
        let svg = chart(time);
        assert!(
            description(&svg).contains(&format!(": {dated}, 1 record")),
            "{}",
            description(&svg)
        );
        // The year has four digits and no sign where a time is given.
        if dated.len() == 20 {
            assert_eq!(chart(dated), svg);
        }
    }
}

/// How long a gap is, in its two largest units.
#[test]
fn durations() {
    for (step, words) in [
        ("1", "2 s"),
        ("29", "58 s"),
        ("30", "1 min"),
        ("31", "1 min 2 s"),
        ("1800", "1 h"),
        ("1801", "1 h"),
        ("1860", "1 h 2 min"),
        ("43200", "1 d"),
        ("46892", "1 d 2 h"),
        ("432000", "10 d"),
    ] {
        let options = ["--record", "8", "--value", "4:i16", "--step", step];
        let svg = draw("durations", &options, &records(3), &[bytes_of(1..2)]);
        assert!(svg.contains(&format!(", {words}, record 1<")), "{step}");
    }
}

/// Times at round places, whatever the span.
#[test]
fn times_below_the_plot() {
    let labels = |step: &str, start: &[&str]| {
        let options = ["--record", "8", "--value", "4:i16", "--step", step];
        let svg = draw("ticks", &[&options[..], start].concat(), &records(101), &[]);
        let texts = between(&svg, r#"<text class="muted""#, "</text>");
        let texts = texts
            .into_iter()
            .filter_map(|text| text.split_once(r#" text-anchor="middle">"#));
        texts.map(|(_, label)| label).collect::<Vec<_>>().join(" ")
    };
    let start = ["--start", "2026-03-02T23:59:50Z"];
    for (step, dated) in [
        ("1", "00:00:00 2026-03-03 00:00:15 00:00:30 00:00:45 00:01:00 00:01:15 00:01:30"),
        ("60", "00:00 2026-03-03 00:10 00:20 00:30 00:40 00:50 01:00 01:10 01:20 01:30"),
        (
            "3600",
            "00:00 2026-03-03 12:00 00:00 2026-03-04 12:00 00:00 2026-03-05 12:00 00:00 2026-03-06 12:00 \
             00:00 2026-03-07",
        ),
        // Mondays.
        ("21600", "2026-03-09 2026-03-16 2026-03-23"),
        ("86400", "2026-04 2026-05 2026-06"),
        ("31557600", "2030 2040 2050 2060 2070 2080 2090 2100 2110 2120"),
    ] {
        assert_eq!(labels(step, &start), format!("{dated} time, UTC"));
    }
    // Also at the first time itself.
    assert_eq!(
        labels("86400", &["--start", "2026-03-01T00:00:00Z"]),
        "2026-03 2026-04 2026-05 2026-06 time, UTC"
    );
    // Where the dates of two days would touch, the later one stands there.
    assert_eq!(
        labels("60", &["--start", "2026-03-02T23:50:00Z"]),
        "23:50 00:00 2026-03-03 00:10 00:20 00:30 00:40 00:50 01:00 01:10 01:20 01:30 time, UTC"
    );
    for (step, counted) in [
        (
            "1",
            "00:00:00 00:00:15 00:00:30 00:00:45 00:01:00 00:01:15 00:01:30",
        ),
        (
            "3600",
            "00:00 12:00 24:00 36:00 48:00 60:00 72:00 84:00 96:00",
        ),
        (
            "86400",
            "0 d 10 d 20 d 30 d 40 d 50 d 60 d 70 d 80 d 90 d 100 d",
        ),
    ] {
        assert_eq!(
            labels(step, &[]),
            format!("{counted} time since the first record")
        );
    }
}

/// Trailing zeros of a factor do not count, nor do those at its front.
#[test]
fn zeros_in_factors() {
    let data = records(40);
    let scaled = |scale: &str| {
        let options = [&OPTIONS[..], &["--scale", scale]].concat();
        draw("factors", &options, &data, &[])
    };
    for (long, short) in [
        ("0.1000000", "0.1"),
        ("1.0", "1"),
        ("-2.50000000000000000000000", "-2.5"),
        ("00000000100.0", "100"),
        ("123456.0", "123456"),
        ("000000012.3456", "12.3456"),
        ("0.000001", "1/1000000.0"),
        ("0.000010", "1/100000"),
        ("0000000001/0000000003", "1/3"),
    ] {
        match short {
            // Six digits behind the point are what is drawn at the finest.
            "1/1000000.0" => assert!(description(&scaled(long)).ends_with(" to 0.000039.")),
            _ => assert_eq!(scaled(long), scaled(short), "{long}"),
        }
    }
}

/// The line goes straight over a silence, and breaks there when that is asked for.
#[test]
fn silences() {
    // Apart by 60 three times, then by 600 and 601; record 6 is missing; then by 3,600 and 60.
    let times = [0, 60, 120, 180, 780, 1_381, 0, 9_000, 12_600, 12_660];
    let data: Vec<u8> = (times.iter().zip(1..))
        .flat_map(|(time, value)| record(*time, value))
        .collect();
    let chart = |seconds: &str| {
        let options = [&OPTIONS[..], &["--break", seconds]].concat();
        let svg = draw("silences", &options, &data, &[bytes_of(6..7)]);
        // It is no gap, and has no dotted line.
        assert_eq!((gaps(&svg), svg.matches(r#"class="old""#).count()), (1, 2));
        assert_eq!(svg, draw("silences", &options, &data, &[bytes_of(6..7)]));
        let told = between(&svg, "1 of them never written, ", " s between samples")
            .first()
            .map(|words| words.to_string());
        let runs: Vec<usize> = line(&svg).iter().map(Vec::len).collect();
        let told = told.expect("the subtitle");
        assert!(description(&svg).contains(&told));
        (runs, told, svg.matches("<circle").count())
    };
    let words = |silences: &str, seconds: &str| format!("{silences} of more than {seconds}");
    assert_eq!(chart("3600"), (vec![6, 3], words("0 silences", "3,600"), 2));
    assert_eq!(
        chart("3599"),
        (vec![6, 1, 2], words("1 silence", "3,599"), 3)
    );
    assert_eq!(chart("601"), (vec![6, 1, 2], words("1 silence", "601"), 3));
    // A sample between a silence and a gap, or between two silences, is one dot.
    assert_eq!(
        chart("600"),
        (vec![5, 1, 1, 2], words("2 silences", "600"), 4)
    );
    assert_eq!(
        chart("599"),
        (vec![4, 1, 1, 1, 2], words("3 silences", "599"), 5)
    );
    // Breaks of a few pixels have no dots, which would hide them.
    assert_eq!(chart("59"), (vec![1; 9], words("7 silences", "59"), 5));
    // Without the option nothing is said, and only the gap breaks the line.
    let svg = draw("silences", &OPTIONS, &data, &[bytes_of(6..7)]);
    let runs: Vec<usize> = line(&svg).iter().map(Vec::len).collect();
    assert!(runs == [6, 3] && !svg.contains("between samples<"));
}

/// The same times count where they go back, and a picture of breaks alone stays small.
#[test]
fn silences_in_any_order() {
    let data: Vec<u8> = [100, 200, 40, 140, 139]
        .iter()
        .flat_map(|time| record(*time, 5))
        .collect();
    let options = [&OPTIONS[..], &["--break", "100"]].concat();
    let (svg, _) = draw_and_hear("silences-back", &options, &data, &[]);
    let runs: Vec<usize> = line(&svg).iter().map(Vec::len).collect();
    assert_eq!(runs, [2, 3]);
    assert!(svg.contains(">5 records of 8 bytes, 1 silence of more than 100 s between samples<"));
    // Every second sample is 255 s behind the one before it.
    let data = [0, 255].repeat(500_000);
    let options = [
        "--record", "1", "--time", "0:u8", "--value", "0:u8", "--break", "254",
    ];
    let (svg, _) = draw_and_hear("silences-back", &options, &data, &[]);
    assert!(svg.contains(", 999,999 silences of more than 254 s between samples<"));
    assert!(svg.len() < 100_000, "{}", svg.len());
    assert!((600..=800).contains(&line(&svg).len()));
}

/// A word of any length is cut off, and soon.
#[test]
fn a_long_word() {
    let word = "m".repeat(131_000);
    let options = [&OPTIONS[..], &["--title", &word, "--unit", &word]].concat();
    let begun = Instant::now();
    let svg = draw("word", &options, &records(9), &[]);
    assert!(begun.elapsed() < Duration::from_secs(5));
    // Of 760 pixels the ellipsis takes 22, and each m 19.6.
    assert!(svg.contains(&format!(">{}…</text>", "m".repeat(37))));
    assert!(!svg.contains(&format!(">{}…</text>", "m".repeat(38))));
}

/// Title and unit may hold anything that a command line can.
#[test]
fn texts_are_escaped() {
    let title = "<script>&amp;</text>\"'\u{1}\u{7f}\u{85}\u{FFFE}\n\r\t]]>";
    let options = [&OPTIONS[..], &["--title", title, "--unit", "\"<°&C>'"]].concat();
    let svg = draw("escaped", &options, &records(9), &[bytes_of(3..5)]);
    let escaped =
        "&lt;script&gt;&amp;amp;&lt;/text&gt;&quot;&#39;\u{FFFD}\u{FFFD}\u{FFFD}\u{FFFD}   ]]&gt;";
    assert_eq!(name(&svg), escaped);
    assert!(svg.contains(">&quot;&lt;°&amp;C&gt;&#39;</text>"));
    // What is too long for the picture is cut off there, and whole in its name.
    let long = "long ".repeat(200);
    let options = [
        &OPTIONS[..],
        &["--title", &long, "--unit", &long, "--width", "320"],
    ]
    .concat();
    let svg = draw("escaped", &options, &records(9), &[]);
    assert_eq!(name(&svg), long);
    assert_eq!(svg.matches("…</text>").count(), 2);
    assert_eq!(svg.matches(r#"<text class="title""#).count(), 2);
}

/// Two pictures in one page have no id in common, however little they differ.
#[test]
fn ids_are_the_pictures_own() {
    let mut data = records(9);
    let chart = |data: &[u8], title: &str| {
        let options = [&OPTIONS[..], &["--title", title]].concat();
        id(&draw("ids", &options, data, &[]), "line")
    };
    let first = chart(&data, "a");
    assert!(chart(&data, "a") == first && chart(&data, "b") != first);
    data[13] += 1;
    assert_ne!(chart(&data, "a"), first);
}

/// The same files and options give the same bytes, whatever is around.
#[test]
fn the_same_bytes_each_time() {
    let files = files(
        "same",
        &records(500),
        &[bytes_of(40..90), bytes_of(200..202)],
    );
    let mut pictures = Vec::new();
    for (zone, language) in [("UTC", "C"), ("Asia/Kathmandu", "de_DE.UTF-8")] {
        let output = command()
            .envs([("TZ", zone), ("LANG", language), ("LC_ALL", language)])
            .current_dir("/")
            .args(OPTIONS)
            .args(&files)
            .output();
        pictures.push(ends(output.unwrap()));
    }
    // Options may stand in any order, and behind the files.
    let output = command()
        .args(&files)
        .args(["--value", "4:i16", "--time", "0:u32", "--record", "8"])
        .output();
    pictures.push(ends(output.unwrap()));
    let out = place("same", "out.svg");
    let output = command()
        .arg("--out")
        .arg(&out)
        .args(OPTIONS)
        .arg("--")
        .args(&files)
        .output();
    assert_eq!(ends(output.unwrap()), (String::new(), String::new(), 0));
    pictures.push((fs::read_to_string(&out).unwrap(), String::new(), 0));
    // Behind `--` all are files.
    for (file, name) in files.iter().zip(["--out", "-"]) {
        fs::copy(file, place("same", name)).unwrap();
    }
    let output = command()
        .current_dir(out.parent().unwrap())
        .args(OPTIONS)
        .args(["--", "--out", "-"])
        .output();
    pictures.push(ends(output.unwrap()));
    assert!(pictures.iter().all(|picture| *picture == pictures[0]));
}

#[test]
fn the_size_is_asked_for() {
    for (width, height) in [("320", "120"), ("600", "200"), ("4096", "2160")] {
        let options = [&OPTIONS[..], &["--width", width, "--height", height]].concat();
        let svg = draw(
            "size",
            &options,
            &records(50),
            &[bytes_of(0..1), bytes_of(9..30), bytes_of(49..50)],
        );
        assert!(svg.contains(&format!(r#"viewBox="0 0 {width} "#)));
        assert!(svg.contains(&format!(r#" height="{height}"/>"#)));
    }
}

#[test]
fn what_is_refused() {
    let good = files("refused", &records(9), &[bytes_of(3..5)]);
    let [slot, good_list] = good.each_ref().map(|file| fs::read(file).unwrap());
    let out = place("refused", "out.svg");
    let chart = |container: &[u8], list: &[u8]| {
        let container = file("refused", "bad slot", container);
        let list = file("refused", "bad list", list);
        let _ = fs::remove_file(&out);
        let output = command()
            .args(OPTIONS)
            .arg("--out")
            .arg(&out)
            .args([&container, &list])
            .output();
        let (stdout, stderr, code) = ends(output.unwrap());
        assert_eq!(
            (&stdout[..], code, out.exists()),
            ("", 1, false),
            "{stderr}"
        );
        let folder = container.parent().unwrap().display().to_string();
        stderr.replace(&format!("{folder}/"), "")
    };
    assert_eq!(
        chart(&slot[..471], &good_list),
        "beamsatchel-chart: \"bad slot\": refused with outcome 1: The container's buffer is not 472 to 16,777,216 \
         bytes long.\n  at byte 471: the buffer is not 472 to 16,777,216 bytes long\n"
    );
    assert_eq!(
        chart(&[0; 500], &[]),
        "beamsatchel-chart: \"bad slot\": refused with outcome 2: The buffer does not hold a well-formed container.\n  \
         at byte 0: the magic is not a container's\n"
    );
    let mut not_zero = slot.clone();
    not_zero[468 + 25] = 1;
    let not_good = "beamsatchel-chart: \"bad list\": refused with outcome 16: The never-written list breaks its form, \
                    or names a byte outside the data or one that is not zero.\n";
    assert_eq!(
        chart(&not_zero, &good_list),
        format!("{not_good}  at byte 4 of the list: a row names a byte of the data that is not zero, at position 25\n")
    );
    let long_list = [&good_list[..], &[0; 4_000]].concat();
    for list in [&good_list[..2_051], &long_list] {
        let at = list.len().min(2_052);
        let fault = format!("  at byte {at} of the list: the list is not 2,052 bytes long\n");
        assert_eq!(chart(&slot, list), format!("{not_good}{fault}"));
    }
}

/// The two files the wrong way round are told of.
#[test]
fn swapped_files() {
    let [slot, list] = files("swapped", &records(9), &[]);
    let output = command().args(OPTIONS).args([&list, &slot]).output();
    let (stdout, stderr, code) = ends(output.unwrap());
    assert_eq!((&stdout[..], code), ("", 1));
    let hint = format!("\n  {slot:?} begins as a container: are the two files swapped?\n");
    assert!(stderr.ends_with(&hint), "{stderr}");
}

/// The picture never takes the place of what it is drawn from.
#[test]
fn the_slot_is_not_overwritten() {
    let [slot, list] = files("itself", &records(9), &[]);
    let old = [&slot, &list].map(|file| fs::read(file).unwrap());
    let link = |name: &str, made: fn(&Path, &Path) -> std::io::Result<()>, to: &Path| {
        let link = place("itself", name);
        let _ = fs::remove_file(&link);
        made(to, &link).unwrap();
        link
    };
    let symlink = |to: &Path, link: &Path| std::os::unix::fs::symlink(to, link);
    let hard_link = |to: &Path, link: &Path| fs::hard_link(to, link);
    let folder = slot.parent().unwrap();
    for (out, what) in [
        (slot.clone(), "container"),
        (list.clone(), "list"),
        (folder.join("../itself/slot"), "container"),
        (link("soft slot", symlink, &slot), "container"),
        (link("soft list", symlink, &list), "list"),
        (link("hard slot", hard_link, &slot), "container"),
        (link("hard list", hard_link, &list), "list"),
    ] {
        let output = command()
            .args(OPTIONS)
            .arg("--out")
            .arg(&out)
            .args([&slot, &list])
            .output();
        let complaint = format!("beamsatchel-chart: --out {out:?} is the {what} itself\n");
        assert_eq!(ends(output.unwrap()), (String::new(), complaint, 2));
        assert!([&slot, &list].map(|file| fs::read(file).unwrap()) == old);
    }
    // The gate takes no link anywhere below the repository's top.
    for name in ["soft slot", "soft list"] {
        fs::remove_file(place("itself", name)).unwrap();
    }
}

/// Where the picture cannot be written whole, the old one stays, and nothing else.
#[test]
fn a_full_disk_leaves_the_old_picture() {
    let [slot, list] = files("full", &records(9), &[]);
    let (old, new) = (file("full", "old.svg", b"old"), place("full", "new.svg"));
    let _ = fs::remove_file(&new);
    let names = || {
        let names = fs::read_dir(slot.parent().unwrap()).unwrap();
        let mut names: Vec<_> = names.map(|entry| entry.unwrap().file_name()).collect();
        names.sort();
        names
    };
    let before = names();
    for out in [&old, &new] {
        // No file may be longer than a block or two.
        let output = Command::new("sh")
            .args(["-c", "trap '' XFSZ; ulimit -f 1; exec \"$@\"", "sh"])
            .arg(command().get_program())
            .args(OPTIONS)
            .arg("--out")
            .arg(out)
            .args([&slot, &list])
            .output();
        let complaint = format!("beamsatchel-chart: {out:?}: File too large (os error 27)\n");
        assert_eq!(ends(output.unwrap()), (String::new(), complaint, 2));
        assert_eq!(
            (fs::read(&old).unwrap(), names()),
            (b"old".to_vec(), before.clone())
        );
    }
}

/// A picture that is there is replaced, with its permissions, and its link stays; a pipe or a device is written to.
#[test]
fn where_the_picture_goes() {
    let _ = fs::remove_dir_all(place("goes", ""));
    let [slot, list] = files("goes", &records(9), &[]);
    let draw_to = |out: &OsStr| {
        let output = command()
            .args(OPTIONS)
            .arg("--out")
            .arg(out)
            .args([&slot, &list])
            .output();
        ends(output.unwrap())
    };
    let (svg, ..) = draw_to("-".as_ref());
    check_picture(&svg);
    assert_eq!(
        draw_to("/dev/stdout".as_ref()),
        (svg.clone(), String::new(), 0)
    );
    let (out, link) = (file("goes", "out.svg", b"old"), place("goes", "link"));
    fs::set_permissions(&out, Permissions::from_mode(0o640)).unwrap();
    let _ = fs::remove_file(&link);
    std::os::unix::fs::symlink("out.svg", &link).unwrap();
    for path in [&out, &link] {
        fs::write(&out, "old").unwrap();
        let done = (String::new(), String::new(), 0);
        assert_eq!(draw_to(path.as_os_str()), done);
        assert_eq!(fs::read_to_string(&out).unwrap(), svg);
        assert_eq!(fs::metadata(&out).unwrap().mode() & 0o777, 0o640);
    }
    assert!(fs::symlink_metadata(&link).unwrap().is_symlink());
    let names = || fs::read_dir(out.parent().unwrap()).unwrap().count();
    assert_eq!(names(), 4);
    // A process that was ended may have left what it had written so far.
    let output = Command::new("sh")
        .args(["-c", "touch .beamsatchel-chart.$$; exec \"$@\"", "sh"])
        .current_dir(out.parent().unwrap())
        .arg(command().get_program())
        .args(OPTIONS)
        .args(["--out", "new.svg", "slot", "list"])
        .output();
    assert_eq!(ends(output.unwrap()), (String::new(), String::new(), 0));
    assert_eq!(names(), 6);
    assert_eq!(fs::read_to_string(place("goes", "new.svg")).unwrap(), svg);
    let complaint = "beamsatchel-chart: \"/dev/full\": No space left on device (os error 28)\n";
    assert_eq!(
        draw_to("/dev/full".as_ref()),
        (String::new(), complaint.to_string(), 2)
    );
    let missing = place("goes", "missing").join("out.svg");
    let complaint =
        format!("beamsatchel-chart: {missing:?}: No such file or directory (os error 2)\n");
    assert_eq!(draw_to(missing.as_os_str()), (String::new(), complaint, 2));
    fs::remove_file(link).unwrap();
}

#[test]
fn what_cannot_be_read_or_written() {
    let [slot, list] = files("unreadable", &records(9), &[]);
    let missing = place("unreadable", "missing");
    let folder = missing.parent().unwrap().to_path_buf();
    for (container, list, named, why) in [
        (
            &missing,
            &list,
            &missing,
            "No such file or directory (os error 2)",
        ),
        (
            &slot,
            &missing,
            &missing,
            "No such file or directory (os error 2)",
        ),
        (&slot, &folder, &folder, "Is a directory (os error 21)"),
    ] {
        let output = command().args(OPTIONS).args([container, list]).output();
        let complaint = format!("beamsatchel-chart: {named:?}: {why}\n");
        assert_eq!(ends(output.unwrap()), (String::new(), complaint, 2));
    }
    let output = command()
        .args(OPTIONS)
        .arg("--out")
        .arg(&folder)
        .args([&slot, &list])
        .output();
    let complaint = format!("beamsatchel-chart: {folder:?}: Is a directory (os error 21)\n");
    assert_eq!(ends(output.unwrap()), (String::new(), complaint, 2));
    let full = File::options().write(true).open("/dev/full").unwrap();
    let output = command()
        .args(OPTIONS)
        .args([&slot, &list])
        .stdout(full)
        .output();
    let complaint =
        "beamsatchel-chart: cannot write: No space left on device (os error 28)\n".to_string();
    assert_eq!(ends(output.unwrap()), (String::new(), complaint, 2));
    // Whoever closed the pipe has seen enough.
    let output = command()
        .args(OPTIONS)
        .args([&slot, &list])
        .stdout(closed_pipe())
        .output();
    assert_eq!(ends(output.unwrap()), (String::new(), String::new(), 2));
}

/// The writing end of a pipe whose reading end is closed: the process that had it is gone.
fn closed_pipe() -> ChildStdin {
    let mut reader = Command::new("true").stdin(Stdio::piped()).spawn().unwrap();
    let mut writer = reader.stdin.take().unwrap();
    reader.wait().unwrap();
    // A process that another test is just starting may still have the reading end.
    while writer.write(&[0]).is_ok() {}
    writer
}

/// Each mistake is named, before any file is read.
#[test]
fn a_wrong_command_line() {
    let complaint = |arguments: &[&OsStr]| {
        let (stdout, stderr, code) = ends(command().args(arguments).output().unwrap());
        assert_eq!((&stdout[..], code), ("", 2), "{stderr}");
        let words = stderr.strip_prefix("beamsatchel-chart: ");
        let words = words
            .and_then(|words| words.strip_suffix("; beamsatchel-chart --help has the options\n"));
        words.unwrap_or_else(|| panic!("{stderr}")).to_string()
    };
    // One option with another value, or none, beside good ones.
    let with = |name: &str, value: Option<&str>| {
        let others = [("--record", "8"), ("--value", "4:i16"), ("--time", "0:u32")];
        let others = others.iter().filter(|(other, _)| *other != name);
        let mut options: Vec<&str> = others.flat_map(|(other, good)| [*other, *good]).collect();
        options.extend(value.into_iter().flat_map(|value| [name, value]));
        options.extend(["no slot", "no list"]);
        let options: Vec<&OsStr> = options.into_iter().map(OsStr::new).collect();
        complaint(&options)
    };
    for (name, value, words) in [
        (
            "--record",
            "0",
            "--record \"0\" is no number from 1 to 16777216",
        ),
        (
            "--record",
            "-8",
            "--record \"-8\" is no number from 1 to 16777216",
        ),
        (
            "--record",
            "+8",
            "--record \"+8\" is no number from 1 to 16777216",
        ),
        (
            "--record",
            "",
            "--record \"\" is no number from 1 to 16777216",
        ),
        (
            "--record",
            "18446744073709551616",
            "--record \"18446744073709551616\" is no number from 1 to 16777216",
        ),
        (
            "--record",
            "16777217",
            "--record \"16777217\" is no number from 1 to 16777216",
        ),
        (
            "--record",
            "5",
            "--value \"4:i16\" reaches outside the record of 5 bytes",
        ),
        (
            "--value",
            "7:i16",
            "--value \"7:i16\" reaches outside the record of 8 bytes",
        ),
        (
            "--value",
            "8:u8",
            "--value \"8:u8\" reaches outside the record of 8 bytes",
        ),
        (
            "--value",
            "18446744073709551615:u8",
            "--value \"18446744073709551615:u8\" reaches outside the record of 8 bytes",
        ),
        (
            "--value",
            "18446744073709551616:u8",
            "--value \"18446744073709551616:u8\" reaches outside the record of 8 bytes",
        ),
        (
            "--value",
            "4",
            "--value \"4\" is no field such as 4:u16, 0:i32 or 2:u16le",
        ),
        (
            "--value",
            "4:u0",
            "--value \"4:u0\" is no field such as 4:u16, 0:i32 or 2:u16le",
        ),
        (
            "--value",
            "4:u24",
            "--value \"4:u24\" is no field such as 4:u16, 0:i32 or 2:u16le",
        ),
        (
            "--value",
            "-1:u8",
            "--value \"-1:u8\" is no field such as 4:u16, 0:i32 or 2:u16le",
        ),
        (
            "--value",
            "4:u8be",
            "--value \"4:u8be\" is no field such as 4:u16, 0:i32 or 2:u16le",
        ),
        (
            "--time",
            "5:u32",
            "--time \"5:u32\" reaches outside the record of 8 bytes",
        ),
        (
            "--time",
            "x",
            "--time \"x\" is no field such as 4:u16, 0:i32 or 2:u16le",
        ),
        ("--step", "1", "--time is given beside --step or --start"),
        ("--start", "1", "--time is given beside --step or --start"),
        (
            "--break",
            "0",
            "--break \"0\" is no number from 1 to 1000000000",
        ),
        (
            "--break",
            "1000000001",
            "--break \"1000000001\" is no number from 1 to 1000000000",
        ),
        (
            "--break",
            "1.5",
            "--break \"1.5\" is no number from 1 to 1000000000",
        ),
        (
            "--width",
            "319",
            "--width \"319\" is no number from 320 to 4096",
        ),
        (
            "--width",
            "4097",
            "--width \"4097\" is no number from 320 to 4096",
        ),
        (
            "--height",
            "119",
            "--height \"119\" is no number from 120 to 2160",
        ),
        (
            "--height",
            "2161",
            "--height \"2161\" is no number from 120 to 2160",
        ),
    ] {
        assert_eq!(with(name, Some(value)), words);
    }
    for scale in [
        "0",
        "0.0",
        "0/1",
        "1/0",
        "1000000",
        "1/1000000",
        "0.0000001",
        "0.1234567",
        "12345.67",
        "1.x0",
        "x.5",
        ".5",
        "5.",
        "1e3",
        "--1",
        "",
        "1/2/3",
        "1.5/2",
    ] {
        let words = "a factor is other than 0, may be negative, and has at most six digits in all, not counting \
                     leading zeros before the point and trailing zeros behind it, or six on either side of the /";
        assert_eq!(
            with("--scale", Some(scale)),
            format!("--scale {scale:?}: {words}")
        );
    }
    assert_eq!(with("--record", None), "--record is missing");
    assert_eq!(with("--value", None), "--value is missing");
    assert_eq!(with("--time", None), "--time or --step is missing");

    let steps = |step: &str, start: &str| {
        let arguments = [
            "--record", "8", "--value", "4:i16", "--step", step, "--start", start, "a", "b",
        ];
        complaint(&arguments.map(OsStr::new))
    };
    let arguments = [
        "--record", "8", "--value", "4:i16", "--step", "1", "--break", "60", "a", "b",
    ];
    assert_eq!(
        complaint(&arguments.map(OsStr::new)),
        "--break is given beside --step"
    );
    for step in ["0", "-1", "1.5", "1000000001", ""] {
        assert_eq!(
            steps(step, "0"),
            format!("--step {step:?} is no number from 1 to 1000000000")
        );
    }
    for start in [
        "2026-02-29T00:00:00Z",
        "2026-13-01T00:00:00Z",
        "2026-00-01T00:00:00Z",
        "2026-01-00T00:00:00Z",
        "2026-01-01T24:00:00Z",
        "2026-01-01T00:60:00Z",
        "2026-01-01T00:00:60Z",
        "2026-01-01T00:00:00",
        "2026-01-01 00:00:00Z",
        "2026-01-01",
        "+026-01-01T00:00:00Z",
        "-",
        "",
        "1e9",
        "1000000000000000000",
        "２026-01-01T00:00:0",
    ] {
        let words =
            "is neither a time such as 2026-03-02T06:00:00Z nor seconds of at most 18 digits";
        assert_eq!(steps("60", start), format!("--start {start:?} {words}"));
    }

    let words = "two files are asked for, CONTAINER and LIST";
    for files in [
        &[][..],
        &["a"],
        &["a", "b", "c"],
        &["--", "a", "--out"][..2],
    ] {
        let arguments: Vec<&OsStr> = OPTIONS
            .iter()
            .chain(files)
            .map(|text| OsStr::new(*text))
            .collect();
        assert_eq!(complaint(&arguments), words);
    }
    for unknown in ["-", "-H", "--records", "--record=8", "--help=all"] {
        let arguments = [unknown, "a", "b"].map(OsStr::new);
        let words = format!("there is no option {unknown:?}");
        assert_eq!(complaint(&arguments), words);
    }
    assert_eq!(
        complaint(&["a", "b", "--title"].map(OsStr::new)),
        "--title needs a value"
    );
    assert_eq!(
        complaint(&["--title", "a", "--title", "a"].map(OsStr::new)),
        "--title is given twice"
    );
    let not_utf_8 = OsStr::from_bytes(b"\xFF");
    let mut arguments: Vec<&OsStr> = OPTIONS.iter().map(OsStr::new).collect();
    arguments.extend(["--title".as_ref(), not_utf_8, "a".as_ref(), "b".as_ref()]);
    assert_eq!(complaint(&arguments), "--title \"\\xFF\" is not UTF-8");
}

#[test]
fn help_is_what_was_asked_for() {
    let (stdout, stderr, code) = ends(command().arg("--help").output().unwrap());
    assert_eq!((&stderr[..], code), ("", 0));
    assert!(stdout.starts_with("usage: beamsatchel-chart OPTIONS [--] CONTAINER LIST\n"));
    for option in [
        "record", "value", "scale", "unit", "title", "time", "step", "start", "break", "width",
        "height", "out",
    ] {
        assert!(stdout.contains(&format!("\n  --{option} ")), "{option}");
    }
    assert!(stdout.contains("smooth, as the old code drew"));
    // Anywhere, whatever else is right or wrong, and also in short.
    for arguments in [
        &["-h"][..],
        &["a", "b", "--help"],
        &["--record", "8", "-h", "a"],
        &["--wrong", "--help", "--", "a"],
        &["--help", "-h"],
    ] {
        let ended = ends(command().args(arguments).output().unwrap());
        assert_eq!(ended, (stdout.clone(), String::new(), 0), "{arguments:?}");
    }
    // Behind `--` it is a file.
    let output = command()
        .args(OPTIONS)
        .args(["--", "--help", "-h"])
        .output();
    let (_, stderr, code) = ends(output.unwrap());
    assert!(
        code == 2 && stderr.starts_with("beamsatchel-chart: \"--help\": No such file"),
        "{stderr}"
    );
    assert!(stdout.lines().all(|line| line.len() <= 82));
}

/// A fresh slot and its list of zeros.
#[test]
fn a_fresh_slot() {
    let container = file("fresh", "slot", &fresh(472));
    let list = file("fresh", "list", &[0; 2_052]);
    let output = command().args(OPTIONS).args([container, list]).output();
    let (svg, stderr, code) = ends(output.unwrap());
    assert_eq!((&stderr[..], code), ("", 0));
    check_picture(&svg);
    assert!(svg.contains(">no records<"));
    // Without a title of its own.
    assert_eq!(name(&svg), "Samples in a slot");
}
