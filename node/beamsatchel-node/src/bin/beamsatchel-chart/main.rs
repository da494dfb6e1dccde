//! Draws the samples in a slot as SVG: a line over time that breaks where nobody wrote, by the list beside the slot.
//! The same files and options give the same bytes.
//!
//! The exit code is 0 when the chart is drawn, 1 when container or list is refused, and 2 when a file cannot be read,
//! the chart cannot be written, or the command line is wrong.

mod arguments;
mod chart;
mod format;
mod page;
mod panel;
mod plot;
mod samples;
mod survey;
mod text;
mod ticks;
mod times;

use arguments::{Arguments, USAGE};
use beamsatchel_node::layout::{list, MAGIC, MAX_LENGTH};
use beamsatchel_node::{Fault, ListFault, ListedContainer, Refusal};
use chart::Chart;
use samples::Samples;
use std::fs::{self, File};
use std::io::{self, ErrorKind, Read, Write};
use std::os::unix::fs::MetadataExt;
use std::path::Path;
use std::process::ExitCode;

/// Why no chart was drawn.
enum Failure {
    /// The library refused, in words.
    Refused(String),
    /// Anything else, in words.
    Other(String),
    /// Whoever closed the pipe has seen enough.
    PipeClosed,
}

fn main() -> ExitCode {
    let (words, code) = match run() {
        Ok(()) => return ExitCode::SUCCESS,
        Err(Failure::Refused(words)) => (words, 1),
        Err(Failure::Other(words)) => (words, 2),
        Err(Failure::PipeClosed) => return ExitCode::from(2),
    };
    complain(&words);
    ExitCode::from(code)
}

fn run() -> Result<(), Failure> {
    let arguments = || std::env::args_os().skip(1);
    let mut options = arguments().take_while(|argument| argument != "--");
    if options.any(|option| option == "--help" || option == "-h") {
        return write(None, USAGE);
    }
    let arguments = Arguments::parse(arguments()).map_err(|fault| {
        Failure::Other(format!("{fault}; beamsatchel-chart --help has the options"))
    })?;
    let container = read(&arguments.container, MAX_LENGTH)?;
    let list = read(&arguments.list, list::LENGTH)?;
    if let Some(out) = &arguments.out {
        for (file, what) in [
            (&arguments.container, "container"),
            (&arguments.list, "list"),
        ] {
            if is_same(out, file) {
                return Err(Failure::Other(format!(
                    "--out {out:?} is the {what} itself"
                )));
            }
        }
    }
    let slot = ListedContainer::open(&container, &list)
        .map_err(|refusal| refused(&arguments, refusal, &container, &list))?;
    let (view, stretches) = match (slot.view(), slot.stretches()) {
        (Ok(view), Ok(stretches)) => (view, stretches),
        (Err(refusal), _) | (_, Err(refusal)) => {
            return Err(refused(&arguments, refusal, &container, &list));
        }
    };
    let samples = Samples::new(view.data(), stretches, &arguments.format);
    let chart = Chart::new(&samples, &arguments);
    for note in chart.warnings() {
        complain(&note);
    }
    write(arguments.out.as_deref(), &chart.to_svg())
}

/// Which file the library refused, with which outcome, and at which byte.
fn refused(arguments: &Arguments, refusal: Refusal, container: &[u8], list: &[u8]) -> Failure {
    let (file, fault) = match ListFault::find(container, list) {
        Some(fault) => (&arguments.list, Some(fault.to_string())),
        None => {
            let fault = Fault::find(container);
            (&arguments.container, fault.map(|fault| fault.to_string()))
        }
    };
    let mut words = format!("{file:?}: refused with outcome {refusal}");
    if let Some(fault) = fault {
        words += &format!("\n  {fault}");
    }
    if list.starts_with(MAGIC) {
        let list = &arguments.list;
        words += &format!("\n  {list:?} begins as a container: are the two files swapped?");
    }
    Failure::Refused(words)
}

/// One byte more than there can be tells that a file is too long.
fn read(file: &Path, most: usize) -> Result<Vec<u8>, Failure> {
    let mut bytes = Vec::new();
    let read = File::open(file).and_then(|open| open.take(most as u64 + 1).read_to_end(&mut bytes));
    read.map(|_| bytes)
        .map_err(|error| Failure::Other(format!("{file:?}: {error}")))
}

/// Whether two paths lead to one file, by links too.
fn is_same(one: &Path, other: &Path) -> bool {
    let identity = |file: &Path| fs::metadata(file).map(|file| (file.dev(), file.ino())).ok();
    identity(one).is_some_and(|one| Some(one) == identity(other))
}

/// Writes to the file, or to standard output.
fn write(out: Option<&Path>, text: &str) -> Result<(), Failure> {
    match out {
        Some(file) => {
            replace(file, text).map_err(|error| Failure::Other(format!("{file:?}: {error}")))
        }
        None => {
            let mut out = io::stdout().lock();
            let written = out.write_all(text.as_bytes()).and_then(|()| out.flush());
            written.map_err(|error| match error.kind() {
                ErrorKind::BrokenPipe => Failure::PipeClosed,
                _ => Failure::Other(format!("cannot write: {error}")),
            })
        }
    }
}

/// Writes beside the file that is asked for and then puts that in its place, so that a full disk leaves the old one.
fn replace(file: &Path, text: &str) -> io::Result<()> {
    let (place, permissions) = match File::options().write(true).open(file) {
        Ok(mut open) => match open.metadata()? {
            // A link to a file stays one.
            old if old.is_file() => (fs::canonicalize(file)?, Some(old.permissions())),
            // A pipe or a device.
            _ => return open.write_all(text.as_bytes()),
        },
        Err(error) if error.kind() == ErrorKind::NotFound => (file.to_path_buf(), None),
        Err(error) => return Err(error),
    };
    // What an ended process left is passed by.
    let mut number = std::process::id();
    let (beside, mut new) = loop {
        let beside = place.with_file_name(format!(".beamsatchel-chart.{number}"));
        match File::create_new(&beside) {
            Err(error) if error.kind() == ErrorKind::AlreadyExists => number += 1,
            new => break (beside, new?),
        }
    };
    let done = (new.write_all(text.as_bytes()))
        .and_then(|()| permissions.map_or(Ok(()), |old| new.set_permissions(old)))
        .and_then(|()| new.sync_all())
        .and_then(|()| fs::rename(&beside, &place));
    if done.is_err() {
        let _ = fs::remove_file(&beside);
    }
    done
}

/// Where standard error cannot be written either, the exit code has to do.
fn complain(words: &str) {
    let _ = writeln!(io::stderr(), "beamsatchel-chart: {words}");
}
