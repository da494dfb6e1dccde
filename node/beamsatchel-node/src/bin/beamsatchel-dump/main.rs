//! Dumps container files in words: fields, data size and slack, leases, the share in the data, the stretches that the
//! list beside one names, or why a file is refused and at which byte.
//!
//! The exit code is 0 when every file holds a well-formed container, and a list one that is good beside it, 1 when one
//! is refused, and 2 when one cannot be read, the words cannot be written, or the command line is wrong.

mod words;

use beamsatchel_node::layout::{list, MAX_LENGTH};
use std::ffi::OsString;
use std::fs::File;
use std::io::{self, ErrorKind, Read, Write};
use std::path::{Path, PathBuf};
use std::process::ExitCode;
use words::{dump, Shown};

const USAGE: &str = "usage: beamsatchel-dump [--secrets] [--data] [--] FILE...
       beamsatchel-dump [--secrets] [--data] --list LIST [--] FILE
       beamsatchel-dump --help
  --secrets    show write enabler and tokens
  --data       show the data
  --list LIST  show which stretches of the data nobody wrote, by the list in the
               file LIST; in the data their bytes are -- instead of 00
  --help, -h   show this
The exit code is 0 when every file holds a well-formed container, and LIST a
good list beside it, 1 when one is refused, 2 when one cannot be read, the
words cannot be written, or the command line is wrong.
";

fn main() -> ExitCode {
    let given = || std::env::args_os().skip(1);
    let mut options = given().take_while(|argument| argument != "--");
    if options.any(|option| option == "--help" || option == "-h") {
        let written = io::stdout().write_all(USAGE.as_bytes());
        return ExitCode::from(if written.is_ok() { 0 } else { 2 });
    }
    let asked = match arguments(given()) {
        Ok(asked) => asked,
        Err(fault) => {
            complain(&format!("{fault}\n{USAGE}"));
            return ExitCode::from(2);
        }
    };
    let mut out = io::BufWriter::new(io::stdout().lock());
    let dumped = dump_all(&asked, &mut out).and_then(|code| out.flush().map(|()| code));
    match dumped {
        Ok(code) => ExitCode::from(code),
        Err(error) => {
            // Whoever closed the pipe has seen enough.
            if error.kind() != ErrorKind::BrokenPipe {
                complain(&format!("cannot write: {error}\n"));
            }
            ExitCode::from(2)
        }
    }
}

/// What is to be shown, of which files, and the list beside the only one.
#[derive(Default)]
struct Asked {
    shown: Shown,
    files: Vec<PathBuf>,
    list: Option<PathBuf>,
}

/// What is asked for, or what is wrong with the command line.
fn arguments(mut arguments: impl Iterator<Item = OsString>) -> Result<Asked, String> {
    let mut asked = Asked::default();
    let mut only_files = false;
    while let Some(argument) = arguments.next() {
        match argument.as_encoded_bytes() {
            _ if only_files => asked.files.push(argument.into()),
            b"--" => only_files = true,
            b"--secrets" => asked.shown.secrets = true,
            b"--data" => asked.shown.data = true,
            b"--list" => {
                let list = arguments.next().ok_or("--list needs a file")?;
                if asked.list.replace(list.into()).is_some() {
                    return Err("--list is given twice".to_string());
                }
            }
            [b'-', ..] => return Err(format!("there is no option {argument:?}")),
            _ => asked.files.push(argument.into()),
        }
    }
    match (&asked.list, asked.files.len()) {
        (_, 0) => Err("FILE is missing".to_string()),
        (Some(_), 2..) => Err("with --list there is one FILE".to_string()),
        _ => Ok(asked),
    }
}

/// Dumps each file; the highest code of all. Only a failure to write stops it.
fn dump_all(asked: &Asked, out: &mut impl Write) -> io::Result<u8> {
    let mut code = 0;
    for file in &asked.files {
        let list = asked.list.as_ref().map(|list| read(list, list::LENGTH));
        match (read(file, MAX_LENGTH), list.transpose()) {
            (Ok(bytes), Ok(list)) => {
                // Quoted and escaped, so that a name cannot look like a line of the dump.
                writeln!(out, "{file:?}")?;
                let good = dump(&bytes, list.as_deref(), asked.shown, out)?;
                code = code.max(u8::from(!good));
            }
            (Err(complaint), _) | (_, Err(complaint)) => {
                // Where both go to one place, it must not stand inside the dump of another file.
                out.flush()?;
                complain(&complaint);
                code = 2;
            }
        }
    }
    Ok(code)
}

/// The bytes of a file, or why they cannot be read. One byte more than there can be tells that it is too long.
fn read(file: &Path, most: usize) -> Result<Vec<u8>, String> {
    let mut bytes = Vec::new();
    let read = File::open(file).and_then(|open| open.take(most as u64 + 1).read_to_end(&mut bytes));
    read.map(|_| bytes)
        .map_err(|error| format!("{file:?}: {error}\n"))
}

/// Where standard error cannot be written either, the exit code has to do.
fn complain(text: &str) {
    let _ = io::stderr().write_all(text.as_bytes());
}
