//! What the dump command says of containers good and bad, and how it ends.

mod common;

use beamsatchel_node::{Edition, ListedContainer, TestAndWrite};
use common::{bad_share, bounds, cut, fresh, lease, share, slot, with_data, ENABLER};
use std::ffi::{OsStr, OsString};
use std::fs::{self, File};
use std::io::{Read, Write};
use std::os::unix::ffi::OsStrExt;
use std::path::{Path, PathBuf};
use std::process::{ChildStdin, Command, Output, Stdio};
use std::thread;

const USAGE: &str = "usage: beamsatchel-dump [--secrets] [--data] [--] FILE...
       beamsatchel-dump [--secrets] [--data] --list LIST [--] FILE
       beamsatchel-dump --help
  --secrets    show write enabler and tokens
  --data       show the data
  --list LIST  show which stretches of the data nobody wrote, by the list in the
               file LIST; in the data their bytes are -- instead of 00
  --help, -h   show this
The exit code is 0 when every file holds a well-formed container, and LIST a
good list beside it, 1 when one is refused, 2 when one cannot be read, the
words cannot be written, or the command line is wrong.
";

fn command() -> Command {
    Command::new(env!("CARGO_BIN_EXE_beamsatchel-dump"))
}

/// Where a test may leave a file with this name; each test has its own folder, since they run at the same time.
fn place(test: &str, name: impl AsRef<OsStr>) -> PathBuf {
    let folder = Path::new(env!("CARGO_TARGET_TMPDIR")).join(test);
    fs::create_dir_all(&folder).unwrap();
    folder.join(name.as_ref())
}

/// Leaves a file with these bytes.
fn file(test: &str, name: impl AsRef<OsStr>, bytes: &[u8]) -> PathBuf {
    let path = place(test, name);
    fs::write(&path, bytes).unwrap();
    path
}

/// Standard output, standard error and exit code. A panic would have another code, and would be told.
fn ends(output: Output) -> (String, String, i32) {
    let stdout = String::from_utf8(output.stdout).unwrap();
    let stderr = String::from_utf8(output.stderr).unwrap();
    assert!(!stderr.contains("panicked"), "{stderr}");
    let code = output.status.code().expect("not ended by a signal");
    (stdout, stderr, code)
}

fn run(arguments: &[&OsStr]) -> (String, String, i32) {
    ends(command().args(arguments).output().unwrap())
}

/// Runs the command on a file with these bytes; gives its words after the file's name, and its exit code.
fn dump(test: &str, options: &[&str], bytes: &[u8]) -> (String, i32) {
    let path = file(test, "slot", bytes);
    let output = command().args(options).arg(&path).output().unwrap();
    let (words, complaints, code) = ends(output);
    assert_eq!(complaints, "");
    let words = words.strip_prefix(&format!("{path:?}\n")).unwrap();
    (words.to_string(), code)
}

fn hex(bytes: &[u8]) -> String {
    bytes.iter().map(|byte| format!("{byte:02x}")).collect()
}

/// The words for [`slot`] with [`share`] as data, with the secrets as `secret` shows them.
fn words_of_slot(edition: Edition, secret: impl Fn(&[u8; 32]) -> String) -> String {
    let enabler = secret(ENABLER.expose());
    let size = bounds(edition)[7];
    let (used, data_end) = (748 + size, 468 + size);
    let mut words = format!(
        "  buffer         2000 bytes, {used} in use
  node id        05060708090a0b0c0d0e0f101112131415161718
  write enabler  {enabler}
  data           {size} bytes at byte 468
  slack          0 bytes at byte {data_end}
  leases         2 present, in 4 places and 3 extra
"
    );
    for (place, owner, expiry, number) in [
        (2, 168_496_131, 268_435_756, 3),
        (6, 168_496_135, 268_436_156, 7),
    ] {
        let lease = lease(number);
        let [renewal, cancel] = [lease.renewal.expose(), lease.cancel.expose()].map(&secret);
        let node = hex(&lease.node.0);
        words += &format!(
            "    place {place}: owner {owner}, expiry {expiry}
      renewal token  {renewal}
      cancel token   {cancel}
      node id        {node}
"
        );
    }
    words
        + match edition {
            Edition::Sdmf => {
                "  share          SDMF, sequence number 72623859790382856, any 3 of 10 shares
    root hash              090a0b0c0d0e0f101112131415161718191a1b1c1d1e1f202122232425262728
    IV                     606162636465666768696a6b6c6d6e6f
    segment size           771
    data length            770
    verification key       5 bytes at byte 575
    signature              7 bytes at byte 580
    hash chain             136 bytes at byte 587
    block tree             32 bytes at byte 723
    share data             257 bytes at byte 755
    encrypted private key  11 bytes at byte 1012
"
            }
            Edition::Mdmf => {
                "  share          MDMF, sequence number 72623859790382856, any 3 of 10 shares
    root hash              090a0b0c0d0e0f101112131415161718191a1b1c1d1e1f202122232425262728
    segment size           288
    data length            770
    segments               3
    encrypted private key  11 bytes at byte 591
    hash chain             136 bytes at byte 602
    signature              7 bytes at byte 738
    verification key       5 bytes at byte 745
    spare                  9 bytes at byte 750
    share data             305 bytes at byte 759
    block tree             224 bytes at byte 1064
"
            }
        }
}

#[test]
fn secrets_are_not_shown() {
    for edition in Edition::ALL {
        let bytes = slot(2000, &share(edition));
        let hidden = words_of_slot(edition, |_| "(not shown)".to_string());
        assert_eq!(dump("hidden", &[], &bytes), (hidden, 0));
    }
}

#[test]
fn secrets_are_shown_when_asked_for() {
    for edition in Edition::ALL {
        let bytes = slot(2000, &share(edition));
        let shown = words_of_slot(edition, |secret| hex(secret));
        assert_eq!(dump("shown", &["--secrets"], &bytes), (shown, 0));
    }
}

/// Sixteen bytes to a row; what is not printable ASCII is a point; the last row is short, and its text stands below
/// the others'.
#[test]
fn data_is_shown_when_asked_for() {
    let data = b"\x00\x1F !AZaz}~\x7F\x80\xFF09|second row 16 b.end";
    assert_eq!(data.len(), 35);
    let (words, code) = dump("data", &["--data"], &slot(2000, data));
    let rows = "
         0  00 1f 20 21 41 5a 61 7a 7d 7e 7f 80 ff 30 39 7c  |.. !AZaz}~...09||
        16  73 65 63 6f 6e 64 20 72 6f 77 20 31 36 20 62 2e  |second row 16 b.|
        32  65 6e 64                                         |end|
";
    assert!(words.ends_with(rows), "{words}");
    assert_eq!(code, 0);
    assert!(words.contains("write enabler  (not shown)\n"));

    // Without the option the rows are all that is missing.
    let (without, _) = dump("data", &[], &slot(2000, data));
    assert_eq!(words.strip_suffix(&rows[1..]), Some(&without[..]));
    // A row that is full is the last; no data has no row.
    let (words, _) = dump("data", &["--data"], &slot(2000, &data[..16]));
    let row = &rows[1..rows[1..].find('\n').unwrap() + 2];
    assert!(words.ends_with(&format!("at byte 484\n{row}")), "{words}");
    let (words, _) = dump("data", &["--data"], &fresh(472));
    assert!(words.ends_with("                 at byte 468\n"), "{words}");
}

#[test]
fn both_options_in_any_place() {
    let path = file("both", "slot", &slot(2000, b"AB"));
    let mut words = Vec::new();
    for order in [
        ["--data", "--secrets", "FILE"],
        ["--secrets", "FILE", "--data"],
        ["FILE", "--data", "--secrets"],
    ] {
        let arguments = order.map(|argument| match argument {
            "FILE" => path.as_os_str(),
            option => OsStr::new(option),
        });
        let (stdout, stderr, code) = run(&arguments);
        assert_eq!((stderr, code), (String::new(), 0));
        assert!(stdout.contains(&hex(ENABLER.expose())));
        assert!(stdout.ends_with("|AB|\n"), "{stdout}");
        words.push(stdout);
    }
    assert!(words[0] == words[1] && words[1] == words[2]);
}

#[test]
fn a_fresh_container() {
    let (words, code) = dump("fresh", &[], &fresh(472));
    let expected = "  buffer         472 bytes, 472 in use
  node id        05060708090a0b0c0d0e0f101112131415161718
  write enabler  (not shown)
  data           0 bytes at byte 468
  slack          0 bytes at byte 468
  leases         0 present, in 4 places and 0 extra
  share          none, outcome 21: The share is shorter than its header, 107 bytes in SDMF and 123 in MDMF.
                 at byte 468
";
    assert_eq!((&words[..], code), (expected, 0));
    let (words, _) = dump("fresh", &[], &with_data(473, b"A"));
    assert!(words.contains("\n  data           1 byte at byte 468\n"));
}

/// What a cut left: the data is shorter, and as many bytes are in use as before it.
#[test]
fn slack_is_told_of() {
    for (new_length, slack) in [(34, "1 byte at byte 502"), (5, "30 bytes at byte 473")] {
        let before = slot(2000, b"thirty-five bytes, of which some go");
        let (words, code) = dump("slack", &["--data"], &cut(before, new_length));
        assert!(words.starts_with("  buffer         2000 bytes, 783 in use\n"));
        let told = format!(
            "
  data           {new_length} bytes at byte 468
  slack          {slack}
  leases         2 present, in 4 places and 3 extra
    place 2: owner 168496131, expiry 268435756
"
        );
        assert!(words.contains(&told), "{words}");
        assert!(words.contains("\n    place 6: owner 168496135, expiry 268436156\n"));
        assert_eq!(code, 0);
    }
    // It is no data.
    let (words, _) = dump("slack", &["--data"], &cut(with_data(500, b"abc"), 1));
    let row = format!("         0  {:<47}  |a|\n", "61");
    assert!(words.ends_with(&format!("at byte 469\n{row}")), "{words}");
}

/// Each field or part that a share is refused for begins at a byte that no other begins at.
#[test]
fn a_bad_share_names_the_byte() {
    let sdmf = [106, 0, 57, 59, 75, 119, 255, 287, 1].map(|byte| (Edition::Sdmf, byte));
    // The tree that is refused begins a byte too late.
    let mdmf = [122, 0, 41, 43, 59, 134, 597, 291, 1].map(|byte| (Edition::Mdmf, byte));
    for (number, (edition, byte)) in (21..=29).zip(sdmf).chain((21..=29).zip(mdmf)) {
        let bad = bad_share(edition, number);
        let (words, code) = dump("bad-share", &[], &slot(2000, &bad));
        let mut last = words.lines().rev();
        let at = match (number, edition) {
            (25, Edition::Sdmf) => "among the six offsets from byte",
            (25, Edition::Mdmf) => "among the eight offsets from byte",
            _ => "at byte",
        };
        let at = format!("                 {at} {}", 468 + byte);
        assert_eq!(last.next(), Some(&at[..]), "{number}");
        let outcome = format!("  share          none, outcome {number}: The share");
        assert!(last.next().unwrap().starts_with(&outcome));
        // The container is well formed all the same.
        assert_eq!(code, 0);
    }
}

/// A slot with its list: 40 bytes of data, of which 3 to 4, 6 to 21 and 30 were never written.
fn listed() -> (Vec<u8>, Vec<u8>) {
    let mut slot = ListedContainer::open(fresh(600), vec![0; 2_052]).unwrap();
    for (at, data) in [
        (0, &b"abc"[..]),
        (5, b"\0"),
        (22, b"W\0\0aaaaa"),
        (31, b"012345678"),
    ] {
        let request = TestAndWrite::new(ENABLER).write(at, data).unwrap();
        assert!(slot.test_and_write(&request, &mut []).unwrap().is_done());
    }
    slot.into_parts()
}

/// Runs the command on a slot with its list; gives its words after the file's name, and its exit code.
fn dump_listed(test: &str, options: &[&str], bytes: &[u8], list: &[u8]) -> (String, i32) {
    let list = file(test, "list", list);
    let list = list.to_str().unwrap();
    dump(test, &[options, &["--list", list]].concat(), bytes)
}

/// The stretches are told in words, and in the data a byte that nobody wrote is not one that is zero.
#[test]
fn what_was_never_written() {
    let (bytes, list) = listed();
    let told = "
  never written  19 bytes in 3 stretches
    positions 3 to 4, 2 bytes
    positions 6 to 21, 16 bytes
    position 30
";
    let rows = "         0  61 62 63 -- -- 00 -- -- -- -- -- -- -- -- -- --  |abc.............|
        16  -- -- -- -- -- -- 57 00 00 61 61 61 61 61 -- 30  |......W..aaaaa.0|
        32  31 32 33 34 35 36 37 38                          |12345678|
";
    let (words, code) = dump_listed("listed", &[], &bytes, &list);
    assert!(words.ends_with(told), "{words}");
    assert_eq!(code, 0);
    let (words, _) = dump_listed("listed", &["--data"], &bytes, &list);
    assert!(words.ends_with(&format!("{told}{rows}")), "{words}");
    // What is said of the container is the same.
    let (without, _) = dump("listed", &["--data"], &bytes);
    assert_eq!(words.replace(&told[1..], "").replace("--", "00"), without);

    let (words, code) = dump_listed("listed", &["--data"], &bytes, &[0; 2_052]);
    assert!(words.contains("\n  never written  0 bytes in 0 stretches\n"));
    assert_eq!(
        (
            words.replace("  never written  0 bytes in 0 stretches\n", ""),
            code
        ),
        (without, 0)
    );
    let (words, _) = dump_listed("listed", &[], &fresh(472), &[0; 2_052]);
    assert!(words.ends_with("\n  never written  0 bytes in 0 stretches\n"));
    // A row of data may be all of one stretch, also the last.
    let mut slot = ListedContainer::open(fresh(600), [0; 2_052]).unwrap();
    let request = TestAndWrite::new(ENABLER).write(20, b"A").unwrap().cut(17);
    assert!(slot.test_and_write(&request, &mut []).unwrap().is_done());
    let (words, _) = dump_listed("listed", &["--data"], slot.as_bytes(), slot.list_bytes());
    let dashes = [vec!["--"; 16].join(" "), format!("{:<47}", "--")];
    let told = format!(
        "  never written  17 bytes in 1 stretch
    positions 0 to 16, 17 bytes
         0  {}  |................|
        16  {}  |.|
",
        dashes[0], dashes[1]
    );
    assert!(words.ends_with(&told), "{words}");
}

/// The container is told of all the same, and of its data no byte is called never written.
#[test]
fn a_refused_list_names_the_byte() {
    let (bytes, list) = listed();
    let with = |at: usize, byte: u8| {
        let mut list = list.clone();
        list[at] = byte;
        list
    };
    let mut longer = list.clone();
    longer.resize(3_000, 0);
    for (list, fault) in [
        (&list[..2_051], "at byte 2051 of the list: the list is not 2,052 bytes long"),
        (&longer, "at byte 2052 of the list: the list is not 2,052 bytes long"),
        (&[], "at byte 0 of the list: the list is not 2,052 bytes long"),
        (&with(2, 2), "at byte 0 of the list: the number of rows is above 256"),
        (&with(19, 0), "at byte 16 of the list: a row's length is 0"),
        (&with(15, 5), "at byte 12 of the list: a row does not begin above the end of the row before it"),
        (&with(27, 11), "at byte 24 of the list: a row reaches behind the end of the data"),
        (&with(23, 40), "at byte 20 of the list: a row reaches behind the end of the data"),
        (&with(28, 1), "at byte 28 of the list: a byte after the last row is not zero"),
        (
            &with(19, 17),
            "at byte 12 of the list: a row names a byte of the data that is not zero, at position 22",
        ),
    ] {
        let (words, code) = dump_listed("refused-list", &["--data"], &bytes, list);
        let told = format!(
            "
  list           refused with outcome 16: The never-written list breaks its form, or names a byte outside the data \
             or one that is not zero.
                 {fault}
         0  61 62 63 00 00 00 "
        );
        assert!(words.contains(&told), "{words}");
        assert_eq!(code, 1);
    }
    // Of a list beside a refused container nothing is said.
    let (words, code) = dump_listed("refused-list", &[], &bytes[..471], &list);
    assert_eq!((words, code), (refused_length(471, "471 bytes"), 1));
}

#[test]
fn a_list_that_cannot_be_read() {
    let slot = file("no-list", "slot", &fresh(472));
    let [missing, other] = ["missing", "other"].map(|name| place("no-list", name));
    let complaint = format!("{missing:?}: No such file or directory (os error 2)\n");
    // Where neither can be read, it is the container that is named.
    for (list, container) in [(&missing, &slot), (&slot, &missing), (&other, &missing)] {
        let ended = run(&["--list".as_ref(), list.as_os_str(), container.as_os_str()]);
        assert_eq!(ended, (String::new(), complaint.clone(), 2));
    }
    // A list without end is read as far as a list can go.
    let output = Command::new("sh")
        .args([
            "-c",
            "ulimit -v 1000000 && exec \"$0\" --list /dev/zero \"$1\"",
        ])
        .arg(env!("CARGO_BIN_EXE_beamsatchel-dump"))
        .arg(&slot)
        .output();
    let (words, _, code) = ends(output.unwrap());
    assert!(words.ends_with("at byte 2052 of the list: the list is not 2,052 bytes long\n"));
    assert_eq!(code, 1);
}

#[test]
fn refused_files_name_the_byte() {
    // 10 bytes of data, the count at 478, extras at 482, 574 and 666, used up to 758.
    let good = slot(1000, b"ten bytes.");
    let with = |at: usize, byte: u8| {
        let mut bytes = good.clone();
        bytes[at] = byte;
        bytes
    };
    let mut without_last = good.clone();
    without_last[666..758].fill(0);
    for (bytes, fault) in [
        (with(31, 0), "at byte 31: the magic is not a container's"),
        (
            with(99, 0),
            "at byte 92: the offset of the extra-lease count is below 468 plus the data size at byte 84",
        ),
        (
            with(97, 1),
            "at byte 92: the extra-lease count or an extra lease is outside the buffer",
        ),
        (
            with(481, 61),
            "at byte 478: the extra-lease count is above 60",
        ),
        (
            with(481, 6),
            "at byte 478: the extra-lease count or an extra lease is outside the buffer",
        ),
        (
            with(91, 8),
            "at byte 476: a byte between data and extra-lease count is not zero",
        ),
        (
            with(200, 3),
            "at byte 200: a lease place with owner 0 is not all zeros",
        ),
        (
            without_last,
            "at byte 666: the last extra lease has no owner",
        ),
        (
            with(999, 1),
            "at byte 999: a byte after the used end is not zero",
        ),
    ] {
        // Also with the options, nothing of a refused file is shown.
        for options in [&[][..], &["--secrets", "--data"]] {
            let (words, code) = dump("refused", options, &bytes);
            let expected = format!(
                "  refused with outcome 2: The buffer does not hold a well-formed container.
  {fault}
  buffer         1000 bytes
"
            );
            assert_eq!((words, code), (expected, 1));
        }
    }
}

fn refused_length(byte: usize, length: &str) -> String {
    format!(
        "  refused with outcome 1: The container's buffer is not 472 to 16,777,216 bytes long.
  at byte {byte}: the buffer is not 472 to 16,777,216 bytes long
  buffer         {length}
"
    )
}

#[test]
fn files_of_no_allowed_length() {
    let dump = |bytes: &[u8]| dump("lengths", &[], bytes);
    assert_eq!(dump(&[]), (refused_length(0, "0 bytes"), 1));
    assert_eq!(dump(&[1]), (refused_length(1, "1 byte"), 1));
    assert_eq!(
        dump(&fresh(472)[..471]),
        (refused_length(471, "471 bytes"), 1)
    );
    let too_long = refused_length(16_777_216, "more than 16777216 bytes");
    let mut bytes = fresh(16_777_216);
    assert_eq!(dump(&bytes).1, 0);
    // The longest is told by its length also where it is refused.
    bytes[0] = 0;
    assert!(dump(&bytes)
        .0
        .ends_with("\n  buffer         16777216 bytes\n"));
    bytes.push(0);
    assert_eq!(dump(&bytes), (too_long.clone(), 1));
    bytes.resize(1 << 25, 0);
    assert_eq!(dump(&bytes), (too_long, 1));
}

/// A file without end is read as far as a container can go. Where it is not, the limit ends it.
#[test]
fn a_file_without_end() {
    let output = Command::new("sh")
        .args(["-c", "ulimit -v 1000000 && exec \"$0\" /dev/zero"])
        .arg(env!("CARGO_BIN_EXE_beamsatchel-dump"))
        .output();
    let too_long = refused_length(16_777_216, "more than 16777216 bytes");
    let expected = format!("\"/dev/zero\"\n{too_long}");
    assert_eq!(ends(output.unwrap()), (expected, String::new(), 1));
}

/// One byte more than a container can have is read, and what comes after is left where it is.
#[test]
fn no_more_is_read_than_needed() {
    let fifo = place("fifo", "fifo");
    let _ = fs::remove_file(&fifo);
    let made = Command::new("mkfifo").arg(&fifo).status();
    assert!(made.unwrap().success());
    let both_ends = File::options().read(true).write(true).open(&fifo);
    let mut both_ends = both_ends.unwrap();
    let mut writer = both_ends.try_clone().unwrap();
    let sent: Vec<u8> = (0..16_779_000_u32).map(|at| at as u8).collect();
    let to_send = sent.clone();
    // It is more than a pipe holds, and would wait for ever if nobody read it.
    let writing = thread::spawn(move || writer.write_all(&to_send).unwrap());
    // Whoever asks for more waits for it.
    let output = Command::new("timeout")
        .args(["20", env!("CARGO_BIN_EXE_beamsatchel-dump")])
        .arg(&fifo)
        .output();
    assert_eq!(ends(output.unwrap()).2, 1);
    writing.join().unwrap();
    let mut left = [0; 2_000];
    let count = both_ends.read(&mut left).unwrap();
    assert_eq!(left[..count], sent[16_777_217..]);
}

#[test]
fn what_cannot_be_read() {
    let missing = place("unreadable", "missing");
    let ended = run(&[missing.as_os_str()]);
    let complaint = format!("{missing:?}: No such file or directory (os error 2)\n");
    assert_eq!(ended, (String::new(), complaint, 2));

    let folder = missing.parent().unwrap();
    let ended = run(&[folder.as_os_str()]);
    let complaint = format!("{folder:?}: Is a directory (os error 21)\n");
    assert_eq!(ended, (String::new(), complaint, 2));
}

/// The exit code is the highest of all files, in whatever order they come, and each file is told of.
#[test]
fn several_files() {
    let good = (file("several", "good", &fresh(472)), 0);
    let refused = (file("several", "refused", &[0; 472]), 1);
    let missing = (place("several", "missing"), 2);
    let orders = [
        vec![&good, &good],
        vec![&good, &refused],
        vec![&refused, &good],
        vec![&refused, &refused],
        vec![&good, &missing],
        vec![&missing, &good],
        vec![&refused, &missing],
        vec![&missing, &refused],
        vec![&good, &refused, &missing],
        vec![&good, &missing, &refused],
        vec![&refused, &good, &missing],
        vec![&refused, &missing, &good],
        vec![&missing, &good, &refused],
        vec![&missing, &refused, &good],
    ];
    for order in orders {
        let arguments: Vec<&OsStr> = order.iter().map(|(path, _)| path.as_os_str()).collect();
        let (stdout, stderr, code) = run(&arguments);
        let codes = order.iter().map(|(_, code)| *code);
        assert_eq!(code, codes.max().unwrap(), "{order:?}");
        let read = order.iter().filter(|(_, code)| *code < 2);
        let expected: Vec<String> = read.map(|(path, _)| format!("{path:?}")).collect();
        let names: Vec<&str> = stdout
            .lines()
            .filter(|line| !line.starts_with(' '))
            .collect();
        assert_eq!(names, expected);
        assert_eq!(stderr.lines().count(), order.len() - expected.len());
    }
}

/// A name is one line, in quotes, and moves no cursor.
#[test]
fn a_name_that_would_forge_lines() {
    // The last two are a next line and a turn of the direction of writing.
    let name = "slot\n  buffer         472 bytes\r\x1B[2J\"\u{85}\u{202E}";
    let told = r#"slot\n  buffer         472 bytes\r\u{1b}[2J\"\u{85}\u{202e}""#;
    let path = file("forged", name, &fresh(472));
    let (stdout, stderr, code) = run(&[path.as_os_str()]);
    assert_eq!((stderr, code), (String::new(), 0));
    assert_eq!(stdout.lines().count(), 9);
    let first = stdout.lines().next().unwrap();
    assert!(first.starts_with('"') && first.ends_with(told), "{first}");
    assert!(!stdout.contains('\x1B'));

    fs::remove_file(&path).unwrap();
    let (stdout, stderr, code) = run(&[path.as_os_str()]);
    assert_eq!((stdout, code), (String::new(), 2));
    assert_eq!(stderr.lines().count(), 1);
    assert!(
        stderr.contains(told) && !stderr.contains('\x1B'),
        "{stderr}"
    );
}

#[test]
fn a_name_that_is_not_utf_8() {
    let name = OsStr::from_bytes(b"slot\xFF\xC0");
    let path = file("not-utf-8", name, &fresh(472));
    let (stdout, stderr, code) = run(&[path.as_os_str()]);
    assert_eq!((stderr, code), (String::new(), 0));
    let first = stdout.lines().next().unwrap();
    assert!(first.ends_with("slot\\xFF\\xC0\""), "{first}");

    fs::remove_file(&path).unwrap();
    let (_, stderr, code) = run(&[path.as_os_str()]);
    assert!(
        stderr.contains("slot\\xFF\\xC0\": No such file"),
        "{stderr}"
    );
    assert_eq!(code, 2);
}

#[test]
fn a_name_that_begins_with_a_dash() {
    let folder = file("dash", "--data", &fresh(472));
    let folder = folder.parent().unwrap();
    fs::write(folder.join("--"), [0; 472]).unwrap();
    let dump = |arguments: &[&str]| {
        let mut command = command();
        ends(
            command
                .current_dir(folder)
                .args(arguments)
                .output()
                .unwrap(),
        )
    };
    let (stdout, stderr, code) = dump(&["--", "--data"]);
    assert!(stdout.starts_with("\"--data\"\n  buffer"), "{stdout}");
    assert_eq!((stderr, code), (String::new(), 0));
    // After the first `--` a second is a name.
    let (stdout, stderr, code) = dump(&["--", "--data", "--"]);
    assert!(
        stdout.contains("\n\"--\"\n  refused with outcome 2"),
        "{stdout}"
    );
    assert_eq!((stderr, code), (String::new(), 1));
}

#[test]
fn a_wrong_command_line() {
    let slot = file("usage", "slot", &fresh(472));
    let usage = |fault: &str| (String::new(), format!("{fault}\n{USAGE}"), 2);
    let no_file = [
        &[][..],
        &["--"],
        &["--data"],
        &["--secrets", "--data", "--"],
    ];
    for arguments in no_file {
        let output = command().args(arguments).output().unwrap();
        assert_eq!(ends(output), usage("FILE is missing"), "{arguments:?}");
    }
    // What is unknown is told before any file is read.
    for unknown in ["-", "-H", "--secret", "--data=1", "--help=all"] {
        let ended = run(&[slot.as_os_str(), unknown.as_ref()]);
        assert_eq!(ended, usage(&format!("there is no option {unknown:?}")));
    }
    let unknown = OsStr::from_bytes(b"-\xFF");
    let fault = "there is no option \"-\\xFF\"";
    assert_eq!(run(&[slot.as_os_str(), unknown]), usage(fault));
    // A list stands beside one file, and there is one list.
    let (slot, list) = (slot.as_os_str(), OsStr::new("--list"));
    for (arguments, fault) in [
        (&[list][..], "--list needs a file"),
        (&[slot, list], "--list needs a file"),
        (&[list, slot, list], "--list needs a file"),
        (&[list, slot], "FILE is missing"),
        (&[list, slot, slot, slot], "with --list there is one FILE"),
        (&[list, slot, list, slot, slot], "--list is given twice"),
    ] {
        assert_eq!(run(arguments), usage(fault), "{arguments:?}");
    }
}

/// The list may be named before the file or behind it, and may have any name.
#[test]
fn a_list_in_any_place() {
    let folder = file("list-place", "slot", &fresh(472));
    let folder = folder.parent().unwrap();
    fs::write(folder.join("--data"), [0; 2_052]).unwrap();
    for arguments in [
        &["--list", "--data", "slot"][..],
        &["slot", "--list", "--data"],
        &["--list", "--data", "--", "slot"],
    ] {
        let output = command().current_dir(folder).args(arguments).output();
        let (stdout, stderr, code) = ends(output.unwrap());
        assert!(
            stdout.ends_with("  never written  0 bytes in 0 stretches\n"),
            "{stdout}"
        );
        assert_eq!((stderr, code), (String::new(), 0));
    }
}

#[test]
fn help_is_what_was_asked_for() {
    let ended = run(&["--help".as_ref()]);
    assert_eq!(ended, (USAGE.to_string(), String::new(), 0));
    // Anywhere, whatever else is right or wrong, and also in short.
    for arguments in [
        &["-h"][..],
        &["no file", "--help"],
        &["--wrong", "-h", "--", "no file"],
        &["--list", "-h"],
    ] {
        let output = command().args(arguments).output().unwrap();
        assert_eq!(ends(output), ended, "{arguments:?}");
    }
    // Behind `--` it is a file.
    for name in ["--help", "-h"] {
        let complaint = format!("{name:?}: No such file or directory (os error 2)\n");
        let output = command().args(["--", name]).output().unwrap();
        assert_eq!(ends(output), (String::new(), complaint, 2));
    }
    let full = File::options().write(true).open("/dev/full").unwrap();
    let output = command().arg("--help").stdout(full).output().unwrap();
    assert_eq!(ends(output).2, 2);
}

/// A complaint stands between the dumps of two files, where both outputs go to one place.
#[test]
fn complaints_stand_in_their_place() {
    let good = file("in-place", "good", &fresh(472));
    let missing = place("in-place", "missing");
    let both = place("in-place", "both");
    let out = File::create(&both).unwrap();
    let status = command()
        .args([&good, &missing, &good])
        .stdout(out.try_clone().unwrap())
        .stderr(out)
        .status()
        .unwrap();
    assert_eq!(status.code(), Some(2));
    let text = fs::read_to_string(&both).unwrap();
    let names: Vec<&str> = text.lines().filter(|line| !line.starts_with(' ')).collect();
    let complaint = format!("{missing:?}: ");
    assert_eq!(names.len(), 3, "{text}");
    let dumped = format!("{good:?}");
    assert_eq!([names[0], names[2]], [&dumped, &dumped]);
    assert!(names[1].starts_with(&complaint), "{text}");
}

/// A long dump of several files, so that the buffer before standard output is written in between.
fn long_dump(test: &str) -> Vec<OsString> {
    let path = file(test, "long", &with_data(65_536, &[7; 60_000]));
    let mut arguments = vec![OsString::from("--data")];
    arguments.extend(vec![path.into_os_string(); 2]);
    arguments
}

/// The writing end of a pipe whose reading end is closed: the process that had it is gone.
fn closed_pipe() -> ChildStdin {
    let mut reader = Command::new("true").stdin(Stdio::piped()).spawn().unwrap();
    let mut writer = reader.stdin.take().unwrap();
    reader.wait().unwrap();
    // A process that another test is just starting may still have the reading end.
    while writer.write(&[0]).is_ok() {}
    writer
}

/// Whoever closed the pipe has seen enough: no word of it, but the code tells that not all was written.
#[test]
fn a_closed_pipe() {
    let short = file("pipe", "short", &fresh(472)).into_os_string();
    for arguments in [long_dump("pipe"), vec![short]] {
        let output = command().args(arguments).stdout(closed_pipe()).output();
        let ended = ends(output.unwrap());
        assert_eq!(ended, (String::new(), String::new(), 2));
    }
}

#[test]
fn a_full_device() {
    let short = file("full", "short", &fresh(472)).into_os_string();
    // The short one is written at the end alone.
    for arguments in [long_dump("full"), vec![short]] {
        let full = File::options().write(true).open("/dev/full").unwrap();
        let output = command().args(arguments).stdout(full).output().unwrap();
        let complaint = "cannot write: No space left on device (os error 28)\n";
        assert_eq!(ends(output), (String::new(), complaint.to_string(), 2));
    }
}

#[test]
fn complaints_that_cannot_be_written() {
    let missing = place("mute", "missing");
    let slot = file("mute", "slot", &fresh(472));
    let full = || File::options().write(true).open("/dev/full").unwrap();
    let mute = |arguments: &[&Path]| {
        let output = command().args(arguments).stderr(full()).output().unwrap();
        ends(output)
    };
    assert_eq!(mute(&[&missing]), (String::new(), String::new(), 2));
    assert_eq!(mute(&[]), (String::new(), String::new(), 2));
    // The next file is dumped all the same.
    let (stdout, _, code) = mute(&[&missing, &slot]);
    assert!(stdout.starts_with(&format!("{slot:?}\n  buffer")));
    assert_eq!(code, 2);
    let status = command().arg(&slot).stdout(full()).stderr(full()).status();
    assert_eq!(status.unwrap().code(), Some(2));
}
