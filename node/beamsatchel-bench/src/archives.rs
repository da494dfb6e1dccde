//! Archives of the library against each other: what a change makes of its speed.
//!
//! Where the linker puts a loop moves its time by a tenth, and so does where a buffer lies. Each
//! archive is therefore loaded at four places, every time 16 bytes further on, and all work in turn
//! on the same buffers. Each begins there with a container as it was made, since one that follows
//! other rules may refuse what another left. A row gives the mean over the four.

#![allow(unsafe_code)]

use crate::contest::{contest, contest_each, Samples, Side};
use crate::lengths;
use crate::listed;
use crate::work::{self, Player, Slot};
use beamsatchel_node::ffi::{
    EditionArguments, RawAnswer, RawShare, RawWrittenShare, ShareArguments,
};
use std::cell::RefCell;
use std::collections::HashSet;
use std::ffi::{c_char, c_int, c_void, CStr, CString};
use std::hint::black_box;
use std::mem::transmute;
use std::os::unix::ffi::OsStrExt;
use std::path::{Path, PathBuf};
use std::process::Command;
use std::{env, fs, process};

/// What a processor fetches at once, in bytes.
const BLOCK: usize = 64;
/// Functions begin at multiples of 16.
const PLACES: usize = BLOCK / 16;
/// What a row says that not every archive can have.
const LEFT_OUT: &str = "left out, since not every archive takes it";
/// dlopen's flag to resolve all names at once.
const NOW: c_int = 2;

type Apply = unsafe extern "C" fn(*mut u8, usize, *const u8, usize, *mut u8, usize) -> RawAnswer;
type ApplyListed = unsafe extern "C" fn(
    *mut u8,
    usize,
    *mut u8,
    usize,
    *const u8,
    usize,
    *mut u8,
    usize,
) -> RawAnswer;
type ReadListed = unsafe extern "C" fn(
    *const u8,
    usize,
    *const u8,
    usize,
    *const u8,
    usize,
    *mut u8,
    usize,
) -> RawAnswer;
/// An archive of a version before 0.7.0 fills less of the answer, which begins with the number all the same.
type Check = unsafe extern "C" fn(*const u8, usize) -> RawShare;
type WriteMdmf = unsafe extern "C" fn(
    u64,
    *const u8,
    usize,
    u8,
    u8,
    u64,
    u64,
    *const u8,
    usize,
    *const u8,
    usize,
    *const u8,
    usize,
    *const u8,
    usize,
    *const u8,
    usize,
    *const u8,
    usize,
    *const u8,
    usize,
    *mut u8,
    usize,
) -> RawWrittenShare;
type WriteSdmf = unsafe extern "C" fn(
    u64,
    *const u8,
    usize,
    *const u8,
    usize,
    u8,
    u8,
    u64,
    *const u8,
    usize,
    *const u8,
    usize,
    *const u8,
    usize,
    *const u8,
    usize,
    *const u8,
    usize,
    *const u8,
    usize,
    *mut u8,
    usize,
) -> RawWrittenShare;

unsafe extern "C" {
    fn dlopen(path: *const c_char, flags: c_int) -> *mut c_void;
    fn dlsym(library: *mut c_void, name: *const c_char) -> *mut c_void;
}

/// The functions of one archive at one place.
struct Library {
    apply: Apply,
    check_share: Check,
    check_container: Check,
    /// An archive of a version before 0.3.0 has none.
    write_sdmf: Option<WriteSdmf>,
    /// One before 0.7.0 has none.
    write_mdmf: Option<WriteMdmf>,
    /// Nor has one that knows no lists these.
    apply_listed: Option<ApplyListed>,
    read_listed: Option<ReadListed>,
}

impl Library {
    /// Loads a shared object that holds the library.
    fn load(object: &Path) -> Result<Library, String> {
        let path = CString::new(object.as_os_str().as_bytes()).expect("no zero byte");
        // SAFETY: the path ends with a zero byte. The library runs nothing when it is loaded, and is
        // never closed.
        let loaded = unsafe { dlopen(path.as_ptr(), NOW) };
        if loaded.is_null() {
            return Err(format!("cannot load {}", object.display()));
        }
        let find = |name: &CStr| {
            // SAFETY: the library is loaded, and the name ends with a zero byte.
            let found = unsafe { dlsym(loaded, name.as_ptr()) };
            if found.is_null() {
                return Err(format!("the archive has no {name:?}"));
            }
            Ok(found)
        };
        let apply = find(c"beamsatchel_apply")?;
        let check_share =
            find(c"beamsatchel_check_bare_share").or_else(|_| find(c"beamsatchel_check_share"))?;
        let check_container = find(c"beamsatchel_check_share_in")
            .or_else(|_| find(c"beamsatchel_check_container"))?;
        // Before 0.7.0 it was the only writer, and named so.
        let write_sdmf =
            find(c"beamsatchel_write_sdmf").or_else(|_| find(c"beamsatchel_write_share"));
        let write_sdmf = write_sdmf.ok();
        let write_mdmf = find(c"beamsatchel_write_mdmf").ok();
        let apply_listed = find(c"beamsatchel_apply_listed").ok();
        let read_listed = find(c"beamsatchel_read_listed").ok();
        // SAFETY: the types are those of include/beamsatchel.h.
        unsafe {
            Ok(Library {
                apply: transmute::<*mut c_void, Apply>(apply),
                check_share: transmute::<*mut c_void, Check>(check_share),
                check_container: transmute::<*mut c_void, Check>(check_container),
                write_sdmf: write_sdmf.map(|found| transmute::<*mut c_void, WriteSdmf>(found)),
                write_mdmf: write_mdmf.map(|found| transmute::<*mut c_void, WriteMdmf>(found)),
                apply_listed: apply_listed
                    .map(|found| transmute::<*mut c_void, ApplyListed>(found)),
                read_listed: read_listed.map(|found| transmute::<*mut c_void, ReadListed>(found)),
            })
        }
    }

    fn apply(&self, container: &mut [u8], request: &[u8], reply: &mut [u8]) -> u32 {
        // SAFETY: pointer and length of each are those of one live slice, and none overlaps another.
        let answer = unsafe {
            (self.apply)(
                container.as_mut_ptr(),
                container.len(),
                request.as_ptr(),
                request.len(),
                reply.as_mut_ptr(),
                reply.len(),
            )
        };
        answer.number
    }

    /// The function of this kind that works beside a list; none where the archive knows no lists.
    fn beside_list(&self, kind: listed::Kind) -> Option<Box<listed::Call<'static>>> {
        Some(match kind {
            listed::Kind::Apply => {
                let apply = self.apply_listed?;
                Box::new(move |c, l, q, r| apply_listed(apply, (c, l), q, r).number)
            }
            listed::Kind::Read => {
                let read = self.read_listed?;
                Box::new(move |c, l, q, r| read_listed(read, (c, l), q, r).number)
            }
        })
    }

    /// Writes a share; none where there is no writer of its edition.
    fn write(&self, share: &ShareArguments, space: &mut [u8]) -> Option<u32> {
        let written = match share.edition {
            EditionArguments::Sdmf { iv } => write_sdmf(self.write_sdmf?, share, iv, space),
            EditionArguments::Mdmf {
                segment_size,
                spare,
            } => write_mdmf(self.write_mdmf?, share, (segment_size, spare), space),
        };
        Some(written.number)
    }
}

fn apply_listed(
    apply: ApplyListed,
    (container, list): (&mut [u8], &mut [u8]),
    request: &[u8],
    reply: &mut [u8],
) -> RawAnswer {
    // SAFETY: pointer and length of each are those of one live slice, and none overlaps another.
    unsafe {
        apply(
            container.as_mut_ptr(),
            container.len(),
            list.as_mut_ptr(),
            list.len(),
            request.as_ptr(),
            request.len(),
            reply.as_mut_ptr(),
            reply.len(),
        )
    }
}

fn read_listed(
    read: ReadListed,
    (container, list): (&[u8], &[u8]),
    request: &[u8],
    reply: &mut [u8],
) -> RawAnswer {
    // SAFETY: as for `apply_listed`; container and list are only read.
    unsafe {
        read(
            container.as_ptr(),
            container.len(),
            list.as_ptr(),
            list.len(),
            request.as_ptr(),
            request.len(),
            reply.as_mut_ptr(),
            reply.len(),
        )
    }
}

/// Checks bytes that hold a share; gives the outcome.
fn check(check: Check, bytes: &[u8]) -> u32 {
    let bytes = black_box(bytes);
    // SAFETY: pointer and length are those of one live slice, which is only read.
    unsafe { check(bytes.as_ptr(), bytes.len()) }.number
}

fn write_sdmf(
    write: WriteSdmf,
    share: &ShareArguments,
    iv: &[u8],
    space: &mut [u8],
) -> RawWrittenShare {
    // SAFETY: pointer and length of each are those of one live slice, and the space overlaps no other.
    unsafe {
        write(
            share.sequence_number,
            share.root_hash.as_ptr(),
            share.root_hash.len(),
            iv.as_ptr(),
            iv.len(),
            share.k,
            share.n,
            share.data_length,
            share.verification_key.as_ptr(),
            share.verification_key.len(),
            share.signature.as_ptr(),
            share.signature.len(),
            share.hash_chain.as_ptr(),
            share.hash_chain.len(),
            share.block_tree.as_ptr(),
            share.block_tree.len(),
            share.share_data.as_ptr(),
            share.share_data.len(),
            share.encrypted_private_key.as_ptr(),
            share.encrypted_private_key.len(),
            space.as_mut_ptr(),
            space.len(),
        )
    }
}

fn write_mdmf(
    write: WriteMdmf,
    share: &ShareArguments,
    (segment_size, spare): (u64, &[u8]),
    space: &mut [u8],
) -> RawWrittenShare {
    // SAFETY: as for `write_sdmf`.
    unsafe {
        write(
            share.sequence_number,
            share.root_hash.as_ptr(),
            share.root_hash.len(),
            share.k,
            share.n,
            segment_size,
            share.data_length,
            share.encrypted_private_key.as_ptr(),
            share.encrypted_private_key.len(),
            share.hash_chain.as_ptr(),
            share.hash_chain.len(),
            share.signature.as_ptr(),
            share.signature.len(),
            share.verification_key.as_ptr(),
            share.verification_key.len(),
            spare.as_ptr(),
            spare.len(),
            share.share_data.as_ptr(),
            share.share_data.len(),
            share.block_tree.as_ptr(),
            share.block_tree.len(),
            space.as_mut_ptr(),
            space.len(),
        )
    }
}

/// Makes a shared object of the archive, its code `shift` bytes further on.
fn link(archive: &Path, shift: usize, object: &Path) -> Result<(), String> {
    let before = object.with_extension("s");
    let bytes = BLOCK + shift;
    let source = format!(
        ".section .note.GNU-stack,\"\",@progbits
         .section .text.before,\"ax\",@progbits
         .balign {BLOCK}
         .skip {bytes}, 0x90\n"
    );
    fs::write(&before, source).map_err(|error| format!("{}: {error}", before.display()))?;
    let status = Command::new("cc")
        .args(["-shared", "-o"])
        .args([object, &before])
        .arg("-Wl,--whole-archive")
        .arg(archive)
        .arg("-Wl,--no-whole-archive")
        .status()
        .map_err(|error| format!("cannot run cc: {error}"))?;
    if !status.success() {
        return Err(format!("cc cannot link {}", archive.display()));
    }
    Ok(())
}

/// A folder that goes when it is dropped.
struct Folder(PathBuf);

impl Folder {
    fn new() -> Result<Folder, String> {
        let path = env::temp_dir().join(format!("beamsatchel-bench-{}", process::id()));
        fs::create_dir_all(&path).map_err(|error| format!("{}: {error}", path.display()))?;
        Ok(Folder(path))
    }
}

impl Drop for Folder {
    fn drop(&mut self) {
        // Nobody is left to hear of a fault.
        let _ = fs::remove_dir_all(&self.0);
    }
}

/// Each archive at each place.
fn load_all(archives: &[PathBuf]) -> Result<Vec<Library>, String> {
    let folder = Folder::new()?;
    let mut libraries = Vec::new();
    for archive in archives {
        // Whole, so that cc takes no name for an option.
        let archive =
            fs::canonicalize(archive).map_err(|error| format!("{}: {error}", archive.display()))?;
        for shift in (0..BLOCK).step_by(BLOCK / PLACES) {
            let object = folder.0.join(format!("{}.so", libraries.len()));
            link(&archive, shift, &object)?;
            libraries.push(Library::load(&object)?);
        }
        let places = &libraries[libraries.len() - PLACES..];
        let apart: HashSet<usize> = places
            .iter()
            .map(|one| one.apply as usize % BLOCK)
            .collect();
        assert_eq!(apart.len(), PLACES, "the linker moved the code elsewhere");
    }
    Ok(libraries)
}

/// Prints a row for each workload: nanoseconds for each archive, and how many times as long as the
/// first.
pub fn against_each_other(archives: &[PathBuf]) -> Result<(), String> {
    let libraries = load_all(archives)?;
    println!("medians, ns per call, mean of {PLACES} places; how many times as long as the first");
    for archive in archives {
        println!("  {}", archive.display());
    }
    for workload in work::rows() {
        let player = RefCell::new(Player::new(&workload));
        let mut takes =
            |library: &Library| player.borrow_mut().takes(&|c, q, r| library.apply(c, q, r));
        if !libraries.iter().all(&mut takes) {
            println!("{:<50} {LEFT_OUT}", workload.name);
            continue;
        }
        let play = |library: &Library| {
            player.borrow_mut().play(&|c, q, r| library.apply(c, q, r));
        };
        let begin = |library: &Library| {
            player.borrow_mut().begin(&|c, q, r| library.apply(c, q, r));
        };
        row_from(&workload.name, &libraries, begin, play);
    }
    listed_rows(&libraries);
    long_rows(&libraries);
    for (name, share) in work::bare_shares() {
        share_row(name, &libraries, |library| {
            Some(check(library.check_share, &share))
        });
    }
    let container = Slot::with_share(60 * 1024);
    let name = "check a share in a 60 KiB container";
    share_row(name, &libraries, |library| {
        Some(check(library.check_container, &container))
    });
    for (name, source) in work::new_shares() {
        let length = source.new_share().length() as usize;
        let (share, space) = (source.arguments(), RefCell::new(vec![0; length]));
        share_row(name, &libraries, |library| {
            library.write(black_box(&share), &mut space.borrow_mut())
        });
    }
    Ok(())
}

/// A row of calls that are done, with outcome 0. It is left out where an archive does not know that edition of a share,
/// or has no writer of it.
fn share_row(name: &str, libraries: &[Library], call: impl Fn(&Library) -> Option<u32>) {
    if libraries.iter().any(|library| call(library) != Some(0)) {
        println!("{name:<50} {LEFT_OUT}");
        return;
    }
    row(name, libraries, |library| {
        assert_eq!(call(library), Some(0))
    });
}

fn row(name: &str, libraries: &[Library], call: impl Fn(&Library)) {
    row_from(name, libraries, |_| {}, call);
}

/// A row whose samples each need something done before.
fn row_from(name: &str, libraries: &[Library], begin: impl Fn(&Library), call: impl Fn(&Library)) {
    let call = &call;
    let mut sides: Vec<Side> = libraries
        .iter()
        .map(|library| Box::new(move || call(library)) as Side)
        .collect();
    let times = contest(&mut sides, |side| begin(&libraries[side]));
    print_row(name, &times);
}

/// Slots with their lists; where every archive takes them.
fn listed_rows(libraries: &[Library]) {
    for row in listed::rows() {
        let player = RefCell::new(listed::Player::new(&row));
        let calls = libraries.iter().map(|library| {
            let call = library.beside_list(row.kind);
            call.filter(|call| player.borrow_mut().takes(call))
        });
        let Some(calls) = calls.collect::<Option<Vec<_>>>() else {
            println!("lists are left out, since not every archive takes them");
            return;
        };
        let play = |call| player.borrow_mut().play(call);
        let mut sides: Vec<Side> = calls
            .iter()
            .map(|call| Box::new(move || play(call)) as Side)
            .collect();
        let times = contest(&mut sides, |side| player.borrow_mut().begin(&calls[side]));
        player.borrow().assert_done();
        print_row(&format!("list: {}", row.name), &times);
    }
}

/// Long containers, each call on one as it was made; where every archive takes them.
fn long_rows(libraries: &[Library]) {
    for row in lengths::rows() {
        let made = row.container();
        let (buffer, reply) = (
            RefCell::new(made.clone()),
            RefCell::new(vec![0; made.len()]),
        );
        let call = |library: &Library| {
            let (buffer, reply) = (&mut buffer.borrow_mut(), &mut reply.borrow_mut());
            library.apply(buffer, black_box(&row.request), reply)
        };
        let ready = || buffer.borrow_mut().copy_from_slice(&made);
        for library in libraries {
            ready();
            if call(library) != 0 {
                println!("long containers are left out, since not every archive takes them");
                return;
            }
        }
        let mut sides: Vec<Side> = libraries
            .iter()
            .map(|library| Box::new(move || assert_eq!(call(library), 0)) as Side)
            .collect();
        print_row(&row.name, &contest_each(&mut sides, |_| ready()));
    }
}

fn print_row(name: &str, times: &[Samples]) {
    let ratios: Vec<f64> = times.iter().map(|side| side.over(&times[0])).collect();
    let first = mean(&ratios[..PLACES]);
    print!("{name:<50}");
    for (places, ratios) in times.chunks(PLACES).zip(ratios.chunks(PLACES)) {
        let medians: Vec<f64> = places.iter().map(|side| side.median()).collect();
        print!(" {:>9.1} {:>6.3}", mean(&medians), mean(ratios) / first);
    }
    println!();
}

fn mean(values: &[f64]) -> f64 {
    values.iter().sum::<f64>() / values.len() as f64
}
