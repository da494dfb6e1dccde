//! Links `libbeamsatchel.a`, the proved library, after it has been made from the sources as they are.

use std::io::ErrorKind;
use std::os::unix::process::parent_id;
use std::path::{Path, PathBuf};
use std::process::{exit, Command};
use std::{env, fs};

/// Names another archive than the repository's own.
const ARCHIVE_VARIABLE: &str = "BEAMSATCHEL_ARCHIVE";

fn main() {
    println!("cargo:rerun-if-env-changed={ARCHIVE_VARIABLE}");
    let target = ["CARGO_CFG_TARGET_ARCH", "CARGO_CFG_TARGET_OS"].map(|name| env::var(name).ok());
    if target != [Some("x86_64".to_string()), Some("linux".to_string())] {
        stop("the library is for Linux on x86-64 alone");
    }
    let named = env::var_os(ARCHIVE_VARIABLE).filter(|named| !named.is_empty());
    let archive = match named {
        Some(named) => given(Path::new(&named)),
        None => made(),
    };
    let archive = archive.unwrap_or_else(|fault| stop(&fault));

    // A copy under the name that the linker looks for, so that the variable may name any file.
    let out = PathBuf::from(env::var_os("OUT_DIR").expect("cargo sets OUT_DIR"));
    if let Err(error) = fs::copy(&archive, out.join("libbeamsatchel.a")) {
        stop(&format!(
            "cannot copy the archive {}: {error}",
            archive.display()
        ));
    }
    println!("cargo:rustc-link-search=native={}", out.display());
    println!("cargo:rustc-link-lib=static=beamsatchel");
}

/// The archive that the caller names.
fn given(named: &Path) -> Result<PathBuf, String> {
    let archive = match named.is_absolute() {
        true => named.to_path_buf(),
        false => callers_directory()?.join(named),
    };
    println!("cargo:rerun-if-changed={}", archive.display());
    Ok(archive)
}

/// Where cargo was started: a build script itself runs in the package's folder.
fn callers_directory() -> Result<PathBuf, String> {
    // From another folder the same relative path names another file, and cargo does not look at folders. What is not
    // there counts as changed, so the next build asks again.
    println!("cargo:rerun-if-changed=not-there");
    fs::read_link(format!("/proc/{}/cwd", parent_id())).map_err(|error| {
        format!(
            "cannot tell where cargo was started ({error}): give {ARCHIVE_VARIABLE} an absolute path"
        )
    })
}

/// The repository's own archive. `rt` makes it anew where a source has changed, and fails where one is not proved.
fn made() -> Result<PathBuf, String> {
    let manifest = env::var_os("CARGO_MANIFEST_DIR").expect("cargo sets CARGO_MANIFEST_DIR");
    let root = Path::new(&manifest)
        .ancestors()
        .nth(2)
        .expect("the crate lies in node/ in the repository");
    for source in sources(root) {
        println!("cargo:rerun-if-changed={}", source.display());
    }
    let folder = root.join("crates/beamsatchel");
    let status = Command::new("rt")
        .args(["lib", "--cpu", "x86-64"])
        .current_dir(&folder)
        .status();
    let status = status.map_err(|error| match error.kind() {
        // A folder to run it in that is missing gives the same error.
        ErrorKind::NotFound if folder.is_dir() => format!(
            "the command `rt` is not on the PATH: install the Rattle kit, or set {ARCHIVE_VARIABLE} to a \
             libbeamsatchel.a that was made elsewhere by `rt lib --cpu x86-64` in crates/beamsatchel"
        ),
        _ => format!(
            "cannot run rt in {} ({error}): set {ARCHIVE_VARIABLE} to a libbeamsatchel.a that was made elsewhere",
            folder.display()
        ),
    })?;
    if !status.success() {
        return Err(format!(
            "`rt lib --cpu x86-64` in {} failed ({status}); see above",
            folder.display()
        ));
    }
    Ok(folder.join("out/libbeamsatchel.a"))
}

/// What the archive is made from. What `rt` makes lies beside it, in each crate's `out/`, and changes with each run.
fn sources(root: &Path) -> Vec<PathBuf> {
    let crates = fs::read_dir(root.join("crates")).into_iter().flatten();
    let parts = crates.flatten().flat_map(|entry| {
        let folder = entry.path();
        ["src", "specs", "proofs"].map(|part| folder.join(part))
    });
    let there = parts.filter(|part| part.is_dir());
    there.chain([root.join("crates.txt")]).collect()
}

/// Ends the build with a message, and without a backtrace.
fn stop(fault: &str) -> ! {
    eprintln!("beamsatchel-node: {fault}");
    exit(1);
}
