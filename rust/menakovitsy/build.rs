//! Finds the static library of the proved crate `exports`, or builds it, and says where it is. The first of:
//!
//! 1. what the folder holds that `MENAKOVITSY_LIB_DIR` names: a release's libraries, one of which is for this build's
//!    processor (see [`processors`]); one library, `libmenakovitsy.a`; or the `libexports.a` that `rt lib` leaves in
//!    `crates/exports/out`;
//! 2. the same two folders above this crate, which then stands in a release's folder;
//! 3. what `rt lib` makes of the checkout that this crate stands in. The repository's crates are copied into this
//!    script's own output folder for it, and it runs there. It begins with what `rt` has kept of the checkouts on this
//!    machine, and compares that with the sources by their contents, so it proves what has changed.
//!
//! 3 is for x86-64, whatever more the processor has: for another, `.ci/libraries FOLDER` makes what 1 takes.
//!
//! A `libexports.a` in the checkout is linked only where 1 names its folder: nothing beside it says of which sources
//! `rt lib` made it. What `rt` has kept on this machine is trusted as the checkout is. (`rt ci` trusts none of it.)
//!
//! Nothing is written but in the output folder, and what `rt` keeps beside itself. From there the library is linked,
//! under one name wherever it came from.
use std::io::{self, ErrorKind};
use std::path::{Path, PathBuf};
use std::process::{self, Command};
use std::time::Instant;
use std::{env, fs};

/// The folders of a release, each with a library for a processor.
const PROCESSORS: [&str; 3] = ["x86-64", "x86-64-v3", "aarch64"];

/// What x86-64-v3 has and x86-64 has not, by cargo's names.
const V3: [&str; 9] = ["avx", "avx2", "bmi1", "bmi2", "f16c", "fma", "lzcnt", "movbe", "popcnt"];

/// A release's library, and the name that every program links.
const LIBRARY: &str = "libmenakovitsy.a";

/// The name that `rt` gives it.
const BUILT: &str = "libexports.a";

/// What a proof reads of a crate.
const PARTS: [&str; 3] = ["src", "specs", "proofs"];

fn main() {
    println!("cargo:rerun-if-changed=build.rs");
    println!("cargo:rerun-if-env-changed=MENAKOVITSY_LIB_DIR");
    let target = env::var("CARGO_CFG_TARGET_ARCH").unwrap_or_default();
    let system = env::var("CARGO_CFG_TARGET_OS").unwrap_or_default();
    if ["macos", "windows"].contains(&system.as_str()) {
        fail(&format!("the library is for Linux, and this build is for {system}: choose a Linux target"));
    }
    let here = PathBuf::from(env::var_os("CARGO_MANIFEST_DIR").expect("cargo sets CARGO_MANIFEST_DIR"));
    let out = PathBuf::from(env::var_os("OUT_DIR").expect("cargo sets OUT_DIR"));
    let library = match env::var_os("MENAKOVITSY_LIB_DIR") {
        Some(folder) => named(&absolute(Path::new(&folder)), &target),
        None => found_or_built(&absolute(&here.join("../..")), &out, &target),
    };
    match machine(&library) {
        Ok(made_for) if made_for == target => {}
        Ok(made_for) => fail(&format!(
            "{} is for {made_for}, and this build is for {target}: build for {made_for}, or set MENAKOVITSY_LIB_DIR to a \
             release's folder, which has a library for each processor",
            library.display()
        )),
        Err(error) => fail(&format!("{} cannot be read: {error}", library.display())),
    }
    // One that was just built is newer than this run: watched, it would be built again at every call of cargo.
    if !library.starts_with(&out) {
        println!("cargo:rerun-if-changed={}", library.display());
    }
    let folder = out.join("linked");
    if let Err(error) = taken(&library, &folder) {
        fail(&format!("{} cannot be copied to {}: {error}", library.display(), folder.display()));
    }
    println!("cargo:rustc-link-search=native={}", folder.display());
    println!("cargo:rustc-link-lib=static=menakovitsy");
    // The tests link it, too, from C and from a project of their own.
    println!("cargo:rustc-env=MENAKOVITSY_LINKED={}", folder.display());
}

fn absolute(path: &Path) -> PathBuf {
    fs::canonicalize(path).unwrap_or_else(|_| path.to_path_buf())
}

/// The folders of a release whose libraries run on what this build is for, the fastest first.
fn processors(target: &str) -> &'static [&'static str] {
    let features = env::var("CARGO_CFG_TARGET_FEATURE").unwrap_or_default();
    let has = |wanted: &&str| features.split(',').any(|feature| feature == *wanted);
    match target {
        "x86_64" if V3.iter().all(has) => &["x86-64-v3", "x86-64"],
        "x86_64" => &["x86-64"],
        "aarch64" => &["aarch64"],
        _ => &[],
    }
}

/// The library for this build in a folder that holds one, or a release's. A release without one for it is refused.
fn held(folder: &Path, target: &str) -> Option<PathBuf> {
    let one = [LIBRARY, BUILT].map(|name| folder.join(name)).into_iter().find(|file| file.is_file());
    let of = |processor: &&str| Some(folder.join(processor).join(LIBRARY)).filter(|file| file.is_file());
    let library = one.or_else(|| processors(target).iter().find_map(of));
    let others: Vec<&str> = PROCESSORS.into_iter().filter(|processor| of(processor).is_some()).collect();
    if library.is_none() && !others.is_empty() {
        fail(&format!(
            "{} has libraries for {}, and this build is for {target}: choose a target of one of these processors",
            folder.display(),
            others.join(", ")
        ));
    }
    library
}

/// The library in the folder that the caller named.
fn named(folder: &Path, target: &str) -> PathBuf {
    held(folder, target).unwrap_or_else(|| {
        fail(&format!(
            "MENAKOVITSY_LIB_DIR names {}, which holds neither {LIBRARY} nor {BUILT}, nor a folder for each processor: \
             name a release's folder, or crates/exports/out of a checkout after `rt lib` in crates/exports, or unset it",
            folder.display()
        ))
    })
}

/// The library of the release that `root` is; otherwise that of the checkout, which is proved and built.
fn found_or_built(root: &Path, out: &Path, target: &str) -> PathBuf {
    if let Some(library) = held(root, target) {
        return library;
    }
    if !root.join("crates/exports").is_dir() {
        fail(&format!(
            "{} is neither a release (it holds no {LIBRARY}) nor a checkout (it holds no crates/exports): set \
             MENAKOVITSY_LIB_DIR to a release's folder",
            root.display()
        ));
    }
    if target != "x86_64" {
        let way = match target {
            "aarch64" => "run `.ci/libraries FOLDER` in it, and set MENAKOVITSY_LIB_DIR to FOLDER",
            _ => "choose a target for x86-64 or aarch64",
        };
        fail(&format!("a checkout is built for x86-64, and this build is for {target}: {way}"));
    }
    // Before anything is copied: whether it is there, and which.
    rt(out, &["version"]);
    proved_and_built(root, out)
}

/// Runs `rt` with some words in a folder: whether it succeeded.
fn rt(folder: &Path, words: &[&str]) -> bool {
    match Command::new("rt").args(words).current_dir(folder).status() {
        Ok(status) => status.success(),
        Err(error) if error.kind() == ErrorKind::NotFound => fail(
            "`rt`, which proves and compiles the library, is not on the PATH: install the Rattle kit, or set \
             MENAKOVITSY_LIB_DIR to a release's folder, which `.ci/release` makes where the kit is",
        ),
        Err(error) => fail(&format!("`rt` cannot be run: {error}")),
    }
}

/// The library that the checkout's crates make, with as much proved anew as has to be. Cargo shows that it is.
fn proved_and_built(root: &Path, out: &Path) -> PathBuf {
    println!(
        "cargo:warning=proves exports and what has changed below it, which takes a minute or two if `rt` has kept the \
         rest, and far longer if it has kept nothing"
    );
    let (copy, library) = (out.join("repository"), out.join(BUILT));
    let began = Instant::now();
    let made = made(root, &copy, &library);
    // Below the top of a checkout, where the output folder may be, `rt ci` refuses a second copy of a source.
    let removed = fs::remove_dir_all(&copy);
    match made.and_then(|proved| removed.map(|()| proved)) {
        Ok(true) => println!("cargo:warning=proved and built the library in {} s", began.elapsed().as_secs()),
        Ok(false) => fail(&format!(
            "`rt lib` failed in a copy of the crates: see above what it said, and run it in {}",
            root.join("crates/exports").display()
        )),
        Err(error) => fail(&format!(
            "{} cannot be copied to {} and removed again: {error}",
            root.join("crates").display(),
            copy.display()
        )),
    }
    library
}

/// Copies the crates, and has `rt` make their library: whether it could.
fn made(root: &Path, copy: &Path, library: &Path) -> io::Result<bool> {
    copied(root, copy)?;
    let exports = copy.join("crates/exports");
    // The default is x86-64-v2, which not every x86-64 processor has.
    let proved = rt(&exports, &["lib", "--cpu", "x86-64"]);
    if proved {
        fs::copy(exports.join("out").join(BUILT), library)?;
    }
    Ok(proved)
}

/// Copies the library into a folder, under its one name.
fn taken(library: &Path, folder: &Path) -> io::Result<()> {
    if folder.exists() {
        fs::remove_dir_all(folder)?;
    }
    fs::create_dir_all(folder)?;
    fs::copy(library, folder.join(LIBRARY)).map(|_| ())
}

/// Copies what a proof reads: the list of crates, and each crate's sources, specifications and proofs.
fn copied(root: &Path, out: &Path) -> io::Result<()> {
    if out.exists() {
        fs::remove_dir_all(out)?;
    }
    let crates = out.join("crates");
    fs::create_dir_all(&crates)?;
    println!("cargo:rerun-if-changed={}", root.join("crates.txt").display());
    fs::copy(root.join("crates.txt"), out.join("crates.txt"))?;
    for entry in fs::read_dir(root.join("crates"))? {
        let entry = entry?;
        for part in PARTS {
            let from = entry.path().join(part);
            if from.is_dir() {
                println!("cargo:rerun-if-changed={}", from.display());
                copy_folder(&from, &crates.join(entry.file_name()).join(part))?;
            }
        }
    }
    Ok(())
}

fn copy_folder(from: &Path, to: &Path) -> io::Result<()> {
    fs::create_dir_all(to)?;
    for entry in fs::read_dir(from)? {
        let entry = entry?;
        let (from, to) = (entry.path(), to.join(entry.file_name()));
        if from.is_dir() {
            copy_folder(&from, &to)?;
        } else {
            fs::copy(&from, &to)?;
        }
    }
    Ok(())
}

/// The processor that the objects of an archive are for, by cargo's name for it: as the first ELF
/// header in it says.
fn machine(library: &Path) -> io::Result<String> {
    let bytes = fs::read(library)?;
    let header = bytes.windows(20).find(|header| header.starts_with(b"\x7fELF"));
    let number = header.map_or(0, |header| u16::from_le_bytes([header[18], header[19]]));
    Ok(match number {
        62 => "x86_64".into(),
        183 => "aarch64".into(),
        0 => "no processor that an ELF object names".into(),
        other => format!("the processor with the ELF number {other}"),
    })
}

fn fail(line: &str) -> ! {
    eprintln!("error: {line}.");
    process::exit(1);
}
