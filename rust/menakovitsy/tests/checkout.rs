//! The build script in a checkout: that what is linked is made of the sources as they stand, by `rt`, and that nothing
//! is left of the copy in which that runs. `rt` is a script here that proves nothing and notes each call, with the
//! sources that it sees; what is linked is the library that these tests are linked with.
#![cfg(target_arch = "x86_64")]
mod project;

use std::path::{Path, PathBuf};
use std::process::{Command, Output};
use std::{env, fs};

use project::Project;

const HERE: &str = env!("CARGO_MANIFEST_DIR");

const RT: &str = r#"#!/bin/sh
case $1 in
version) echo version >>"$RT_CALLS" ;;
lib)
    # in a room of a copy that nothing was built in, beside the room below it
    grep -q '^exports' ../../crates.txt && [ ! -e out ] && [ ! -e ../low/out ] || exit 1
    echo "$* of $(cat src/lib.rt ../low/src/lib.rt | tr '\n' ' ')" >>"$RT_CALLS"
    if grep -q wrong src/lib.rt; then
        echo 'this is not proved'
        exit 1
    fi
    mkdir -p out ../low/out
    cp "$RT_LIBRARY" out/libexports.a
    ;;
esac
"#;

/// A checkout of two rooms with the wrapper in it, and a user's project that depends on that.
struct Checkout {
    project: Project,
    root: PathBuf,
}

impl Checkout {
    fn new(name: &str) -> Self {
        let root = env::temp_dir().join(format!("menakovitsy-{name}-checkout-{}", std::process::id()));
        let wrapper = root.join("rust/menakovitsy");
        for folder in ["crates/low/src", "crates/exports/src", "tools"] {
            fs::create_dir_all(root.join(folder)).unwrap();
        }
        fs::create_dir_all(&wrapper).unwrap();
        let copied = Command::new("cp")
            .args(["-r", "Cargo.toml", "build.rs", "src"])
            .arg(&wrapper)
            .current_dir(HERE)
            .status();
        assert!(copied.unwrap().success());
        fs::write(root.join("crates.txt"), "# two rooms: one low\nlow:\nexports staticlib: low\n").unwrap();
        fs::write(root.join("tools/rt"), RT).unwrap();
        assert!(Command::new("chmod").arg("+x").arg(root.join("tools/rt")).status().unwrap().success());
        let checkout = Checkout { project: Project::new(name, &wrapper), root };
        checkout.change("low", "low 1");
        checkout.change("exports", "top 1");
        checkout
    }

    /// Writes a room's source.
    fn change(&self, room: &str, text: &str) {
        fs::write(self.root.join("crates").join(room).join("src/lib.rt"), format!("{text}\n")).unwrap();
    }

    /// A cargo command with this `rt` on the PATH: what that was called for, and what cargo said.
    fn cargo(&self, mut command: Command) -> (Vec<String>, Output) {
        let path = env::var_os("PATH").unwrap_or_default();
        let tools = [self.root.join("tools")].into_iter().chain(env::split_paths(&path));
        let library = Path::new(env!("MENAKOVITSY_LINKED")).join("libmenakovitsy.a");
        let _ = fs::remove_file(self.root.join("calls"));
        command.env("PATH", env::join_paths(tools).unwrap());
        command.env("RT_CALLS", self.root.join("calls")).env("RT_LIBRARY", library);
        let output = command.output().unwrap();
        assert_eq!(sources(&self.project.0), [""; 0], "a copy of the crates was left");
        let calls = fs::read_to_string(self.root.join("calls")).unwrap_or_default();
        (calls.lines().map(String::from).collect(), output)
    }

    /// The next command: what `rt` was called for.
    fn next(&self) -> Vec<String> {
        let (calls, output) = self.cargo(self.project.cargo());
        assert!(output.status.success(), "{}", said(&output));
        calls
    }

    /// The first command of somebody: what the script made before is gone. That it is compiled does no harm.
    fn first(&self) -> Vec<String> {
        let named = Path::new("target").join(env::var_os("CARGO_BUILD_TARGET").unwrap_or_default());
        let made = fs::read_dir(self.project.0.join(named).join("debug/build")).into_iter().flatten();
        for folder in made.map(|entry| entry.unwrap().path()).filter(|folder| folder.join("out").is_dir()) {
            fs::remove_dir_all(folder).unwrap();
        }
        self.next()
    }
}

impl Drop for Checkout {
    fn drop(&mut self) {
        let _ = fs::remove_dir_all(&self.root);
    }
}

fn said(output: &Output) -> String {
    String::from_utf8_lossy(&output.stderr).into_owned()
}

/// The files below a folder that `rt ci` wants nowhere but in a checkout's own crates.
fn sources(folder: &Path) -> Vec<String> {
    let mut found = Vec::new();
    for entry in fs::read_dir(folder).unwrap() {
        let path = entry.unwrap().path();
        let name = path.file_name().unwrap().to_string_lossy().into_owned();
        if path.is_dir() {
            found.extend(sources(&path));
        } else if name == "crates.txt" || [".rt", ".antt"].iter().any(|kind| name.ends_with(kind)) {
            found.push(name);
        }
    }
    found
}

/// What `rt` is called for where these sources are made.
fn made(top: &str, low: &str) -> [String; 2] {
    ["version".into(), format!("lib --cpu x86-64 of {top} {low} ")]
}

/// All is made in the output folder, and cargo shows it.
#[test]
fn a_fresh_checkout() {
    let checkout = Checkout::new("fresh");
    let (calls, output) = checkout.cargo(checkout.project.cargo());
    assert!(output.status.success(), "{}", said(&output));
    assert_eq!(calls, made("top 1", "low 1"));
    assert!(said(&output).contains("proves exports and "), "{}", said(&output));
    for folder in ["target", "crates/exports/out", "crates/low/out"] {
        assert!(!checkout.root.join(folder).exists(), "the checkout was written to: {folder}");
    }
}

/// It is made again if a source has changed, of whichever room, and only then.
#[test]
fn after_a_change() {
    let checkout = Checkout::new("after");
    assert_eq!(checkout.next(), made("top 1", "low 1"));
    assert_eq!(checkout.next(), [""; 0]);
    checkout.change("exports", "top 2");
    assert_eq!(checkout.next(), made("top 2", "low 1"));
    checkout.change("low", "low 2");
    assert_eq!(checkout.next(), made("top 2", "low 2"));
    assert_eq!(checkout.next(), [""; 0]);

    // whatever its time says
    let source = checkout.root.join("crates/exports/src/lib.rt");
    let before = fs::metadata(&source).unwrap().modified().unwrap();
    checkout.change("exports", "top 3");
    fs::File::options().append(true).open(&source).unwrap().set_modified(before).unwrap();
    assert_eq!(checkout.first(), made("top 3", "low 2"));
}

/// A library that stands in the checkout may be of other sources: it is linked only where it is named.
#[test]
fn a_library_of_an_unknown_origin() {
    let checkout = Checkout::new("unknown");
    let out = checkout.root.join("crates/exports/out");
    fs::create_dir_all(&out).unwrap();
    fs::write(out.join("libexports.a"), "!<arch>\n").unwrap();
    assert_eq!(checkout.first(), made("top 1", "low 1"));

    let named = || {
        let mut cargo = checkout.project.cargo();
        cargo.env("MENAKOVITSY_LIB_DIR", &out);
        checkout.cargo(cargo)
    };
    let (calls, output) = named();
    assert!(calls.is_empty() && !output.status.success(), "{calls:?}");
    assert!(said(&output).contains("libexports.a is for no processor that an ELF"), "{}", said(&output));
    fs::copy(Path::new(env!("MENAKOVITSY_LINKED")).join("libmenakovitsy.a"), out.join("libexports.a"))
        .unwrap();
    let (calls, output) = named();
    assert!(calls.is_empty() && output.status.success(), "{calls:?} {}", said(&output));
}

/// Nothing is linked of sources that are not proved, and what `rt` says is shown.
#[test]
fn what_is_not_proved() {
    let checkout = Checkout::new("wrong");
    checkout.change("exports", "wrong");
    let (calls, output) = checkout.cargo(checkout.project.cargo());
    assert_eq!(calls, made("wrong", "low 1"));
    let expected = format!(
        "error: `rt lib` failed in a copy of the crates: see above what it said, and run it in {}.",
        fs::canonicalize(checkout.root.join("crates/exports")).unwrap().display()
    );
    let said = said(&output);
    assert!(!output.status.success() && said.contains("this is not proved"), "{said}");
    assert!(said.contains(&expected), "{said}");
}
