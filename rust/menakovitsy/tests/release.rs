//! A release, made by `.ci/release` and carried elsewhere: what it holds, and that it builds where there is
//! neither the repository nor its toolchain.
mod libraries;
mod project;

use std::collections::BTreeSet;
use std::path::{Path, PathBuf};
use std::process::{self, Command, Output};
use std::{env, fs};

use libraries::{lay, linked, LIBRARY, OWN, PROCESSORS};
use project::{Project, WRITTEN};

const HERE: &str = env!("CARGO_MANIFEST_DIR");
const HEADER: &str = include_str!("../menakovitsy.h");

/// A folder outside the repository that holds a release, and is removed with it.
struct Release(PathBuf);

/// Makes a release of a folder's libraries in another.
fn released(libraries: &Path, folder: &Path) -> Output {
    let mut release = Command::new("bash");
    release.arg(Path::new(HERE).join("../../.ci/release")).arg("--libraries").arg(libraries).arg(folder);
    release.output().unwrap()
}

/// A folder outside the repository, by its name.
fn temporary(name: &str) -> PathBuf {
    env::temp_dir().join(format!("menakovitsy-release-{name}-{}", process::id()))
}

fn compiler() -> String {
    env::var("CC").unwrap_or_else(|_| "cc".into())
}

impl Release {
    fn new(name: &str) -> Self {
        let folder = temporary(name);
        lay(&folder.join("libraries"));
        let made = released(&folder.join("libraries"), &folder.join("made"));
        assert!(made.status.success(), "{}", String::from_utf8_lossy(&made.stderr));
        // carried: nothing in it may know where it was made
        fs::rename(folder.join("made"), folder.join("carried")).unwrap();
        Release(folder)
    }

    fn path(&self, file: &str) -> PathBuf {
        self.0.join("carried").join(file)
    }

    /// Its files, by their path in it.
    fn files(&self) -> BTreeSet<String> {
        let (mut files, mut folders) = (BTreeSet::new(), vec![self.path("")]);
        while let Some(folder) = folders.pop() {
            for entry in fs::read_dir(folder).unwrap() {
                let path = entry.unwrap().path();
                if path.is_dir() {
                    folders.push(path);
                } else {
                    files.insert(path.strip_prefix(self.path("")).unwrap().to_str().unwrap().into());
                }
            }
        }
        files
    }

    fn sums_hold(&self) -> bool {
        let mut sums = Command::new("sha256sum");
        let sums = sums.args(["--check", "--strict", "--quiet", "SHA256SUMS"]).current_dir(self.path(""));
        sums.output().unwrap().status.success()
    }
}

impl Drop for Release {
    fn drop(&mut self) {
        let _ = fs::remove_dir_all(&self.0);
    }
}

fn copy(from: &Path, to: &Path) {
    fs::create_dir_all(to).unwrap();
    for entry in fs::read_dir(from).unwrap() {
        let (from, name) = (entry.as_ref().unwrap().path(), entry.unwrap().file_name());
        if from.is_dir() {
            copy(&from, &to.join(name));
        } else {
            fs::copy(&from, to.join(name)).unwrap();
        }
    }
}

/// The names that an archive defines for others, as its index has them: how many, then where each stands, then
/// the names, each after a zero.
fn defined(archive: &[u8]) -> BTreeSet<String> {
    let index = archive.strip_prefix(b"!<arch>\n/ ".as_slice()).expect("an archive whose index comes first");
    let index = &index[58..];
    let count = u32::from_be_bytes(index[..4].try_into().unwrap()) as usize;
    let names = index[4 + 4 * count..].split(|byte| *byte == 0).take(count);
    names.map(|name| String::from_utf8(name.to_vec()).unwrap()).collect()
}

#[test]
fn holds_what_a_user_needs() {
    let release = Release::new("held");
    let files = release.files();
    for file in [
        "README.md",
        "x86-64/libmenakovitsy.a",
        "x86-64-v3/libmenakovitsy.a",
        "aarch64/libmenakovitsy.a",
        "menakovitsy.h",
        "SHA256SUMS",
        "docs/EVIDENCE.md",
        "docs/MOVING.md",
        "NOTICE",
        "LICENSE-APACHE",
        "LICENSE-MIT",
        "rust/menakovitsy/Cargo.toml",
        "rust/menakovitsy/build.rs",
        "rust/menakovitsy/src/lib.rs",
    ] {
        assert!(files.contains(file), "{file} is missing");
    }
    let readme = fs::read_to_string(release.path("README.md")).unwrap();
    assert!(readme.starts_with(concat!("# Menakovitsy ", env!("CARGO_PKG_VERSION"), "\n")), "{readme}");
    for (file, has, has_not) in [
        ("LICENSE-APACHE", "TERMS AND CONDITIONS FOR USE", "MIT"),
        ("LICENSE-MIT", "Permission is hereby granted", "Apache"),
    ] {
        let text = fs::read_to_string(release.path(file)).unwrap();
        assert!(text.contains(has) && !text.contains(has_not), "{file}:\n{text}");
    }

    // every file is summed
    let sums = fs::read_to_string(release.path("SHA256SUMS")).unwrap();
    let mut summed: BTreeSet<String> = sums.lines().map(|line| line[66..].into()).collect();
    summed.insert("SHA256SUMS".into());
    assert_eq!(summed, files);
    assert!(release.sums_hold());
}

/// Each is what was given, has its sum on the README too, and a flipped byte in it is told.
#[test]
fn holds_a_library_for_each_processor() {
    let release = Release::new("each");
    let [sums, readme] =
        ["SHA256SUMS", "README.md"].map(|file| fs::read_to_string(release.path(file)).unwrap());
    let declared = HEADER.lines().filter_map(|line| line.strip_prefix("uint64_t orc_")?.split_once('('));
    let declared: BTreeSet<String> = declared.map(|(name, _)| format!("orc_{name}")).collect();
    for processor in PROCESSORS {
        let file = format!("{processor}/{LIBRARY}");
        let library = fs::read(release.path(&file)).unwrap();
        assert_eq!(library, fs::read(release.0.join("libraries").join(&file)).unwrap(), "{file}");
        assert_eq!(defined(&library), declared, "{file}");
        let sum = sums.lines().find_map(|line| line.strip_suffix(&file)).unwrap().trim();
        assert!(readme.contains(&format!("| `{file}` | `{sum}` |\n")), "{file}: {sum}\n{readme}");
        let mut flipped = library.clone();
        *flipped.last_mut().unwrap() ^= 1;
        fs::write(release.path(&file), flipped).unwrap();
        assert!(!release.sums_hold(), "{file}");
        fs::write(release.path(&file), library).unwrap();
    }
}

/// From a folder that was empty, with no `rt`: the release's own wrapper, then the repository's beside it, which
/// says what to do where it is told nothing.
#[test]
fn builds_from_an_empty_folder() {
    let release = Release::new("built");
    let project = Project::new("released", &release.path("rust/menakovitsy"));
    assert_eq!(project.run(project.cargo_without_rt()), WRITTEN);

    let alone = release.0.join("alone");
    for part in ["src", "examples"] {
        copy(&Path::new(HERE).join(part), &alone.join(part));
    }
    for file in ["Cargo.toml", "build.rs"] {
        fs::copy(Path::new(HERE).join(file), alone.join(file)).unwrap();
    }
    let project = Project::new("alone", &alone);
    let line = project.refused(project.cargo_without_rt());
    assert!(line.ends_with("set MENAKOVITSY_LIB_DIR to a release's folder."), "{line}");
    let mut cargo = project.cargo_without_rt();
    cargo.env("MENAKOVITSY_LIB_DIR", release.path(""));
    assert_eq!(project.run(cargo), WRITTEN);
}

/// The lines for C of the release's README, a line for each processor: those of this one.
#[test]
fn links_from_c() {
    let release = Release::new("c");
    let readme = fs::read_to_string(release.path("README.md")).unwrap();
    let lines: Vec<&str> = readme.lines().filter_map(|line| line.strip_prefix("cc ")).collect();
    let of = |processor: &str| {
        let library = format!(" {processor}/{LIBRARY} ");
        *lines.iter().find(|line| line.contains(&library)).unwrap()
    };
    assert_eq!(lines, PROCESSORS.map(of));
    #[cfg(target_arch = "x86_64")]
    let v3 = std::is_x86_feature_detected!("avx2").then_some("x86-64-v3");
    #[cfg(not(target_arch = "x86_64"))]
    let v3 = None;
    for processor in [OWN].into_iter().chain(v3) {
        let line = format!("{} {}", compiler(), of(processor));
        let ran = Command::new("sh").args(["-c", &line]).current_dir(release.path("")).output().unwrap();
        assert!(ran.status.success(), "{}", String::from_utf8_lossy(&ran.stderr));
        assert!(String::from_utf8_lossy(&ran.stdout).starts_with("flag 23 is 1, flag 24 is 0\n"), "{line}");
    }
}

/// A folder that is named and has something in it is left alone.
#[test]
fn writes_over_nothing() {
    let folder = temporary("not-one");
    fs::create_dir_all(&folder).unwrap();
    fs::write(folder.join("letters"), "to keep").unwrap();
    let release = released(&folder, &folder);
    let kept = fs::read_to_string(folder.join("letters")).unwrap();
    fs::remove_dir_all(&folder).unwrap();
    assert_eq!((release.status.code(), kept.as_str()), (Some(2), "to keep"));
    assert!(String::from_utf8_lossy(&release.stderr).contains("is there, and is no empty folder"));
}

/// A folder without one of the libraries makes no release, and neither does one with a library that defines one name
/// more, whichever it is. Nothing is left of it.
#[test]
fn refuses_other_libraries() {
    let folder = temporary("other");
    lay(&folder);
    fs::write(folder.join("unpack.c"), "int unpack(void)\n{\n    return 1;\n}\n").unwrap();
    let both = folder.join("both.o");
    let mut link = Command::new(compiler());
    link.args(["-nostdlib", "-r", "-o"]).arg(&both).arg(folder.join("unpack.c"));
    link.arg("-Wl,--whole-archive").arg(linked());
    assert!(link.status().unwrap().success());
    let mut said = Vec::new();
    for processor in PROCESSORS {
        let library = folder.join(processor).join(LIBRARY);
        let right = fs::read(&library).unwrap();
        fs::copy(&both, &library).unwrap();
        said.push((
            processor,
            "does not define exactly what the header declares",
            released(&folder, &folder.join("made")),
        ));
        fs::remove_file(&library).unwrap();
        said.push((processor, "make it with .ci/libraries", released(&folder, &folder.join("made"))));
        fs::write(&library, right).unwrap();
    }
    let left = fs::read_dir(&folder).unwrap().map(|entry| entry.unwrap().file_name().into_string().unwrap());
    let left: Vec<String> = left.filter(|name| name.starts_with("made")).collect();
    fs::remove_dir_all(&folder).unwrap();
    assert_eq!(left, [""; 0]);
    for (processor, expected, release) in said {
        let said = String::from_utf8_lossy(&release.stderr);
        let named = said.contains("> unpack\n") || said.contains("holds no ");
        assert!(
            !release.status.success() && said.contains(processor) && named && said.contains(expected),
            "{said}"
        );
    }
}
