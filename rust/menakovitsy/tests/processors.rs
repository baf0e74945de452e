//! Which library the build script takes: that of the processor which cargo builds for.
mod libraries;
mod project;

use std::path::{Path, PathBuf};
use std::process::Command;
use std::{env, fs, process};

use libraries::{lay, LIBRARY};

const HERE: &str = env!("CARGO_MANIFEST_DIR");

/// The build script as a program, which is called as cargo calls it; and a release in the same folder.
struct Script(PathBuf);

fn compiler() -> Command {
    Command::new(env::var_os("RUSTC").unwrap_or_else(|| "rustc".into()))
}

/// The features that the compiler names for a processor, as cargo hands them to a build script.
fn features(processor: &str) -> Vec<String> {
    let mut rustc = compiler();
    rustc.args(["--print", "cfg", "--target", "x86_64-unknown-linux-gnu", "-C"]);
    let output = rustc.arg(format!("target-cpu={processor}")).output().unwrap();
    let lines = String::from_utf8(output.stdout).unwrap();
    let named = lines.lines().filter_map(|line| line.strip_prefix("target_feature=\"")?.strip_suffix('"'));
    named.map(String::from).collect()
}

impl Script {
    fn new(name: &str) -> Self {
        let folder = env::temp_dir().join(format!("menakovitsy-{name}-{}", process::id()));
        fs::create_dir_all(folder.join("release/rust/menakovitsy")).unwrap();
        let mut rustc = compiler();
        rustc.args(["--edition", "2021", "-o"]).arg(folder.join("script"));
        let output = rustc.arg(Path::new(HERE).join("build.rs")).output().unwrap();
        assert!(output.status.success(), "{}", String::from_utf8_lossy(&output.stderr));
        lay(&folder.join("release"));
        Script(folder)
    }

    fn release(&self) -> PathBuf {
        self.0.join("release")
    }

    /// For a processor with some features: the library that is linked, or the line that says why none is.
    fn taken(&self, target: &str, features: &[String], named: Option<&Path>) -> Result<Vec<u8>, String> {
        let mut script = Command::new(self.0.join("script"));
        script.env_clear().env("OUT_DIR", self.0.join("out"));
        script.env("CARGO_MANIFEST_DIR", self.release().join("rust/menakovitsy"));
        let (processor, system) = target.split_once('-').unwrap_or((target, "linux"));
        script.env("CARGO_CFG_TARGET_ARCH", processor).env("CARGO_CFG_TARGET_OS", system);
        script.env("CARGO_CFG_TARGET_FEATURE", features.join(","));
        script.envs(named.map(|folder| ("MENAKOVITSY_LIB_DIR", folder)));
        let output = script.output().unwrap();
        if !output.status.success() {
            return Err(String::from_utf8(output.stderr).unwrap());
        }
        Ok(fs::read(self.0.join("out/linked").join(LIBRARY)).unwrap())
    }

    /// The library of one of the release's folders.
    fn of(&self, processor: &str) -> Result<Vec<u8>, String> {
        Ok(fs::read(self.release().join(processor).join(LIBRARY)).unwrap())
    }
}

impl Drop for Script {
    fn drop(&mut self) {
        let _ = fs::remove_dir_all(&self.0);
    }
}

/// In a release's folder, and where that is named: x86-64-v3 if the target has all of it.
#[test]
fn each_target_has_its_library() {
    let script = Script::new("targets");
    let (plain, v3, v4) = (features("x86-64"), features("x86-64-v3"), features("x86-64-v4"));
    assert!(plain.len() < v3.len() && v3.len() < v4.len(), "{plain:?} {v3:?} {v4:?}");
    let neon = [String::from("neon")];
    for (target, features, folder) in [
        ("x86_64", &plain[..], "x86-64"),
        ("x86_64", &v3, "x86-64-v3"),
        ("x86_64", &v4, "x86-64-v3"),
        ("aarch64", &neon, "aarch64"),
    ] {
        assert_eq!(script.taken(target, features, None), script.of(folder), "{target} {features:?}");
        let named = script.taken(target, features, Some(&script.release()));
        assert_eq!(named, script.of(folder), "{target} {features:?}");
    }
    for missing in ["avx", "avx2", "bmi1", "bmi2", "f16c", "fma", "lzcnt", "movbe", "popcnt"] {
        assert!(v3.iter().any(|feature| feature == missing), "{missing}");
        let others: Vec<String> = v3.iter().filter(|feature| *feature != missing).cloned().collect();
        assert_eq!(script.taken("x86_64", &others, None), script.of("x86-64"), "without {missing}");
    }
    // a folder with one library is the caller's own choice
    let one = script.release().join("x86-64-v3");
    assert_eq!(script.taken("x86_64", &plain, Some(&one)), script.of("x86-64-v3"));
    // every x86-64 processor runs the other
    fs::remove_dir_all(one).unwrap();
    assert_eq!(script.taken("x86_64", &v3, None), script.of("x86-64"));
}

/// A line that says what to do, for each build that has no library.
#[test]
fn says_which_there_are() {
    let script = Script::new("none");
    let said = |target, named: Option<&Path>| script.taken(target, &[], named).unwrap_err();
    let line = said("riscv64", None);
    let has = "has libraries for x86-64, x86-64-v3, aarch64, and this build is for riscv64: choose a target";
    assert!(line.contains(has), "{line}");
    let line = said("aarch64", Some(&script.release().join("x86-64")));
    assert!(
        line.contains("is for x86_64, and this build is for aarch64: build for x86_64, or set"),
        "{line}"
    );
    let line = said("aarch64-macos", None);
    assert!(line.contains("for Linux, and this build is for macos: choose a Linux target"), "{line}");

    // a checkout
    for processor in libraries::PROCESSORS {
        fs::remove_dir_all(script.release().join(processor)).unwrap();
    }
    fs::create_dir_all(script.release().join("crates/exports")).unwrap();
    let line = said("aarch64", None);
    let way = "run `.ci/libraries FOLDER` in it, and set MENAKOVITSY_LIB_DIR to FOLDER";
    assert!(line.contains(way), "{line}");
    let line = said("riscv64", None);
    assert!(line.contains("choose a target for x86-64 or aarch64"), "{line}");
}

/// Through cargo: what it is told of the processor is what the script is handed.
#[test]
#[cfg(target_arch = "x86_64")]
fn cargo_names_the_processor() {
    let project = project::Project::new("cpu", Path::new(HERE));
    let folder = project.0.join("libraries");
    lay(&folder);
    let mut cargo = project.cargo();
    cargo.env("MENAKOVITSY_LIB_DIR", &folder).env("RUSTFLAGS", "-C target-cpu=x86-64-v3");
    let output = cargo.output().unwrap();
    assert!(output.status.success(), "{}", String::from_utf8_lossy(&output.stderr));
    let target = Path::new("target").join(env::var_os("CARGO_BUILD_TARGET").unwrap_or_default());
    let scripts = fs::read_dir(project.0.join(target).join("debug/build")).unwrap();
    let linked = scripts.map(|entry| entry.unwrap().path().join("out/linked").join(LIBRARY));
    let linked: Vec<Vec<u8>> = linked.filter_map(|library| fs::read(library).ok()).collect();
    assert_eq!(linked, [fs::read(folder.join("x86-64-v3").join(LIBRARY)).unwrap()]);
}
