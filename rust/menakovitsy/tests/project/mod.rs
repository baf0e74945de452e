//! A project of a user of the crate, in a temporary folder.
#![allow(dead_code)] // each test takes what it needs of it

use std::path::{Path, PathBuf};
use std::process::{Command, Output};
use std::{env, fs, process};

/// The project's folder, which is removed with it.
pub struct Project(pub PathBuf);

impl Project {
    /// One that depends on the crate in a folder.
    pub fn new(name: &str, wrapper: &Path) -> Self {
        let folder = env::temp_dir().join(format!("menakovitsy-{name}-{}", process::id()));
        fs::create_dir_all(folder.join("src")).unwrap();
        let manifest = format!(
            "[package]\nname = \"{name}\"\nversion = \"0.0.0\"\nedition = \"2021\"\n\n\
             [dependencies]\nmenakovitsy = {{ path = {wrapper:?} }}\n"
        );
        fs::write(folder.join("Cargo.toml"), manifest).unwrap();
        fs::write(folder.join("src/main.rs"), MAIN).unwrap();
        Project(folder)
    }

    pub fn cargo(&self) -> Command {
        let mut cargo = Command::new(env!("CARGO"));
        cargo.args(["build", "--offline"]).current_dir(&self.0);
        cargo.env_remove("CARGO_TARGET_DIR").env_remove("MENAKOVITSY_LIB_DIR");
        cargo
    }

    /// The same with a compiler and a linker on the PATH, and nothing else: no `rt`.
    pub fn cargo_without_rt(&self) -> Command {
        let tools = self.0.join("tools");
        fs::create_dir_all(&tools).unwrap();
        let path = env::var_os("PATH").unwrap_or_default();
        // if cargo builds for another processor, that one's linker too
        let linker = |(name, value): (String, String)| {
            (name.starts_with("CARGO_TARGET_") && name.ends_with("_LINKER")).then_some(value)
        };
        let other: Vec<String> = env::vars().filter_map(linker).collect();
        for tool in ["cc", "ld", "as", "rustc"].into_iter().chain(other.iter().map(String::as_str)) {
            let found = env::split_paths(&path).map(|folder| folder.join(tool)).find(|tool| tool.is_file());
            if let Some(found) = found.filter(|_| !tools.join(tool).exists()) {
                std::os::unix::fs::symlink(found, tools.join(tool)).unwrap();
            }
        }
        let mut cargo = self.cargo();
        cargo.env("PATH", &tools);
        cargo
    }

    /// Builds it, and answers what the program writes.
    pub fn run(&self, mut cargo: Command) -> String {
        let built = cargo.output().unwrap();
        assert!(built.status.success(), "{}", String::from_utf8_lossy(&built.stderr));
        // a target that is named has a folder of its own
        let folder = Path::new("target").join(env::var_os("CARGO_BUILD_TARGET").unwrap_or_default());
        let name = self.0.file_name().unwrap().to_str().unwrap().split('-').nth(1).unwrap();
        let ran = Command::new(self.0.join(folder).join("debug").join(name)).output().unwrap();
        assert!(ran.status.success(), "{}", String::from_utf8_lossy(&ran.stderr));
        String::from_utf8(ran.stdout).unwrap()
    }

    /// Fails to build it, and answers the lines of its errors.
    pub fn refused(&self, mut cargo: Command) -> String {
        let output = cargo.output().unwrap();
        assert!(!output.status.success());
        errors(&output).join("\n")
    }
}

impl Drop for Project {
    fn drop(&mut self) {
        let _ = fs::remove_dir_all(&self.0);
    }
}

const MAIN: &str = r#"
use menakovitsy::{read_booleans, ByteOffset, RowNumber};

fn main() -> Result<(), Box<dyn std::error::Error>> {
    menakovitsy::check_version()?;
    let column = [0x00, 0xFF, 0xFF, 0x00];
    let mut flags = [0; 32];
    read_booleans(&column, ByteOffset(0), RowNumber(32), &mut flags)?;
    println!("{} {}", flags[23], flags[24]);
    Ok(())
}
"#;

/// What [`MAIN`] writes.
pub const WRITTEN: &str = "1 0\n";

fn errors(output: &Output) -> Vec<String> {
    let text = String::from_utf8_lossy(&output.stderr);
    text.lines().filter_map(|line| line.trim().strip_prefix("error: ")).map(String::from).collect()
}
