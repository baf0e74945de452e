//! The compilers of C and C++, as a user of the header calls them.
use std::path::{Path, PathBuf};
use std::process::Command;
use std::sync::atomic::{AtomicUsize, Ordering};
use std::{env, fs};

/// A language that the header is compiled as.
#[derive(Debug, Clone, Copy)]
pub struct Language {
    /// What the compiler calls it.
    name: &'static str,
    standard: &'static str,
    /// Which variable names the compiler, and what it is called if none does.
    variable: &'static str,
    compiler: &'static str,
}

pub const C99: Language = Language { name: "c", standard: "c99", variable: "CC", compiler: "cc" };
pub const C11: Language = Language { standard: "c11", ..C99 };
pub const CPP17: Language = Language { name: "c++", standard: "c++17", variable: "CXX", compiler: "c++" };

/// All of them.
pub const LANGUAGES: [Language; 3] = [C99, C11, CPP17];

const WARNINGS: [&str; 4] = ["-Wall", "-Wextra", "-Werror", "-pedantic"];

/// What a careful user asks for beside them.
const MORE_WARNINGS: [&str; 3] = ["-Wconversion", "-Wsign-conversion", "-Wshadow"];

/// A folder of its own for what a test makes: tests run at the same time.
pub fn folder() -> PathBuf {
    static FOLDERS: AtomicUsize = AtomicUsize::new(0);
    let number = FOLDERS.fetch_add(1, Ordering::Relaxed).to_string();
    let folder = Path::new(env!("CARGO_TARGET_TMPDIR")).join("header").join(number);
    fs::create_dir_all(&folder).unwrap();
    folder
}

/// The folder that the header stands in.
pub fn here() -> &'static Path {
    Path::new(env!("CARGO_MANIFEST_DIR"))
}

impl Language {
    /// The compiler with the language, the warnings and the folder of the header. Without one it stops here:
    /// nothing passes that was not compiled.
    fn command(self, header: &Path) -> Command {
        let named = env::var_os(self.variable).unwrap_or_else(|| self.compiler.into());
        if let Err(error) = Command::new(&named).arg("--version").output() {
            panic!(
                "{} cannot be run ({error}), and these tests compile the header as {}: install a compiler, or \
                 name one by {}",
                named.to_string_lossy(),
                self.standard,
                self.variable
            );
        }
        let mut command = Command::new(named);
        command
            .args(["-x", self.name, &format!("-std={}", self.standard)])
            .args(WARNINGS)
            .arg("-I")
            .arg(header);
        command
    }

    /// Compiles the header alone, with more warnings, and answers what the compiler says if it refuses.
    pub fn accepts(self, header: &Path) -> Result<(), String> {
        let source = folder().join("alone.c");
        fs::write(&source, "#include \"menakovitsy.h\"\n").unwrap();
        let mut command = self.command(header);
        if self.name == "c++" {
            command.arg("-Wold-style-cast");
        }
        finished(command.args(MORE_WARNINGS).arg("-fsyntax-only").arg(source))
    }

    /// Compiles a program with the header in a folder, links it with the library, and answers it; or what the
    /// compiler and the linker say.
    pub fn program(self, header: &Path, source: &Path) -> Result<PathBuf, String> {
        let program = folder().join("program");
        let mut command = self.command(header);
        command.arg(source).args(["-x", "none"]);
        command.arg(Path::new(env!("MENAKOVITSY_LINKED")).join("libmenakovitsy.a"));
        finished(command.arg("-o").arg(&program)).map(|()| program)
    }

    /// What a program writes that is compiled with our header.
    pub fn writes(self, source: &Path) -> String {
        let program =
            self.program(here(), source).unwrap_or_else(|said| panic!("{}:\n{said}", self.standard));
        let output = Command::new(program).output().unwrap();
        assert!(output.status.success(), "{} ends with {}", source.display(), output.status);
        String::from_utf8(output.stdout).unwrap()
    }
}

fn finished(command: &mut Command) -> Result<(), String> {
    let output = command.output().unwrap();
    if output.status.success() {
        return Ok(());
    }
    Err(String::from_utf8_lossy(&output.stderr).into_owned())
}

/// A compiler that is missing is a failure that says what to do.
#[test]
#[should_panic(
    expected = "these tests compile the header as c++17: install a compiler, or name one by NO_COMPILER"
)]
fn a_missing_compiler_is_told() {
    let missing = Language { variable: "NO_COMPILER", compiler: "no-such-compiler", ..CPP17 };
    let _ = missing.accepts(here());
}
