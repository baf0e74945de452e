//! The libraries of a release, one for each processor.
#![allow(dead_code)] // each test takes what it needs of it

use std::path::{Path, PathBuf};
use std::{env, fs};

/// A release's folders, each with a library.
pub const PROCESSORS: [&str; 3] = ["x86-64", "x86-64-v3", "aarch64"];

/// The processor that these tests are built for.
pub const OWN: &str = if cfg!(target_arch = "x86_64") { "x86-64" } else { "aarch64" };

pub const LIBRARY: &str = "libmenakovitsy.a";

/// The library that is linked here.
pub fn linked() -> PathBuf {
    Path::new(env!("MENAKOVITSY_LINKED")).join(LIBRARY)
}

/// Makes a folder with a library for each processor, as `.ci/libraries` does: of those that were built for these
/// tests, if all were, otherwise of the one that is linked here.
pub fn lay(folder: &Path) {
    let built = env::var_os("MENAKOVITSY_LIB_DIR").map(PathBuf::from);
    let built = built.filter(|built| PROCESSORS.iter().all(|name| built.join(name).join(LIBRARY).is_file()));
    for (number, name) in PROCESSORS.into_iter().enumerate() {
        let library = match &built {
            Some(built) => fs::read(built.join(name).join(LIBRARY)).unwrap(),
            None => stand_in(number, name),
        };
        fs::create_dir_all(folder.join(name)).unwrap();
        fs::write(folder.join(name).join(LIBRARY), library).unwrap();
    }
}

/// The library that is linked here, with another time in the archive so that no two are alike, and with the number
/// of the processor in its object.
fn stand_in(number: usize, name: &str) -> Vec<u8> {
    let mut library = fs::read(linked()).unwrap();
    if name != OWN {
        library[24] = b'1' + u8::try_from(number).unwrap();
        let object = library.windows(4).position(|head| head == b"\x7fELF").unwrap();
        library[object + 18] = if name == "aarch64" { 183 } else { 62 };
    }
    library
}
