//! Finds the decoders' sources and writes the one file that takes them in.
//!
//! They are never copied: the file written to `OUT_DIR` is a few `mod` lines, and `#[path]` on the
//! inline module points them at the checkout, so that each file is compiled as it stands there.
use std::path::{Path, PathBuf};
use std::{env, fs, process};

/// The decoder files, below the checkout's root.
const FILES: [&str; 8] = [
    "src/reader/decode/boolean_rle.rs",
    "src/reader/decode/rle_v2.rs",
    "src/reader/decode/rle_v2/delta.rs",
    "src/reader/decode/rle_v2/direct.rs",
    "src/reader/decode/rle_v2/patched_base.rs",
    "src/reader/decode/rle_v2/short_repeat.rs",
    "src/reader/decode/util.rs",
    "src/reader/decode/variable_length.rs",
];

fn main() {
    println!("cargo:rerun-if-env-changed=ORC_RS");
    println!("cargo:rerun-if-changed=build.rs");
    let checkout = checkout();
    for file in FILES {
        let file = checkout.join(file);
        if !file.is_file() {
            missing(&checkout, &file);
        }
        println!("cargo:rerun-if-changed={}", file.display());
    }
    let decode = checkout.join("src/reader/decode");
    let lines = format!(
        "#[doc(hidden)]
#[allow(warnings, clippy::all)]
pub mod reader {{
    #[path = {decode:?}]
    pub mod decode {{
        pub mod boolean_rle;
        pub mod rle_v2;
        pub mod util;
        pub mod variable_length;
    }}
}}
"
    );
    let out = PathBuf::from(env::var_os("OUT_DIR").expect("cargo sets OUT_DIR"));
    fs::write(out.join("decoders.rs"), lines).expect("OUT_DIR can be written");
}

/// What `ORC_RS` names, or `shared/docs/src` beside the repository.
fn checkout() -> PathBuf {
    let folder = match env::var_os("ORC_RS") {
        Some(named) => PathBuf::from(named),
        None => {
            let crate_folder = env::var_os("CARGO_MANIFEST_DIR").expect("cargo sets CARGO_MANIFEST_DIR");
            PathBuf::from(crate_folder).join("../../../shared/docs/src")
        }
    };
    folder.canonicalize().unwrap_or(folder)
}

fn missing(checkout: &Path, file: &Path) -> ! {
    eprintln!("error: the Rust decoders are not there: {} is missing.", file.display());
    eprintln!("They are compiled from {}.", checkout.display());
    eprintln!("Set ORC_RS to a checkout of WenyXu/orc-rs at commit 3a197fa636 (the folder that");
    eprintln!("holds src/reader/decode), or put one at shared/docs/src beside this repository. All but what");
    eprintln!("compares with them goes without: cargo's --workspace --exclude oracle --exclude differential");
    eprintln!("--exclude fuzz --exclude bench.");
    process::exit(1);
}
