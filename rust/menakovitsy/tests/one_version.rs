//! One version, in every place that says it. A release is 0.N.P: N is the face's, which `orc_version` answers, and
//! grows with each change of what the exported functions take or answer; P counts the releases of one face.
use std::fs;
use std::path::Path;

use menakovitsy::exported::VERSION;

/// What stands in a file of the repository between two texts, once.
fn said(file: &str, before: &str, behind: &str) -> String {
    let text = fs::read_to_string(Path::new(env!("CARGO_MANIFEST_DIR")).join("../..").join(file)).unwrap();
    let found: Vec<&str> =
        text.split(before).skip(1).filter_map(|rest| Some(rest.split_once(behind)?.0)).collect();
    assert_eq!(found.len(), 1, "{file} has {before:?} once");
    found[0].trim().to_string()
}

#[test]
fn the_same_version_in_every_place() {
    let release = env!("CARGO_PKG_VERSION");
    let numbers: Vec<u64> = release.split('.').map(|number| number.parse().unwrap()).collect();
    assert_eq!((numbers.len(), numbers[0], numbers[1]), (3, 0, VERSION), "the release {release}");
    assert_eq!(said("rust/Cargo.toml", "\nversion = \"", "\""), release);
    assert_eq!(menakovitsy::library_version(), VERSION, "the library that is linked");
    for (file, before, behind) in [
        ("crates/exports/specs/Version.antt", "\nface_version = ", "\n"),
        ("crates/exports/src/lib.rt", "result ≡ face_version }\n{\n", "\n}"),
        ("rust/menakovitsy/menakovitsy.h", "#define ORC_VERSION UINT64_C(", ")"),
        ("docs/PROMISES.md", "| `exports::orc_version` | the number of the face: ", " |"),
    ] {
        assert_eq!(said(file, before, behind), VERSION.to_string(), "{file}");
    }
}
