//! The crate as a path dependency of a project that stands outside this workspace, and what its
//! build script says where it cannot build.
mod project;

use std::fs;
use std::path::Path;

use project::{Project, WRITTEN};

const HERE: &str = env!("CARGO_MANIFEST_DIR");

#[test]
fn builds_and_runs_outside_the_workspace() {
    let project = Project::new("outside", Path::new(HERE));
    let mut cargo = project.cargo();
    cargo.env("MENAKOVITSY_LIB_DIR", env!("MENAKOVITSY_LINKED"));
    assert_eq!(project.run(cargo), WRITTEN);
}

/// One clear line each: no library in the folder that is named, one that is none, and no toolchain.
#[test]
fn says_what_is_missing() {
    let project = Project::new("missing", Path::new(HERE));
    let folder = project.0.join("empty");
    fs::create_dir_all(&folder).unwrap();
    let said = || {
        let mut cargo = project.cargo();
        cargo.env("MENAKOVITSY_LIB_DIR", &folder);
        project.refused(cargo)
    };
    let line = said();
    assert!(line.contains("nor libexports.a, nor a folder for each processor: name a release"), "{line}");
    // either name is looked at, the release's first
    for name in ["libexports.a", "libmenakovitsy.a"] {
        fs::write(folder.join(name), "!<arch>\n").unwrap();
        let line = said();
        assert!(line.contains(&format!("{name} is for no processor that an ELF object names")), "{line}");
    }
    let line = project.refused(project.cargo_without_rt());
    let expected = if cfg!(target_arch = "x86_64") {
        "`rt`, which proves and compiles the library, is not on the PATH"
    } else {
        "a checkout is built for x86-64, and this build is for "
    };
    assert!(line.contains(expected), "{line}");
}
