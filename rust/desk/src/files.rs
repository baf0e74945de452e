//! Files that are read whole, and files that are written in one step.
use std::ffi::{OsStr, OsString};
use std::fs::{self, File, Metadata, OpenOptions};
use std::io::{self, Read, Write};
use std::path::{Path, PathBuf};
use std::process;

use crate::ended::Failure;
use crate::input::Input;
use crate::progress::Progress;

/// How many bytes of a file are read between two looks at the clock.
const STEP: u64 = 1 << 20;

/// As many links are followed, one after another, as the system follows.
const LINKS: usize = 40;

/// All bytes of a file, or of standard input. A long one shows on a terminal how far it is.
pub fn read(name: &OsStr) -> Result<Vec<u8>, Failure> {
    let Input { name, length, mut reader, .. } = Input::open(name)?;
    let mut progress = Progress::new(length, "read");
    let mut bytes = Vec::new();
    bytes.try_reserve_exact(length.unwrap_or(0) as usize).map_err(|_| {
        Failure::Told(format!("{name} cannot be read: it does not fit into memory, and is needed whole"))
    })?;
    while reader.by_ref().take(STEP).read_to_end(&mut bytes).map_err(Failure::unreadable(&name))? > 0 {
        progress.at(bytes.len() as u64);
    }
    progress.end();
    Ok(bytes)
}

/// Whether a file that is to be written is the one that is read, under whatever names. A name of `-` is
/// standard output, which is never the same, or standard input.
pub fn same(out: &Path, input: &Path) -> bool {
    if out.as_os_str() == "-" {
        return false;
    }
    let input = if input.as_os_str() == "-" { standard_input() } else { fs::metadata(input) };
    match (fs::metadata(out), input) {
        (Ok(out), Ok(input)) => out.is_file() && one_file(&out, &input),
        _ => false,
    }
}

/// Whether these are of one file: the same device and inode.
#[cfg(unix)]
fn one_file(one: &Metadata, other: &Metadata) -> bool {
    use std::os::unix::fs::MetadataExt;
    (one.dev(), one.ino()) == (other.dev(), other.ino())
}

/// What standard input was redirected from.
#[cfg(unix)]
fn standard_input() -> io::Result<Metadata> {
    use std::os::fd::AsFd;
    File::from(io::stdin().as_fd().try_clone_to_owned()?).metadata()
}

/// Without inodes two files are taken for one if nothing tells them apart.
#[cfg(not(unix))]
fn one_file(one: &Metadata, other: &Metadata) -> bool {
    let about = |file: &Metadata| (file.len(), file.created().ok(), file.modified().ok());
    about(one) == about(other)
}

#[cfg(not(unix))]
fn standard_input() -> io::Result<Metadata> {
    Err(io::ErrorKind::Unsupported.into())
}

/// Writes a file in one step: whatever happens, what has the name is the old file or the new one, whole.
/// A link stays, and what it leads to is written; a file that is replaced hands on its mode and its owner.
/// `-` is standard output. What is no file, like a pipe or a device, is written as it is.
pub fn replace(path: &Path, bytes: &[u8]) -> Result<(), Failure> {
    if path.as_os_str() == "-" {
        let mut output = io::stdout().lock();
        return output.write_all(bytes).and_then(|()| output.flush()).map_err(Failure::output);
    }
    let unwritable = Failure::unwritable(path);
    let target = followed(path).map_err(&unwritable)?;
    match fs::metadata(&target) {
        Ok(old) if old.is_file() => in_one_step(&target, Some(&old), bytes),
        Ok(_) => OpenOptions::new().write(true).open(&target).and_then(|mut file| file.write_all(bytes)),
        Err(_) => in_one_step(&target, None, bytes),
    }
    .map_err(unwritable)
}

/// Where a name leads to, if it is a link: to a file that need not be there.
fn followed(path: &Path) -> io::Result<PathBuf> {
    let mut path = path.to_path_buf();
    for _ in 0..LINKS {
        match fs::read_link(&path) {
            Ok(next) => path = path.parent().unwrap_or(Path::new("")).join(next),
            Err(_) => return Ok(path),
        }
    }
    Err(io::Error::other("too many links lead from one to the next"))
}

/// Writes a file beside the one that is wanted, and then gives it its name.
fn in_one_step(path: &Path, old: Option<&Metadata>, bytes: &[u8]) -> io::Result<()> {
    let beside = beside(path).ok_or(io::ErrorKind::InvalidInput)?;
    let mut file = create(&beside, old)?;
    let written = (|| {
        file.write_all(bytes)?;
        if let Some(old) = old {
            take_after(&beside, old)?;
        }
        file.sync_all()?;
        fs::rename(&beside, path)
    })();
    if written.is_err() {
        let _ = fs::remove_file(&beside);
    }
    written
}

/// A name in the same folder, for this process alone.
fn beside(path: &Path) -> Option<PathBuf> {
    let mut name = OsString::from(".");
    name.push(path.file_name()?);
    name.push(format!(".{}.part", process::id()));
    Some(path.with_file_name(name))
}

/// A new file. If it is to replace another, nobody else may read it until it has that one's mode.
#[cfg(unix)]
fn create(path: &Path, old: Option<&Metadata>) -> io::Result<File> {
    use std::os::unix::fs::OpenOptionsExt;
    let mode = if old.is_some() { 0o600 } else { 0o666 };
    OpenOptions::new().write(true).create_new(true).mode(mode).open(path)
}

#[cfg(not(unix))]
fn create(path: &Path, _old: Option<&Metadata>) -> io::Result<File> {
    File::create_new(path)
}

/// Gives a file the owner of another, if that is allowed, and its mode.
#[cfg(unix)]
fn take_after(path: &Path, old: &Metadata) -> io::Result<()> {
    use std::os::unix::fs::{chown, MetadataExt};
    let _ = chown(path, Some(old.uid()), Some(old.gid()));
    fs::set_permissions(path, old.permissions())
}

#[cfg(not(unix))]
fn take_after(path: &Path, old: &Metadata) -> io::Result<()> {
    fs::set_permissions(path, old.permissions())
}
