//! Reading a file, and writing one whole or not at all.

use std::ffi::OsString;
use std::fs::{self, File, OpenOptions};
use std::io::{self, Read, Write};
use std::path::{Path, PathBuf};
use std::process;

/// The first `most` bytes of a file.
pub fn read(file: &Path, most: usize) -> io::Result<Vec<u8>> {
    let mut bytes = Vec::new();
    File::open(file)?
        .take(most as u64)
        .read_to_end(&mut bytes)?;
    Ok(bytes)
}

/// Writes a file. A file of that name keeps its old content until the new one is whole: it is written beside it and then takes its name.
/// What is no file, as a device or a pipe, is written as it is.
pub fn write(file: &Path, bytes: &[u8]) -> io::Result<()> {
    // A link stays: what it points to is replaced.
    let target = match fs::canonicalize(file) {
        Ok(target) => target,
        Err(error) if error.kind() == io::ErrorKind::NotFound => file.to_path_buf(),
        Err(error) => return Err(error),
    };
    let old = match fs::metadata(&target) {
        Ok(old) => Some(old),
        Err(error) if error.kind() == io::ErrorKind::NotFound => None,
        Err(error) => return Err(error),
    };
    if old.as_ref().is_some_and(|old| !old.is_file()) {
        let mut open = OpenOptions::new().write(true).open(&target)?;
        return open.write_all(bytes);
    }
    let beside = beside(&target)?;
    let open = OpenOptions::new()
        .write(true)
        .create_new(true)
        .open(&beside)?;
    let written = fill(open, bytes, old.map(|old| old.permissions()))
        .and_then(|()| fs::rename(&beside, &target));
    if written.is_err() {
        // What was written of it is of no use; that it could not be removed says less than why it was not written.
        let _ = fs::remove_file(&beside);
    }
    written
}

/// A name in the same folder that no other process takes.
fn beside(target: &Path) -> io::Result<PathBuf> {
    let Some(name) = target.file_name() else {
        return Err(io::Error::new(
            io::ErrorKind::InvalidInput,
            "no name of a file",
        ));
    };
    let mut beside = OsString::from(".");
    beside.push(name);
    beside.push(format!(".press-{}", process::id()));
    Ok(target.with_file_name(beside))
}

/// Writes all bytes, to the disk.
fn fill(mut open: File, bytes: &[u8], permissions: Option<fs::Permissions>) -> io::Result<()> {
    open.write_all(bytes)?;
    if let Some(permissions) = permissions {
        open.set_permissions(permissions)?;
    }
    open.sync_all()
}
