//! The file of what is kept: how it is found, made and removed.
use crate::steps::{step, Step};
use crate::FileError;
use std::ffi::OsString;
use std::fs::{self, File, OpenOptions};
use std::io::{self, Read, Write};
use std::os::unix::fs::OpenOptionsExt;
use std::path::{Path, PathBuf};

/// What a file begins with that is ours.
pub(crate) const NAME: [u8; 16] = *b"Kilambosetryfile";

/// The path of the file as long as it isn't whole.
pub(crate) fn unfinished(path: &Path) -> io::Result<PathBuf> {
    with_ending(path, ".new")
}

fn with_ending(path: &Path, ending: &str) -> io::Result<PathBuf> {
    let mut name = OsString::new();
    let reserved = name.try_reserve_exact(path.as_os_str().len() + ending.len());
    reserved.map_err(|_| io::ErrorKind::OutOfMemory)?;
    name.push(path);
    name.push(ending);
    Ok(name.into())
}

/// Refused where there is something at the path that isn't ours. A file that ends within our name is ours.
pub(crate) fn check_ours(path: &Path) -> Result<(), FileError> {
    match fs::symlink_metadata(path) {
        Err(error) if error.kind() == io::ErrorKind::NotFound => return Ok(()),
        Err(error) => return Err(error.into()),
        Ok(found) if !found.is_file() => return Err(FileError::OtherKind),
        Ok(_) => {}
    }
    let (mut head, mut length) = ([0; NAME.len()], 0);
    let mut file = File::open(path)?;
    while length < head.len() {
        match file.read(&mut head[length..])? {
            0 => break,
            more => length += more,
        }
    }
    match head[..length] == NAME[..length] {
        true => Ok(()),
        false => Err(FileError::NotOurs),
    }
}

// (which takes no memory)
fn not_ours(why: FileError) -> io::Error {
    match why {
        FileError::Io(error) => error,
        _ => io::ErrorKind::AlreadyExists.into(),
    }
}

/// The file, to be read; none, where there is none.
pub(crate) fn open(path: &Path) -> io::Result<Option<File>> {
    step(Step::Open)?;
    match File::open(path) {
        Err(error) if error.kind() == io::ErrorKind::NotFound => Ok(None),
        opened => opened.map(Some),
    }
}

/// Reads as many bytes as come.
pub(crate) fn read(file: &mut File, out: &mut [u8]) -> io::Result<usize> {
    step(Step::Read)?;
    loop {
        match file.read(out) {
            Err(error) if error.kind() == io::ErrorKind::Interrupted => {}
            read => return read,
        }
    }
}

/// An empty file, in place of one that may be there, for its owner alone.
pub(crate) fn create(path: &Path) -> io::Result<File> {
    step(Step::Create)?;
    check_ours(path).map_err(not_ours)?;
    match fs::remove_file(path) {
        Err(error) if error.kind() != io::ErrorKind::NotFound => return Err(error),
        _ => {}
    }
    OpenOptions::new().write(true).create_new(true).mode(0o600).open(path)
}

/// Refused where no file can be made beside the path. It is tried by a name that nothing else has: another process may be about to
/// write the file itself.
pub(crate) fn check_can_create(path: &Path) -> io::Result<()> {
    let tried = with_ending(path, ".try")?;
    match create(&tried) {
        // (whoever's it is, it could be made)
        Err(error) if error.kind() == io::ErrorKind::AlreadyExists => Ok(()),
        Err(error) => Err(error),
        Ok(_) => {
            remove(&tried);
            Ok(())
        }
    }
}

/// Writes these bytes behind the others.
pub(crate) fn write(file: &mut File, bytes: &[u8]) -> io::Result<()> {
    step(Step::Write)?;
    file.write_all(bytes)
}

/// Puts the file, which is whole, at its path, and answers once it is there for good.
pub(crate) fn put(file: &File, from: &Path, to: &Path) -> io::Result<()> {
    step(Step::Sync)?;
    file.sync_all()?;
    step(Step::Rename)?;
    check_ours(to).map_err(not_ours)?;
    fs::rename(from, to)?;
    step(Step::SyncFolder)?;
    let folder = to.parent().filter(|folder| !folder.as_os_str().is_empty()).unwrap_or(Path::new("."));
    File::open(folder)?.sync_all()
}

/// Removes the file, if it is there and ours. One that can't be removed is of no use to anybody, and stays.
pub(crate) fn remove(path: &Path) {
    if step(Step::Remove).is_ok() && check_ours(path).is_ok() {
        let _ = fs::remove_file(path);
    }
}
