//! Files that are replaced as a whole, and locks against a second process that replaces the same file.

use crate::outcome::{file_error, Failure};
use std::ffi::OsString;
use std::fs::{self, File, OpenOptions, TryLockError};
use std::io::{self, ErrorKind, Read, Write};
use std::os::unix::fs::MetadataExt;
use std::path::{Path, PathBuf};

/// A file that this process alone replaces, until it is dropped.
pub struct Replaced {
    /// As the command line names it, and where it really is.
    named: PathBuf,
    path: PathBuf,
    _lock: Lock,
}

impl Replaced {
    /// Takes the lock. A file that is no regular file is refused.
    pub fn open(path: &Path) -> Result<Replaced, Failure> {
        let named = path.to_path_buf();
        let path = fs::canonicalize(path).unwrap_or_else(|_| named.clone());
        match fs::metadata(&path) {
            Ok(found) if !found.is_file() => {
                let words = format!("{} is no regular file: name another", named.display());
                return Err(Failure::Error(words));
            }
            Err(error) if error.kind() != ErrorKind::NotFound => {
                return Err(file_error(&named, "can't be looked at", &error));
            }
            _ => {}
        }
        let _lock = Lock::take(&path)?;
        Ok(Replaced { named, path, _lock })
    }

    /// The file as the command line names it.
    pub fn named(&self) -> &Path {
        &self.named
    }

    /// Its octets, at most so many; None if there is no file yet.
    pub fn read(&self, at_most: u64) -> Result<Option<Vec<u8>>, Failure> {
        let mut octets = Vec::new();
        let read =
            File::open(&self.path).and_then(|file| file.take(at_most).read_to_end(&mut octets));
        match read {
            Ok(_) => Ok(Some(octets)),
            Err(error) if error.kind() == ErrorKind::NotFound => Ok(None),
            Err(error) => Err(file_error(&self.named, "can't be read", &error)),
        }
    }

    /// The file with this content, or as it was.
    pub fn replace(&self, content: &[u8]) -> Result<(), Failure> {
        let fresh = beside(&self.path, ".new");
        let replaced = write_synced(&fresh, content, fs::metadata(&self.path).ok())
            .and_then(|()| fs::rename(&fresh, &self.path))
            .and_then(|()| File::open(directory(&self.path))?.sync_all());
        replaced.map_err(|error| {
            let _ = fs::remove_file(&fresh);
            file_error(&self.named, "can't be written", &error)
        })
    }
}

/// Writes a new file to the disk, with the permissions of an old one.
fn write_synced(path: &Path, content: &[u8], old: Option<fs::Metadata>) -> io::Result<()> {
    let mut file = File::create(path)?;
    if let Some(old) = old {
        file.set_permissions(old.permissions())?;
    }
    file.write_all(content)?;
    file.sync_all()
}

/// The path with something added to its name.
fn beside(path: &Path, added: &str) -> PathBuf {
    let mut name = OsString::from(path);
    name.push(added);
    PathBuf::from(name)
}

fn directory(path: &Path) -> &Path {
    match path.parent() {
        Some(parent) if !parent.as_os_str().is_empty() => parent,
        _ => Path::new("."),
    }
}

/// A locked file beside the path, removed at the end. A killed process leaves it behind, unlocked.
struct Lock {
    path: PathBuf,
    _file: File,
}

impl Lock {
    fn take(of: &Path) -> Result<Lock, Failure> {
        let path = beside(of, ".lock");
        loop {
            let file = OpenOptions::new()
                .write(true)
                .create(true)
                .truncate(false)
                .open(&path);
            let file = file.map_err(|error| file_error(&path, "can't be made", &error))?;
            lock_now(&file, of)?;
            if same_file(&file, &path) {
                return Ok(Lock { path, _file: file });
            }
        }
    }
}

impl Drop for Lock {
    fn drop(&mut self) {
        let _ = fs::remove_file(&self.path);
    }
}

/// Locks an open file, or says that another process uses what it stands for.
pub fn lock_now(file: &File, of: &Path) -> Result<(), Failure> {
    match file.try_lock() {
        Ok(()) => Ok(()),
        Err(TryLockError::WouldBlock) => Err(Failure::Error(format!(
            "{} is in use by another btpu: wait for its end, or name another",
            of.display()
        ))),
        Err(TryLockError::Error(error)) => Err(file_error(of, "can't be locked", &error)),
    }
}

/// Whether the path still leads to the open file: its last owner may have removed it.
fn same_file(file: &File, path: &Path) -> bool {
    match (file.metadata(), fs::metadata(path)) {
        (Ok(open), Ok(found)) => (open.dev(), open.ino()) == (found.dev(), found.ino()),
        _ => false,
    }
}
