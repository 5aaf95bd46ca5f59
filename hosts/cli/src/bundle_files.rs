//! A directory with a file for each bundle: COUNT-NUMBER.bundle, where COUNT goes on over restarts.

use crate::outcome::{file_error, Failure};
use crate::replace::lock_now;
use std::fs::{self, File};
use std::io::{self, Write};
use std::path::{Path, PathBuf};

const FRESH: &str = ".btpu.new";

pub struct BundleFiles {
    path: PathBuf,
    directory: File,
    /// The count of the last file.
    count: u64,
    synced: bool,
}

impl BundleFiles {
    /// Makes the directory if it is missing. Counting goes on behind `count` and behind the highest file that is there.
    pub fn open(path: &Path, count: u64) -> Result<BundleFiles, Failure> {
        make(path).map_err(|error| file_error(path, "can't be made", &error))?;
        let directory =
            File::open(path).map_err(|error| file_error(path, "can't be opened", &error))?;
        lock_now(&directory, path)?;
        let highest = highest(path).map_err(|error| file_error(path, "can't be listed", &error))?;
        Ok(BundleFiles {
            path: path.to_path_buf(),
            directory,
            count: count.max(highest),
            synced: true,
        })
    }

    pub fn count(&self) -> u64 {
        self.count
    }

    /// Writes a bundle to a file of its own, whole or not at all; answers the file's name.
    pub fn write(&mut self, number: Option<u32>, octets: &[u8]) -> Result<String, Failure> {
        let name = loop {
            self.count += 1;
            let name = name(self.count, number);
            if !self.path.join(&name).exists() {
                break name;
            }
        };
        let fresh = self.path.join(FRESH);
        let target = self.path.join(&name);
        let written = write_synced(&fresh, octets).and_then(|()| fs::rename(&fresh, &target));
        written.map_err(|error| {
            let _ = fs::remove_file(&fresh);
            file_error(&target, "can't be written", &error)
        })?;
        self.synced = false;
        Ok(name)
    }

    /// Brings the names of new files to the disk.
    pub fn sync(&mut self) -> Result<(), Failure> {
        if !self.synced {
            let synced = self.directory.sync_all();
            synced.map_err(|error| file_error(&self.path, "can't be written", &error))?;
            self.synced = true;
        }
        Ok(())
    }
}

/// Makes a directory that is missing, with those above it.
fn make(path: &Path) -> io::Result<()> {
    if path.is_dir() {
        return Ok(());
    }
    let above = match path.parent() {
        Some(above) if !above.as_os_str().is_empty() => above,
        _ => Path::new("."),
    };
    make(above)?;
    fs::create_dir(path)?;
    File::open(above)?.sync_all()
}

fn write_synced(path: &Path, octets: &[u8]) -> io::Result<()> {
    let mut file = File::create(path)?;
    file.write_all(octets)?;
    file.sync_all()
}

fn name(count: u64, number: Option<u32>) -> String {
    match number {
        Some(number) => format!("{count:012}-{number}.bundle"),
        None => format!("{count:012}--.bundle"),
    }
}

/// The highest count of the files in a directory.
fn highest(path: &Path) -> io::Result<u64> {
    let mut highest = 0;
    for entry in fs::read_dir(path)? {
        let name = entry?.file_name();
        highest = highest.max(name.to_str().and_then(count_of).unwrap_or(0));
    }
    Ok(highest)
}

fn count_of(name: &str) -> Option<u64> {
    let (count, _) = name.strip_suffix(".bundle")?.split_once('-')?;
    count.parse().ok()
}

#[cfg(test)]
mod tests {
    use super::*;

    #[test]
    fn names_carry_their_count_and_sort_by_it() {
        assert_eq!(name(1, Some(7)), "000000000001-7.bundle");
        assert_eq!(name(12, None), "000000000012--.bundle");
        assert_eq!(count_of(&name(1, Some(7))), Some(1));
        assert_eq!(count_of(&name(12, None)), Some(12));
        assert_eq!(count_of("notes"), None);
        assert!(name(9, Some(4_294_967_295)) < name(10, None));
    }
}
