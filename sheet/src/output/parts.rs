//! Files that stand beside their places while they are written, as `.part`. None of them outlives the program, unless
//! it is killed outright.
use std::fs::{self, File, Metadata, OpenOptions, Permissions};
use std::io::{self, ErrorKind};
use std::os::unix::fs::{MetadataExt, OpenOptionsExt, PermissionsExt, fchown};
use std::path::{Path, PathBuf};
use std::sync::{Mutex, MutexGuard, PoisonError};

/// The part files that are there. Who makes, renames or removes one has the lock meanwhile.
static THERE: Mutex<Vec<PathBuf>> = Mutex::new(Vec::new());

/// So many names are tried for a part file: one that is taken may be left from a program that was killed.
const NAMES_MAX: usize = 100;
/// The bits that say who may read, write and run a file.
const PERMISSION_BITS: u32 = 0o777;

/// A part file. It is removed when dropped, unless it has taken its place.
#[derive(Debug)]
pub struct Part {
    path: PathBuf,
    place: PathBuf,
}

impl Drop for Part {
    fn drop(&mut self) {
        let mut there = lock();
        if let Some(at) = there.iter().position(|path| *path == self.path) {
            // A folder that was taken away took the part file along.
            let _ = fs::remove_file(there.swap_remove(at));
        }
    }
}

impl Part {
    /// An empty part file for a place. What it replaces lends it its owner, group and permissions; else they are those
    /// of any new file.
    pub fn make(place: &Path, replaced: Option<&Metadata>) -> io::Result<(Part, File)> {
        let mut options = OpenOptions::new();
        options.write(true).create_new(true);
        if replaced.is_some() {
            options.mode(0o600);
        }
        let (part, file) = Part::make_noted(place, &options)?;
        if let Some(replaced) = replaced {
            keep_owner(&file, replaced);
            file.set_permissions(Permissions::from_mode(replaced.mode() & PERMISSION_BITS))?;
        }
        Ok((part, file))
    }

    /// Makes the file and notes it, with no interrupt in between.
    fn make_noted(place: &Path, options: &OpenOptions) -> io::Result<(Part, File)> {
        let mut there = lock();
        for number in 0..NAMES_MAX {
            let path = name_beside(place, number)?;
            match options.open(&path) {
                Err(error) if error.kind() == ErrorKind::AlreadyExists => {}
                Err(error) => return Err(error),
                Ok(file) => {
                    there.push(path.clone());
                    return Ok((Part { path, place: place.to_owned() }, file));
                }
            }
        }
        Err(ErrorKind::AlreadyExists.into())
    }
}

/// A name in the same folder, so that the rename stays within one file system.
fn name_beside(place: &Path, number: usize) -> io::Result<PathBuf> {
    let mut name = place.file_name().ok_or(ErrorKind::InvalidFilename)?.to_owned();
    name.push(format!(".{}", std::process::id()));
    if number > 0 {
        name.push(format!("-{number}"));
    }
    name.push(".part");
    Ok(place.with_file_name(name))
}

/// Gives the file the owner and the group of another, as far as this process may: most may give it a group of theirs.
fn keep_owner(file: &File, replaced: &Metadata) {
    if fchown(file, Some(replaced.uid()), Some(replaced.gid())).is_err() {
        let _ = fchown(file, None, Some(replaced.gid()));
    }
}

/// All part files take their places, with no interrupt in between. A failure comes with the place that it is about.
pub fn take_places(parts: &[Part]) -> Result<(), (&Path, io::Error)> {
    let mut there = lock();
    for part in parts {
        fs::rename(&part.path, &part.place).map_err(|error| (part.place.as_path(), error))?;
        there.retain(|path| *path != part.path);
    }
    Ok(())
}

/// Removes all part files for good: as long as the lock is kept none is made and none takes its place.
pub fn remove_all() -> MutexGuard<'static, Vec<PathBuf>> {
    let there = lock();
    for path in there.iter() {
        let _ = fs::remove_file(path);
    }
    there
}

/// The list is whole at every moment, so a panic elsewhere spoils nothing.
fn lock() -> MutexGuard<'static, Vec<PathBuf>> {
    THERE.lock().unwrap_or_else(PoisonError::into_inner)
}
