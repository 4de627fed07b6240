//! Files are written beside their places first, and take them only when all are there. What is no regular file is
//! written to where it is.
pub mod interrupt;
pub mod outlets;
pub mod parts;
pub mod said;

use std::fs::{Metadata, OpenOptions};
use std::io::{self, Write};
use std::path::{Path, PathBuf};

use outlets::{Outlet, STANDARD_OUTPUT};
use parts::Part;

/// A file that is to be written.
pub struct Written {
    pub path: PathBuf,
    pub bytes: Vec<u8>,
}

/// Writes all files or, where one can't be written, none: what stood in their places is then untouched. Only a rename
/// that fails after another was made, as when a folder is taken away in between, leaves that other one made; and what
/// went into a pipe can't be taken back.
pub fn write_all(files: &[Written]) -> Result<(), String> {
    let (mut beside, mut open) = (Vec::new(), Vec::new());
    for file in files {
        let cannot = |error| cannot(&file.path, error);
        match Outlet::find(&file.path).map_err(cannot)? {
            Outlet::File { path, replaced } => {
                beside.push(write_beside(&path, replaced.as_ref(), &file.bytes).map_err(cannot)?)
            }
            place => open.push((place, file)),
        }
    }
    for (place, file) in open {
        write_where_it_is(&place, &file.bytes).map_err(|error| cannot(&file.path, error))?;
    }
    parts::take_places(&beside).map_err(|(path, error)| cannot(path, error))
}

/// Writes a file that is to take this place, and sees it on the disk.
fn write_beside(place: &Path, replaced: Option<&Metadata>, bytes: &[u8]) -> io::Result<Part> {
    let (part, mut file) = Part::make(place, replaced)?;
    file.write_all(bytes)?;
    file.sync_all()?;
    Ok(part)
}

/// Writes to what is there already and stays.
fn write_where_it_is(place: &Outlet, bytes: &[u8]) -> io::Result<()> {
    let mut file = match place {
        Outlet::Descriptor { number, .. } => outlets::open_descriptor(number)?,
        Outlet::File { path, .. } | Outlet::Device { path, .. } => OpenOptions::new().write(true).open(path)?,
    };
    file.write_all(bytes)
}

/// The sentence for an output that can't be written.
pub fn cannot(path: &Path, error: io::Error) -> String {
    format!("{} can't be written: {error}", name(path))
}

/// What an output is called in sentences.
pub fn name(path: &Path) -> String {
    if path.as_os_str() == STANDARD_OUTPUT { "standard output".to_owned() } else { path.display().to_string() }
}
