//! Where an output goes: which file, device or open descriptor a path leads to, and whether two paths lead to the same.
use std::ffi::{OsStr, OsString};
use std::fs::{self, File, Metadata, OpenOptions};
use std::io::{self, ErrorKind};
use std::os::fd::AsFd;
use std::os::unix::ffi::OsStrExt;
use std::os::unix::fs::{FileTypeExt, MetadataExt};
use std::path::{Path, PathBuf};

/// The word that stands for standard output.
pub const STANDARD_OUTPUT: &str = "-";
/// Links that lead on to links are followed so many times, as the kernel does.
const LINKS_MAX: usize = 40;
/// Where Linux lists what this process has open.
const DESCRIPTORS: &str = "/proc/self/fd";

/// What a path leads to, links followed.
#[derive(Debug)]
pub enum Outlet {
    /// A regular file, or none yet. It is replaced as a whole.
    File { path: PathBuf, replaced: Option<Metadata> },
    /// A device or a named pipe. It is written to and stays what it is.
    Device { path: PathBuf, metadata: Metadata },
    /// A file that is open already, by its number: 1 is standard output. It is written to, whatever it is.
    Descriptor { number: String, metadata: Metadata },
}

/// What two paths to the same have in common.
#[derive(Debug, PartialEq, Eq)]
enum Identity {
    /// The number of a device, none for /dev/null.
    Device(Option<u64>),
    /// The file system and the number in it, which hard links share.
    Inode(u64, u64),
    /// What is not there yet: the identity of its folder, and its name.
    Name(u64, u64, OsString),
}

impl Outlet {
    /// What an output's path leads to. Fails where nothing can be written by that path.
    pub fn find(path: &Path) -> io::Result<Outlet> {
        if path.as_os_str() == STANDARD_OUTPUT {
            return descriptor(OsStr::new("1"));
        }
        let metadata = match fs::metadata(path) {
            Ok(metadata) if metadata.is_dir() => return Err(ErrorKind::IsADirectory.into()),
            Ok(metadata) => Some(metadata),
            Err(error) if error.kind() == ErrorKind::NotFound => None,
            Err(error) => return Err(error),
        };
        let end = end_of_links(path)?;
        match metadata {
            _ if is_descriptor(&end) => descriptor(end.file_name().unwrap_or_default()),
            Some(metadata) if !metadata.is_file() => Ok(Outlet::Device { path: path.to_owned(), metadata }),
            replaced => Ok(Outlet::File { path: end, replaced }),
        }
    }

    /// Whether it is standard output, by whatever name.
    pub fn is_standard_output(&self) -> bool {
        matches!(self, Outlet::Descriptor { number, .. } if number == "1")
    }

    /// Whether both lead to the same, so that one would be written over the other or into it. What is sent to /dev/null
    /// is lost by intent, but nobody means standard output twice.
    pub fn is_same(&self, other: &Outlet) -> bool {
        let identity = self.identity();
        let is_lost = identity == Some(Identity::Device(None));
        let is_output = self.is_standard_output() && other.is_standard_output();
        is_output || (identity == other.identity() && !is_lost)
    }

    /// Whether it is what this input is read from. A device is none: what a terminal shows is not what it is asked for.
    pub fn is_input(&self, input: &Path) -> bool {
        match fs::metadata(input) {
            Ok(metadata) if device(&metadata).is_none() => self.identity() == Some(of_what_is_there(&metadata)),
            _ => false,
        }
    }

    /// What it has in common with all other paths to it; none where its folder has gone.
    fn identity(&self) -> Option<Identity> {
        match self {
            Outlet::File { replaced: Some(metadata), .. }
            | Outlet::Device { metadata, .. }
            | Outlet::Descriptor { metadata, .. } => Some(of_what_is_there(metadata)),
            Outlet::File { path, replaced: None } => {
                let folder = fs::metadata(path.parent()?).ok()?;
                Some(Identity::Name(folder.dev(), folder.ino(), path.file_name()?.to_owned()))
            }
        }
    }
}

/// What all paths to this have in common.
fn of_what_is_there(metadata: &Metadata) -> Identity {
    match device(metadata) {
        Some(number) if Some(number) == null_device() => Identity::Device(None),
        Some(number) => Identity::Device(Some(number)),
        None => Identity::Inode(metadata.dev(), metadata.ino()),
    }
}

/// The number of a device that gives and takes characters, as terminals do.
fn device(metadata: &Metadata) -> Option<u64> {
    metadata.file_type().is_char_device().then(|| metadata.rdev())
}

/// The number of /dev/null.
fn null_device() -> Option<u64> {
    device(&fs::metadata("/dev/null").ok()?)
}

/// The file at the end of a path's links, which need not be there, in its folder's one true name. A link in /proc to a
/// descriptor of this process is an end: what it leads to is open.
fn end_of_links(path: &Path) -> io::Result<PathBuf> {
    let mut path = path.to_owned();
    for _ in 0..=LINKS_MAX {
        let place = in_its_folder(&path)?;
        match fs::read_link(&place) {
            Ok(onward) if !is_descriptor(&place) => path = place.with_file_name(onward),
            _ => return Ok(place),
        }
    }
    Err(io::Error::other("too many links that lead on to links"))
}

/// The path with its folder's one true name: no link in it, no dots.
fn in_its_folder(path: &Path) -> io::Result<PathBuf> {
    let bytes = path.as_os_str().as_bytes();
    let (Some(folder), Some(name)) = (path.parent(), path.file_name()) else {
        return Err(ErrorKind::InvalidFilename.into());
    };
    if bytes.ends_with(b"/") || bytes.ends_with(b"/.") {
        return Err(ErrorKind::NotADirectory.into());
    }
    let folder = if folder == Path::new("") { Path::new(".") } else { folder };
    Ok(folder.canonicalize()?.join(name))
}

/// Whether this is a descriptor of this process: /dev/stdout and /dev/fd/3 lead to such.
fn is_descriptor(place: &Path) -> bool {
    matches!((place.parent(), fs::canonicalize(DESCRIPTORS)), (Some(folder), Ok(own)) if folder == own)
}

/// What is open with this number. Another number of standard output counts as that, since what is written by both would
/// overwrite each other.
fn descriptor(number: &OsStr) -> io::Result<Outlet> {
    let number = number.to_string_lossy().into_owned();
    let metadata = match standard(&number) {
        Some(open) => open?.metadata()?,
        None => fs::metadata(of_number(&number))?,
    };
    let output = standard("1").and_then(|open| open.ok()?.metadata().ok());
    let is_output = output.is_some_and(|output| (output.dev(), output.ino()) == (metadata.dev(), metadata.ino()));
    Ok(Outlet::Descriptor { number: if is_output { "1".to_owned() } else { number }, metadata })
}

/// The open file with this number. Linux opens any but the standard ones anew, at their beginning, so what is written
/// goes to the end, where it overwrites nothing.
pub fn open_descriptor(number: &str) -> io::Result<File> {
    standard(number).unwrap_or_else(|| OpenOptions::new().append(true).open(of_number(number)))
}

/// Standard output or standard error, as it is open.
fn standard(number: &str) -> Option<io::Result<File>> {
    let open = match number {
        "1" => io::stdout().as_fd().try_clone_to_owned(),
        "2" => io::stderr().as_fd().try_clone_to_owned(),
        _ => return None,
    };
    Some(open.map(File::from))
}

/// The name of the open file with this number.
fn of_number(number: &str) -> PathBuf {
    Path::new(DESCRIPTORS).join(number)
}
