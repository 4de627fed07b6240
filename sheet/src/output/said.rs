//! What a command says when all is well, and what is said where that can't be printed.
use std::io::{self, ErrorKind, Write};
use std::path::Path;

use crate::output::outlets::Outlet;
use crate::output::{self, Written};

/// What a command says.
pub enum Said {
    /// A text that was asked for: help, or a grid file in words.
    Text(String),
    /// What was done, after the files were written.
    Report { text: String, on: Stream, files: String },
}

/// Where it is said.
#[derive(Clone, Copy, Debug, PartialEq, Eq)]
pub enum Stream {
    Output,
    Error,
}

impl Said {
    /// The report on these files. It goes to standard error where standard output has one of them.
    pub fn report(text: String, files: &[Written]) -> Said {
        let taken = files.iter().any(|file| is_standard_output(&file.path));
        let names: Vec<String> = files.iter().map(|file| output::name(&file.path)).collect();
        let are = if names.len() == 1 { "is" } else { "are" };
        Said::Report {
            text,
            on: if taken { Stream::Error } else { Stream::Output },
            files: format!("{} {are} written all the same", names.join(" and ")),
        }
    }

    /// Prints it where it belongs.
    pub fn print(&self) -> io::Result<()> {
        match self {
            Said::Text(text) | Said::Report { text, on: Stream::Output, .. } => {
                let mut output = io::stdout().lock();
                output.write_all(text.as_bytes())?;
                output.flush()
            }
            Said::Report { text, on: Stream::Error, .. } => io::stderr().write_all(text.as_bytes()),
        }
    }

    /// Why it could not be printed. Who read enough of a text closes the pipe, as `sheet --help | head -1` does, and
    /// need not be told; but a report that is lost is told of, and that the files are there.
    pub fn unprinted(&self, error: &io::Error) -> Option<String> {
        match self {
            Said::Text(_) if error.kind() == ErrorKind::BrokenPipe => None,
            Said::Text(_) => Some(format!("the text can't be printed: {error}")),
            Said::Report { files, .. } => Some(format!("the report can't be printed: {error}; {files}")),
        }
    }
}

/// Whether what was written there went to standard output.
fn is_standard_output(path: &Path) -> bool {
    Outlet::find(path).is_ok_and(|place| place.is_standard_output())
}
