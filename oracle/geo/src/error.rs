//! The one error that the searches give.

#[derive(Debug)]
pub enum Error {
    InvalidArgument(String),
}

pub type Result<T> = std::result::Result<T, Error>;
