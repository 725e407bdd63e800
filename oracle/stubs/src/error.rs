//! Stands for the crate's error type. It decides no compared answer: the sources make errors and pass
//! them on, never look into one, and the programs print only that there was one.

use std::fmt;

#[derive(Debug)]
pub enum Error {
    StaticError(&'static str),
    DynamicError(String),
    FailReadingNextBytes,
    FailFindingKeyword(String),
    NotSupportedXtensionType(String),
    Utf8(std::str::Utf8Error),
    Io(std::io::Error),
}

impl fmt::Display for Error {
    fn fmt(&self, f: &mut fmt::Formatter<'_>) -> fmt::Result {
        write!(f, "{self:?}")
    }
}

impl std::error::Error for Error {}

impl From<std::str::Utf8Error> for Error {
    fn from(error: std::str::Utf8Error) -> Self {
        Error::Utf8(error)
    }
}

impl From<std::io::Error> for Error {
    fn from(error: std::io::Error) -> Self {
        Error::Io(error)
    }
}

impl serde::de::Error for Error {
    fn custom<T: fmt::Display>(message: T) -> Self {
        Error::DynamicError(message.to_string())
    }
}
