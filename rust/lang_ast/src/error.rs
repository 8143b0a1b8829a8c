use std::collections::TryReserveError;
use std::{fmt, io};

use crate::raw::VERSION;
use crate::tree::TreeError;
use crate::{Refusal, raw};

/// Why there is no answer.
#[derive(Debug)]
#[non_exhaustive]
pub enum Error {
    /// The call turned back the image or what it was given.
    Refused(Refusal),
    /// A tree did not take what was pushed, or an id belongs to another tree.
    Tree(TreeError),
    /// A table of another image, perhaps of the same tree.
    ForeignTable,
    /// The linked archive answers in this version, which is not [`raw::VERSION`]: it belongs to another crate.
    Version(u32),
    /// The call needs more stack than is taken of the caller's, and no thread could be had.
    NoThread(io::Error),
    /// The call's buffers would have more bytes than the image's memory limit allows, and were not made.
    OverMemoryLimit {
        /// The bytes that would do.
        needed: usize,
        /// The bytes that are allowed.
        allowed: usize,
    },
    /// There was no memory for the answer or for the call's work.
    NoMemory(TryReserveError),
}

impl Error {
    /// The error of an archive with another version than this crate reads.
    pub(crate) fn of_version(archive: u32) -> Result<(), Error> {
        if archive == VERSION {
            Ok(())
        } else {
            Err(Error::Version(archive))
        }
    }

    /// Whether crate and archive belong together.
    pub(crate) fn of_archive() -> Result<(), Error> {
        Error::of_version(raw::version())
    }
}

/// A refusal and the error of a tree speak for themselves; of the others `source` has the rest.
impl fmt::Display for Error {
    fn fmt(&self, to: &mut fmt::Formatter<'_>) -> fmt::Result {
        match self {
            Error::Refused(refusal) => refusal.fmt(to),
            Error::Tree(error) => error.fmt(to),
            Error::ForeignTable => to.write_str("a table of another image"),
            Error::Version(archive) => write!(
                to,
                "the archive answers in version {archive}, and this crate reads version {VERSION}"
            ),
            Error::NoThread(_) => to.write_str("no thread for the call"),
            Error::OverMemoryLimit { needed, allowed } => write!(
                to,
                "the call needs {needed} bytes, and {allowed} are allowed"
            ),
            Error::NoMemory(_) => to.write_str("no memory for the call"),
        }
    }
}

impl std::error::Error for Error {
    fn source(&self) -> Option<&(dyn std::error::Error + 'static)> {
        match self {
            Error::Refused(_)
            | Error::Tree(_)
            | Error::ForeignTable
            | Error::Version(_)
            | Error::OverMemoryLimit { .. } => None,
            Error::NoThread(error) => Some(error),
            Error::NoMemory(error) => Some(error),
        }
    }
}

impl From<Refusal> for Error {
    fn from(refusal: Refusal) -> Self {
        Error::Refused(refusal)
    }
}

impl From<TreeError> for Error {
    fn from(error: TreeError) -> Self {
        Error::Tree(error)
    }
}

impl From<TryReserveError> for Error {
    fn from(error: TryReserveError) -> Self {
        Error::NoMemory(error)
    }
}

#[cfg(test)]
mod tests {
    use std::error::Error as _;
    use std::io;

    use super::{Error, VERSION};
    use crate::Refusal;
    use crate::tree::TreeError;

    /// What a log prints: the error, and behind it each source.
    fn chain(error: &Error) -> Vec<String> {
        let mut said = vec![error.to_string()];
        let mut source = error.source();
        while let Some(inner) = source {
            said.push(inner.to_string());
            source = inner.source();
        }
        said
    }

    #[test]
    fn no_error_says_what_its_source_says() {
        let no_memory = Vec::<u64>::new().try_reserve(usize::MAX).err();
        let errors = [
            Error::from(Refusal::Given),
            Error::from(TreeError::TextTooLong),
            Error::ForeignTable,
            Error::Version(2),
            Error::NoThread(io::Error::other("none left")),
            Error::OverMemoryLimit {
                needed: 14,
                allowed: 10,
            },
        ];
        for error in errors.into_iter().chain(no_memory.map(Error::from)) {
            let chain = chain(&error);
            for (place, said) in chain.iter().enumerate() {
                let behind = &chain[place + 1..];
                assert!(
                    !behind.iter().any(|b| said.contains(b.as_str())),
                    "{chain:?}"
                );
            }
        }
    }

    #[test]
    fn what_is_said_says_why() {
        let refused = Error::from(Refusal::OverBudget);
        assert_eq!(chain(&refused), ["refusal 8: the steps exceed the budget"]);
        let over_limit = Error::OverMemoryLimit {
            needed: 14,
            allowed: 10,
        };
        let said = "the call needs 14 bytes, and 10 are allowed";
        assert_eq!(chain(&over_limit), [said]);
        let no_thread = Error::NoThread(io::Error::other("none left"));
        assert_eq!(chain(&no_thread), ["no thread for the call", "none left"]);
    }

    #[test]
    fn an_archive_of_another_version_is_an_error() {
        assert!(Error::of_archive().is_ok());
        let mixed = Error::of_version(VERSION + 1).map_err(|error| error.to_string());
        let said = "the archive answers in version 4, and this crate reads version 3";
        assert_eq!(mixed, Err(said.to_string()));
    }
}
