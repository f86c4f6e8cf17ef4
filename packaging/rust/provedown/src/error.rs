use std::{error, fmt};

/// Why there is no result.
#[derive(Clone, Copy, Debug, PartialEq, Eq)]
#[non_exhaustive]
pub enum Error {
    /// An allocation was refused. The call may be tried again.
    OutOfMemory,
    /// More than 2^64 - 1 events are open in one image.
    TooDeep,
    /// The text, or what is made of it, has 4 GiB or more.
    TooLong,
    /// The HTML has more bytes than the limit of its [`SafeRules`](crate::SafeRules).
    OverLimit,
}

impl fmt::Display for Error {
    fn fmt(&self, f: &mut fmt::Formatter<'_>) -> fmt::Result {
        f.write_str(match self {
            Error::OutOfMemory => "out of memory",
            Error::TooDeep => "an image is nested too deeply",
            Error::TooLong => "a text of 4 GiB or more",
            Error::OverLimit => "the HTML has more bytes than its limit",
        })
    }
}

impl error::Error for Error {}

#[cfg(test)]
mod tests {
    use super::*;

    #[test]
    fn errors_are_errors() {
        let error: Box<dyn error::Error + Send + Sync> = Error::OutOfMemory.into();
        assert_eq!(error.to_string(), "out of memory");
    }
}
