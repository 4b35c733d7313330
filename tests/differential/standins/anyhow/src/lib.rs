//! Stands in for `anyhow`: an error that is one message.

use std::fmt;
use std::fmt::Display;

pub type Result<T, E = Error> = std::result::Result<T, E>;

#[derive(Debug)]
pub struct Error(pub String);

impl Error {
    pub fn chain(&self) -> impl Iterator<Item = &dyn Display> {
        std::iter::once(self as &dyn Display)
    }
}

impl Display for Error {
    fn fmt(&self, f: &mut fmt::Formatter<'_>) -> fmt::Result {
        f.write_str(&self.0)
    }
}

#[macro_export]
macro_rules! bail {
    ($format:literal $($args:tt)*) => {
        return Err($crate::Error(format!($format $($args)*)))
    };
    ($message:expr) => {
        return Err($crate::Error($message))
    };
}

#[macro_export]
macro_rules! ensure {
    ($condition:expr, $($message:tt)*) => {
        if !$condition {
            $crate::bail!($($message)*);
        }
    };
}
