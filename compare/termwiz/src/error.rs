//! Stands in for the original's `error`: one error type, and `bail!`.

#[derive(Debug)]
pub struct Error(pub String);

pub type Result<T> = std::result::Result<T, Error>;

impl From<std::fmt::Error> for Error {
    fn from(error: std::fmt::Error) -> Self {
        Error(error.to_string())
    }
}

#[macro_export]
macro_rules! bail {
    ($($message:tt)*) => {
        return Err($crate::error::Error(format!($($message)*)))
    };
}
