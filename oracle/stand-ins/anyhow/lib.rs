//! What manta's files take from anyhow: an error that holds another, and text put before it.
use std::error::Error as StdError;
use std::fmt::{self, Debug, Display};

pub struct Error(Box<dyn StdError + Send + Sync>);

pub type Result<T, E = Error> = std::result::Result<T, E>;

impl Error {
    pub fn msg(text: String) -> Self {
        Self(text.into())
    }

    pub fn chain(&self) -> impl Iterator<Item = &(dyn StdError + 'static)> {
        let first: &(dyn StdError + 'static) = &*self.0;
        std::iter::successors(Some(first), |&e| e.source())
    }
}

impl<E: StdError + Send + Sync + 'static> From<E> for Error {
    fn from(e: E) -> Self {
        Self(Box::new(e))
    }
}

impl Display for Error {
    fn fmt(&self, f: &mut fmt::Formatter<'_>) -> fmt::Result {
        Display::fmt(&self.0, f)
    }
}

impl Debug for Error {
    fn fmt(&self, f: &mut fmt::Formatter<'_>) -> fmt::Result {
        Display::fmt(&self.0, f)
    }
}

pub trait Context<T>: Sized {
    fn with_context<C: Display>(self, text: impl FnOnce() -> C) -> Result<T>;

    fn context<C: Display>(self, text: C) -> Result<T> {
        self.with_context(|| text)
    }
}

impl<T, E: StdError> Context<T> for std::result::Result<T, E> {
    fn with_context<C: Display>(self, text: impl FnOnce() -> C) -> Result<T> {
        self.map_err(|e| Error::msg(format!("{}: {e}", text())))
    }
}

impl<T> Context<T> for Option<T> {
    fn with_context<C: Display>(self, text: impl FnOnce() -> C) -> Result<T> {
        self.ok_or_else(|| Error::msg(text().to_string()))
    }
}

#[macro_export]
macro_rules! anyhow {
    ($($text:tt)*) => { $crate::Error::msg(format!($($text)*)) };
}

#[macro_export]
macro_rules! bail {
    ($($text:tt)*) => { return Err($crate::anyhow!($($text)*)) };
}
