//! Stands for the crate `heapless` 0.8: lists and strings of at most N. Here they lie on the heap, which no answer shows.
//! A push past N gives the item back, as that crate's documentation says.

use core::ops::{Deref, DerefMut};
use std::fmt;

#[derive(Clone)]
pub struct Vec<T, const N: usize>(std::vec::Vec<T>);

impl<T, const N: usize> Vec<T, N> {
    pub const fn new() -> Self {
        Self(std::vec::Vec::new())
    }

    pub fn push(&mut self, item: T) -> Result<(), T> {
        if self.0.len() == N {
            return Err(item);
        }
        self.0.push(item);
        Ok(())
    }

    pub fn retain(&mut self, keeps: impl FnMut(&T) -> bool) {
        self.0.retain(keeps)
    }
}

impl<const N: usize> Vec<u8, N> {
    /// # Safety
    /// In that crate the bytes are whatever lay there; `find_string` fills them all before it looks at any. Here they are zeros.
    pub unsafe fn set_len(&mut self, len: usize) {
        assert!(len <= N);
        self.0.resize(len, 0);
    }
}

impl<T, const N: usize> Deref for Vec<T, N> {
    type Target = [T];

    fn deref(&self) -> &[T] {
        &self.0
    }
}

impl<T, const N: usize> DerefMut for Vec<T, N> {
    fn deref_mut(&mut self) -> &mut [T] {
        &mut self.0
    }
}

impl<T, const N: usize> FromIterator<T> for Vec<T, N> {
    fn from_iter<I: IntoIterator<Item = T>>(items: I) -> Self {
        let items: std::vec::Vec<T> = items.into_iter().collect();
        assert!(items.len() <= N);
        Self(items)
    }
}

impl<T: fmt::Debug, const N: usize> fmt::Debug for Vec<T, N> {
    fn fmt(&self, f: &mut fmt::Formatter<'_>) -> fmt::Result {
        self.0.fmt(f)
    }
}

#[derive(Clone, Default, Debug)]
pub struct String<const N: usize>(std::string::String);

impl<const N: usize> String<N> {
    /// # Safety
    /// The bytes must be UTF-8; `find_string` has made them ASCII.
    pub unsafe fn from_utf8_unchecked(bytes: Vec<u8, N>) -> Self {
        Self(std::string::String::from_utf8(bytes.0).expect("ASCII"))
    }

    pub fn as_str(&self) -> &str {
        &self.0
    }
}

impl<const N: usize> fmt::Display for String<N> {
    fn fmt(&self, f: &mut fmt::Formatter<'_>) -> fmt::Result {
        self.0.fmt(f)
    }
}
