//! Stands for the crate `embedded-io-async` 0.6: its traits, and the provided methods `read_exact` and `write_all`.
//!
//! GUESS: the provided methods are written from that crate's documentation, not at hand. `read_exact` reads until the buffer is full or a read gives 0;
//! a buffer of 0 bytes reads nothing. So a short exact read leaves what there was in the buffer and the position at the range's end.
//! `write_all` only ever writes single words here.

#![allow(async_fn_in_trait)]

pub enum ErrorKind {
    Other,
}

pub trait Error: core::fmt::Debug {
    fn kind(&self) -> ErrorKind;
}

pub trait ErrorType {
    type Error: Error;
}

#[derive(Debug)]
pub enum ReadExactError<E> {
    UnexpectedEof,
    Other(E),
}

pub trait Read: ErrorType {
    async fn read(&mut self, buf: &mut [u8]) -> Result<usize, Self::Error>;

    async fn read_exact(&mut self, buf: &mut [u8]) -> Result<(), ReadExactError<Self::Error>> {
        let mut filled = 0;
        while filled < buf.len() {
            match self.read(&mut buf[filled..]).await {
                Ok(0) => return Err(ReadExactError::UnexpectedEof),
                Ok(n) => filled += n,
                Err(e) => return Err(ReadExactError::Other(e)),
            }
        }
        Ok(())
    }
}

pub trait Write: ErrorType {
    async fn write(&mut self, buf: &[u8]) -> Result<usize, Self::Error>;

    async fn write_all(&mut self, buf: &[u8]) -> Result<(), Self::Error> {
        let mut written = 0;
        while written < buf.len() {
            match self.write(&buf[written..]).await? {
                0 => panic!("a write that takes nothing"),
                n => written += n,
            }
        }
        Ok(())
    }
}
