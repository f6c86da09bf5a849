//! Stands for ethercrab's command/reads.rs: the commands that read. The variants and their fields are those that command/mod.rs matches on.
//! Sending is left out: there is no network here.

use crate::{MainDevice, error::Error};

#[derive(PartialEq, Eq, Debug, Copy, Clone)]
pub enum Reads {
    Aprd { address: u16, register: u16 },
    Fprd { address: u16, register: u16 },
    Brd { address: u16, register: u16 },
    Lrd { address: u32 },
    Frmw { address: u16, register: u16 },
}

pub struct WrappedRead {
    pub command: Reads,
}

impl WrappedRead {
    pub fn new(command: Reads) -> Self {
        Self { command }
    }

    pub fn ignore_wkc(self) -> Self {
        self
    }

    pub async fn receive<T>(self, _: &MainDevice<'_>) -> Result<T, Error> {
        Err(Error::Internal)
    }

    pub async fn receive_wkc<T>(self, _: &MainDevice<'_>) -> Result<u16, Error> {
        Err(Error::Internal)
    }
}
