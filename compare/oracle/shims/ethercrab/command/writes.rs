//! Stands for ethercrab's command/writes.rs: the commands that write. The variants and their fields are those that command/mod.rs matches on.
//! Sending is left out: there is no network here.

use crate::{MainDevice, error::Error};
use ethercrab_wire::EtherCrabWireWrite;

#[derive(PartialEq, Eq, Debug, Copy, Clone)]
pub enum Writes {
    Bwr { address: u16, register: u16 },
    Apwr { address: u16, register: u16 },
    Fpwr { address: u16, register: u16 },
    Lwr { address: u32 },
    Lrw { address: u32 },
}

pub struct WrappedWrite {
    pub command: Writes,
}

impl WrappedWrite {
    pub fn new(command: Writes) -> Self {
        Self { command }
    }

    pub fn ignore_wkc(self) -> Self {
        self
    }

    pub fn with_wkc(self, _: u16) -> Self {
        self
    }

    pub async fn send(self, _: &MainDevice<'_>, _: impl EtherCrabWireWrite) -> Result<(), Error> {
        Err(Error::Internal)
    }
}
