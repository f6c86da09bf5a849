// Stands for ethercrab's lib.rs, of which only the module list and the items below are needed. `src/main.rs` includes this file at the crate's root, where the
// originals look for it. Of the modules, those in ORIGINALS.sha256 are originals; the rest are the files beside this one.

mod command;
mod dc;
mod eeprom;
mod error;
mod ethernet;
mod fmmu;
mod fmt;
mod generate;
mod mailbox;
mod maindevice;
mod pdu_loop;
mod register;
mod subdevice;
mod sync_manager_channel;
mod timer_factory;

pub use command::{Command, Reads, Writes};
pub use maindevice::MainDevice;
pub use pdu_loop::{PduLoop, PduTx};
pub use subdevice::{SubDevice, SubDeviceRef};

/// Eleven bits of length, as ETG1000.4 has them in a frame's and a PDU's header.
const LEN_MASK: u16 = 0x07ff;

/// EtherCAT's number among Ethernet's types.
const ETHERCAT_ETHERTYPE: u16 = 0x88a4;

/// The sender's address that a new frame gets. No answer shows it.
const MAINDEVICE_ADDR: ethernet::EthernetAddress = ethernet::EthernetAddress([0x10; 6]);

/// Named by error.rs for its text; no answer shows it.
#[derive(Debug, Copy, Clone, PartialEq, Eq)]
pub struct AlStatusCode;

impl std::fmt::Display for AlStatusCode {
    fn fmt(&self, f: &mut std::fmt::Formatter<'_>) -> std::fmt::Result {
        f.write_str("AL status code")
    }
}

/// Named by error.rs for its text; no answer shows it.
#[derive(Debug, Copy, Clone, PartialEq, Eq)]
pub struct SubDeviceState;

impl std::fmt::Display for SubDeviceState {
    fn fmt(&self, f: &mut std::fmt::Formatter<'_>) -> std::fmt::Result {
        f.write_str("state")
    }
}
