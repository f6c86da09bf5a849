//! Safe wrappers over Morelbarrel, an EtherCAT wire core in which every call is proved to do what its definition says (`docs/PROMISES.md`).
//!
//! Types and calls have the names of their originals in ethercrab. Every call takes whatever it is handed: a bad size, state or image is a
//! [`Refusal`] with its number, and `None` is an answer, not a refusal. A refusal changes nothing, but for the index that a push refused with
//! [`Refusal::TooLong`] uses up.
//!
//! ```
//! use morelbarrel::{read_frame, CreatedFrame};
//!
//! let mut area = [0u8; 28];
//! let mut frame = CreatedFrame::open(&mut area, 0)?;
//! frame.push_pdu(7, 0x0130_0000, &[0, 0], None)?;
//! frame.push_pdu(5, 0x0120_1001, &[8, 0], None)?;
//! let bytes = [&frame.frame_header()?[..], frame.pdus()].concat();
//! let pdus = read_frame(&bytes)?;
//! assert_eq!((pdus.len(), pdus[1].command, pdus[1].place), (2, 5, 26));
//! # Ok::<(), morelbarrel::Refusal>(())
//! ```
#![deny(unsafe_code, missing_docs)]

mod frame;
mod refusal;
mod sii;
#[allow(missing_docs)]
mod sys;

pub use frame::{
    frame_header, read_frame, spread, Builder, CreatedFrame, PduFields, PduResponseHandle, Spreading,
    PDU_OVERHEAD_BYTES,
};
pub use refusal::Refusal;
pub use sii::{
    crc, set_station_alias, CategoryType, DefaultMailbox, SiiGeneral, SubDeviceEeprom, SubDeviceIdentity, IMAGE_MOST,
};
