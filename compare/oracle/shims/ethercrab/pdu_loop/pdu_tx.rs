//! Stands for ethercrab's pdu_loop/pdu_tx.rs, which storage.rs makes and which sends frames. Sending is left out of the port.
//!
//! As a child of `pdu_loop` it is also the oracle's door to the frame builder and to received frames: `PduTx::bench` makes the memory of one frame, laid out
//! as storage.rs does it.

use super::CreatedFrame;
use super::frame_element::created_frame::PduResponseHandle;
use super::frame_element::received_frame::ReceivedFrame;
use super::frame_element::receiving_frame::ReceivingFrame;
use super::frame_element::{FrameElement, FrameState};
use super::frame_header::EthercatFrameHeader;
use super::storage::PduStorageRef;
use crate::error::Error;
use crate::ethernet::ETHERNET_HEADER_LEN;
use ethercrab_wire::{EtherCrabWireRead, EtherCrabWireSized, EtherCrabWireWrite};
use std::cell::UnsafeCell;
use std::ptr::NonNull;
use std::slice;
use std::sync::atomic::{AtomicU8, Ordering};

pub struct PduTx<'sto>(std::marker::PhantomData<&'sto ()>);

impl<'sto> PduTx<'sto> {
    pub(crate) fn new(_: PduStorageRef<'sto>) -> Self {
        Self(std::marker::PhantomData)
    }

    /// A frame whose area has `area` bytes, not yet opened.
    pub fn bench(area: usize) -> Bench {
        let bytes = size_of::<FrameElement<0>>() + LEAD + area;
        let memory = (0..bytes.div_ceil(8)).map(|_| UnsafeCell::new(0)).collect();
        Bench { memory, pdu_idx: AtomicU8::new(0), area }
    }

    /// The EtherCAT header of a frame with so many used bytes, as `mark_sendable` writes it.
    pub fn header(used: u16) -> [u8; 2] {
        let mut bytes = EthercatFrameHeader::buffer();
        EthercatFrameHeader::pdu(used).pack_to_slice_unchecked(&mut bytes);
        bytes
    }

    /// The bytes of a frame's PDUs, as `receive_frame` of pdu_rx.rs cuts them out.
    pub fn body(frame: &[u8]) -> Result<&[u8], Error> {
        let header = EthercatFrameHeader::unpack_from_slice(frame)?;
        let end = EthercatFrameHeader::PACKED_LEN + usize::from(header.payload_len);
        frame.get(EthercatFrameHeader::PACKED_LEN..end).ok_or(Error::ReceiveFrame)
    }
}

/// What lies before the area: the Ethernet and the EtherCAT header.
const LEAD: usize = ETHERNET_HEADER_LEN + EthercatFrameHeader::header_len();

/// One frame's memory, zeroed as storage.rs zeroes it, and the PDU index counter.
pub struct Bench {
    memory: Vec<UnsafeCell<u64>>,
    pdu_idx: AtomicU8,
    area: usize,
}

impl Bench {
    fn element(&self) -> NonNull<FrameElement<0>> {
        NonNull::from(self.memory.as_slice()).cast()
    }

    fn start(&self) -> *mut u8 {
        FrameElement::area_of(self.element())
    }

    pub fn area(&self) -> Vec<u8> {
        unsafe { slice::from_raw_parts(self.start(), self.area) }.to_vec()
    }

    /// Writes the area behind the builder's back.
    pub fn fill(&self, bytes: &[u8]) {
        assert_eq!(bytes.len(), self.area);
        unsafe { slice::from_raw_parts_mut(self.start(), self.area) }.copy_from_slice(bytes)
    }

    pub fn open(&self) -> CreatedFrame<'_> {
        CreatedFrame::claim_created(self.element(), 0, &self.pdu_idx, LEAD + self.area)
            .expect("a frame that nobody holds")
    }

    /// The same frame, sent and come back with these bytes in its area, which they fill.
    pub fn received(&self, bytes: &[u8]) -> Received<'_> {
        drop(self.open());
        unsafe { FrameElement::set_state(self.element(), FrameState::Sent) };
        let frame = ReceivingFrame::claim_receiving(self.element(), &self.pdu_idx, LEAD + self.area);
        let mut frame = frame.expect("a frame that was sent");
        frame.buf_mut().copy_from_slice(bytes);
        Received { frame: frame.received(), start: self.start() }
    }

    pub fn index(&self) -> u8 {
        self.pdu_idx.load(Ordering::Relaxed)
    }

    pub fn set_index(&self, index: u8) {
        self.pdu_idx.store(index, Ordering::Relaxed)
    }
}

pub struct Received<'sto> {
    frame: ReceivedFrame<'sto>,
    start: *mut u8,
}

impl Received<'_> {
    /// What the original gives to the handle of the PDU at `index_in_frame`: the payload's place in the area, its length, the working counter.
    pub fn pdu(&self, index_in_frame: u8, pdu_idx: u8, command_code: u8, alloc_size: usize) -> Result<[u32; 3], Error> {
        let pdu = self.frame.pdu(PduResponseHandle { index_in_frame, pdu_idx, command_code, alloc_size })?;
        let place = pdu.as_ptr() as usize - self.start as usize;
        Ok([place as u32, pdu.len() as u32, pdu.working_counter.into()])
    }
}
