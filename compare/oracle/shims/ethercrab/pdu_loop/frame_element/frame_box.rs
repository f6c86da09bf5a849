//! Stands for ethercrab's pdu_loop/frame_element/frame_box.rs: a frame's memory and the running PDU index, as created_frame.rs and received_frame.rs ask for
//! them.
//!
//! GUESS: opening (`init`) zeroes everything after the Ethernet header, which created_frame.rs relies on ('the buffer is zero-initialised') and RULES, frames,
//! says; the index is the storage's atomic counter, which wraps from 255 to 0; the area is the frame's length less the Ethernet and EtherCAT headers;
//! adding a PDU raises the used bytes by its size.

use super::{FrameElement, FrameState};
use crate::ethernet::{ETHERNET_HEADER_LEN, EthernetAddress, EthernetFrame};
use crate::pdu_loop::frame_header::EthercatFrameHeader;
use crate::{ETHERCAT_ETHERTYPE, MAINDEVICE_ADDR};
use std::ptr::NonNull;
use std::slice;
use std::sync::atomic::{AtomicU8, Ordering};

#[derive(Clone, Copy)]
pub struct FrameBox<'sto> {
    frame: NonNull<FrameElement<0>>,
    pdu_idx: &'sto AtomicU8,
    max_len: usize,
}

impl<'sto> FrameBox<'sto> {
    pub fn new(frame: NonNull<FrameElement<0>>, pdu_idx: &'sto AtomicU8, max_len: usize) -> Self {
        Self { frame, pdu_idx, max_len }
    }

    pub fn init(&mut self) {
        unsafe { (*self.frame.as_ptr()).pdu_payload_len = 0 };
        self.clear_first_pdu();
        let bytes = unsafe { slice::from_raw_parts_mut(FrameElement::ptr(self.frame).as_ptr(), self.max_len) };
        let mut frame = EthernetFrame::new_unchecked(bytes);
        frame.set_src_addr(MAINDEVICE_ADDR);
        frame.set_dst_addr(EthernetAddress::BROADCAST);
        frame.set_ethertype(ETHERCAT_ETHERTYPE);
        frame.payload_mut().fill(0);
    }

    pub fn next_pdu_idx(&self) -> u8 {
        self.pdu_idx.fetch_add(1, Ordering::Relaxed)
    }

    pub fn add_pdu(&mut self, alloc_size: usize, pdu_idx: u8) {
        unsafe {
            (*self.frame.as_ptr()).pdu_payload_len += alloc_size;
            FrameElement::<0>::set_first_pdu(self.frame, pdu_idx);
        }
    }

    pub fn pdu_payload_len(&self) -> usize {
        unsafe { (*self.frame.as_ptr()).pdu_payload_len }
    }

    pub fn pdu_buf(&self) -> &[u8] {
        unsafe { slice::from_raw_parts(FrameElement::ethercat_payload_ptr(self.frame).as_ptr(), self.area()) }
    }

    pub fn pdu_buf_mut(&mut self) -> &mut [u8] {
        unsafe { slice::from_raw_parts_mut(FrameElement::ethercat_payload_ptr(self.frame).as_ptr(), self.area()) }
    }

    fn area(&self) -> usize {
        self.max_len - ETHERNET_HEADER_LEN - EthercatFrameHeader::header_len()
    }

    pub fn ecat_frame_header_mut(&mut self) -> &mut [u8] {
        unsafe {
            let start = FrameElement::ptr(self.frame).as_ptr().add(ETHERNET_HEADER_LEN);
            slice::from_raw_parts_mut(start, EthercatFrameHeader::header_len())
        }
    }

    pub fn clear_first_pdu(&self) {
        unsafe { FrameElement::<0>::clear_first_pdu(self.frame) }
    }

    pub fn storage_slot_index(&self) -> u8 {
        unsafe { FrameElement::<0>::storage_slot_index(self.frame) }
    }

    pub fn set_state(&self, to: FrameState) {
        unsafe { FrameElement::set_state(self.frame, to) }
    }

    pub fn swap_state(&self, from: FrameState, to: FrameState) -> Result<NonNull<FrameElement<0>>, FrameState> {
        unsafe { FrameElement::swap_state(self.frame, from, to) }
    }
}

/// The oracle reads a frame's state off its `Debug`, so a box shows the used bytes and nothing else.
impl std::fmt::Debug for FrameBox<'_> {
    fn fmt(&self, f: &mut std::fmt::Formatter<'_>) -> std::fmt::Result {
        write!(f, "{}", self.pdu_payload_len())
    }
}

/// For the oracle's bench.
impl FrameElement<0> {
    pub fn area_of(frame: NonNull<FrameElement<0>>) -> *mut u8 {
        unsafe { FrameElement::ethercat_payload_ptr(frame).as_ptr() }
    }
}
