//! Stands for ethercrab's pdu_loop/frame_element/receiving_frame.rs. Waiting is left out of the port: what is received is put there by the oracle.

use super::{FrameBox, FrameElement, FrameState};
use crate::PduLoop;
use crate::error::Error;
use crate::pdu_loop::frame_element::received_frame::ReceivedFrame;
use crate::timer_factory::{LabeledTimeout, Timer};
use std::future::Future;
use std::pin::Pin;
use std::ptr::NonNull;
use std::sync::atomic::AtomicU8;
use std::task::{Context, Poll};

pub struct ReceivingFrame<'sto>(FrameBox<'sto>);

impl<'sto> ReceivingFrame<'sto> {
    pub fn claim_receiving(frame: NonNull<FrameElement<0>>, pdu_idx: &'sto AtomicU8, len: usize) -> Option<Self> {
        let frame = unsafe { FrameElement::claim_receiving(frame)? };
        Some(Self(FrameBox::new(frame, pdu_idx, len)))
    }

    pub fn buf_mut(&mut self) -> &mut [u8] {
        self.0.pdu_buf_mut()
    }

    pub fn mark_received(&self) -> Result<(), Error> {
        Err(Error::Internal)
    }

    /// For the oracle: the frame in the hands of whoever waited for it.
    pub fn received(self) -> ReceivedFrame<'sto> {
        self.0.set_state(FrameState::RxProcessing);
        ReceivedFrame::new(self.0)
    }
}

pub struct ReceiveFrameFut<'sto> {
    pub frame: Option<FrameBox<'sto>>,
    pub pdu_loop: &'sto PduLoop<'sto>,
    pub(crate) timeout_timer: Timer,
    pub(crate) timeout: LabeledTimeout,
    pub retries_left: usize,
}

impl<'sto> Future for ReceiveFrameFut<'sto> {
    type Output = Result<ReceivedFrame<'sto>, Error>;

    fn poll(self: Pin<&mut Self>, _: &mut Context<'_>) -> Poll<Self::Output> {
        Poll::Ready(Err(Error::Internal))
    }
}
