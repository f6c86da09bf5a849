//! Stands for the crate `atomic-waker`. Nothing waits in the oracle, so no waker is kept and none is woken.

use core::task::Waker;

#[derive(Debug, Default)]
pub struct AtomicWaker;

impl AtomicWaker {
    pub const fn new() -> Self {
        Self
    }

    pub fn register(&self, _: &Waker) {}

    pub fn wake(&self) {}
}
