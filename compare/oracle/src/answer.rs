//! Asking an original, and saying its answer in the desk's words.

use crate::eeprom::device_provider::NOT_WRITABLE;
use crate::error::{EepromError, Error, PduError};
use lines::{Unreadable, listed, shown};
use std::cell::Cell;
use std::future::Future;
use std::panic::{AssertUnwindSafe, catch_unwind};
use std::pin::pin;
use std::task::{Context, Poll, Waker};

pub type Reply = Result<String, Off>;

/// Why a request ends without an answer of the Rust.
pub enum Off {
    /// The line can't be read.
    Unreadable,
    /// The original panics.
    Panics,
    /// The Rust has no such call, or no run of it stands in such a state.
    None,
}

impl From<Unreadable> for Off {
    fn from(_: Unreadable) -> Self {
        Off::Unreadable
    }
}

impl Off {
    pub fn line(self) -> String {
        let line = match self {
            Off::Unreadable => "refuses 14",
            Off::Panics => "panics",
            Off::None => "none",
        };
        line.into()
    }
}

thread_local! {
    static ASKING: Cell<bool> = const { Cell::new(false) };
}

/// Panics of the originals leave no trace on standard error; our own do.
pub fn silence() {
    let usual = std::panic::take_hook();
    std::panic::set_hook(Box::new(move |panic| {
        if !ASKING.get() {
            usual(panic)
        }
    }));
}

/// Runs a call of an original.
pub fn ask<T>(call: impl FnOnce() -> T) -> Result<T, Off> {
    ASKING.set(true);
    let answer = catch_unwind(AssertUnwindSafe(call));
    ASKING.set(false);
    answer.map_err(|_| Off::Panics)
}

/// The same for an `async` call. The image never keeps one waiting.
pub fn ask_async<F: Future>(call: impl FnOnce() -> F) -> Result<F::Output, Off> {
    ask(|| match pin!(call()).poll(&mut Context::from_waker(Waker::noop())) {
        Poll::Ready(answer) => answer,
        Poll::Pending => unreachable!("nothing waits here"),
    })
}

pub fn gives(values: &[u32]) -> String {
    format!("gives{}", listed(values))
}

/// A value or, if there is none, `absent`.
pub fn gives_some(value: Option<impl Into<u32>>) -> String {
    value.map_or("absent".into(), |value| gives(&[value.into()]))
}

/// Our number (RULES, refusals) for each error of the Rust. These are all that the originals can end in, so any other shows up as a difference.
pub fn refuses(error: Error) -> String {
    match error {
        Error::Eeprom(EepromError::SectionOverrun) => "refuses 2".into(),
        Error::Eeprom(EepromError::NoCategory) => "refuses 3".into(),
        Error::StringTooLong { max_length, string_length } => format!("refuses 4 {max_length} {string_length}"),
        Error::Eeprom(EepromError::Decode) | Error::Wire(_) => "refuses 5".into(),
        Error::Capacity(_) => "refuses 6".into(),
        NOT_WRITABLE => "refuses 7".into(),
        Error::Pdu(PduError::TooLong) => "refuses 8".into(),
        other => format!("refuses unnumbered {other:?}"),
    }
}

/// The values of an answer, or its refusal.
pub fn said<T>(answer: Result<T, Error>, values: impl FnOnce(T) -> Vec<u32>) -> String {
    match answer {
        Ok(answer) => gives(&values(answer)),
        Err(error) => refuses(error),
    }
}

/// Behind an answer, the record as it is afterwards.
pub fn record(numbers: &[u32]) -> String {
    format!(" @{}", listed(numbers))
}

/// Behind an answer, a lent slice as it is afterwards.
pub fn slice(bytes: &[u8]) -> String {
    format!(" | {}", shown(bytes))
}
