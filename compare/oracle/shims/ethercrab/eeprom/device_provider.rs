//! Stands for ethercrab's eeprom/device_provider.rs, which talks to a device. Here it is the lent image of RULES, range.
//!
//! Our rules made into a provider, not behaviour of the Rust: bytes past the image read 0xFF; a word that isn't wholly in the image can't be written (7).
//! Of the Rust it has the width of a chunk, 4 or 8 bytes from a word address on, and the first category's address, which ETG2010 gives.
//!
//! Below stands the oracle's door to `EepromRange`, whose fields only a child module of `eeprom` sees.

use super::{EepromDataProvider, EepromRange};
use crate::error::{EepromError, Error};
use std::cell::RefCell;
use std::ops::Deref;
use std::rc::Rc;

pub const SII_FIRST_CATEGORY_START: u16 = 0x0040;

/// No original makes this error, so it can stand for 'not writable'.
pub const NOT_WRITABLE: Error = Error::Eeprom(EepromError::ClearErrors);

#[derive(Clone)]
pub struct Image {
    pub bytes: Rc<RefCell<Vec<u8>>>,
    pub chunk: usize,
}

impl Image {
    pub fn new(bytes: Vec<u8>, chunk: usize) -> Self {
        Self { bytes: Rc::new(RefCell::new(bytes)), chunk }
    }
}

pub struct Chunk {
    bytes: [u8; 8],
    width: usize,
}

impl Deref for Chunk {
    type Target = [u8];

    fn deref(&self) -> &[u8] {
        &self.bytes[..self.width]
    }
}

impl EepromDataProvider for Image {
    async fn read_chunk(&mut self, start_word: u16) -> Result<impl Deref<Target = [u8]>, Error> {
        let image = self.bytes.borrow();
        let at = usize::from(start_word) * 2;
        let bytes = std::array::from_fn(|i| image.get(at + i).copied().unwrap_or(0xff));
        Ok(Chunk { bytes, width: self.chunk })
    }

    async fn write_word(&mut self, start_word: u16, data: [u8; 2]) -> Result<(), Error> {
        let mut image = self.bytes.borrow_mut();
        let at = usize::from(start_word) * 2;
        let word = image.get_mut(at..at + 2).ok_or(NOT_WRITABLE)?;
        word.copy_from_slice(&data);
        Ok(())
    }

    async fn clear_errors(&self) -> Result<(), Error> {
        Ok(())
    }
}

/// A range that stands at `pos` and ends at `end`.
pub fn range_at(image: Image, pos: u16, end: u16) -> EepromRange<Image> {
    EepromRange { reader: image, byte_pos: pos, end }
}

pub fn pos_end(range: &EepromRange<Image>) -> [u32; 2] {
    [range.byte_pos.into(), range.end.into()]
}
