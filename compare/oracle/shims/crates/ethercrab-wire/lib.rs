//! Stands for the crate `ethercrab-wire` 0.2: the traits by which records are read from and written to bytes.
//!
//! GUESS: the crate is not at hand. The traits' shape is what the originals call and implement. Taken as: integers lie little-endian; a buffer longer than
//! the item is read at its front, a shorter one is `ReadBufferTooShort`; a bool is 'not 0'. Which bytes of an SII record are which field, and what an enum
//! admits, is in `ethercrab-wire-derive`.

pub use ethercrab_wire_derive::{EtherCrabWireRead, EtherCrabWireReadWrite, EtherCrabWireWrite};

#[derive(Debug, Copy, Clone, PartialEq, Eq)]
pub enum WireError {
    ReadBufferTooShort,
    InvalidValue,
}

impl std::fmt::Display for WireError {
    fn fmt(&self, f: &mut std::fmt::Formatter<'_>) -> std::fmt::Result {
        write!(f, "{self:?}")
    }
}

pub trait EtherCrabWireSized {
    const PACKED_LEN: usize;
    type Buffer: AsRef<[u8]> + AsMut<[u8]>;

    fn buffer() -> Self::Buffer;
}

pub trait EtherCrabWireRead: Sized {
    fn unpack_from_slice(buf: &[u8]) -> Result<Self, WireError>;
}

pub trait EtherCrabWireReadSized: EtherCrabWireRead + EtherCrabWireSized {}

impl<T: EtherCrabWireRead + EtherCrabWireSized> EtherCrabWireReadSized for T {}

pub trait EtherCrabWireWrite {
    fn pack_to_slice_unchecked<'buf>(&self, buf: &'buf mut [u8]) -> &'buf [u8];
    fn packed_len(&self) -> usize;
}

pub trait EtherCrabWireWriteSized: EtherCrabWireSized {
    fn pack(&self) -> Self::Buffer;
}

macro_rules! integers {
    ($($int:ty)*) => {$(
        impl EtherCrabWireSized for $int {
            const PACKED_LEN: usize = size_of::<$int>();
            type Buffer = [u8; size_of::<$int>()];

            fn buffer() -> Self::Buffer {
                [0; size_of::<$int>()]
            }
        }

        impl EtherCrabWireRead for $int {
            fn unpack_from_slice(buf: &[u8]) -> Result<Self, WireError> {
                buf.first_chunk().map(|bytes| Self::from_le_bytes(*bytes)).ok_or(WireError::ReadBufferTooShort)
            }
        }

        impl EtherCrabWireWrite for $int {
            fn pack_to_slice_unchecked<'buf>(&self, buf: &'buf mut [u8]) -> &'buf [u8] {
                lay(&self.to_le_bytes(), buf)
            }

            fn packed_len(&self) -> usize {
                size_of::<$int>()
            }
        }
    )*};
}

integers!(u8 u16 u32 u64 i16 i64);

impl EtherCrabWireRead for bool {
    fn unpack_from_slice(buf: &[u8]) -> Result<Self, WireError> {
        Ok(u8::unpack_from_slice(buf)? != 0)
    }
}

impl EtherCrabWireWrite for bool {
    fn pack_to_slice_unchecked<'buf>(&self, buf: &'buf mut [u8]) -> &'buf [u8] {
        lay(&[u8::from(*self)], buf)
    }

    fn packed_len(&self) -> usize {
        1
    }
}

impl EtherCrabWireWrite for () {
    fn pack_to_slice_unchecked<'buf>(&self, buf: &'buf mut [u8]) -> &'buf [u8] {
        lay(&[], buf)
    }

    fn packed_len(&self) -> usize {
        0
    }
}

impl EtherCrabWireWrite for &[u8] {
    fn pack_to_slice_unchecked<'buf>(&self, buf: &'buf mut [u8]) -> &'buf [u8] {
        lay(self, buf)
    }

    fn packed_len(&self) -> usize {
        self.len()
    }
}

impl<const N: usize> EtherCrabWireWrite for [u8; N] {
    fn pack_to_slice_unchecked<'buf>(&self, buf: &'buf mut [u8]) -> &'buf [u8] {
        lay(self, buf)
    }

    fn packed_len(&self) -> usize {
        N
    }
}

impl<T: EtherCrabWireReadSized + Copy + Default, const N: usize> EtherCrabWireRead for [T; N] {
    fn unpack_from_slice(buf: &[u8]) -> Result<Self, WireError> {
        let mut items = [T::default(); N];
        for (i, item) in items.iter_mut().enumerate() {
            *item = T::unpack_from_slice(buf.get(i * T::PACKED_LEN..).ok_or(WireError::ReadBufferTooShort)?)?;
        }
        Ok(items)
    }
}

fn lay<'buf>(bytes: &[u8], buf: &'buf mut [u8]) -> &'buf [u8] {
    let buf = &mut buf[..bytes.len()];
    buf.copy_from_slice(bytes);
    buf
}

/// For the derive: the field of `width` bits at bit `at`, bits counted from each byte's lowest. A field is whole bytes, or lies in one byte.
pub fn read_field<T: EtherCrabWireRead>(buf: &[u8], at: usize, width: usize) -> Result<T, WireError> {
    if at % 8 == 0 && width % 8 == 0 {
        return T::unpack_from_slice(&buf[at / 8..][..width / 8]);
    }
    assert!(at % 8 + width <= 8);
    T::unpack_from_slice(&[buf[at / 8] >> (at % 8) & ((1 << width) - 1)])
}

/// For the derive: the same place, written. Other bits of the byte stay.
pub fn write_field<T: EtherCrabWireWrite>(value: &T, buf: &mut [u8], at: usize, width: usize) {
    if at % 8 == 0 && width % 8 == 0 {
        value.pack_to_slice_unchecked(&mut buf[at / 8..][..width / 8]);
        return;
    }
    assert!(at % 8 + width <= 8);
    let mut bits = [0];
    value.pack_to_slice_unchecked(&mut bits);
    let mask = ((1 << width) - 1) << (at % 8);
    buf[at / 8] = buf[at / 8] & !mask | (bits[0] << (at % 8)) & mask;
}
