//! Stands for ethercrab's generate.rs: lay an item at the front of a buffer and hand back what follows it.
//! GUESS: from how created_frame.rs calls it, first for the header, then for the payload.

use ethercrab_wire::EtherCrabWireWrite;

pub fn write_packed<T: EtherCrabWireWrite>(value: T, buf: &mut [u8]) -> &mut [u8] {
    value.pack_to_slice_unchecked(buf);
    &mut buf[value.packed_len()..]
}
