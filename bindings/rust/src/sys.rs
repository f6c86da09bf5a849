//! The exports as `bindings/c/morelbarrel.h` has them, and one safe function for each: a slice is passed as its pointer and its length, and nothing
//! else is asked. This is the crate's only module with `unsafe` in it.
#![allow(unsafe_code)]

/// Values are given.
pub const GIVES: u8 = 0;
/// There is no such thing.
pub const ABSENT: u8 = 255;

mod c {
    extern "C" {
        pub fn morel_crc(bytes: *const u8, bytes_len: usize) -> u8;
        pub fn morel_station_alias(image: *const u8, image_len: usize, out: *mut u64, out_len: usize) -> u8;
        pub fn morel_set_station_alias(image: *mut u8, image_len: usize, alias: u16) -> u8;
        pub fn morel_identity(image: *const u8, image_len: usize, out: *mut u64, out_len: usize) -> u8;
        pub fn morel_mailbox_config(image: *const u8, image_len: usize, out: *mut u64, out_len: usize) -> u8;
        pub fn morel_size(image: *const u8, image_len: usize, out: *mut u64, out_len: usize) -> u8;
        pub fn morel_category(image: *const u8, image_len: usize, number: u16, out: *mut u64, out_len: usize) -> u8;
        pub fn morel_category_inside(
            image: *const u8,
            image_len: usize,
            number: u16,
            out: *mut u64,
            out_len: usize,
        ) -> u8;
        pub fn morel_general(image: *const u8, image_len: usize, out: *mut u64, out_len: usize) -> u8;
        pub fn morel_find_string(
            image: *const u8,
            image_len: usize,
            index: u8,
            room: *mut u8,
            room_len: usize,
            out: *mut u64,
            out_len: usize,
        ) -> u8;
        pub fn morel_device_name(
            image: *const u8,
            image_len: usize,
            room: *mut u8,
            room_len: usize,
            out: *mut u64,
            out_len: usize,
        ) -> u8;
        pub fn morel_device_description(
            image: *const u8,
            image_len: usize,
            room: *mut u8,
            room_len: usize,
            out: *mut u64,
            out_len: usize,
        ) -> u8;
        pub fn morel_open(area: *mut u8, area_len: usize, out: *mut u64, out_len: usize) -> u8;
        pub fn morel_push_pdu(
            area: *mut u8,
            area_len: usize,
            used: usize,
            count: usize,
            last: usize,
            index: u8,
            command: u8,
            address: u32,
            bytes: *const u8,
            bytes_len: usize,
            over: usize,
            out: *mut u64,
            out_len: usize,
        ) -> u8;
        pub fn morel_push_pdu_slice_rest(
            area: *mut u8,
            area_len: usize,
            used: usize,
            count: usize,
            last: usize,
            index: u8,
            command: u8,
            address: u32,
            bytes: *const u8,
            bytes_len: usize,
            out: *mut u64,
            out_len: usize,
        ) -> u8;
        pub fn morel_can_push_pdu_payload(
            size: usize,
            used: usize,
            count: usize,
            last: usize,
            len: usize,
            out: *mut u64,
            out_len: usize,
        ) -> u8;
        pub fn morel_frame_header(used: usize, bytes: *mut u8, bytes_len: usize) -> u8;
        pub fn morel_read_frame(frame: *const u8, frame_len: usize, out: *mut u64, out_len: usize) -> u8;
        pub fn morel_spread(
            areas: *mut u8,
            areas_len: usize,
            size: usize,
            used: usize,
            count: usize,
            last: usize,
            index: u8,
            command: u8,
            address: u32,
            image: *const u8,
            image_len: usize,
            out: *mut u64,
            out_len: usize,
        ) -> u8;
    }
}

// In each function below: the pointers and lengths are those of slices that are borrowed for the call, `&mut` ones alone, so they are slices
// as the header asks for. An export has no other duty for its caller, and keeps no pointer.

pub fn crc(bytes: &[u8]) -> u8 {
    unsafe { c::morel_crc(bytes.as_ptr(), bytes.len()) }
}

pub fn set_station_alias(image: &mut [u8], alias: u16) -> u8 {
    unsafe { c::morel_set_station_alias(image.as_mut_ptr(), image.len(), alias) }
}

pub fn station_alias(image: &[u8], out: &mut [u64]) -> u8 {
    unsafe { c::morel_station_alias(image.as_ptr(), image.len(), out.as_mut_ptr(), out.len()) }
}

pub fn identity(image: &[u8], out: &mut [u64]) -> u8 {
    unsafe { c::morel_identity(image.as_ptr(), image.len(), out.as_mut_ptr(), out.len()) }
}

pub fn mailbox_config(image: &[u8], out: &mut [u64]) -> u8 {
    unsafe { c::morel_mailbox_config(image.as_ptr(), image.len(), out.as_mut_ptr(), out.len()) }
}

pub fn size(image: &[u8], out: &mut [u64]) -> u8 {
    unsafe { c::morel_size(image.as_ptr(), image.len(), out.as_mut_ptr(), out.len()) }
}

pub fn category(image: &[u8], number: u16, out: &mut [u64]) -> u8 {
    unsafe { c::morel_category(image.as_ptr(), image.len(), number, out.as_mut_ptr(), out.len()) }
}

pub fn category_inside(image: &[u8], number: u16, out: &mut [u64]) -> u8 {
    unsafe { c::morel_category_inside(image.as_ptr(), image.len(), number, out.as_mut_ptr(), out.len()) }
}

pub fn general(image: &[u8], out: &mut [u64]) -> u8 {
    unsafe { c::morel_general(image.as_ptr(), image.len(), out.as_mut_ptr(), out.len()) }
}

pub fn find_string(image: &[u8], index: u8, room: &mut [u8], out: &mut [u64]) -> u8 {
    unsafe {
        c::morel_find_string(
            image.as_ptr(),
            image.len(),
            index,
            room.as_mut_ptr(),
            room.len(),
            out.as_mut_ptr(),
            out.len(),
        )
    }
}

pub fn device_name(image: &[u8], room: &mut [u8], out: &mut [u64]) -> u8 {
    unsafe {
        c::morel_device_name(image.as_ptr(), image.len(), room.as_mut_ptr(), room.len(), out.as_mut_ptr(), out.len())
    }
}

pub fn device_description(image: &[u8], room: &mut [u8], out: &mut [u64]) -> u8 {
    unsafe {
        c::morel_device_description(
            image.as_ptr(),
            image.len(),
            room.as_mut_ptr(),
            room.len(),
            out.as_mut_ptr(),
            out.len(),
        )
    }
}

pub fn open(area: &mut [u8], out: &mut [u64]) -> u8 {
    unsafe { c::morel_open(area.as_mut_ptr(), area.len(), out.as_mut_ptr(), out.len()) }
}

#[allow(clippy::too_many_arguments)]
pub fn push_pdu(
    area: &mut [u8],
    state: [usize; 3],
    index: u8,
    command: u8,
    address: u32,
    bytes: &[u8],
    over: usize,
    out: &mut [u64],
) -> u8 {
    unsafe {
        c::morel_push_pdu(
            area.as_mut_ptr(),
            area.len(),
            state[0],
            state[1],
            state[2],
            index,
            command,
            address,
            bytes.as_ptr(),
            bytes.len(),
            over,
            out.as_mut_ptr(),
            out.len(),
        )
    }
}

pub fn push_pdu_slice_rest(
    area: &mut [u8],
    state: [usize; 3],
    index: u8,
    command: u8,
    address: u32,
    bytes: &[u8],
    out: &mut [u64],
) -> u8 {
    unsafe {
        c::morel_push_pdu_slice_rest(
            area.as_mut_ptr(),
            area.len(),
            state[0],
            state[1],
            state[2],
            index,
            command,
            address,
            bytes.as_ptr(),
            bytes.len(),
            out.as_mut_ptr(),
            out.len(),
        )
    }
}

pub fn can_push_pdu_payload(size: usize, state: [usize; 3], len: usize, out: &mut [u64]) -> u8 {
    unsafe { c::morel_can_push_pdu_payload(size, state[0], state[1], state[2], len, out.as_mut_ptr(), out.len()) }
}

pub fn frame_header(used: usize, bytes: &mut [u8]) -> u8 {
    unsafe { c::morel_frame_header(used, bytes.as_mut_ptr(), bytes.len()) }
}

pub fn read_frame(frame: &[u8], out: &mut [u64]) -> u8 {
    unsafe { c::morel_read_frame(frame.as_ptr(), frame.len(), out.as_mut_ptr(), out.len()) }
}

#[allow(clippy::too_many_arguments)]
pub fn spread(
    areas: &mut [u8],
    size: usize,
    state: [usize; 3],
    index: u8,
    command: u8,
    address: u32,
    image: &[u8],
    out: &mut [u64],
) -> u8 {
    unsafe {
        c::morel_spread(
            areas.as_mut_ptr(),
            areas.len(),
            size,
            state[0],
            state[1],
            state[2],
            index,
            command,
            address,
            image.as_ptr(),
            image.len(),
            out.as_mut_ptr(),
            out.len(),
        )
    }
}
