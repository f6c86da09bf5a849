//! Reads an EEPROM image, builds a frame, spreads a process image over frames and reads it back.
//!
//!     cargo run --example loom
use morelbarrel::{frame_header, read_frame, spread, Builder, CreatedFrame, Refusal, SubDeviceEeprom};

const AREA: usize = 100;

/// An image of a small SubDevice: identity, two strings, General.
fn image() -> Vec<u8> {
    let mut image = vec![0u8; 128];
    image[8..10].copy_from_slice(&[0x05, 0x10]);
    image[16..32].copy_from_slice(&[2, 0, 0, 0, 0x52, 0x30, 0x2C, 0x07, 0, 0, 0x12, 0, 1, 0, 0, 0]);
    image.extend([10, 0, 6, 0, 2, 6]);
    image.extend(*b"EL1004");
    image.extend([2, b'4', b'x', 0]);
    image.extend([30, 0, 9, 0, 0, 0, 1, 2, 0, 0, 0, 0, 0, 0, 0, 0, 90, 0, 0x11, 0, 0, 0]);
    image.extend([0xFF, 0xFF]);
    image
}

fn main() -> Result<(), Refusal> {
    // What is it?
    let image = image();
    let eeprom = SubDeviceEeprom::new(&image);
    let identity = eeprom.identity()?;
    let mut room = [0u8; 32];
    let name = eeprom.device_name(&mut room)?.unwrap_or(b"?");
    println!(
        "{} of vendor {:#x}, alias {:#06x}",
        String::from_utf8_lossy(name),
        identity.vendor_id,
        eeprom.station_alias()?
    );

    // A frame of one write, and whatever room is left of one read.
    let mut area = [0u8; 40];
    let mut frame = CreatedFrame::open(&mut area, 0)?;
    frame.push_pdu(5, 0x0120_1005, &[8, 0], None)?;
    frame.push_pdu_slice_rest(12, 0x1000, &[0; 64])?;
    let bytes = [&frame.frame_header()?[..], frame.pdus()].concat();
    for pdu in read_frame(&bytes)? {
        println!("PDU {}: command {}, {} bytes at {}", pdu.index, pdu.command, pdu.len, pdu.place);
    }

    // A process image over as many areas as it needs, and back.
    let outputs: Vec<u8> = (0..250).map(|n| n as u8).collect();
    let mut areas = [0u8; 4 * AREA];
    let run = spread(&mut areas, AREA, Builder::default(), frame.next_index(), 12, 0x1000, &outputs)?;
    let mut back = vec![0u8; outputs.len()];
    for (area, state) in areas.chunks_exact(AREA).zip(&run.states) {
        let frame = [&frame_header(state.used)?[..], &area[..state.used]].concat();
        for pdu in read_frame(&frame)? {
            let from = (pdu.address - 0x1000) as usize;
            let payload = pdu.payload(&frame).expect("it was read from here");
            back[from..from + payload.len()].copy_from_slice(payload);
        }
    }
    assert_eq!(back, outputs);
    println!("{} bytes over {} frames and back", outputs.len(), run.states.len());
    Ok(())
}
