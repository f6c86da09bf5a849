//! Each wrapper with good and bad input: the bench cases (docs/RULES.md), and numbers worked out by hand from the rules.
use morelbarrel::*;

fn image() -> Vec<u8> {
    let mut image = vec![0u8; 128];
    image[8..10].copy_from_slice(&[0x12, 0x34]);
    image[16..32].copy_from_slice(&[2, 0, 0, 0, 0x52, 0x30, 0x2C, 0x07, 0, 0, 0x12, 0, 0x78, 0x56, 0x34, 0x12]);
    image[48..58].copy_from_slice(&[0, 0x10, 0x80, 0, 0x80, 0x10, 0x80, 0, 0x0C, 0]);
    image[124] = 15;
    image.extend([10, 0, 4, 0, 0x02, 0x03, 0x41, 0x00, 0xB5, 0x01, 0x42, 0x00]);
    image.extend([30, 0, 9, 0, 0, 0, 1, 2, 0, 0x0F, 1, 0, 0, 0, 0, 0x03, 0xD4, 0xFE, 0x11, 0x43, 0x00, 0x10]);
    image.extend([0xFF, 0xFF]);
    image
}

const TOO_LONG: &[u8] = &[0; IMAGE_MOST + 1];

#[test]
fn checksum() {
    assert_eq!(crc(b"123456789"), 0xFB);
    assert_eq!(crc(&[0; 14]), 0x30);
    assert_eq!(crc(&[]), 0xFF);
}

#[test]
fn fixed_area() {
    let image = image();
    let eeprom = SubDeviceEeprom::new(&image);
    let long = SubDeviceEeprom::new(TOO_LONG);
    assert_eq!(eeprom.station_alias(), Ok(0x3412));
    assert_eq!(SubDeviceEeprom::new(&image[..9]).station_alias(), Ok(0xFF12));
    assert_eq!(long.station_alias(), Err(Refusal::BadArgument));
    let identity =
        SubDeviceIdentity { vendor_id: 2, product_id: 0x072C_3052, revision: 0x0012_0000, serial: 0x1234_5678 };
    assert_eq!(eeprom.identity(), Ok(identity));
    assert_eq!(long.identity(), Err(Refusal::BadArgument));
    let mailbox = DefaultMailbox {
        subdevice_receive_offset: 0x1000,
        subdevice_receive_size: 0x80,
        subdevice_send_offset: 0x1080,
        subdevice_send_size: 0x80,
        supported_protocols: 0x0C,
    };
    assert_eq!(eeprom.mailbox_config(), Ok(mailbox));
    assert_eq!(SubDeviceEeprom::new(&image[..56]).mailbox_config(), Err(Refusal::Decode));
    assert_eq!(eeprom.size(), Ok(2048));
    assert_eq!(SubDeviceEeprom::new(&[]).size(), Ok(8_388_608));
    assert_eq!(long.size(), Err(Refusal::BadArgument));
}

#[test]
fn alias() {
    let mut image = [0u8; 17];
    assert_eq!(set_station_alias(&mut image, 0), Ok(()));
    assert_eq!(image[14..], [0x30, 0, 0]);
    assert_eq!(set_station_alias(&mut image, 0x1234), Ok(()));
    assert_eq!((image[8], image[9], image[14]), (0x34, 0x12, crc(&image[..14])));
    let before = image;
    assert_eq!(set_station_alias(&mut image[..15], 7), Err(Refusal::NotWritable));
    assert_eq!(image, before);
}

#[test]
fn categories() {
    let mut image = image();
    let eeprom = SubDeviceEeprom::new(&image);
    assert_eq!(eeprom.category(CategoryType::General), Ok(Some(144..162)));
    assert_eq!(eeprom.category(CategoryType::SyncManager), Ok(None));
    assert_eq!(eeprom.category_numbered(11), Err(Refusal::BadArgument));
    assert_eq!(eeprom.category_inside(CategoryType::General), Ok(true));
    assert_eq!(eeprom.category_inside(CategoryType::SyncManager), Ok(true));
    assert_eq!(SubDeviceEeprom::new(&image[..161]).category_inside(CategoryType::General), Ok(false));
    assert_eq!(SubDeviceEeprom::new(&image[..162]).category_inside(CategoryType::SyncManager), Ok(false));
    assert_eq!(SubDeviceEeprom::new(TOO_LONG).category_inside(CategoryType::General), Err(Refusal::BadArgument));
    let mut empties = vec![0u8; 128 + 32 * 4];
    empties[128 + 31 * 4] = 10;
    assert_eq!(SubDeviceEeprom::new(&empties).category(CategoryType::Strings), Ok(None));
    empties[128 + 30 * 4] = 10;
    assert_eq!(SubDeviceEeprom::new(&empties).category(CategoryType::Strings), Ok(Some(252..252)));
    let general = eeprom.general().unwrap();
    assert_eq!((general.order_string_idx, general.name_string_idx, general.coe_details), (1, 2, 0x0F));
    assert_eq!((general.foe_enabled, general.eoe_enabled, general.flags, general.ebus_current), (true, false, 3, -300));
    assert_eq!((general.ports, general.physical_memory_addr), ([1, 1, 3, 4], 0x1000));
    assert_eq!(SubDeviceEeprom::new(&image[..140]).general(), Err(Refusal::NoCategory));
    image[149] = 0x40;
    assert_eq!(SubDeviceEeprom::new(&image).general(), Err(Refusal::Decode));
}

/// An image of the most bytes: a category of the maker's own, then General, of so many words, which ends with the image where they are nine.
fn full(words: u8) -> Vec<u8> {
    let mut image = vec![0xFF; IMAGE_MOST];
    let header = IMAGE_MOST - 22;
    let own = ((header - 132) / 2) as u16;
    image[128..132].copy_from_slice(&[0, 8, own.to_le_bytes()[0], own.to_le_bytes()[1]]);
    image[header..header + 4].copy_from_slice(&[30, 0, words, 0]);
    let general = [0, 0, 1, 2, 0, 0x0F, 1, 0, 0, 0, 0, 0x03, 0xD4, 0xFE, 0x11, 0x43, 0x00, 0x10];
    image[header + 4..].copy_from_slice(&general);
    image
}

#[test]
fn full_images() {
    let most = IMAGE_MOST as u32;
    let mut image = full(9);
    let eeprom = SubDeviceEeprom::new(&image);
    assert_eq!(eeprom.category(CategoryType::General), Ok(Some(most - 18..most)));
    assert_eq!(eeprom.category_inside(CategoryType::General), Ok(true));
    assert_eq!(eeprom.general().unwrap().ebus_current, -300);
    assert_eq!(set_station_alias(&mut image, 0x1234), Ok(()));
    assert_eq!(SubDeviceEeprom::new(&image).station_alias(), Ok(0x1234));
    assert_eq!(SubDeviceEeprom::new(&image[..IMAGE_MOST - 1]).category_inside(CategoryType::General), Ok(false));
    image.push(0xFF);
    assert_eq!(SubDeviceEeprom::new(&image).category(CategoryType::General), Err(Refusal::BadArgument));
    assert_eq!(set_station_alias(&mut image, 7), Err(Refusal::BadArgument));
    let image = full(10);
    assert_eq!(SubDeviceEeprom::new(&image).category(CategoryType::General), Err(Refusal::Address));
    assert_eq!(SubDeviceEeprom::new(&image).category(CategoryType::SyncManager), Err(Refusal::Address));
}

#[test]
fn strings() {
    let image = image();
    let eeprom = SubDeviceEeprom::new(&image);
    let mut room = [0xA5u8; 8];
    assert_eq!(eeprom.find_string(1, &mut room), Ok(Some(&b"A?"[..])));
    assert_eq!(eeprom.find_string(2, &mut room), Ok(Some(&b"B"[..])));
    assert_eq!(eeprom.find_string(3, &mut room), Ok(None));
    assert_eq!(eeprom.find_string(4, &mut room), Ok(None));
    assert_eq!(eeprom.find_string(1, &mut room[..2]), Err(Refusal::StringTooLong { room: 2, stored: 3 }));
    assert_eq!(eeprom.find_string(1, &mut [0; 256]), Err(Refusal::BadArgument));
    assert_eq!(room, [b'B', b'?', 0xA5, 0xA5, 0xA5, 0xA5, 0xA5, 0xA5]);
    assert_eq!(eeprom.device_name(&mut room), Ok(Some(&b"A?"[..])));
    assert_eq!(eeprom.device_description(&mut room), Ok(Some(&b"B"[..])));
    let short = SubDeviceEeprom::new(&image[..140]);
    assert_eq!(short.device_name(&mut room), Ok(None));
    assert_eq!(short.device_description(&mut room), Err(Refusal::NoCategory));
}

#[test]
fn frames() {
    let want = [
        0x1C, 0x10, 0x07, 0x00, 0x00, 0x00, 0x30, 0x01, 0x02, 0x80, 0x00, 0x00, 0x00, 0x00, 0x00, 0x00, 0x05, 0x01,
        0x01, 0x10, 0x20, 0x01, 0x02, 0x00, 0x00, 0x00, 0x08, 0x00, 0x00, 0x00,
    ];
    let mut area = [0xEEu8; 28];
    let mut frame = CreatedFrame::open(&mut area, 0).unwrap();
    assert_eq!(
        frame.push_pdu(7, 0x0130_0000, &[0, 0], None),
        Ok(PduResponseHandle { start: 0, size: 14, index: 0, command: 7 })
    );
    assert_eq!(frame.can_push_pdu_payload(2), Ok(true));
    assert_eq!(frame.can_push_pdu_payload(3), Ok(false));
    assert_eq!(frame.can_push_pdu_payload(65_536), Err(Refusal::BadArgument));
    assert_eq!(
        frame.push_pdu(5, 0x0120_1001, &[8, 0], None),
        Ok(PduResponseHandle { start: 14, size: 14, index: 1, command: 5 })
    );
    let bytes = [&frame.frame_header().unwrap()[..], frame.pdus()].concat();
    assert_eq!(bytes, want);
    assert_eq!(frame.push_pdu(5, 0, &[], None), Err(Refusal::TooLong));
    assert_eq!(frame.next_index(), 3);
    assert_eq!(frame.push_pdu(15, 0, &[], None), Err(Refusal::BadArgument));
    assert_eq!(frame.push_pdu_slice_rest(5, 0, &[1]), Ok(None));
    assert_eq!(frame.push_pdu_slice_rest(15, 0, &[1]), Err(Refusal::BadArgument));
    assert_eq!((frame.next_index(), frame.builder()), (3, Builder { used: 28, count: 2, last: 14 }));
    assert_eq!(frame.pdus(), &want[2..]);

    let pdus = read_frame(&want).unwrap();
    assert_eq!(pdus.len(), 2);
    let first = PduFields {
        command: 7,
        index: 0,
        address: 0x0130_0000,
        len: 2,
        circulated: false,
        more_follows: true,
        irq: 0,
        place: 12,
        counter: 0,
    };
    assert_eq!(pdus[0], first);
    assert_eq!(pdus[1].payload(&want), Some(&[8u8, 0][..]));
    assert_eq!(pdus[1].payload(&want[..27]), None);
    assert_eq!(read_frame(&want[..29]), Err(Refusal::BadFrame));
    assert_eq!(frame_header(2048), Err(Refusal::BadArgument));
    assert!(matches!(CreatedFrame::open(&mut [0; 2048], 0), Err(Refusal::BadArgument)));
}

#[test]
fn overrides_and_resumed_states() {
    let mut area = [0u8; 20];
    let mut frame = CreatedFrame::open(&mut area, 255).unwrap();
    assert_eq!(frame.push_pdu(4, 1, &[9], Some(8)).unwrap().size, 20);
    assert_eq!(frame.next_index(), 0);
    let mut bad = CreatedFrame::resume(&mut area, Builder { used: 21, count: 1, last: 0 }, 7);
    assert_eq!(bad.push_pdu(4, 1, &[], None), Err(Refusal::BadArgument));
    assert_eq!(bad.can_push_pdu_payload(0), Err(Refusal::BadArgument));
    assert_eq!((bad.pdus(), bad.next_index(), bad.builder().used), (&[][..], 7, 21));
}

#[test]
fn spreading() {
    let mut areas = [0u8; 200];
    let ends = |areas: &mut [u8], n: usize| {
        spread(areas, 100, Builder::default(), 0, 12, 0, &[0u8; 177][..n]).map(|run| run.states.len())
    };
    assert_eq!(ends(&mut areas, 0), Ok(0));
    assert_eq!(ends(&mut areas, 88), Ok(1));
    assert_eq!(ends(&mut areas, 89), Ok(2));
    assert_eq!(ends(&mut areas, 176), Ok(2));
    assert_eq!(ends(&mut areas, 177), Err(Refusal::NoRoom));
    assert_eq!(ends(&mut areas[..199], 1), Err(Refusal::BadArgument));
    assert_eq!(spread(&mut areas, 100, Builder::default(), 0, 12, u32::MAX, &[0; 2]), Err(Refusal::Address));

    let mut three = [0xFFu8; 42];
    three[..14].fill(0);
    let run = spread(&mut three, 14, Builder::default(), 255, 12, 0xFFFF_FFFD, &[1, 2, 3]).unwrap();
    let states = vec![Builder { used: 14, count: 1, last: 0 }, Builder { used: 13, count: 1, last: 0 }];
    assert_eq!(run, Spreading { states, next: 1 });
    assert_eq!(three[..14], [0x0C, 0xFF, 0xFD, 0xFF, 0xFF, 0xFF, 0x02, 0, 0, 0, 1, 2, 0, 0]);
    assert_eq!(three[14..28], [0x0C, 0x00, 0xFF, 0xFF, 0xFF, 0xFF, 0x01, 0, 0, 0, 3, 0, 0, 0]);
    assert_eq!(three[28..], [0xFF; 14]);
}

#[test]
fn refusals_have_their_numbers() {
    assert_eq!(Refusal::Address.number(), 1);
    assert_eq!(
        Refusal::StringTooLong { room: 2, stored: 3 }.to_string(),
        "refusal 4: a string of 3 bytes for a room of 2"
    );
    assert_eq!(Refusal::BadArgument.to_string(), "refusal 14: BadArgument");
}
