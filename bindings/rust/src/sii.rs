//! EEPROM images (SII): the fixed area, categories, General, strings.
use crate::refusal::{done, found, Refusal};
use crate::sys;
use std::ops::Range;

/// The most bytes that an EEPROM image has.
pub const IMAGE_MOST: usize = 131_072;

/// The CRC-8 of the SII: polynomial 0x07, start 0xFF.
///
/// ```
/// assert_eq!(morelbarrel::crc(b"123456789"), 0xFB);
/// ```
pub fn crc(bytes: &[u8]) -> u8 {
    sys::crc(bytes)
}

/// Sets the configured station alias, and the checksum behind it. An image of under 16 bytes is [`Refusal::NotWritable`].
///
/// ```
/// let mut image = [0u8; 16];
/// morelbarrel::set_station_alias(&mut image, 0x1234)?;
/// assert_eq!(morelbarrel::SubDeviceEeprom::new(&image).station_alias()?, 0x1234);
/// # Ok::<(), morelbarrel::Refusal>(())
/// ```
pub fn set_station_alias(image: &mut [u8], alias: u16) -> Result<(), Refusal> {
    done(sys::set_station_alias(image, alias), &[0; 2])
}

/// The category numbers that may be sought.
#[derive(Clone, Copy, Debug, PartialEq, Eq, Hash)]
#[repr(u16)]
pub enum CategoryType {
    /// Strings.
    Strings = 10,
    /// General.
    General = 30,
    /// FMMU.
    Fmmu = 40,
    /// Sync managers.
    SyncManager = 41,
    /// Extended FMMU.
    FmmuExtended = 42,
    /// TxPDO.
    TxPdo = 50,
    /// RxPDO.
    RxPdo = 51,
    /// Distributed clock.
    DistributedClock = 60,
}

/// Who a SubDevice is.
#[derive(Clone, Copy, Debug, PartialEq, Eq, Hash)]
pub struct SubDeviceIdentity {
    /// Vendor ID.
    pub vendor_id: u32,
    /// Product code.
    pub product_id: u32,
    /// Revision number.
    pub revision: u32,
    /// Serial number.
    pub serial: u32,
}

/// The standard mailbox: where the SubDevice receives and sends, and the protocols that it knows, a bit each.
#[derive(Clone, Copy, Debug, PartialEq, Eq, Hash)]
pub struct DefaultMailbox {
    /// Where the SubDevice receives.
    pub subdevice_receive_offset: u16,
    /// How many bytes it receives.
    pub subdevice_receive_size: u16,
    /// Where it sends.
    pub subdevice_send_offset: u16,
    /// How many bytes it sends.
    pub subdevice_send_size: u16,
    /// The protocols that it knows.
    pub supported_protocols: u8,
}

/// The category General (ETG2010 Table 7).
#[derive(Clone, Copy, Debug, PartialEq, Eq, Hash)]
pub struct SiiGeneral {
    /// Index of the group's string.
    pub group_string_idx: u8,
    /// Index of the image's string.
    pub image_string_idx: u8,
    /// Index of the order number's string: the device's name.
    pub order_string_idx: u8,
    /// Index of the name's string: the device's description.
    pub name_string_idx: u8,
    /// CoE details, a bit each.
    pub coe_details: u8,
    /// Whether FoE is there.
    pub foe_enabled: bool,
    /// Whether EoE is there.
    pub eoe_enabled: bool,
    /// Flags, a bit each.
    pub flags: u8,
    /// The current that is drawn from the EBus, in mA; below 0 it is fed.
    pub ebus_current: i16,
    /// The status of ports 0 to 3, by its number.
    pub ports: [u8; 4],
    /// The physical memory address.
    pub physical_memory_addr: u16,
}

/// An EEPROM image that is lent. Bytes past its end read as 0xFF; one of more than [`IMAGE_MOST`] bytes is [`Refusal::BadArgument`] in every call.
///
/// ```
/// use morelbarrel::{Refusal, SubDeviceEeprom, IMAGE_MOST};
///
/// let image = [0u8; 64];
/// let eeprom = SubDeviceEeprom::new(&image);
/// assert_eq!(eeprom.station_alias()?, 0);
/// assert_eq!(SubDeviceEeprom::new(&[0; IMAGE_MOST + 1]).size(), Err(Refusal::BadArgument));
/// # Ok::<(), Refusal>(())
/// ```
#[derive(Clone, Copy, Debug)]
pub struct SubDeviceEeprom<'a> {
    image: &'a [u8],
}

impl<'a> SubDeviceEeprom<'a> {
    /// Reads from this image.
    pub fn new(image: &'a [u8]) -> Self {
        Self { image }
    }

    /// The configured station alias.
    pub fn station_alias(&self) -> Result<u16, Refusal> {
        let mut row = [0; 2];
        done(sys::station_alias(self.image, &mut row), &row)?;
        Ok(row[0] as u16)
    }

    /// The EEPROM's size in bytes.
    pub fn size(&self) -> Result<u32, Refusal> {
        let mut row = [0; 2];
        done(sys::size(self.image, &mut row), &row)?;
        Ok(row[0] as u32)
    }

    /// Vendor, product, revision and serial number.
    pub fn identity(&self) -> Result<SubDeviceIdentity, Refusal> {
        let mut row = [0; 4];
        done(sys::identity(self.image, &mut row), &row)?;
        let [vendor_id, product_id, revision, serial] = row.map(|n| n as u32);
        Ok(SubDeviceIdentity { vendor_id, product_id, revision, serial })
    }

    /// The standard mailbox. Undefined protocol bits are [`Refusal::Decode`].
    pub fn mailbox_config(&self) -> Result<DefaultMailbox, Refusal> {
        let mut row = [0; 5];
        done(sys::mailbox_config(self.image, &mut row), &row)?;
        Ok(DefaultMailbox {
            subdevice_receive_offset: row[0] as u16,
            subdevice_receive_size: row[1] as u16,
            subdevice_send_offset: row[2] as u16,
            subdevice_send_size: row[3] as u16,
            supported_protocols: row[4] as u8,
        })
    }

    /// Where the first category of this type lies, in bytes. One that would end past [`IMAGE_MOST`] is [`Refusal::Address`].
    pub fn category(&self, category: CategoryType) -> Result<Option<Range<u32>>, Refusal> {
        self.category_numbered(category as u16)
    }

    /// The same by the type's number; one that may not be sought is [`Refusal::BadArgument`].
    pub fn category_numbered(&self, number: u16) -> Result<Option<Range<u32>>, Refusal> {
        let mut row = [0; 2];
        let there = found(sys::category(self.image, number, &mut row), &row)?;
        Ok(there.map(|()| row[0] as u32..row[1] as u32))
    }

    /// Whether all that the search for this category looks at, its headers and the end mark, and the category that it finds lie in the image.
    /// Where it says `false`, bytes are missing and read as 0xFF.
    pub fn category_inside(&self, category: CategoryType) -> Result<bool, Refusal> {
        let mut row = [0; 1];
        done(sys::category_inside(self.image, category as u16, &mut row), &row)?;
        Ok(row[0] != 0)
    }

    /// The category General; where there is none it is [`Refusal::NoCategory`].
    pub fn general(&self) -> Result<SiiGeneral, Refusal> {
        let mut row = [0; 14];
        done(sys::general(self.image, &mut row), &row)?;
        Ok(SiiGeneral {
            group_string_idx: row[0] as u8,
            image_string_idx: row[1] as u8,
            order_string_idx: row[2] as u8,
            name_string_idx: row[3] as u8,
            coe_details: row[4] as u8,
            foe_enabled: row[5] != 0,
            eoe_enabled: row[6] != 0,
            flags: row[7] as u8,
            ebus_current: row[8] as u16 as i16,
            ports: [row[9] as u8, row[10] as u8, row[11] as u8, row[12] as u8],
            physical_memory_addr: row[13] as u16,
        })
    }

    /// The string of an index, in a room of at most 255 bytes: ASCII, and `?` for every byte from 0x80.
    pub fn find_string<'r>(&self, index: u8, room: &'r mut [u8]) -> Result<Option<&'r [u8]>, Refusal> {
        text(room, |room, row| sys::find_string(self.image, index, room, row))
    }

    /// The device's name: the string of General's order index. `None` without General.
    pub fn device_name<'r>(&self, room: &'r mut [u8]) -> Result<Option<&'r [u8]>, Refusal> {
        text(room, |room, row| sys::device_name(self.image, room, row))
    }

    /// The device's description: the string of General's name index. Without General it is [`Refusal::NoCategory`].
    pub fn device_description<'r>(&self, room: &'r mut [u8]) -> Result<Option<&'r [u8]>, Refusal> {
        text(room, |room, row| sys::device_description(self.image, room, row))
    }
}

/// The front of the room that a call on strings filled.
fn text(room: &mut [u8], call: impl FnOnce(&mut [u8], &mut [u64]) -> u8) -> Result<Option<&[u8]>, Refusal> {
    let mut row = [0; 2];
    let there = found(call(room, &mut row), &row)?;
    let room: &[u8] = room;
    Ok(there.map(|()| &room[..row[0] as usize]))
}
