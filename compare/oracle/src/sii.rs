//! What subdevice/eeprom.rs reads out of an image and sets in it, and the checksum of eeprom/mod.rs.

use crate::answer::{Off, Reply, ask, ask_async, gives, refuses, said, slice};
use crate::eeprom::device_provider::{Image, pos_end};
use crate::eeprom::types::CategoryType;
use crate::eeprom::{EepromRange, STATION_ALIAS_CRC};
use crate::error::Error;
use crate::range::image;
use crate::subdevice::eeprom::{CategoryIterator, SubDeviceEeprom};
use lines::Words;

/// What the Rust reads an image through.
pub type Sii = SubDeviceEeprom<Image>;

/// `IMAGE CHUNK`, and no more.
fn only_image(mut words: Words) -> Result<Sii, Off> {
    let image = image(&mut words)?;
    words.end()?;
    Ok(Sii::new(image))
}

pub fn crc(mut words: Words) -> Reply {
    let data = words.bytes()?;
    words.end()?;
    let sum = ask(|| STATION_ALIAS_CRC.checksum(&data))?;
    Ok(gives(&[sum.into()]))
}

/// A number without a name in the Rust can't be sought there.
fn category_type(number: u16) -> Result<CategoryType, Off> {
    Some(CategoryType::from(number)).filter(|named| *named as u16 == number).ok_or(Off::None)
}

/// The search itself is private, so it is asked through `items`, which makes a list over the range found, or over the range 0, 0. No category starts there.
pub fn found(sii: &Sii, sought: CategoryType) -> Result<Result<EepromRange<Image>, Error>, Off> {
    Ok(ask_async(|| sii.items::<u8>(sought))?.map(range_of))
}

pub fn category(mut words: Words) -> Reply {
    let (image, number) = (image(&mut words)?, words.u16()?);
    words.end()?;
    let (sii, sought) = (Sii::new(image), category_type(number)?);
    Ok(match found(&sii, sought)? {
        Ok(range) if pos_end(&range) == [0, 0] => "absent".into(),
        Ok(range) => gives(&pos_end(&range)),
        Err(error) => refuses(error),
    })
}

/// The range is the list's one field with a size. `transmute` compiles only between equal sizes, so the field starts where the list does.
fn range_of(list: CategoryIterator<Image, u8>) -> EepromRange<Image> {
    unsafe { std::mem::transmute(list) }
}

pub fn alias(words: Words) -> Reply {
    let sii = only_image(words)?;
    let answer = ask_async(|| sii.station_alias())?;
    Ok(said(answer, |alias| vec![alias.into()]))
}

pub fn size(words: Words) -> Reply {
    let sii = only_image(words)?;
    let answer = ask_async(|| sii.size())?;
    Ok(said(answer, |size| vec![size as u32]))
}

pub fn set_alias(mut words: Words) -> Reply {
    let (bytes, alias) = (words.bytes()?, words.u16()?);
    words.end()?;
    let image = Image::new(bytes, 8);
    let sii = Sii::new(image.clone());
    let answer = ask_async(|| sii.set_station_alias(alias))?;
    Ok(said(answer, |()| vec![]) + &slice(&image.bytes.borrow()))
}

pub fn identity(words: Words) -> Reply {
    let sii = only_image(words)?;
    let answer = ask_async(|| sii.identity())?;
    Ok(said(answer, |id| vec![id.vendor_id, id.product_id, id.revision, id.serial]))
}

pub fn mailbox(words: Words) -> Reply {
    let sii = only_image(words)?;
    let answer = ask_async(|| sii.mailbox_config())?;
    Ok(said(answer, |mailbox| {
        vec![
            mailbox.subdevice_receive_offset.into(),
            mailbox.subdevice_receive_size.into(),
            mailbox.subdevice_send_offset.into(),
            mailbox.subdevice_send_size.into(),
            mailbox.supported_protocols.bits().into(),
        ]
    }))
}

pub fn has_mailbox(words: Words) -> Reply {
    let sii = only_image(words)?;
    let answer = ask_async(|| sii.mailbox_config())?;
    Ok(said(answer, |mailbox| vec![mailbox.has_mailbox().into()]))
}

pub fn general(words: Words) -> Reply {
    let sii = only_image(words)?;
    let answer = ask_async(|| sii.general())?;
    Ok(said(answer, |general| {
        let mut values = vec![
            general.group_string_idx.into(),
            general.image_string_idx.into(),
            general.order_string_idx.into(),
            general.name_string_idx.into(),
            general.coe_details.bits().into(),
            general.foe_enabled.into(),
            general.eoe_enabled.into(),
            general.flags.bits().into(),
            general.ebus_current.cast_unsigned().into(),
        ];
        values.extend(general.ports.0.map(|port| port as u32));
        values.push(general.physical_memory_addr.into());
        values
    }))
}

/// A list: its count, then the numbers of each item.
fn list<T, const N: usize>(items: &[T], numbers: impl Fn(&T) -> [u32; N]) -> Vec<u32> {
    std::iter::once(items.len() as u32).chain(items.iter().flat_map(numbers)).collect()
}

pub fn sync_managers(words: Words) -> Reply {
    let sii = only_image(words)?;
    let answer = ask_async(|| sii.sync_managers())?;
    Ok(said(answer, |managers| {
        list(&managers, |manager| {
            [
                manager.start_addr.into(),
                manager.length.into(),
                manager.control.operation_mode as u32,
                manager.control.direction as u32,
                manager.control.ecat_event_enable.into(),
                manager.control.dls_user_event_enable.into(),
                manager.control.watchdog_enable.into(),
                manager.enable.bits().into(),
                manager.usage_type as u32,
            ]
        })
    }))
}

pub fn usages(words: Words) -> Reply {
    let sii = only_image(words)?;
    let answer = ask_async(|| sii.sync_managers())?;
    Ok(said(answer, |managers| list(&managers, |manager| [manager.usage_type() as u32])))
}

pub fn fmmus(words: Words) -> Reply {
    let sii = only_image(words)?;
    let answer = ask_async(|| sii.fmmus())?;
    Ok(said(answer, |usages| list(&usages, |usage| [*usage as u32])))
}

pub fn fmmu_mappings(words: Words) -> Reply {
    let sii = only_image(words)?;
    let answer = ask_async(|| sii.fmmu_mappings())?;
    Ok(said(answer, |mappings| list(&mappings, |mapping| [mapping.sync_manager.into()])))
}

pub fn pdos(mut words: Words) -> Reply {
    let (image, kind) = (image(&mut words)?, words.u16()?);
    words.end()?;
    let sii = Sii::new(image);
    let answer = match kind {
        50 => ask_async(|| sii.maindevice_read_pdos())?,
        51 => ask_async(|| sii.maindevice_write_pdos())?,
        _ => return Err(Off::Unreadable),
    };
    Ok(said(answer, |pdos| {
        list(&pdos, |pdo| [pdo.index.into(), pdo.num_entries.into(), pdo.sync_manager.into(), pdo.bit_len.into()])
    }))
}

/// What the Rust leaves unread of an image: it has no answer.
pub fn unread(words: Words) -> Reply {
    only_image(words)?;
    Err(Off::None)
}

/// Whether a search stays in the image: the Rust does not ask.
pub fn not_asked(mut words: Words) -> Reply {
    let (_, _) = (image(&mut words)?, words.u16()?);
    words.end()?;
    Err(Off::None)
}
