//! Strings, device name and description, of subdevice/eeprom.rs.
//!
//! In a category of length 0 the original reads count and length past the range's end. Since request E4 it is not asked there.
//!
//! The Rust's room is a type, one for each size, and its answer a string of its own; the oracle lays that over the lent room. A stored string has at most 255
//! bytes, so a larger room is asked as one of 255.

use crate::answer::{Off, Reply, ask_async, gives, refuses, slice};
use crate::eeprom::device_provider::pos_end;
use crate::eeprom::types::{CategoryType, SiiGeneral};
use crate::error::Error;
use crate::range::image;
use crate::sii::{Sii, found};
use lines::Words;
use std::pin::Pin;

type Found<'a> = Pin<Box<dyn Future<Output = Result<Option<Vec<u8>>, Error>> + 'a>>;
type Search = fn(&Sii, u8) -> Found;

const ROOM_MOST: usize = 255;

fn find_string<const N: usize>(sii: &Sii, index: u8) -> Found {
    Box::pin(async move { Ok(bytes(sii.find_string::<N>(index).await?)) })
}

fn device_name<const N: usize>(sii: &Sii, _: u8) -> Found {
    Box::pin(async move { Ok(bytes(sii.device_name::<N>().await?)) })
}

fn device_description<const N: usize>(sii: &Sii, _: u8) -> Found {
    Box::pin(async move { Ok(bytes(sii.device_description::<N>().await?)) })
}

fn bytes<const N: usize>(string: Option<heapless::String<N>>) -> Option<Vec<u8>> {
    string.map(|string| string.as_str().as_bytes().to_vec())
}

/// A search for each room from 0 to 255, by sixteens.
macro_rules! rooms {
    ($search:ident) => { rooms!($search; 0 1 2 3 4 5 6 7 8 9 10 11 12 13 14 15) };
    ($search:ident; $($row:literal)*) => { [$(rooms!(row $search $row)),*] };
    (row $search:ident $row:literal) => { rooms!(of $search $row; 0 1 2 3 4 5 6 7 8 9 10 11 12 13 14 15) };
    (of $search:ident $row:literal; $($n:literal)*) => { [$($search::<{ 16 * $row + $n }>),*] };
}

static STRINGS: [[Search; 16]; 16] = rooms!(find_string);
static NAMES: [[Search; 16]; 16] = rooms!(device_name);
static DESCRIPTIONS: [[Search; 16]; 16] = rooms!(device_description);

pub fn string(mut words: Words) -> Reply {
    let (image, index, room) = (image(&mut words)?, words.u8()?, words.bytes()?);
    words.end()?;
    searched(&STRINGS, Sii::new(image), index, room)
}

pub fn name(mut words: Words) -> Reply {
    let (image, room) = (image(&mut words)?, words.bytes()?);
    words.end()?;
    let sii = Sii::new(image);
    let index = of_general(&sii, |general| general.order_string_idx)?;
    searched(&NAMES, sii, index, room)
}

pub fn description(mut words: Words) -> Reply {
    let (image, room) = (image(&mut words)?, words.bytes()?);
    words.end()?;
    let sii = Sii::new(image);
    let index = of_general(&sii, |general| general.name_string_idx)?;
    searched(&DESCRIPTIONS, sii, index, room)
}

/// The index that General has; 0, which is never looked for, where it can't be read.
fn of_general(sii: &Sii, index: impl FnOnce(SiiGeneral) -> u8) -> Result<u8, Off> {
    Ok(ask_async(|| sii.general())?.map_or(0, index))
}

/// Whether the search stays inside its range: it looks into no strings, or into such as have bytes.
fn stays_inside(sii: &Sii, index: u8) -> Result<(), Off> {
    if index == 0 {
        return Ok(());
    }
    match found(sii, CategoryType::Strings)?.map(|range| pos_end(&range)) {
        Ok([pos, end]) if pos == end && pos > 0 => Err(Off::None),
        _ => Ok(()),
    }
}

/// `index` is that of the string that the search looks for.
fn searched(searches: &[[Search; 16]; 16], sii: Sii, index: u8, mut room: Vec<u8>) -> Reply {
    stays_inside(&sii, index)?;
    let asked = room.len().min(ROOM_MOST);
    let search = searches[asked / 16][asked % 16];
    let answer = match ask_async(|| search(&sii, index))? {
        Ok(Some(string)) => {
            room[..string.len()].copy_from_slice(&string);
            gives(&[string.len() as u32])
        }
        Ok(None) => "absent".into(),
        Err(error) => refuses(error),
    };
    Ok(answer + &slice(&room))
}
