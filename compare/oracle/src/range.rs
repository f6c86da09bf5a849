//! `EepromRange`, of eeprom/mod.rs, and `start_at`, of subdevice/eeprom.rs.

use crate::answer::{Off, Reply, ask, ask_async, gives, record, said, slice};
use crate::eeprom::EepromRange;
use crate::eeprom::device_provider::{Image, pos_end, range_at};
use crate::error::Error;
use crate::subdevice::eeprom::SubDeviceEeprom;
use embedded_io_async::{Read, Write};
use lines::Words;

/// For calls that read no image, and for writes, which have no chunks.
const ANY_CHUNK: usize = 4;

/// `IMAGE CHUNK`
pub fn image(words: &mut Words) -> Result<Image, Off> {
    let bytes = words.bytes()?;
    match words.u16()? {
        chunk @ (4 | 8) => Ok(Image::new(bytes, chunk.into())),
        _ => Err(Off::Unreadable),
    }
}

/// `POS END`. Every end that the Rust makes is twice a number of words, so an odd one has no answer; nor has a number of more than the Rust's 16 bits.
struct Record(u32, u32);

impl Record {
    fn read(words: &mut Words) -> Result<Self, Off> {
        Ok(Self(words.u32()?, words.u32()?))
    }

    fn over(self, image: Image) -> Result<EepromRange<Image>, Off> {
        match (u16::try_from(self.0), u16::try_from(self.1)) {
            (Ok(pos), Ok(end)) if end % 2 == 0 => Ok(range_at(image, pos, end)),
            _ => Err(Off::None),
        }
    }

    /// Whether a byte is left to read. Past the end the original reads on, and since request E4 it is not asked there.
    fn is_inside(&self) -> Result<(), Off> {
        if self.0 < self.1 { Ok(()) } else { Err(Off::None) }
    }
}

fn afterwards(range: &EepromRange<Image>) -> String {
    record(&pos_end(range))
}

pub fn new(mut words: Words) -> Reply {
    let (start, len) = (words.u16()?, words.u16()?);
    words.end()?;
    let range = ask(|| EepromRange::new(Image::new(vec![], ANY_CHUNK), start, len))?;
    Ok(gives(&pos_end(&range)))
}

pub fn start_at(mut words: Words) -> Reply {
    let (start, len) = (words.u16()?, words.u16()?);
    words.end()?;
    let eeprom = SubDeviceEeprom::new(Image::new(vec![], ANY_CHUNK));
    let range = ask(|| eeprom.start_at(start, len))?;
    Ok(gives(&pos_end(&range)))
}

pub fn skip(mut words: Words) -> Reply {
    let (at, skip) = (Record::read(&mut words)?, words.u16()?);
    words.end()?;
    let mut range = at.over(Image::new(vec![], ANY_CHUNK))?;
    let answer = ask(|| range.skip_ahead_bytes(skip))?;
    Ok(said(answer.map_err(Error::from), |()| vec![]) + &afterwards(&range))
}

pub fn byte(mut words: Words) -> Reply {
    let (image, at) = (image(&mut words)?, Record::read(&mut words)?);
    words.end()?;
    at.is_inside()?;
    let mut range = at.over(image)?;
    let answer = ask_async(|| range.read_byte())?;
    Ok(said(answer, |byte| vec![byte.into()]) + &afterwards(&range))
}

pub fn read(mut words: Words) -> Reply {
    let (image, at, mut buf) = (image(&mut words)?, Record::read(&mut words)?, words.bytes()?);
    words.end()?;
    let mut range = at.over(image)?;
    let answer = ask_async(|| range.read(&mut buf))?;
    Ok(said(answer, |read| vec![read as u32]) + &afterwards(&range) + &slice(&buf))
}

pub fn exact(mut words: Words) -> Reply {
    let (image, at, mut buf) = (image(&mut words)?, Record::read(&mut words)?, words.bytes()?);
    words.end()?;
    let mut range = at.over(image)?;
    let answer = ask_async(|| range.read_exact(&mut buf))?;
    Ok(said(answer.map_err(Error::from), |()| vec![]) + &afterwards(&range) + &slice(&buf))
}

pub fn write(mut words: Words) -> Reply {
    let (bytes, at, data) = (words.bytes()?, Record::read(&mut words)?, words.bytes()?);
    words.end()?;
    let written = Image::new(bytes, ANY_CHUNK);
    let mut range = at.over(written.clone())?;
    let answer = ask_async(|| range.write(&data))?;
    Ok(said(answer, |count| vec![count as u32]) + &afterwards(&range) + &slice(&written.bytes.borrow()))
}
