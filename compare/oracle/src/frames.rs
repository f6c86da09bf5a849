//! `CreatedFrame`, of created_frame.rs, `ReceivedFrame`, of received_frame.rs, and the header of frame_header.rs.
//!
//! A builder's state is put together by the Rust's own pushes, into an area of the same size; then the area's bytes and the index counter are set to the
//! request's. A state to which no pushes lead has no answer. The state afterwards is read off the frame's own `Debug`.

use crate::answer::{Off, Reply, ask, gives, record, refuses, slice};
use crate::error::{Error, PduError};
use crate::pdu_loop::{CreatedFrame, PduTx};
use crate::{Command, Reads, Writes};
use lines::{Unreadable, Words};

const OVERHEAD: usize = CreatedFrame::PDU_OVERHEAD_BYTES;

/// `USED COUNT LAST`
#[derive(Clone, Copy)]
struct State {
    used: usize,
    count: usize,
    last: usize,
}

impl State {
    fn read(words: &mut Words) -> Result<Self, Off> {
        Ok(Self { used: words.u16()?.into(), count: words.u16()?.into(), last: words.u16()?.into() })
    }

    /// Pushes into a newly opened frame until it stands here: PDUs without payload up to the last but one, which reaches to the last; the last fills the rest.
    fn reach(self, frame: &mut CreatedFrame) -> Result<(), Off> {
        let sizes = match self.count {
            0 if self.used == 0 => vec![],
            0 => return Err(Off::None),
            1 if self.last == 0 => vec![self.used],
            1 => return Err(Off::None),
            n => {
                let before = (n - 2) * OVERHEAD;
                let mut sizes = vec![OVERHEAD; n - 2];
                sizes.push(self.last.checked_sub(before).ok_or(Off::None)?);
                sizes.push(self.used.checked_sub(self.last).ok_or(Off::None)?);
                sizes
            }
        };
        for size in sizes {
            let payload = size.checked_sub(OVERHEAD).ok_or(Off::None)?;
            let pushed = ask(|| frame.push_pdu(Command::Nop, (), Some(payload as u16)));
            pushed.map_err(|_| Off::None)?.map_err(|_| Off::None)?;
        }
        Ok(())
    }

    /// The original derives `Debug`; its box, our shim, shows as the used bytes. Before the first push the Rust has no last PDU: LAST comes back as it went in.
    fn after(self, frame: &CreatedFrame) -> [u32; 3] {
        let shown = format!("{frame:?}");
        let numbers = shown.split(|c: char| !c.is_ascii_digit()).filter(|n| !n.is_empty()).map(|n| n.parse().unwrap());
        match numbers.collect::<Vec<u32>>()[..] {
            [used, count, last] => [used, count, last],
            [used, count] => [used, count, self.last as u32],
            _ => unreachable!("{shown}"),
        }
    }
}

/// The Rust has no command 3, 6, 9, 13 or above 14, and its NOP no address. ADDRESS is low byte first on the wire: the device's address, then the register.
fn command(code: u8, address: u32) -> Result<Command, Off> {
    let logical = address;
    let (address, register) = (address as u16, (address >> 16) as u16);
    Ok(match code {
        0 if logical == 0 => Command::Nop,
        1 => Reads::Aprd { address, register }.into(),
        2 => Writes::Apwr { address, register }.into(),
        4 => Reads::Fprd { address, register }.into(),
        5 => Writes::Fpwr { address, register }.into(),
        7 => Reads::Brd { address, register }.into(),
        8 => Writes::Bwr { address, register }.into(),
        10 => Reads::Lrd { address: logical }.into(),
        11 => Writes::Lwr { address: logical }.into(),
        12 => Writes::Lrw { address: logical }.into(),
        14 => Reads::Frmw { address, register }.into(),
        _ => return Err(Off::None),
    })
}

pub fn open(mut words: Words) -> Reply {
    let area = words.bytes()?;
    words.end()?;
    let bench = PduTx::bench(area.len());
    bench.fill(&area);
    let frame = ask(|| bench.open())?;
    let state = State { used: 0, count: 0, last: 0 };
    Ok(gives(&[]) + &record(&state.after(&frame)) + &slice(&bench.area()))
}

/// What the two pushes take before their data: `AREA S COMMAND ADDRESS`.
struct Push {
    area: Vec<u8>,
    state: State,
    index: u8,
    command: (u8, u32),
}

impl Push {
    fn read(words: &mut Words) -> Result<Self, Off> {
        Ok(Self {
            area: words.bytes()?,
            state: State::read(words)?,
            index: words.u8()?,
            command: (words.u8()?, words.u32()?),
        })
    }

    /// The answer of a push in this state, with the state and the area afterwards.
    fn answer(self, push: impl FnOnce(&mut CreatedFrame, Command) -> Result<String, Error>) -> Reply {
        let command = command(self.command.0, self.command.1)?;
        let bench = PduTx::bench(self.area.len());
        let mut frame = bench.open();
        self.state.reach(&mut frame)?;
        bench.fill(&self.area);
        bench.set_index(self.index);
        let answer = ask(|| push(&mut frame, command))?.unwrap_or_else(refuses);
        let [used, count, last] = self.state.after(&frame);
        Ok(answer + &record(&[used, count, last, bench.index().into()]) + &slice(&bench.area()))
    }
}

/// The Rust's handle has no place; a push lands where the used bytes ended. The first so many of place, size, index and command are answered.
fn pushed(mut words: Words, shown: usize) -> Reply {
    let (push, data, len_override) = (Push::read(&mut words)?, words.bytes()?, words.u16()?);
    words.end()?;
    let place = push.state.used as u32;
    push.answer(|frame, command| {
        let handle = frame.push_pdu(command, data.as_slice(), (len_override > 0).then_some(len_override))?;
        let values = [place, handle.alloc_size as u32, handle.pdu_idx.into(), handle.command_code.into()];
        Ok(gives(&values[..shown]))
    })
}

pub fn push(words: Words) -> Reply {
    pushed(words, 2)
}

pub fn handle(words: Words) -> Reply {
    pushed(words, 4)
}

pub fn rest(mut words: Words) -> Reply {
    let (push, data) = (Push::read(&mut words)?, words.bytes()?);
    words.end()?;
    let place = push.state.used as u32;
    push.answer(|frame, command| {
        let pushed = frame.push_pdu_slice_rest(command, &data)?;
        Ok(pushed.map_or("absent".into(), |(taken, handle)| gives(&[taken as u32, place, handle.alloc_size as u32])))
    })
}

pub fn can_push(mut words: Words) -> Reply {
    let (size, state, len) = (words.u16()?, State::read(&mut words)?, words.u16()?);
    words.end()?;
    let bench = PduTx::bench(size.into());
    let mut frame = bench.open();
    state.reach(&mut frame)?;
    let can = ask(|| frame.can_push_pdu_payload(len.into()))?;
    Ok(gives(&[can.into()]))
}

pub fn header(mut words: Words) -> Reply {
    let used = words.u16()?;
    words.end()?;
    let bytes = ask(|| PduTx::header(used))?;
    Ok(gives(&[]) + &slice(&bytes))
}

/// The frame reader is ours; the Rust has none.
pub fn frame(mut words: Words) -> Reply {
    words.bytes()?;
    words.end()?;
    Err(Off::None)
}

/// `N (START SIZE INDEX COMMAND)*N FRAME`: the Rust is asked for the PDU of each handle, in order. Its area is as long as the frame says. It passes over an
/// empty frame and waits for another.
pub fn received(mut words: Words) -> Reply {
    let handles = handles(&mut words)?;
    let frame = words.bytes()?;
    words.end()?;
    let body = match PduTx::body(&frame) {
        Ok([]) => return Err(Off::None),
        Ok(body) => body,
        Err(_) => return Ok(wrong(Error::ReceiveFrame, 0)),
    };
    let bench = PduTx::bench(body.len());
    let came = bench.received(body);
    let mut values = vec![handles.len() as u32];
    for (place, (size, index, command)) in handles.into_iter().enumerate() {
        let place = u8::try_from(place).map_err(|_| Off::None)?;
        match ask(|| came.pdu(place, index, command, size))? {
            Ok([payload, length, counter]) => values.extend([FRAME_HEADER + payload, length, counter]),
            Err(error) => return Ok(wrong(error, place)),
        }
    }
    Ok(gives(&values))
}

/// A place is counted from the frame's first byte.
const FRAME_HEADER: u32 = 2;

/// A longer list can't be read.
const HANDLES_MOST: u16 = 2_000;

/// Size, index and command of each. The Rust's handle has no start.
fn handles(words: &mut Words) -> Result<Vec<(usize, u8, u8)>, Unreadable> {
    let count = words.u16()?;
    if count > HANDLES_MOST {
        return Err(Unreadable);
    }
    let mut handle = || {
        words.u16()?;
        Ok((words.u16()?.into(), words.u8()?, words.u8()?))
    };
    (0..count).map(|_| handle()).collect()
}

/// Our number for what the Rust says of a PDU, and the PDU's place. All but a wrong command and a wrong index are the frame's fault.
fn wrong(error: Error, place: u8) -> String {
    let number = match error {
        Error::Pdu(PduError::Decode) => 20,
        Error::Pdu(PduError::InvalidIndex(_)) => 21,
        _ => 19,
    };
    format!("refuses {number} {place}")
}

/// The spreading is ours; the Rust has none. `SIZE AREAS S COMMAND ADDRESS IMAGE`
pub fn spread(mut words: Words) -> Reply {
    words.u16()?;
    Push::read(&mut words)?;
    words.bytes()?;
    words.end()?;
    Err(Off::None)
}
