//! Frames: building them, reading them, and spreading a process image over them.
use crate::refusal::{done, found, Refusal};
use crate::sys;

/// A PDU's bytes over its payload: its header, and the working counter behind the payload.
pub const PDU_OVERHEAD_BYTES: usize = 12;

const PDUS_MOST: usize = 170;
const PDU_NUMBERS: usize = 9;
const AREAS_MOST: usize = 32;

/// The state of an area: bytes used, PDUs pushed, and where the last PDU starts.
#[derive(Clone, Copy, Debug, Default, PartialEq, Eq, Hash)]
pub struct Builder {
    /// Bytes used.
    pub used: usize,
    /// PDUs pushed.
    pub count: usize,
    /// Where the last PDU starts; of no meaning at count 0.
    pub last: usize,
}

impl Builder {
    fn numbers(self) -> [usize; 3] {
        [self.used, self.count, self.last]
    }

    fn of(row: &[u64]) -> Self {
        Self { used: row[0] as usize, count: row[1] as usize, last: row[2] as usize }
    }
}

/// What a response is later matched against.
#[derive(Clone, Copy, Debug, PartialEq, Eq, Hash)]
pub struct PduResponseHandle {
    /// The PDU's place in the area.
    pub start: usize,
    /// Its whole size.
    pub size: usize,
    /// Its index.
    pub index: u8,
    /// Its command.
    pub command: u8,
}

impl PduResponseHandle {
    fn of(row: &[u64]) -> Self {
        Self { start: row[0] as usize, size: row[1] as usize, index: row[2] as u8, command: row[3] as u8 }
    }
}

/// A frame's PDUs as they are built, in an area of at most 2,047 bytes that is lent.
///
/// ```
/// use morelbarrel::{CreatedFrame, Refusal};
///
/// let mut area = [0u8; 14];
/// let mut frame = CreatedFrame::open(&mut area, 255)?;
/// assert!(frame.can_push_pdu_payload(2)? && !frame.can_push_pdu_payload(3)?);
/// let pdu = frame.push_pdu(12, 0x1000, &[1, 2], None)?;
/// assert_eq!((pdu.start, pdu.size, pdu.index, frame.next_index()), (0, 14, 255, 0));
/// assert_eq!(frame.push_pdu(12, 0, &[], None), Err(Refusal::TooLong));
/// assert_eq!(frame.next_index(), 1);
/// assert_eq!(frame.frame_header()?, [14, 0x10]);
/// # Ok::<(), Refusal>(())
/// ```
#[derive(Debug)]
pub struct CreatedFrame<'a> {
    area: &'a mut [u8],
    builder: Builder,
    next: u8,
}

impl<'a> CreatedFrame<'a> {
    /// Zeroes the area; `index` is that of the first PDU.
    pub fn open(area: &'a mut [u8], index: u8) -> Result<Self, Refusal> {
        let mut row = [0; 3];
        done(sys::open(area, &mut row), &row)?;
        Ok(Self { area, builder: Builder::of(&row), next: index })
    }

    /// Goes on with an area that has this state. A state that does not fit the area is [`Refusal::BadArgument`] in every push.
    pub fn resume(area: &'a mut [u8], builder: Builder, index: u8) -> Self {
        Self { area, builder, next: index }
    }

    /// Pushes a PDU of these bytes; its payload is as long as the larger of their count and `len_override`.
    pub fn push_pdu(
        &mut self,
        command: u8,
        address: u32,
        data: &[u8],
        len_override: Option<u16>,
    ) -> Result<PduResponseHandle, Refusal> {
        let mut row = [0; 8];
        let over = usize::from(len_override.unwrap_or(0));
        let code = sys::push_pdu(self.area, self.builder.numbers(), self.next, command, address, data, over, &mut row);
        self.take(&row);
        done(code, &row)?;
        Ok(PduResponseHandle::of(&row[4..]))
    }

    /// Pushes a PDU of as many of these bytes as have room, and says how many; `None` where there are none, or no room.
    pub fn push_pdu_slice_rest(
        &mut self,
        command: u8,
        address: u32,
        bytes: &[u8],
    ) -> Result<Option<(usize, PduResponseHandle)>, Refusal> {
        let mut row = [0; 9];
        let code =
            sys::push_pdu_slice_rest(self.area, self.builder.numbers(), self.next, command, address, bytes, &mut row);
        self.take(&row);
        Ok(found(code, &row)?.map(|()| (row[4] as usize, PduResponseHandle::of(&row[5..]))))
    }

    /// Whether a PDU of so many payload bytes has room.
    pub fn can_push_pdu_payload(&self, len: usize) -> Result<bool, Refusal> {
        let mut row = [0; 2];
        done(sys::can_push_pdu_payload(self.area.len(), self.builder.numbers(), len, &mut row), &row)?;
        Ok(row[0] != 0)
    }

    /// The two bytes that stand before the PDUs in a frame.
    pub fn frame_header(&self) -> Result<[u8; 2], Refusal> {
        frame_header(self.builder.used)
    }

    /// The bytes of the PDUs; none where the state that was resumed has more than the area.
    pub fn pdus(&self) -> &[u8] {
        self.area.get(..self.builder.used).unwrap_or(&[])
    }

    /// The state.
    pub fn builder(&self) -> Builder {
        self.builder
    }

    /// The index of the next PDU; after 255 comes 0.
    pub fn next_index(&self) -> u8 {
        self.next
    }

    fn take(&mut self, row: &[u64]) {
        self.builder = Builder::of(row);
        self.next = row[3] as u8;
    }
}

/// The header of a frame whose PDUs take so many bytes; more than 2,047 are [`Refusal::BadArgument`].
///
/// ```
/// assert_eq!(morelbarrel::frame_header(28), Ok([0x1C, 0x10]));
/// ```
pub fn frame_header(used: usize) -> Result<[u8; 2], Refusal> {
    let mut bytes = [0; 2];
    done(sys::frame_header(used, &mut bytes), &[0; 2])?;
    Ok(bytes)
}

/// A PDU's fields as they are read.
#[derive(Clone, Copy, Debug, PartialEq, Eq, Hash)]
pub struct PduFields {
    /// The command.
    pub command: u8,
    /// The index.
    pub index: u8,
    /// The four address bytes, low byte first.
    pub address: u32,
    /// The payload's length.
    pub len: u16,
    /// Whether it circulated (bit 14 of the flags).
    pub circulated: bool,
    /// Whether more PDUs follow.
    pub more_follows: bool,
    /// The IRQ field.
    pub irq: u16,
    /// Where the payload lies, counted from the frame's first byte.
    pub place: usize,
    /// The working counter.
    pub counter: u16,
}

impl PduFields {
    fn of(row: &[u64]) -> Self {
        Self {
            command: row[0] as u8,
            index: row[1] as u8,
            address: row[2] as u32,
            len: row[3] as u16,
            circulated: row[4] != 0,
            more_follows: row[5] != 0,
            irq: row[6] as u16,
            place: row[7] as usize,
            counter: row[8] as u16,
        }
    }

    /// The payload, in the frame that the fields were read from; `None` in another that is too short for it.
    pub fn payload<'f>(&self, frame: &'f [u8]) -> Option<&'f [u8]> {
        frame.get(self.place..)?.get(..usize::from(self.len))
    }
}

/// The PDUs of a frame, its header first, in order. Bytes that are no frame are [`Refusal::BadFrame`].
///
/// ```
/// assert_eq!(morelbarrel::read_frame(&[0, 0x10]), Ok(vec![]));
/// assert_eq!(morelbarrel::read_frame(&[1, 0x10]), Err(morelbarrel::Refusal::BadFrame));
/// ```
pub fn read_frame(frame: &[u8]) -> Result<Vec<PduFields>, Refusal> {
    let mut row = vec![0; 1 + PDU_NUMBERS * PDUS_MOST];
    done(sys::read_frame(frame, &mut row), &row)?;
    Ok(row[1..].chunks_exact(PDU_NUMBERS).take(row[0] as usize).map(PduFields::of).collect())
}

/// What a spreading leaves beside the areas' bytes.
#[derive(Clone, Debug, PartialEq, Eq)]
pub struct Spreading {
    /// The state of each area up to the last that was used, whose number is their count.
    pub states: Vec<Builder>,
    /// The index of the next PDU.
    pub next: u8,
}

/// Spreads an image over the areas of `size` bytes each that lie one behind the other in `areas`, as logical PDUs of this command from this
/// address on. The first area has the state `first`; the others are opened. [`Refusal::NoRoom`] says that no permitted cutting exists.
///
/// ```
/// use morelbarrel::{spread, Builder};
///
/// let mut areas = [0u8; 200];
/// let run = spread(&mut areas, 100, Builder::default(), 0, 12, 0, &[7; 89])?;
/// assert_eq!((run.states.len(), run.states[1].used, run.next), (2, 13, 2));
/// # Ok::<(), morelbarrel::Refusal>(())
/// ```
pub fn spread(
    areas: &mut [u8],
    size: usize,
    first: Builder,
    index: u8,
    command: u8,
    address: u32,
    image: &[u8],
) -> Result<Spreading, Refusal> {
    let mut row = [0; 2 + 3 * AREAS_MOST];
    done(sys::spread(areas, size, first.numbers(), index, command, address, image, &mut row), &row)?;
    let states = row[2..].chunks_exact(3).take(row[1] as usize).map(Builder::of).collect();
    Ok(Spreading { states, next: row[0] as u8 })
}
