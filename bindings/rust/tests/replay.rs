//! The recorded requests of `crates/desk` through the wrappers, held against the answers of the Rust originals or of the independent program
//! (docs/DESK.md). A request that cannot be read, or that no wrapper answers, is passed over.
use morelbarrel::*;
use std::collections::BTreeMap;
use std::path::Path;

/// A word of a request: a number, or bytes.
enum Word {
    Number(u64),
    Bytes(Vec<u8>),
}

/// The words by a shape: `b` bytes, `c` a chunk's width, and 1, 2 or 4: a number of so many bytes.
fn words(shape: &str, texts: &[&str]) -> Option<Vec<Word>> {
    if shape.len() != texts.len() {
        return None;
    }
    shape.chars().zip(texts).map(|(kind, text)| word(kind, text)).collect()
}

fn word(kind: char, text: &str) -> Option<Word> {
    if kind == 'b' {
        return bytes(text).map(Word::Bytes);
    }
    if text.is_empty() || text.len() > 15 || !text.bytes().all(|c| c.is_ascii_digit()) {
        return None;
    }
    let number: u64 = text.parse().ok()?;
    let fits = match kind.to_digit(10) {
        Some(width) => number < 1 << (8 * width),
        None => number == 4 || number == 8,
    };
    fits.then_some(Word::Number(number))
}

/// Up to twice the bytes of an image.
fn bytes(text: &str) -> Option<Vec<u8>> {
    let digit = |c: u8| b"0123456789abcdef".iter().position(|&d| d == c);
    match text.as_bytes() {
        b"-" => Some(vec![]),
        [] => None,
        hex if hex.len() % 2 == 1 || hex.len() > 4 * IMAGE_MOST => None,
        hex => hex.chunks(2).map(|pair| Some((16 * digit(pair[0])? + digit(pair[1])?) as u8)).collect(),
    }
}

fn hex(bytes: &[u8]) -> String {
    match bytes {
        [] => "-".into(),
        bytes => bytes.iter().map(|b| format!("{b:02x}")).collect(),
    }
}

/// The text of an answer with these values.
fn said<T>(answer: Result<Option<T>, Refusal>, values: impl FnOnce(T) -> Vec<u64>) -> String {
    let listed = |head: String, values: Vec<u64>| values.iter().fold(head, |text, n| format!("{text} {n}"));
    match answer {
        Ok(Some(t)) => listed("gives".into(), values(t)),
        Ok(None) => "absent".into(),
        Err(Refusal::StringTooLong { room, stored }) => format!("refuses 4 {room} {stored}"),
        Err(x) => format!("refuses {}", x.number()),
    }
}

fn handle(pdu: PduResponseHandle, index: u64, command: u64) -> [u64; 2] {
    assert_eq!((u64::from(pdu.index), u64::from(pdu.command)), (index, command));
    [pdu.start as u64, pdu.size as u64]
}

fn state(b: Builder) -> [u64; 3] {
    [b.used as u64, b.count as u64, b.last as u64]
}

fn on_image(kind: &str, words: &[Word]) -> Option<String> {
    let Word::Bytes(image) = &words[0] else { return None };
    let eeprom = SubDeviceEeprom::new(image);
    Some(match (kind, &words[1..]) {
        ("crc", []) => said(Ok(Some(crc(image))), |n| vec![n.into()]),
        ("alias", _) => said(eeprom.station_alias().map(Some), |n| vec![n.into()]),
        ("size", _) => said(eeprom.size().map(Some), |n| vec![n.into()]),
        ("category", [_, Word::Number(n)]) => {
            said(eeprom.category_numbered(*n as u16), |range| vec![range.start.into(), range.end.into()])
        }
        ("identity", _) => said(eeprom.identity().map(Some), |i| {
            vec![i.vendor_id.into(), i.product_id.into(), i.revision.into(), i.serial.into()]
        }),
        ("mailbox", _) => said(eeprom.mailbox_config().map(Some), |m| {
            let places = [m.subdevice_receive_offset, m.subdevice_receive_size, m.subdevice_send_offset];
            let rest = [m.subdevice_send_size, m.supported_protocols.into()];
            places.into_iter().chain(rest).map(u64::from).collect()
        }),
        ("general", _) => said(eeprom.general().map(Some), |g| {
            let strings = [g.group_string_idx, g.image_string_idx, g.order_string_idx, g.name_string_idx];
            let flags = [g.coe_details, g.foe_enabled.into(), g.eoe_enabled.into(), g.flags];
            let mut values: Vec<u64> = strings.into_iter().chain(flags).map(u64::from).collect();
            values.push((g.ebus_current as u16).into());
            values.extend(g.ports.map(u64::from));
            values.push(g.physical_memory_addr.into());
            values
        }),
        ("setalias", [Word::Number(alias)]) => {
            let mut image = image.clone();
            let answer = said(set_station_alias(&mut image, *alias as u16).map(Some), |()| vec![]);
            format!("{answer} | {}", hex(&image))
        }
        ("string", [_, Word::Number(index), Word::Bytes(room)]) => {
            let mut room = room.clone();
            let answer = said(eeprom.find_string(*index as u8, &mut room), |text| vec![text.len() as u64]);
            format!("{answer} | {}", hex(&room))
        }
        ("name", [_, Word::Bytes(room)]) => {
            let mut room = room.clone();
            let answer = said(eeprom.device_name(&mut room), |text| vec![text.len() as u64]);
            format!("{answer} | {}", hex(&room))
        }
        ("desc", [_, Word::Bytes(room)]) => {
            let mut room = room.clone();
            let answer = said(eeprom.device_description(&mut room), |text| vec![text.len() as u64]);
            format!("{answer} | {}", hex(&room))
        }
        _ => return None,
    })
}

fn on_frame(kind: &str, words: &[Word]) -> Option<String> {
    let number = |i: usize| match words[i] {
        Word::Number(n) => n,
        Word::Bytes(_) => panic!("a number is asked for"),
    };
    let given = |i: usize| match &words[i] {
        Word::Bytes(b) => b.clone(),
        Word::Number(_) => panic!("bytes are asked for"),
    };
    let builder = |i| Builder { used: number(i) as usize, count: number(i + 1) as usize, last: number(i + 2) as usize };
    let after = |frame: &CreatedFrame<'_>| {
        let [used, count, last] = state(frame.builder());
        format!("@ {used} {count} {last} {}", frame.next_index())
    };
    Some(match kind {
        "open" => {
            let mut area = given(0);
            let answer = said(CreatedFrame::open(&mut area, 0).map(|frame| Some(frame.builder())), |b| {
                assert_eq!(b, Builder::default());
                vec![]
            });
            format!("{answer} @ 0 0 0 | {}", hex(&area))
        }
        "push" => {
            let mut area = given(0);
            let mut frame = CreatedFrame::resume(&mut area, builder(1), number(4) as u8);
            let pushed = frame.push_pdu(number(5) as u8, number(6) as u32, &given(7), Some(number(8) as u16));
            let answer = said(pushed.map(Some), |pdu| handle(pdu, number(4), number(5)).to_vec());
            format!("{answer} {} | {}", after(&frame), hex(&area))
        }
        "rest" => {
            let mut area = given(0);
            let mut frame = CreatedFrame::resume(&mut area, builder(1), number(4) as u8);
            let pushed = frame.push_pdu_slice_rest(number(5) as u8, number(6) as u32, &given(7));
            let answer = said(pushed, |(n, pdu)| [&[n as u64][..], &handle(pdu, number(4), number(5))].concat());
            format!("{answer} {} | {}", after(&frame), hex(&area))
        }
        "canpush" => {
            let mut area = vec![0; number(0) as usize];
            let frame = CreatedFrame::resume(&mut area, builder(1), 0);
            said(frame.can_push_pdu_payload(number(4) as usize).map(Some), |room| vec![room.into()])
        }
        "header" => {
            let header = frame_header(number(0) as usize);
            format!("{} | {}", said(header.map(Some), |_| vec![]), hex(&header.unwrap_or_default()))
        }
        "frame" => said(read_frame(&given(0)).map(Some), |pdus| {
            let fields = pdus.iter().flat_map(|p| {
                let flags = [u64::from(p.len), p.circulated.into(), p.more_follows.into(), p.irq.into()];
                let ends = [p.place as u64, p.counter.into()];
                [u64::from(p.command), p.index.into(), p.address.into()].into_iter().chain(flags).chain(ends)
            });
            [pdus.len() as u64].into_iter().chain(fields).collect()
        }),
        "spread" => {
            let mut areas = given(1);
            let run = spread(
                &mut areas,
                number(0) as usize,
                builder(2),
                number(5) as u8,
                number(6) as u8,
                number(7) as u32,
                &given(8),
            );
            let next = run.as_ref().map_or(number(5), |run| run.next.into());
            let answer = said(run.map(Some), |run| {
                [run.states.len() as u64].into_iter().chain(run.states.into_iter().flat_map(state)).collect()
            });
            format!("{answer} @ {next} | {}", hex(&areas))
        }
        _ => return None,
    })
}

/// So many recorded requests of each kind are answered, else the recording has lost some.
const LEAST: usize = 30;

#[test]
fn recorded_requests() {
    let desk = Path::new(env!("CARGO_MANIFEST_DIR")).join("../../crates/desk");
    let read = |name: &str| std::fs::read(desk.join(name)).expect("the repository has it");
    let (requests, answers) = (read("stdin"), read("stdout"));
    let image =
        [("crc", "b"), ("alias", "bc"), ("size", "bc"), ("category", "bc2"), ("setalias", "b2"), ("identity", "bc")];
    let more = [("mailbox", "bc"), ("general", "bc"), ("string", "bc1b"), ("name", "bcb"), ("desc", "bcb")];
    let frames = [("open", "b"), ("push", "b222114b2"), ("rest", "b222114b"), ("canpush", "22222"), ("header", "2")];
    let others = [("frame", "b"), ("spread", "2b222114b")];
    let images: BTreeMap<&str, &str> = image.into_iter().chain(more).collect();
    let frames: BTreeMap<&str, &str> = frames.into_iter().chain(others).collect();
    let mut met: BTreeMap<&str, usize> = BTreeMap::new();
    for (line, (request, want)) in requests.split(|&c| c == b'\n').zip(answers.split(|&c| c == b'\n')).enumerate() {
        let Ok(request) = std::str::from_utf8(request) else { continue };
        let texts: Vec<&str> = request.split(' ').collect();
        let known = images.get_key_value(texts[0]).or_else(|| frames.get_key_value(texts[0]));
        let Some((&kind, shape)) = known else { continue };
        let Some(words) = words(shape, &texts[1..]) else { continue };
        let got = if images.contains_key(kind) { on_image(kind, &words) } else { on_frame(kind, &words) };
        assert_eq!(got.as_deref().map(str::as_bytes), Some(want), "line {}: {request:.200}", line + 1);
        *met.entry(kind).or_default() += 1;
    }
    for kind in images.keys().chain(frames.keys()) {
        assert!(met.get(kind).is_some_and(|&n| n >= LEAST), "too few requests `{kind}`: {met:?}");
    }
}
