//! Answers the desk's lines (docs/DESK.md) out of the originals of ethercrab 0.7.1. One line in, one line out.
//!
//! `none` is answered where the Rust has no answer, `panics` where the original panics, `refuses 14` where the line can't be read.

// Of each original only a part is asked, and they are compiled as they are.
#![allow(dead_code, unused_imports, private_interfaces, mismatched_lifetime_syntaxes)]

include!(concat!(env!("OUT_DIR"), "/ethercrab/lib.rs"));

mod answer;
mod frames;
mod ports;
mod range;
mod sii;
mod strings;

use answer::{Off, Reply};
use lines::Words;
use std::io::{BufRead, BufReader, BufWriter, Write};

fn main() -> std::io::Result<()> {
    answer::silence();
    let mut requests = BufReader::with_capacity(1 << 16, std::io::stdin().lock());
    let mut answers = BufWriter::new(std::io::stdout().lock());
    let mut line = Vec::new();
    while requests.read_until(b'\n', &mut line)? > 0 {
        let request = line.strip_suffix(b"\n").unwrap_or(&line);
        let said = answer(Words::new(request)).unwrap_or_else(|off| off.line());
        writeln!(answers, "{said}")?;
        // Whoever asks line by line gets each answer before the next request is waited for.
        if requests.buffer().is_empty() {
            answers.flush()?;
        }
        line.clear();
    }
    answers.flush()
}

fn answer(mut words: Words) -> Reply {
    match words.word()? {
        b"crc" => sii::crc(words),
        b"new" => range::new(words),
        b"startat" => range::start_at(words),
        b"skip" => range::skip(words),
        b"byte" => range::byte(words),
        b"read" => range::read(words),
        b"exact" => range::exact(words),
        b"write" => range::write(words),
        b"category" => sii::category(words),
        b"alias" => sii::alias(words),
        b"size" => sii::size(words),
        b"setalias" => sii::set_alias(words),
        b"identity" => sii::identity(words),
        b"mailbox" => sii::mailbox(words),
        b"hasmail" => sii::has_mailbox(words),
        b"general" => sii::general(words),
        b"sms" => sii::sync_managers(words),
        b"usages" => sii::usages(words),
        b"fmmus" => sii::fmmus(words),
        b"fmmuex" => sii::fmmu_mappings(words),
        b"pdos" => sii::pdos(words),
        b"pdi" | b"bootmail" | b"version" | b"checksum" | b"clocks" | b"physport" | b"physaddr" => sii::unread(words),
        b"inside" => sii::not_asked(words),
        b"string" => strings::string(words),
        b"name" => strings::name(words),
        b"desc" => strings::description(words),
        b"entry" => ports::entry(words),
        b"last" => ports::last(words),
        b"topology" => ports::topology(words),
        b"total" => ports::total(words),
        b"totalfrom" => ports::total_from(words),
        b"timeto" => ports::time_to(words),
        b"between" => ports::between(words),
        b"linked" => ports::linked(words),
        b"assign" => ports::assign(words),
        b"times" => ports::times(words),
        b"display" => ports::display(words),
        b"open" => frames::open(words),
        b"push" => frames::push(words),
        b"handle" => frames::handle(words),
        b"rest" => frames::rest(words),
        b"canpush" => frames::can_push(words),
        b"header" => frames::header(words),
        b"frame" => frames::frame(words),
        b"received" => frames::received(words),
        b"spread" => frames::spread(words),
        _ => Err(Off::Unreadable),
    }
}
