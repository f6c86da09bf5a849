//! `Ports`, of subdevice/ports.rs.

use crate::SubDevice;
use crate::answer::{Off, Reply, ask, gives, gives_some, record, slice};
use crate::subdevice::ports::{Port, Ports, Topology};
use lines::Words;
use std::num::NonZeroU16;

/// `ACTIVE TIME LINK` for each place.
fn read(words: &mut Words) -> Result<Ports, Off> {
    let mut place = || Ok::<_, Off>((words.flag()?, words.u32()?, NonZeroU16::new(words.u16()?)));
    let places = [place()?, place()?, place()?, place()?];
    let [a, b, c, d] = places.map(|(active, ..)| active);
    let mut ports = Ports::new(a, b, c, d);
    for (port, (_, time, link)) in ports.0.iter_mut().zip(places) {
        port.dc_receive_time = time;
        port.downstream_to = link;
    }
    Ok(ports)
}

fn only_ports(mut words: Words) -> Result<Ports, Off> {
    let ports = read(&mut words)?;
    words.end()?;
    Ok(ports)
}

fn afterwards(ports: &Ports) -> String {
    let places = ports
        .0
        .map(|port| [port.active.into(), port.dc_receive_time, port.downstream_to.map_or(0, |link| link.get().into())]);
    record(places.as_flattened())
}

/// The port of that number, as the Rust's calls take it; of a number that no port has, one that is in no other way a port.
fn numbered(ports: &Ports, number: u8) -> Port {
    ports.0.into_iter().find(|port| port.number == number).unwrap_or(Port { number, ..Port::default() })
}

pub fn entry(words: Words) -> Reply {
    let ports = only_ports(words)?;
    let port = ask(|| ports.entry_port())?;
    Ok(gives(&[port.number.into()]))
}

pub fn last(words: Words) -> Reply {
    let ports = only_ports(words)?;
    let port = ask(|| ports.last_port())?;
    Ok(gives_some(port.map(|port| port.number)))
}

pub fn topology(words: Words) -> Reply {
    let ports = only_ports(words)?;
    let number = match ask(|| ports.topology())? {
        Topology::LineEnd => 1,
        Topology::Passthrough => 2,
        Topology::Fork => 3,
        Topology::Cross => 4,
    };
    Ok(gives(&[number]))
}

pub fn total(words: Words) -> Reply {
    let ports = only_ports(words)?;
    Ok(gives_some(ask(|| ports.total_propagation_time())?))
}

/// Delays from a named port are our request E6; the Rust has no such call.
pub fn total_from(mut words: Words) -> Reply {
    read(&mut words)?;
    words.u8()?;
    words.end()?;
    Err(Off::None)
}

pub fn time_to(mut words: Words) -> Reply {
    let (ports, number) = (read(&mut words)?, words.u8()?);
    words.end()?;
    let port = numbered(&ports, number);
    Ok(gives_some(ask(|| ports.propagation_time_to(&port))?))
}

pub fn between(mut words: Words) -> Reply {
    let (ports, number) = (read(&mut words)?, words.u8()?);
    words.end()?;
    let port = numbered(&ports, number);
    Ok(gives(&[ask(|| ports.intermediate_propagation_time_to(&port))?]))
}

pub fn linked(mut words: Words) -> Reply {
    let (ports, index) = (read(&mut words)?, words.u16()?);
    words.end()?;
    let device = SubDevice { index, ..SubDevice::default() };
    let port = ask(|| ports.port_assigned_to(&device))?;
    Ok(gives_some(port.map(|port| port.number)))
}

/// Link 0 can't be said in the Rust.
pub fn assign(mut words: Words) -> Reply {
    let (mut ports, link) = (read(&mut words)?, words.u16()?);
    words.end()?;
    let link = NonZeroU16::new(link).ok_or(Off::None)?;
    let port = ask(|| ports.assign_next_downstream_port(link))?;
    Ok(gives_some(port) + &afterwards(&ports))
}

pub fn times(mut words: Words) -> Reply {
    let mut ports = read(&mut words)?;
    let (t0, t3, t1, t2) = (words.u32()?, words.u32()?, words.u32()?, words.u32()?);
    words.end()?;
    ask(|| ports.set_receive_times(t0, t3, t1, t2))?;
    Ok(gives(&[]) + &afterwards(&ports))
}

pub fn display(words: Words) -> Reply {
    let ports = only_ports(words)?;
    let text = ask(|| ports.to_string())?;
    Ok(gives(&[]) + &slice(text.as_bytes()))
}
