//! Stands for ethercrab's subdevice/mod.rs, of which eeprom.rs, ports.rs and dc.rs need a few items.
//!
//! GUESS: the identity's four fields and their order are ETG2010's (vendor, product, revision, serial at words 8, 10, 12, 14).
//! GUESS: `is_child_of`, which only dc.rs calls and no request of the desk reaches.

pub mod eeprom;
pub mod ports;

use crate::MainDevice;
use crate::command::{Command, WrappedRead};
use crate::register::{DcSupport, RegisterAddress};
use std::ops::{Deref, DerefMut};

#[derive(ethercrab_wire::EtherCrabWireRead)]
#[wire(bytes = 16)]
pub struct SubDeviceIdentity {
    #[wire(bytes = 4)]
    pub vendor_id: u32,
    #[wire(bytes = 4)]
    pub product_id: u32,
    #[wire(bytes = 4)]
    pub revision: u32,
    #[wire(bytes = 4)]
    pub serial: u32,
}

#[derive(Default)]
pub struct SubDevice {
    pub configured_address: u16,
    pub index: u16,
    pub parent_index: Option<u16>,
    pub propagation_delay: u32,
    pub dc_receive_time: u64,
    pub ports: ports::Ports,
    pub dc: DcSupport,
    pub name: heapless::String<64>,
}

impl SubDevice {
    pub fn configured_address(&self) -> u16 {
        self.configured_address
    }

    pub fn name(&self) -> &str {
        self.name.as_str()
    }

    pub fn dc_support(&self) -> DcSupport {
        self.dc
    }

    /// A child hangs on a fork or cross, at another port than its last.
    pub fn is_child_of(&self, parent: &SubDevice) -> bool {
        let ports = &parent.ports;
        ports.topology().is_junction() && !ports.port_assigned_to(self).is_some_and(|port| ports.is_last_port(port))
    }
}

pub struct SubDeviceRef<S> {
    configured_address: u16,
    state: S,
}

impl<S> SubDeviceRef<S> {
    pub fn new(_: &MainDevice<'_>, configured_address: u16, state: S) -> Self {
        Self { configured_address, state }
    }

    pub fn read(&self, register: RegisterAddress) -> WrappedRead {
        Command::fprd(self.configured_address, register.into())
    }
}

impl<S: Deref<Target = SubDevice>> Deref for SubDeviceRef<S> {
    type Target = SubDevice;

    fn deref(&self) -> &SubDevice {
        &self.state
    }
}

impl<S: DerefMut<Target = SubDevice>> DerefMut for SubDeviceRef<S> {
    fn deref_mut(&mut self) -> &mut SubDevice {
        &mut self.state
    }
}
