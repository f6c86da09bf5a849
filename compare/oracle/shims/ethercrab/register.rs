//! Stands for ethercrab's register.rs, for dc.rs: the registers that it names, with ETG1000.4's addresses, and whether a device has a clock.
//! No request of the desk runs dc.rs.

pub enum RegisterAddress {
    DcTimePort0 = 0x0900,
    DcSystemTime = 0x0910,
    DcReceiveTime = 0x0918,
    DcSystemTimeOffset = 0x0920,
    DcSystemTimeTransmissionDelay = 0x0928,
}

impl From<RegisterAddress> for u16 {
    fn from(register: RegisterAddress) -> u16 {
        register as u16
    }
}

#[derive(Default, Debug, Copy, Clone)]
pub enum DcSupport {
    #[default]
    None,
    Bits64,
}

impl DcSupport {
    pub fn any(&self) -> bool {
        matches!(self, Self::Bits64)
    }
}
