//! Stands for the crate `crc` 3, for 8-bit sums without reflection, which is all that `eeprom/mod.rs` asks for.
//!
//! The algorithm is the published parametrised model that the crate's `Algorithm` names: start with `init`; for each byte, xor it in, then eight times
//! shift left by one and, if a one fell out, xor `poly`; at the end xor `xorout`. The crate works it from a table of 256, which gives the same sums.
//! `check` and `residue` are documentation there too: no sum depends on them. The test below is the catalogue's CRC-8/SMBUS.

pub struct Algorithm<W> {
    pub width: u8,
    pub poly: W,
    pub init: W,
    pub refin: bool,
    pub refout: bool,
    pub xorout: W,
    pub check: W,
    pub residue: W,
}

pub struct Crc<W: 'static> {
    pub algorithm: &'static Algorithm<W>,
}

impl Crc<u8> {
    pub const fn new(algorithm: &'static Algorithm<u8>) -> Self {
        assert!(algorithm.width == 8 && !algorithm.refin && !algorithm.refout);
        Self { algorithm }
    }

    pub fn checksum(&self, bytes: &[u8]) -> u8 {
        let sum = bytes.iter().fold(self.algorithm.init, |sum, byte| {
            (0..8).fold(sum ^ byte, |sum, _| {
                let shifted = sum << 1;
                if sum & 0x80 == 0 { shifted } else { shifted ^ self.algorithm.poly }
            })
        });
        sum ^ self.algorithm.xorout
    }
}

#[test]
fn smbus() {
    const SMBUS: Algorithm<u8> =
        Algorithm { width: 8, poly: 0x07, init: 0, refin: false, refout: false, xorout: 0, check: 0xf4, residue: 0 };
    assert_eq!(Crc::<u8>::new(&SMBUS).checksum(b"123456789"), SMBUS.check);
}
