//! CRC of width 24 without reflection, by a table of 256 remainders.

pub struct Algorithm<W> {
    pub width: u8,
    pub poly: W,
    pub init: W,
    pub refin: bool,
    pub refout: bool,
    pub xorout: W,
    pub check: W,
    pub residue: W,
}
pub struct Crc<W: 'static> {
    algorithm: &'static Algorithm<W>,
    table: [u32; 256],
}
impl Crc<u32> {
    pub const fn new(algorithm: &'static Algorithm<u32>) -> Self {
        assert!(algorithm.width == 24 && !algorithm.refin && !algorithm.refout);
        let mut table = [0u32; 256];
        let mut i = 0;
        while i < 256 {
            let mut v = (i as u32) << 24;
            let mut k = 0;
            while k < 8 {
                v = if v & 0x8000_0000 != 0 {
                    (v << 1) ^ (algorithm.poly << 8)
                } else {
                    v << 1
                };
                k += 1;
            }
            table[i] = v;
            i += 1;
        }
        Crc { algorithm, table }
    }
    pub const fn digest(&self) -> Digest<'_, u32> {
        Digest {
            crc: self,
            value: self.algorithm.init << 8,
        }
    }
    pub fn checksum(&self, bytes: &[u8]) -> u32 {
        let mut d = self.digest();
        d.update(bytes);
        d.finalize()
    }
}
pub struct Digest<'a, W: 'static> {
    crc: &'a Crc<W>,
    value: u32,
}
impl<'a> Digest<'a, u32> {
    #[inline]
    pub fn update(&mut self, bytes: &[u8]) {
        for &b in bytes {
            self.value = (self.value << 8) ^ self.crc.table[((self.value >> 24) as u8 ^ b) as usize];
        }
    }
    #[inline]
    pub fn finalize(self) -> u32 {
        (self.value >> 8) ^ self.crc.algorithm.xorout
    }
}
