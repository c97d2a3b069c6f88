//! Stand-in for crc32fast: CRC-32 of IEEE 802.3, one call and streaming. The comparison reads every file with another
//! implementation of that checksum, so an error here cannot pass.
pub struct Hasher(u32);

impl Hasher {
    pub fn new() -> Hasher {
        Hasher(!0)
    }
    pub fn update(&mut self, bytes: &[u8]) {
        for byte in bytes {
            self.0 ^= u32::from(*byte);
            for _ in 0..8 {
                let low = self.0 & 1;
                self.0 = (self.0 >> 1) ^ (0xedb8_8320 * low);
            }
        }
    }
    pub fn finalize(self) -> u32 {
        !self.0
    }
}

pub fn hash(bytes: &[u8]) -> u32 {
    let mut hasher = Hasher::new();
    hasher.update(bytes);
    hasher.finalize()
}
