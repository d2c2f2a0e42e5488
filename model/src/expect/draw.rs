//! The generator and the checksum of the random series. Neither wraps in 64 bits.

/// x := x × 48,271 mod 2,147,483,647.
pub struct Draw(pub u64);

impl Draw {
    pub fn next(&mut self) -> u64 {
        self.0 = self.0 * 48_271 % 2_147_483_647;
        self.0
    }
}

/// h := (h × 65,599 + v mod 4,294,967,291) mod 4,294,967,291.
#[derive(Default)]
pub struct Checksum(pub u64);

impl Checksum {
    pub fn fold(&mut self, values: &[u64]) {
        for v in values {
            self.0 = (self.0 * 65_599 + v % 4_294_967_291) % 4_294_967_291;
        }
    }
}
