//! Stand-in for bech32: a number below 32.

pub struct Fe32(u8);

impl Fe32 {
    pub fn to_u8(self) -> u8 {
        self.0
    }
}

impl TryFrom<u8> for Fe32 {
    type Error = u8;

    fn try_from(n: u8) -> Result<Self, u8> {
        if n < 32 {
            Ok(Fe32(n))
        } else {
            Err(n)
        }
    }
}
