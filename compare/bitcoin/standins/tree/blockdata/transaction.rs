//! Stand-in: a sequence number, an output's place, and types without content.

use core::fmt;

crate::opaque::opaque!(Transaction, TxIn, TxOut);

#[derive(Clone, Copy, Debug, PartialEq, Eq)]
pub struct Sequence(pub u32);

impl Sequence {
    pub fn from_consensus(n: u32) -> Self {
        Sequence(n)
    }
    pub fn to_consensus_u32(self) -> u32 {
        self.0
    }
}

#[derive(Clone, Debug, PartialEq, Eq)]
pub struct OutPoint;

impl fmt::Display for OutPoint {
    fn fmt(&self, f: &mut fmt::Formatter) -> fmt::Result {
        f.write_str("OutPoint")
    }
}
