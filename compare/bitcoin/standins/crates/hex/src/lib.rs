//! Stand-in for hex-conservative: bytes as hex, and the types of its errors.

use std::fmt;

pub struct Shown<'a>(&'a [u8]);

impl fmt::LowerHex for Shown<'_> {
    fn fmt(&self, f: &mut fmt::Formatter) -> fmt::Result {
        self.0.iter().try_for_each(|b| write!(f, "{b:02x}"))
    }
}

impl fmt::UpperHex for Shown<'_> {
    fn fmt(&self, f: &mut fmt::Formatter) -> fmt::Result {
        self.0.iter().try_for_each(|b| write!(f, "{b:02X}"))
    }
}

pub trait DisplayHex {
    fn as_hex(&self) -> Shown<'_>;
    fn to_lower_hex_string(&self) -> String {
        format!("{:x}", self.as_hex())
    }
}

impl DisplayHex for [u8] {
    fn as_hex(&self) -> Shown<'_> {
        Shown(self)
    }
}

pub mod error {
    macro_rules! errors {
        ($($name:ident),*) => {
            $(
                #[derive(Debug)]
                pub struct $name;

                impl std::fmt::Display for $name {
                    fn fmt(&self, f: &mut std::fmt::Formatter) -> std::fmt::Result { f.write_str(stringify!($name)) }
                }

                impl std::error::Error for $name {}
            )*
        };
    }
    errors!(InvalidCharError, OddLengthStringError);
}

/// Reading hex is not part of this comparison: there is no value of this type.
pub enum HexSliceToBytesIter {}

impl HexSliceToBytesIter {
    pub fn new(_: &str) -> Result<Self, error::OddLengthStringError> {
        unimplemented!()
    }
}

impl Iterator for HexSliceToBytesIter {
    type Item = Result<u8, error::InvalidCharError>;

    fn next(&mut self) -> Option<Self::Item> {
        match *self {}
    }
}
