//! Types of the crate that consensus/encode.rs makes vectors of. They have no content here.

/// Declares types without content. Writing or reading one panics.
macro_rules! opaque {
    ($($name:ident),*) => {
        $(
            pub struct $name;

            impl crate::consensus::Encodable for $name {
                fn consensus_encode<W: io::Write + ?Sized>(&self, _: &mut W) -> Result<usize, io::Error> {
                    unimplemented!(stringify!($name))
                }
            }

            impl crate::consensus::Decodable for $name {
                fn consensus_decode<R: io::Read + ?Sized>(_: &mut R) -> Result<Self, crate::consensus::encode::Error> {
                    unimplemented!(stringify!($name))
                }
            }
        )*
    };
}
pub(crate) use opaque;

pub mod bip152 {
    super::opaque!(PrefilledTransaction, ShortId);
}

pub mod bip158 {
    super::opaque!(FilterHash, FilterHeader);
}

pub mod p2p {
    pub mod address {
        crate::opaque::opaque!(AddrV2Message, Address);
    }

    pub mod message_blockdata {
        crate::opaque::opaque!(Inventory);
    }
}
