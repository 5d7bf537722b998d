//! Stand-in for secp256k1: a public key is any 33 or 65 bytes. No point is checked against the curve.

use std::marker::PhantomData;

pub trait Verification {}

pub struct Secp256k1<C>(PhantomData<C>);

#[derive(Clone, Debug, PartialEq, Eq)]
pub struct PublicKey(Vec<u8>);

impl PublicKey {
    pub fn from_slice(bytes: &[u8]) -> Option<PublicKey> {
        matches!(bytes.len(), 33 | 65).then(|| PublicKey(bytes.to_vec()))
    }

    pub fn serialize(&self) -> [u8; 33] {
        self.0[..].try_into().expect("a compressed key")
    }

    pub fn serialize_uncompressed(&self) -> [u8; 65] {
        self.0[..].try_into().expect("an uncompressed key")
    }
}

pub struct XOnlyPublicKey([u8; 32]);

impl XOnlyPublicKey {
    pub fn serialize(&self) -> [u8; 32] {
        self.0
    }
}

pub struct Parity;
