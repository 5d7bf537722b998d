//! Stand-in for keys: what the script files name. No key is checked against the curve and none is tweaked.

use hashes::hash160;
use secp256k1::{Parity, Secp256k1, Verification, XOnlyPublicKey};

use crate::taproot::TapNodeHash;

hashes::hash_newtype! {
    pub struct WPubkeyHash(hash160::Hash);
}

pub struct PublicKey {
    pub compressed: bool,
    pub inner: secp256k1::PublicKey,
}

impl PublicKey {
    pub fn from_slice(bytes: &[u8]) -> Result<PublicKey, FromSliceError> {
        let inner = secp256k1::PublicKey::from_slice(bytes).ok_or(FromSliceError)?;
        Ok(PublicKey { compressed: bytes.len() == 33, inner })
    }

    pub fn to_bytes(self) -> Vec<u8> {
        match self.compressed {
            true => self.inner.serialize().to_vec(),
            false => self.inner.serialize_uncompressed().to_vec(),
        }
    }
}

#[derive(Debug)]
pub struct FromSliceError;

pub struct CompressedPublicKey(pub secp256k1::PublicKey);

impl CompressedPublicKey {
    pub fn wpubkey_hash(&self) -> WPubkeyHash {
        unimplemented!()
    }
}

pub type UntweakedPublicKey = XOnlyPublicKey;

pub struct TweakedPublicKey(XOnlyPublicKey);

impl TweakedPublicKey {
    pub fn as_x_only_public_key(&self) -> &XOnlyPublicKey {
        &self.0
    }
}

pub trait TapTweak {
    fn tap_tweak<C: Verification>(
        self,
        secp: &Secp256k1<C>,
        merkle_root: Option<TapNodeHash>,
    ) -> (TweakedPublicKey, Parity);
}

impl TapTweak for UntweakedPublicKey {
    fn tap_tweak<C: Verification>(self, _: &Secp256k1<C>, _: Option<TapNodeHash>) -> (TweakedPublicKey, Parity) {
        unimplemented!()
    }
}
