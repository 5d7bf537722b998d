//! Stand-in for taproot: the types of its hashes.

use hashes::sha256;

use crate::blockdata::script::Script;

hashes::hash_newtype! {
    pub struct TapLeafHash(sha256::Hash);
    pub struct TapNodeHash(sha256::Hash);
}

pub enum LeafVersion {
    TapScript,
}

impl TapLeafHash {
    pub fn from_script(_: &Script, _: LeafVersion) -> TapLeafHash {
        unimplemented!()
    }
}

impl From<TapLeafHash> for TapNodeHash {
    fn from(leaf: TapLeafHash) -> TapNodeHash {
        TapNodeHash(leaf.0)
    }
}
