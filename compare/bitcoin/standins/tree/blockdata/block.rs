//! Stand-in: types without content.

crate::opaque::opaque!(BlockHash, Header, TxMerkleNode);
