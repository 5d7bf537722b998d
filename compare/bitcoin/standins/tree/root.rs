// Stand-in for lib.rs: the modules that the unchanged files name, and the public names that are asked for.

pub extern crate bech32;
pub extern crate hashes;
pub extern crate hex;
pub extern crate io;
pub extern crate secp256k1;

mod array_vec;
mod const_tools;
mod internal_macros;
mod opaque;

pub mod blockdata;
pub mod consensus;
pub(crate) mod crypto;
pub mod error;
pub mod policy;
pub mod taproot;

pub use blockdata::fee_rate::FeeRate;
pub use blockdata::locktime::{self, absolute};
pub use blockdata::opcodes::{self, Opcode};
pub use blockdata::script::witness_program::{self, WitnessProgram};
pub use blockdata::script::witness_version::{self, WitnessVersion};
pub use blockdata::script::{self, Script, ScriptBuf, ScriptHash, WScriptHash};
pub use blockdata::transaction::{self, OutPoint, Sequence};
pub use crypto::key::{self, CompressedPublicKey, PublicKey, WPubkeyHash};
pub use opaque::{bip152, bip158, p2p};
pub use units::amount::{self, Amount};

mod prelude {
    pub use std::borrow::{Borrow, BorrowMut, Cow, ToOwned};
    pub use std::boxed::Box;
    pub use std::string::{String, ToString};
    pub use std::vec::Vec;
    pub use std::{rc, sync};

    pub use hex::DisplayHex;
    pub use io::sink;
}
