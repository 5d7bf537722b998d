//! Stand-in for owned.rs: a script in a vector. The forms of its pushes follow document 01, not the crate's text.

use secp256k1::{Secp256k1, Verification};

use super::witness_program::WitnessProgram;
use super::{PushBytes, Script, ScriptHash, WScriptHash};
use crate::blockdata::opcodes::Opcode;
use crate::key::{UntweakedPublicKey, WPubkeyHash};
use crate::taproot::TapNodeHash;

#[derive(Clone, Default, PartialEq, Eq, PartialOrd, Ord, Hash)]
pub struct ScriptBuf(pub(in crate::blockdata::script) Vec<u8>);

impl ScriptBuf {
    pub const fn new() -> Self {
        ScriptBuf(Vec::new())
    }

    pub fn as_script(&self) -> &Script {
        Script::from_bytes(&self.0)
    }

    pub fn into_boxed_script(self) -> Box<Script> {
        let bytes = Box::into_raw(self.0.into_boxed_slice());
        // SAFETY: Script is a transparent struct over the slice that was boxed.
        unsafe { Box::from_raw(bytes as *mut Script) }
    }

    pub fn push_opcode(&mut self, opcode: Opcode) {
        self.0.push(opcode.to_u8());
    }

    pub fn push_slice<T: AsRef<PushBytes>>(&mut self, data: T) {
        let body = data.as_ref().as_bytes();
        let length = (body.len() as u32).to_le_bytes();
        match length_bytes(body.len()) {
            0 => self.0.push(length[0]),
            width => {
                let form = match width {
                    1 => 76,
                    2 => 77,
                    _ => 78,
                };
                self.0.push(form);
                self.0.extend_from_slice(&length[..width]);
            }
        }
        self.0.extend_from_slice(body);
    }

    pub(in crate::blockdata::script) fn reserved_len_for_slice(len: usize) -> usize {
        1 + length_bytes(len) + len
    }

    pub fn new_witness_program(witness: &WitnessProgram) -> Self {
        let mut script = ScriptBuf::new();
        script.push_opcode(witness.version().into());
        script.push_slice(witness.program());
        script
    }

    pub fn p2wpkh_script_code(hash: WPubkeyHash) -> ScriptBuf {
        let h = hashes::Hash::to_byte_array(hash);
        ScriptBuf([&[0x76, 0xa9, 0x14][..], &h[..], &[0x88, 0xac][..]].concat())
    }

    pub fn new_p2sh(_: &ScriptHash) -> Self {
        unimplemented!()
    }
    pub fn new_p2wsh(_: &WScriptHash) -> Self {
        unimplemented!()
    }
    pub fn new_p2tr<C: Verification>(_: &Secp256k1<C>, _: UntweakedPublicKey, _: Option<TapNodeHash>) -> Self {
        unimplemented!()
    }
}

/// How many length bytes the shortest form of a push has beside its first byte.
fn length_bytes(len: usize) -> usize {
    match len {
        0..=75 => 0,
        76..=0xff => 1,
        0x100..=0xffff => 2,
        _ => 4,
    }
}
