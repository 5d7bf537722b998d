//! A script, borrowed: what it is, its signature operations, its dust figure, its text.

use alloc::string::String;
use alloc::vec::Vec;

use crate::opcodes::perhaps;
use crate::refusal::unknown;
use crate::{ffi, given, judged, part, truth, value, values, Refusal};

/// The longest script that is answered, in bytes.
pub const MAX_SCRIPT_LEN: usize = 4_194_304;

/// A script: bytes of somebody else.
#[derive(PartialEq, Eq, PartialOrd, Ord, Hash, Debug)]
#[repr(transparent)]
pub struct Script([u8]);

/// What a script is: the first that fits, in this order.
#[derive(Clone, Copy, Debug, PartialEq, Eq, Hash)]
pub enum Kind {
    P2pkh,
    P2sh,
    P2wpkh,
    P2wsh,
    P2tr,
    P2a,
    Witness,
    P2pk,
    Multisig,
    OpReturn,
    Other,
}

const KINDS: [Kind; 11] = [
    Kind::P2pkh,
    Kind::P2sh,
    Kind::P2wpkh,
    Kind::P2wsh,
    Kind::P2tr,
    Kind::P2a,
    Kind::Witness,
    Kind::P2pk,
    Kind::Multisig,
    Kind::OpReturn,
    Kind::Other,
];

/// A question with yes or no for an answer. Refused: a script over the limit.
macro_rules! judgements {
    ($($(#[$doc:meta])* $name:ident $function:ident;)*) => {
        $(
            $(#[$doc])*
            #[inline]
            pub fn $name(&self) -> Result<bool, Refusal> {
                judged(|values, count| unsafe { ffi::$function(self.0.as_ptr(), self.0.len(), values, count) })
            }
        )*
    };
}

impl Script {
    /// The script that these bytes are.
    #[inline]
    pub fn from_bytes(bytes: &[u8]) -> &Script {
        // SAFETY: Script is a transparent struct over the slice, so both references have one layout.
        unsafe { &*(bytes as *const [u8] as *const Script) }
    }

    #[inline]
    pub fn as_bytes(&self) -> &[u8] {
        &self.0
    }

    #[inline]
    pub fn len(&self) -> usize {
        self.0.len()
    }

    #[inline]
    pub fn is_empty(&self) -> bool {
        self.0.is_empty()
    }

    judgements! {
        is_p2sh bb_is_p2sh;
        is_p2pkh bb_is_p2pkh;
        is_witness_program bb_is_witness_program;
        is_p2wpkh bb_is_p2wpkh;
        is_p2wsh bb_is_p2wsh;
        is_p2tr bb_is_p2tr;
        /// Pay to anchor, `51 02 4e 73`. Crate bitcoin has this on its witness program.
        is_p2a bb_is_p2a;
        is_p2pk bb_is_p2pk;
        is_multisig bb_is_multisig;
        is_op_return bb_is_op_return;
        is_push_only bb_is_push_only;
    }

    /// The witness version, 0 to 16.
    #[inline]
    pub fn witness_version(&self) -> Result<Option<u8>, Refusal> {
        values(|values, count| unsafe { ffi::bb_witness_version(self.0.as_ptr(), self.0.len(), values, count) })
            .map(perhaps)
    }

    /// The key's bytes of a P2PK script, whether or not they are a point of the curve.
    #[inline]
    pub fn p2pk_public_key_bytes(&self) -> Result<Option<&[u8]>, Refusal> {
        values(|values, count| unsafe { ffi::bb_p2pk_key(self.0.as_ptr(), self.0.len(), values, count) })
            .map(|place| self.perhaps_part(place))
    }

    /// The last body of a script of pushes alone.
    #[inline]
    pub fn redeem_script(&self) -> Result<Option<&Script>, Refusal> {
        values(|values, count| unsafe { ffi::bb_redeem_script(self.0.as_ptr(), self.0.len(), values, count) })
            .map(|place| self.perhaps_part(place).map(Script::from_bytes))
    }

    /// As [`Script::p2pk_public_key_bytes`]; empty for any other script and for one over the limit.
    #[inline]
    pub fn p2pk_key_part(&self) -> &[u8] {
        let [place, length] = given(values(|values, count| unsafe {
            ffi::bb_p2pk_key_part(self.0.as_ptr(), self.0.len(), values, count)
        }));
        part(&self.0, place, length)
    }

    /// As [`Script::redeem_script`]; empty for any other script and for one over the limit.
    #[inline]
    pub fn redeem_part(&self) -> &[u8] {
        let [place, length] =
            given(values(|values, count| unsafe { ffi::bb_redeem_part(self.0.as_ptr(), self.0.len(), values, count) }));
        part(&self.0, place, length)
    }

    #[inline]
    fn perhaps_part(&self, [there, place, length]: [u64; 3]) -> Option<&[u8]> {
        truth(there).then(|| part(&self.0, place, length))
    }

    /// The script code of a P2WPKH script.
    #[inline]
    pub fn p2wpkh_script_code(&self) -> Result<Option<[u8; 25]>, Refusal> {
        let mut code = [0; 25];
        self.write_p2wpkh_script_code(&mut code).map(|written| written.map(|_| code))
    }

    /// Writes the script code of a P2WPKH script and says how many bytes that are; for any other script nothing is written. Refused: an
    /// output that is too short for what there is to write.
    #[inline]
    pub fn write_p2wpkh_script_code(&self, out: &mut [u8]) -> Result<Option<usize>, Refusal> {
        values(|values, count| unsafe {
            ffi::bb_p2wpkh_script_code(self.0.as_ptr(), self.0.len(), out.as_mut_ptr(), out.len(), values, count)
        })
        .map(|[there, written]| truth(there).then_some(written as usize))
    }

    /// The first kind that fits.
    #[inline]
    pub fn kind(&self) -> Result<Kind, Refusal> {
        let kind = value(|values, count| unsafe { ffi::bb_kind(self.0.as_ptr(), self.0.len(), values, count) })?;
        match KINDS.get((kind as usize).wrapping_sub(1)) {
            Some(kind) => Ok(*kind),
            None => unknown("a kind", kind),
        }
    }

    /// Signature operations, as a node counts them in a redeem script.
    #[inline]
    pub fn count_sigops(&self) -> Result<usize, Refusal> {
        value(|values, count| unsafe { ffi::bb_count_sigops(self.0.as_ptr(), self.0.len(), values, count) })
            .map(|n| n as usize)
    }

    /// Signature operations with 20 for every CHECKMULTISIG.
    #[inline]
    pub fn count_sigops_legacy(&self) -> Result<usize, Refusal> {
        value(|values, count| unsafe { ffi::bb_count_sigops_legacy(self.0.as_ptr(), self.0.len(), values, count) })
            .map(|n| n as usize)
    }

    /// The least amount that is no dust at the default rate, in satoshi.
    #[inline]
    pub fn minimal_non_dust(&self) -> Result<u64, Refusal> {
        value(|values, count| unsafe { ffi::bb_minimal_non_dust(self.0.as_ptr(), self.0.len(), values, count) })
    }

    /// The same at a rate in satoshi per 1000 weight units. Refused: a fee over 64 bits.
    #[inline]
    pub fn minimal_non_dust_custom(&self, rate: u64) -> Result<u64, Refusal> {
        value(|values, count| unsafe {
            ffi::bb_minimal_non_dust_custom(self.0.as_ptr(), self.0.len(), rate, values, count)
        })
    }

    /// The length of the asm text.
    #[inline]
    pub fn asm_len(&self) -> Result<usize, Refusal> {
        value(|values, count| unsafe { ffi::bb_asm_len(self.0.as_ptr(), self.0.len(), values, count) })
            .map(|n| n as usize)
    }

    /// Writes the asm text and says how many bytes it has. Refused: an output that is too short.
    #[inline]
    pub fn write_asm(&self, out: &mut [u8]) -> Result<usize, Refusal> {
        // SAFETY: out is valid for its length.
        unsafe { self.write_asm_at(out.as_mut_ptr(), out.len()) }
    }

    /// Appends the asm text. Nothing is appended where it is refused.
    pub fn fmt_asm(&self, text: &mut String) -> Result<(), Refusal> {
        append(text, |out, room| unsafe { self.write_asm_at(out, room) })
    }

    /// The asm text.
    pub fn to_asm_string(&self) -> Result<String, Refusal> {
        let mut text = String::new();
        self.fmt_asm(&mut text)?;
        Ok(text)
    }

    /// # Safety
    /// `out` must be valid for writes of `room` bytes.
    #[inline]
    unsafe fn write_asm_at(&self, out: *mut u8, room: usize) -> Result<usize, Refusal> {
        value(|values, count| ffi::bb_write_asm(self.0.as_ptr(), self.0.len(), out, room, values, count))
            .map(|n| n as usize)
    }

    /// Writes the inspector's screen and says how many bytes it has; the one line `refused 2800` for more than 2,800 bytes of script.
    /// Refused: an output that is too short.
    #[inline]
    pub fn inspect(&self, out: &mut [u8]) -> Result<usize, Refusal> {
        // SAFETY: out is valid for its length.
        unsafe { self.inspect_at(out.as_mut_ptr(), out.len()) }
    }

    /// The inspector's screen.
    pub fn to_inspect_string(&self) -> String {
        let mut text = String::new();
        given(append(&mut text, |out, room| unsafe { self.inspect_at(out, room) }));
        text
    }

    /// # Safety
    /// `out` must be valid for writes of `room` bytes.
    #[inline]
    unsafe fn inspect_at(&self, out: *mut u8, room: usize) -> Result<usize, Refusal> {
        value(|values, count| ffi::bb_inspect(self.0.as_ptr(), self.0.len(), out, room, values, count))
            .map(|n| n as usize)
    }
}

/// Appends what a call writes: into the room that the string has, and if that is refused into the room that the refusal names.
fn append(text: &mut String, write: impl Fn(*mut u8, usize) -> Result<usize, Refusal>) -> Result<(), Refusal> {
    let mut bytes = Vec::from(core::mem::take(text));
    let before = bytes.len();
    let into_room = |bytes: &mut Vec<u8>| {
        let room = bytes.spare_capacity_mut();
        let room_len = room.len();
        let written = write(room.as_mut_ptr().cast(), room_len)?;
        if written > room_len {
            unknown("a count within the room that was lent", written as u64);
        }
        // SAFETY: the call wrote that many bytes at the front of the spare room.
        unsafe { bytes.set_len(before + written) };
        Ok(())
    };
    let written = match into_room(&mut bytes) {
        Err(Refusal::NoRoom(needed)) => {
            bytes.reserve_exact(needed);
            into_room(&mut bytes)
        }
        other => other,
    };
    *text = String::from_utf8(bytes).expect("the text is ASCII");
    written
}

/// Writes the script of a witness version and program and says how many bytes it has.
#[inline]
pub fn witness_program(version: u8, program: &[u8], out: &mut [u8]) -> Result<usize, Refusal> {
    value(|values, count| unsafe {
        ffi::bb_witness_program(version, program.as_ptr(), program.len(), out.as_mut_ptr(), out.len(), values, count)
    })
    .map(|n| n as usize)
}

impl AsRef<[u8]> for Script {
    fn as_ref(&self) -> &[u8] {
        &self.0
    }
}

impl<'a> From<&'a [u8]> for &'a Script {
    fn from(bytes: &'a [u8]) -> Self {
        Script::from_bytes(bytes)
    }
}
