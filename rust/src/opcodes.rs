//! Opcode bytes.

use core::fmt;

use crate::refusal::unknown;
use crate::walk::Form;
use crate::{byte, ffi, given, truth, value, values, Refusal};

/// What an opcode byte starts.
#[derive(Clone, Copy, Debug, PartialEq, Eq, Hash)]
pub enum Sort {
    Push(Form),
    /// A number opcode, 0x51 to 0x60.
    Number,
    Plain,
}

/// The sort of an opcode byte.
#[inline]
pub fn classify(code: u8) -> Sort {
    let [sort, bytes] = given(values(|values, count| unsafe { ffi::bb_classify(code, values, count) }));
    match sort {
        ffi::SORT_PUSH => Sort::Push(Form::of(bytes)),
        ffi::SORT_NUMBER => Sort::Number,
        ffi::SORT_PLAIN => Sort::Plain,
        other => unknown("the sort of an opcode", other),
    }
}

/// The number that a number opcode carries, 1 to 16.
#[inline]
pub fn decode_pushnum(code: u8) -> Option<u8> {
    perhaps(given(values(|values, count| unsafe { ffi::bb_decode_pushnum(code, values, count) })))
}

/// The opcode that does the same and then verifies.
#[inline]
pub fn opcode_to_verify(code: u8) -> Option<u8> {
    perhaps(given(values(|values, count| unsafe { ffi::bb_opcode_to_verify(code, values, count) })))
}

/// The length of an opcode's name.
#[inline]
pub fn name_len(code: u8) -> usize {
    given(value(|values, count| unsafe { ffi::bb_name_len(code, values, count) })) as usize
}

/// Writes an opcode's name and says how many bytes that are. Refused: an output that is too short.
#[inline]
pub fn write_name(code: u8, out: &mut [u8]) -> Result<usize, Refusal> {
    value(|values, count| unsafe { ffi::bb_write_name(code, out.as_mut_ptr(), out.len(), values, count) })
        .map(|n| n as usize)
}

/// An opcode's name.
#[inline]
pub fn name(code: u8) -> Name {
    let mut name = Name { bytes: [0; 32], length: 0 };
    name.length = given(write_name(code, &mut name.bytes));
    name
}

/// An opcode's name, held on the stack.
#[derive(Clone, Copy, PartialEq, Eq)]
pub struct Name {
    bytes: [u8; 32],
    length: usize,
}

impl Name {
    pub fn as_bytes(&self) -> &[u8] {
        &self.bytes[..self.length]
    }

    pub fn as_str(&self) -> &str {
        core::str::from_utf8(self.as_bytes()).expect("names are ASCII")
    }
}

impl fmt::Display for Name {
    fn fmt(&self, f: &mut fmt::Formatter) -> fmt::Result {
        f.pad(self.as_str())
    }
}

impl fmt::Debug for Name {
    fn fmt(&self, f: &mut fmt::Formatter) -> fmt::Result {
        f.write_str(self.as_str())
    }
}

#[inline]
pub(crate) fn perhaps([there, value]: [u64; 2]) -> Option<u8> {
    truth(there).then(|| byte(value))
}
