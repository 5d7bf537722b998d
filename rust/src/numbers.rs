//! Script numbers and truth values.

use crate::{ffi, judged, value, Refusal};

/// How many bytes [`write_scriptint`] needs. Refused: -2^63.
#[inline]
pub fn scriptint_len(n: i64) -> Result<usize, Refusal> {
    value(|values, count| unsafe { ffi::bb_scriptint_len(n, values, count) }).map(|n| n as usize)
}

/// Writes a number in the fewest bytes and says how many. Refused: -2^63, and an output that is too short.
#[inline]
pub fn write_scriptint(out: &mut [u8], n: i64) -> Result<usize, Refusal> {
    value(|values, count| unsafe { ffi::bb_write_scriptint(n, out.as_mut_ptr(), out.len(), values, count) })
        .map(|n| n as usize)
}

/// Reads a number of up to 4 bytes in the writer's form.
#[inline]
pub fn read_scriptint(v: &[u8]) -> Result<i64, Refusal> {
    number(|number| unsafe { ffi::bb_read_scriptint(v.as_ptr(), v.len(), number, 1) })
}

/// Reads any 0 to 4 bytes as a number.
#[inline]
pub fn read_scriptint_non_minimal(v: &[u8]) -> Result<i64, Refusal> {
    number(|number| unsafe { ffi::bb_read_scriptint_non_minimal(v.as_ptr(), v.len(), number, 1) })
}

/// False for all-zero bytes, with or without 0x80 in the last. Refused: more than 4,194,304 bytes.
#[inline]
pub fn read_scriptbool(v: &[u8]) -> Result<bool, Refusal> {
    judged(|values, count| unsafe { ffi::bb_read_scriptbool(v.as_ptr(), v.len(), values, count) })
}

#[inline]
fn number(call: impl FnOnce(*mut i64) -> u32) -> Result<i64, Refusal> {
    let mut number = 0;
    match call(&mut number) {
        0 => Ok(number),
        refused => Err(Refusal::given(refused, &[])),
    }
}
