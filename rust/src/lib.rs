//! Questions about Bitcoin scripts, every answer proved.
//!
//! The functions stand in a static library that is proved before it is built; this package only declares them and gives them
//! the names of crate bitcoin, where it has one. What that crate answers with a panic, a wrapped number or an answer that Bitcoin
//! Core does not give is a [`Refusal`] or Core's answer here, so results are `Result<T, Refusal>`.
//!
//! Nothing here uses the heap, except what hands back or fills a `String`.

#![no_std]

extern crate alloc;
#[cfg(test)]
extern crate std;

#[cfg(not(target_arch = "x86_64"))]
compile_error!("the static library is made for x86-64");

mod builder;
#[cfg(test)]
mod convention;
#[cfg(not(feature = "raw"))]
mod ffi;
#[cfg(feature = "raw")]
pub mod ffi;
mod numbers;
pub mod opcodes;
mod refusal;
mod script;
mod walk;

pub use builder::Builder;
pub use numbers::{read_scriptbool, read_scriptint, read_scriptint_non_minimal, scriptint_len, write_scriptint};
pub use refusal::{Refusal, Value};
pub use script::{witness_program, Kind, Script, MAX_SCRIPT_LEN};
pub use walk::{Cursor, Form, Found, Instruction, InstructionIndices, Instructions, Mode};

use refusal::unknown;

/// What a call answers that puts `N` values at the front of what it is lent.
#[inline]
fn values<const N: usize>(call: impl FnOnce(*mut u64, usize) -> u32) -> Result<[u64; N], Refusal> {
    let mut values = [0; N];
    match call(values.as_mut_ptr(), N) {
        0 => Ok(values),
        number => Err(Refusal::given(number, &values)),
    }
}

/// One value: a count, a length or an amount.
#[inline]
fn value(call: impl FnOnce(*mut u64, usize) -> u32) -> Result<u64, Refusal> {
    values::<1>(call).map(|[value]| value)
}

/// Yes or no.
#[inline]
fn judged(call: impl FnOnce(*mut u64, usize) -> u32) -> Result<bool, Refusal> {
    value(call).map(truth)
}

#[inline]
fn truth(value: u64) -> bool {
    match value {
        0 => false,
        1 => true,
        other => unknown("a yes or no", other),
    }
}

/// The answer of a call that nothing can refuse.
#[inline]
fn given<T>(answer: Result<T, Refusal>) -> T {
    match answer {
        Ok(answer) => answer,
        Err(refusal) => unknown("an answer, and no refusal", refusal.number().into()),
    }
}

/// The part of some bytes that an answer names.
#[inline]
fn part(bytes: &[u8], place: u64, length: u64) -> &[u8] {
    let (place, length) = (place as usize, length as usize);
    match bytes.get(place..place.wrapping_add(length)) {
        Some(part) => part,
        None => unknown("a part of the bytes that were lent", place as u64),
    }
}

/// A number that fits a byte: an opcode or a witness version.
#[inline]
fn byte(value: u64) -> u8 {
    match u8::try_from(value) {
        Ok(byte) => byte,
        Err(_) => unknown("a byte", value),
    }
}
