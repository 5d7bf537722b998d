//! The refusals of document 01, as document 02 amends them.

use core::fmt;

use crate::ffi;

/// Why there is no answer. A refused call leaves every slice that it was lent as it was, and a builder too. A cursor that is moved in place
/// ([`Cursor::advance`](crate::Cursor::advance)) stands at the script's end after a refused push.
///
/// Number 3 is retired: [`LengthCut`](Refusal::LengthCut) and [`BodyCut`](Refusal::BodyCut) are in its place.
#[derive(Clone, Copy, Debug, PartialEq, Eq, Hash)]
pub enum Refusal {
    /// 1: a script, a builder's used length, `read_scriptbool`'s bytes or a built script exceeds 4,194,304 bytes.
    TooLong,
    /// 2: minimal mode, a push that has a shorter form; the place where it starts.
    NonMinimal(usize),
    /// 4: a number to be read has over 4 bytes.
    NumberTooLong,
    /// 5: strict reader, not the writer's form.
    NumberNotMinimal,
    /// 6: writing -2^63.
    NumberOutOfRange,
    /// 7: the lent output is shorter than this many bytes or entries.
    NoRoom(usize),
    /// 8: a position above the script's length.
    BadCursor,
    /// 9: the rate times 4, or the rate then used times the size, exceeds 2^64 - 1.
    FeeTooLarge,
    /// 10: a witness program outside 2 to 40 bytes.
    ProgramLength,
    /// 11: version 0 and neither 20 nor 32 bytes.
    ProgramLengthV0,
    /// 12: a version above 16.
    BadVersion,
    /// 13: a builder's length above the buffer's, or what it remembers is not the last used byte.
    BadBuilder,
    /// 14: a push's length bytes are cut; the place where it starts, and how many of them are missing.
    LengthCut(usize, usize),
    /// 15: a push's body is cut; the place where the push starts, and how many bytes of the body are missing.
    BodyCut(usize, usize),
}

/// What stands beside a refusal's number.
#[derive(Clone, Copy, Debug, PartialEq, Eq, Hash)]
pub enum Value {
    /// A place (2), or what is needed (7).
    Is(usize),
    /// A place, and how many bytes are missing (14 and 15).
    Both(usize, usize),
    /// Nothing: all others.
    Nothing,
}

impl Refusal {
    /// The refusal's number.
    pub const fn number(self) -> u32 {
        match self {
            Refusal::TooLong => 1,
            Refusal::NonMinimal(_) => 2,
            Refusal::NumberTooLong => 4,
            Refusal::NumberNotMinimal => 5,
            Refusal::NumberOutOfRange => 6,
            Refusal::NoRoom(_) => 7,
            Refusal::BadCursor => 8,
            Refusal::FeeTooLarge => 9,
            Refusal::ProgramLength => 10,
            Refusal::ProgramLengthV0 => 11,
            Refusal::BadVersion => 12,
            Refusal::BadBuilder => 13,
            Refusal::LengthCut(..) => 14,
            Refusal::BodyCut(..) => 15,
        }
    }

    /// What stands beside the number: a place, what is needed, a place and what is missing, or nothing.
    pub const fn value(self) -> Value {
        match self {
            Refusal::NonMinimal(value) | Refusal::NoRoom(value) => Value::Is(value),
            Refusal::LengthCut(place, missing) | Refusal::BodyCut(place, missing) => Value::Both(place, missing),
            _ => Value::Nothing,
        }
    }

    /// What the library's number says, and the values where a function puts a refusal's.
    #[cold]
    pub(crate) fn given(number: u32, values: &[u64]) -> Refusal {
        let value = |i: usize| match values.get(i) {
            Some(value) => *value as usize,
            None => unknown("a refusal that this function has", number.into()),
        };
        match number {
            1 => Refusal::TooLong,
            2 => Refusal::NonMinimal(value(0)),
            4 => Refusal::NumberTooLong,
            5 => Refusal::NumberNotMinimal,
            6 => Refusal::NumberOutOfRange,
            7 => Refusal::NoRoom(value(0)),
            8 => Refusal::BadCursor,
            9 => Refusal::FeeTooLarge,
            10 => Refusal::ProgramLength,
            11 => Refusal::ProgramLengthV0,
            12 => Refusal::BadVersion,
            13 => Refusal::BadBuilder,
            14 => Refusal::LengthCut(value(0), value(1)),
            15 => Refusal::BodyCut(value(0), value(1)),
            ffi::SHORT_VALUES => too_few(),
            other => unknown("a refusal's number", other.into()),
        }
    }
}

/// The library says that it was lent too few values. That is no refusal. This package lends as many as the header asks for, so none of its
/// callers can bring it about.
#[cold]
#[inline(never)]
fn too_few() -> ! {
    panic!("libboundary.a was lent fewer values than it asks for: is it the library that this package was written for?")
}

/// A number that the library's contracts shut out. It ends here: passed on, it would look like an answer.
#[cold]
#[inline(never)]
pub(crate) fn unknown(expected: &str, got: u64) -> ! {
    panic!("libboundary.a gave {got}, which is not {expected}: is it the library that this package was written for?")
}

impl fmt::Display for Refusal {
    fn fmt(&self, f: &mut fmt::Formatter) -> fmt::Result {
        match self {
            Refusal::TooLong => f.write_str("more than 4,194,304 bytes"),
            Refusal::NonMinimal(place) => write!(f, "the push at {place} has a shorter form"),
            Refusal::NumberTooLong => f.write_str("a number of more than 4 bytes"),
            Refusal::NumberNotMinimal => f.write_str("a number that is not in its shortest form"),
            Refusal::NumberOutOfRange => f.write_str("-2^63 cannot be written"),
            Refusal::NoRoom(needed) => write!(f, "no room: {needed} are needed"),
            Refusal::BadCursor => f.write_str("a position above the script's length"),
            Refusal::FeeTooLarge => f.write_str("the fee exceeds 64 bits"),
            Refusal::ProgramLength => f.write_str("a witness program outside 2 to 40 bytes"),
            Refusal::ProgramLengthV0 => f.write_str("a witness program of version 0 with neither 20 nor 32 bytes"),
            Refusal::BadVersion => f.write_str("a witness version above 16"),
            Refusal::BadBuilder => f.write_str("a builder that does not fit its buffer"),
            Refusal::LengthCut(place, missing) => {
                write!(f, "the length of the push at {place} is cut, missing bytes: {missing}")
            }
            Refusal::BodyCut(place, missing) => {
                write!(f, "the body of the push at {place} is cut, missing bytes: {missing}")
            }
        }
    }
}

impl core::error::Error for Refusal {}
