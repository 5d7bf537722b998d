//! A walk of the crate, step by step, with what its iterators leave out: places of refusals and forms.

use bitcoin::script::Instruction;
use bitcoin::Script;
use compare::answers::{Mode, Refusal};
use compare::crate_side;

use crate::our_side::Said;

/// What stands at a place, as the crate tells it.
#[derive(Clone, Copy, Debug, PartialEq, Eq)]
pub(super) enum Place {
    End,
    Opcode { place: usize, code: u8 },
    Push { place: usize, form: u64, body_place: usize, body_len: usize },
    Refused(Refusal),
}

impl Place {
    /// As the values of `bb_advance`.
    pub(super) fn said(self) -> Said {
        match self {
            Place::End => Said::yes(&[0]),
            Place::Opcode { place, code } => Said::yes(&[1, place as u64, code.into()]),
            Place::Push { place, form, body_place, body_len } => {
                Said::yes(&[2, place as u64, form, body_place as u64, body_len as u64])
            }
            Place::Refused(refusal) => walk_refused(refusal),
        }
    }

    /// Where the push's body lies; the empty part at the front for all else.
    pub(super) fn body(self) -> [u64; 2] {
        match self {
            Place::Push { body_place, body_len, .. } => [body_place as u64, body_len as u64],
            _ => [0, 0],
        }
    }
}

pub(super) fn walk_refused(refusal: Refusal) -> Said {
    Said::new(refusal.number(), &refusal.values())
}

/// A walk of the crate: its instructions from some place on.
pub(super) struct CrateWalk<'a> {
    bytes: &'a [u8],
    instructions: bitcoin::script::InstructionIndices<'a>,
}

impl<'a> CrateWalk<'a> {
    pub(super) fn new(bytes: &'a [u8], at: usize, mode: Mode) -> Self {
        let script = Script::from_bytes(&bytes[at..]);
        let instructions = match mode {
            Mode::Plain => script.instruction_indices(),
            Mode::Minimal => script.instruction_indices_minimal(),
        };
        CrateWalk { bytes, instructions }
    }

    /// Where it stands.
    pub(super) fn at(&self) -> usize {
        self.bytes.len() - self.instructions.as_script().len()
    }

    /// What it finds; the form is told by the push's first byte.
    pub(super) fn step(&mut self) -> Place {
        let place = self.at();
        match self.instructions.next() {
            None => Place::End,
            Some(Err(error)) => Place::Refused(crate_side::walk_refusal(error, self.bytes, place)),
            Some(Ok((_, Instruction::Op(opcode)))) => Place::Opcode { place, code: opcode.to_u8() },
            Some(Ok((_, Instruction::PushBytes(body)))) => {
                let form = match self.bytes[place] {
                    76 => 1,
                    77 => 2,
                    78 => 4,
                    _ => 0,
                };
                Place::Push { place, form, body_place: self.at() - body.len(), body_len: body.len() }
            }
        }
    }

    /// Every step up to the end, or with the refusal as the last one.
    pub(super) fn steps(mut self, into: &mut Vec<Place>) {
        into.clear();
        loop {
            match self.step() {
                Place::End => return,
                found => into.push(found),
            }
        }
    }
}

/// A number that tells whether two walks saw the same, in the same order.
pub(super) fn folded(sum: u64, said: Said) -> u64 {
    let mut sum = sum.rotate_left(7) ^ u64::from(said.number);
    for value in said.values() {
        sum = (sum.rotate_left(5) ^ value).wrapping_mul(0x9e37_79b9_7f4a_7c15);
    }
    sum
}
