//! The walk: a script, one instruction at a time.

use core::iter::FusedIterator;

use crate::refusal::unknown;
use crate::{byte, ffi, part, Refusal, Script};

/// How a walk judges pushes.
#[derive(Clone, Copy, Debug, PartialEq, Eq, Hash)]
#[repr(u32)]
pub enum Mode {
    /// Every whole push is taken.
    Plain = ffi::PLAIN,
    /// A push that has a shorter form is refused.
    Minimal = ffi::MINIMAL,
}

/// How a push states its length.
#[derive(Clone, Copy, Debug, PartialEq, Eq, Hash)]
pub enum Form {
    /// The opcode byte is the length, 0 to 75.
    Direct,
    PushData1,
    PushData2,
    PushData4,
}

impl Form {
    /// The number of length bytes after the opcode byte.
    #[inline]
    pub const fn length_bytes(self) -> usize {
        match self {
            Form::Direct => 0,
            Form::PushData1 => 1,
            Form::PushData2 => 2,
            Form::PushData4 => 4,
        }
    }

    #[inline]
    pub(crate) fn of(length_bytes: u64) -> Form {
        match length_bytes {
            0 => Form::Direct,
            1 => Form::PushData1,
            2 => Form::PushData2,
            4 => Form::PushData4,
            other => unknown("a number of length bytes", other),
        }
    }
}

/// A position in a script.
#[derive(Clone, Copy, Debug, Default, PartialEq, Eq, Hash)]
pub struct Cursor {
    pub at: usize,
}

/// What stands at a position: more than an [`Instruction`] tells.
#[derive(Clone, Copy, Debug, PartialEq, Eq, Hash)]
pub enum Found<'a> {
    End,
    Opcode { place: usize, code: u8 },
    Push { place: usize, form: Form, body_place: usize, body: &'a [u8] },
}

impl Cursor {
    /// The position at a script's front.
    #[inline]
    pub fn new() -> Cursor {
        let at = crate::value(|values, count| unsafe { ffi::bb_cursor_new(values, count) });
        Cursor { at: crate::given(at) as usize }
    }

    /// What stands here, and the position after it. After a refused push that is the script's end; after any other refusal it is the
    /// same position.
    #[inline]
    pub fn next(self, script: &Script, mode: Mode) -> (Cursor, Result<Found<'_>, Refusal>) {
        let mut values = [self.at as u64, 0, 0, 0, 0, 0];
        let refused = step(script.as_bytes(), self.at, mode, &mut values);
        let [at, about @ ..] = values;
        (Cursor { at: at as usize }, found(script.as_bytes(), refused, about))
    }

    /// As [`Cursor::next`], with the position moved in place.
    #[inline]
    pub fn advance<'a>(&mut self, script: &'a Script, mode: Mode) -> Result<Found<'a>, Refusal> {
        let bytes = script.as_bytes();
        let mut at = self.at as u64;
        let mut values = [0; 6];
        let refused = unsafe {
            ffi::bb_advance(&mut at, 1, bytes.as_ptr(), bytes.len(), mode as u32, values.as_mut_ptr(), values.len())
        };
        self.at = at as usize;
        let [_, about @ ..] = values;
        found(bytes, refused, about)
    }

    /// The body of the push that stands here; empty where [`Cursor::next`] gives no push.
    #[inline]
    pub fn body(self, script: &Script, mode: Mode) -> &[u8] {
        let bytes = script.as_bytes();
        let [place, length] = crate::given(crate::values(|values, count| unsafe {
            ffi::bb_body(bytes.as_ptr(), bytes.len(), self.at, mode as u32, values, count)
        }));
        part(bytes, place, length)
    }
}

#[inline]
fn step(bytes: &[u8], at: usize, mode: Mode, values: &mut [u64; 6]) -> u32 {
    unsafe { ffi::bb_next(bytes.as_ptr(), bytes.len(), at, mode as u32, values.as_mut_ptr(), values.len()) }
}

#[inline]
fn found(bytes: &[u8], refused: u32, [sort, place, value, body, length]: [u64; 5]) -> Result<Found<'_>, Refusal> {
    if refused != 0 {
        return Err(Refusal::given(refused, &[sort, place]));
    }
    Ok(match sort {
        ffi::END => Found::End,
        ffi::OPCODE => Found::Opcode { place: place as usize, code: byte(value) },
        ffi::PUSH => Found::Push {
            place: place as usize,
            form: Form::of(value),
            body_place: body as usize,
            body: part(bytes, body, length),
        },
        other => unknown("what a walk finds", other),
    })
}

/// An instruction, as crate bitcoin shows it: a push's form is left out.
#[derive(Clone, Copy, Debug, PartialEq, Eq, Hash)]
pub enum Instruction<'a> {
    PushBytes(&'a [u8]),
    Op(u8),
}

impl<'a> Instruction<'a> {
    #[inline]
    pub fn opcode(&self) -> Option<u8> {
        match self {
            Instruction::Op(code) => Some(*code),
            Instruction::PushBytes(_) => None,
        }
    }

    #[inline]
    pub fn push_bytes(&self) -> Option<&'a [u8]> {
        match self {
            Instruction::PushBytes(body) => Some(body),
            Instruction::Op(_) => None,
        }
    }
}

/// The instructions of a script. A refusal is the last item.
#[derive(Clone, Debug)]
pub struct Instructions<'a>(InstructionIndices<'a>);

/// The instructions of a script with their places. A refusal is the last item.
#[derive(Clone, Debug)]
pub struct InstructionIndices<'a> {
    script: &'a [u8],
    mode: Mode,
    /// What the last step answered; the position for the next one stands in front.
    values: [u64; 6],
    over: bool,
}

impl<'a> InstructionIndices<'a> {
    #[inline]
    fn new(script: &'a Script, mode: Mode) -> Self {
        InstructionIndices { script: script.as_bytes(), mode, values: [0; 6], over: false }
    }

    /// What has not been walked yet.
    #[inline]
    pub fn as_script(&self) -> &'a Script {
        let at = if self.over { self.script.len() } else { self.values[0] as usize };
        Script::from_bytes(&self.script[at..])
    }
}

impl<'a> Iterator for InstructionIndices<'a> {
    type Item = Result<(usize, Instruction<'a>), Refusal>;

    #[inline]
    fn next(&mut self) -> Option<Self::Item> {
        if self.over {
            return None;
        }
        let refused = step(self.script, self.values[0] as usize, self.mode, &mut self.values);
        // Each value is read where it is used: the library has just written it, and a copy of them all would wait for that.
        let values = &self.values;
        if refused != 0 {
            self.over = true;
            return Some(Err(Refusal::given(refused, &values[1..3])));
        }
        // At the script's end the answer is End: it need not be asked for.
        self.over = values[0] as usize == self.script.len();
        match values[1] {
            ffi::OPCODE => Some(Ok((values[2] as usize, Instruction::Op(byte(values[3]))))),
            ffi::PUSH => {
                Some(Ok((values[2] as usize, Instruction::PushBytes(part(self.script, values[4], values[5])))))
            }
            ffi::END => None,
            other => unknown("what a walk finds", other),
        }
    }
}

impl<'a> Instructions<'a> {
    /// What has not been walked yet.
    #[inline]
    pub fn as_script(&self) -> &'a Script {
        self.0.as_script()
    }
}

impl<'a> Iterator for Instructions<'a> {
    type Item = Result<Instruction<'a>, Refusal>;

    #[inline]
    fn next(&mut self) -> Option<Self::Item> {
        self.0.next().map(|found| found.map(|(_, instruction)| instruction))
    }
}

impl FusedIterator for InstructionIndices<'_> {}
impl FusedIterator for Instructions<'_> {}

impl Script {
    /// The instructions, every whole push taken.
    #[inline]
    pub fn instructions(&self) -> Instructions<'_> {
        Instructions(self.instruction_indices())
    }

    /// The instructions; a push that has a shorter form is refused.
    #[inline]
    pub fn instructions_minimal(&self) -> Instructions<'_> {
        Instructions(self.instruction_indices_minimal())
    }

    /// As [`Script::instructions`], with places.
    #[inline]
    pub fn instruction_indices(&self) -> InstructionIndices<'_> {
        InstructionIndices::new(self, Mode::Plain)
    }

    /// As [`Script::instructions_minimal`], with places.
    #[inline]
    pub fn instruction_indices_minimal(&self) -> InstructionIndices<'_> {
        InstructionIndices::new(self, Mode::Minimal)
    }

    /// Every instruction's place, written into a table in one call; how many there are. Refused: as the walk, and then a table that is too
    /// short, which is left as it was.
    #[inline]
    pub fn positions(&self, mode: Mode, table: &mut [u32]) -> Result<usize, Refusal> {
        let bytes = self.as_bytes();
        crate::values(|values, count| unsafe {
            ffi::bb_positions(bytes.as_ptr(), bytes.len(), mode as u32, table.as_mut_ptr(), table.len(), values, count)
        })
        .map(|[n, _]| n as usize)
    }
}
