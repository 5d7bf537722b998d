//! A script that is built at the front of a lent buffer.

use crate::refusal::unknown;
use crate::{ffi, given, value, values, Refusal, Script};

/// A script at the front of a buffer, and the opcode of the last call, which [`Builder::push_verify`] may replace.
///
/// A call that is refused changes neither, so that the builder can be used on.
#[derive(Debug)]
pub struct Builder<'a> {
    buffer: &'a mut [u8],
    length: usize,
    remembered: u32,
}

impl<'a> Builder<'a> {
    /// An empty script at the front of a buffer.
    #[inline]
    pub fn new(buffer: &'a mut [u8]) -> Self {
        let [length, remembered] = given(values(|values, count| unsafe { ffi::bb_builder_new(values, count) }));
        Builder { buffer, length: length as usize, remembered: remembered as u32 }
    }

    /// Takes over the buffer's first `length` bytes as a start.
    #[inline]
    pub fn start(buffer: &'a mut [u8], length: usize) -> Result<Self, Refusal> {
        let mut builder = Builder { buffer, length, remembered: ffi::NOTHING };
        builder.call(|_, _, buffer, room, values, count| unsafe {
            ffi::bb_builder_start(buffer, room, length, values, count)
        })?;
        Ok(builder)
    }

    /// Appends an opcode byte.
    #[inline]
    pub fn push_opcode(&mut self, code: u8) -> Result<&mut Self, Refusal> {
        self.call(|length, remembered, buffer, room, values, count| unsafe {
            ffi::bb_builder_push_opcode(length, remembered, buffer, room, code, values, count)
        })
    }

    /// Appends a push of these bytes in the shortest length form.
    #[inline]
    pub fn push_slice(&mut self, body: &[u8]) -> Result<&mut Self, Refusal> {
        self.call(|length, remembered, buffer, room, values, count| unsafe {
            ffi::bb_builder_push_slice(length, remembered, buffer, room, body.as_ptr(), body.len(), values, count)
        })
    }

    /// Appends a number: its opcode for -1 to 16, else a push.
    #[inline]
    pub fn push_int(&mut self, n: i64) -> Result<&mut Self, Refusal> {
        self.call(|length, remembered, buffer, room, values, count| unsafe {
            ffi::bb_builder_push_int(length, remembered, buffer, room, n, values, count)
        })
    }

    /// Appends an absolute lock time as a number.
    #[inline]
    pub fn push_lock_time(&mut self, lock_time: u32) -> Result<&mut Self, Refusal> {
        self.call(|length, remembered, buffer, room, values, count| unsafe {
            ffi::bb_builder_push_lock_time(length, remembered, buffer, room, lock_time, values, count)
        })
    }

    /// Appends a sequence number as a number.
    #[inline]
    pub fn push_sequence(&mut self, sequence: u32) -> Result<&mut Self, Refusal> {
        self.call(|length, remembered, buffer, room, values, count| unsafe {
            ffi::bb_builder_push_sequence(length, remembered, buffer, room, sequence, values, count)
        })
    }

    /// Puts the remembered opcode's verify form in its place, or appends OP_VERIFY.
    #[inline]
    pub fn push_verify(&mut self) -> Result<&mut Self, Refusal> {
        self.call(|length, remembered, buffer, room, values, count| unsafe {
            ffi::bb_builder_push_verify(length, remembered, buffer, room, values, count)
        })
    }

    /// The script's bytes.
    #[inline]
    pub fn as_bytes(&self) -> &[u8] {
        let (length, remembered) = (self.length, self.remembered);
        let used = given(value(|values, count| unsafe {
            ffi::bb_builder_as_bytes(length, remembered, self.buffer.as_ptr(), self.buffer.len(), values, count)
        }));
        match self.buffer.get(..used as usize) {
            Some(used) => used,
            None => unknown("a length within the buffer", used),
        }
    }

    /// The script.
    #[inline]
    pub fn as_script(&self) -> &Script {
        Script::from_bytes(self.as_bytes())
    }

    /// How many bytes are used.
    #[inline]
    pub fn len(&self) -> usize {
        self.length
    }

    #[inline]
    pub fn is_empty(&self) -> bool {
        self.length == 0
    }

    /// The opcode of the last call, if that was no data push.
    #[inline]
    pub fn remembered(&self) -> Option<u8> {
        u8::try_from(self.remembered).ok()
    }

    /// The state goes in and comes back with the answer; a refused call hands back what it got.
    #[inline]
    fn call(
        &mut self,
        call: impl FnOnce(usize, u32, *mut u8, usize, *mut u64, usize) -> u32,
    ) -> Result<&mut Self, Refusal> {
        let mut state = [self.length as u64, self.remembered.into(), 0];
        let room = self.buffer.len();
        let refused = call(self.length, self.remembered, self.buffer.as_mut_ptr(), room, state.as_mut_ptr(), 3);
        if refused != 0 {
            return Err(Refusal::given(refused, &state[2..]));
        }
        self.length = state[0] as usize;
        self.remembered = state[1] as u32;
        Ok(self)
    }
}
