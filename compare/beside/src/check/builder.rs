//! Builders: runs of calls beside the crate's, and single calls in any state.

use brinebutton as bb;
use brinebutton::ffi;
use compare::answers::{Built, Call, Outcome};
use compare::crate_side::{self, outcome};
use compare::paper;

use super::{Listed, Run, LIMIT};
use crate::entries::Entry;
use crate::inputs::{Session, State};
use crate::our_side::{byte_pattern, Said, Via};

impl Run {
    /// A builder that takes over the script or a part of it; and lengths that do not fit.
    pub(super) fn start(&mut self, bytes: &[u8]) {
        let mut lengths = vec![bytes.len(), bytes.len() + 1];
        if !self.brief {
            lengths.extend([bytes.len() / 2, bytes.len().saturating_sub(1), 0, LIMIT + 1, usize::MAX]);
        }
        for length in lengths {
            let want = if length > LIMIT {
                Said::new(1, &[length as u64, 256])
            } else if length > bytes.len() {
                Said::new(13, &[length as u64, 256])
            } else {
                let built = crate_side::built(&bitcoin::script::Builder::from(bytes[..length].to_vec()));
                Said::yes(&[length as u64, remembered(built.remembered)])
            };
            self.ours.ask_buffer((Entry::BuilderStart, Via::Raw, 3), bytes, want, bytes, |buffer, v| unsafe {
                ffi::bb_builder_start(buffer.as_ptr(), buffer.len(), length, v.as_mut_ptr(), v.len())
            });
            self.ours.ask_buffer((Entry::BuilderStart, Via::Safe, 3), bytes, want, bytes, |buffer, v| {
                match bb::Builder::start(buffer, length) {
                    Ok(builder) => state_of(&builder),
                    Err(refusal) => Said::new(refusal.number(), &[length as u64, 256]),
                }
                .put(v)
            });
        }
    }

    /// A run of builder calls over one buffer, beside a builder of the crate that has the same bytes and remembers the same.
    pub(super) fn session(&mut self, session: &Session) {
        let Session { room, start, calls } = session;
        let mut buffer: Vec<u8> = (0..*room).map(byte_pattern).collect();
        if start.len() > *room {
            return;
        }
        buffer[..start.len()].copy_from_slice(start);
        let mut crates = bitcoin::script::Builder::from(start.clone());
        let mut safe_buffer = buffer.clone();
        for call in calls {
            let before = crate_side::built(&crates);
            let copy = crates.clone();
            let after = outcome(|| crate_side::push(copy, call));
            let (want, state) = match &after {
                Outcome::Panicked => {
                    if *call == Call::Int(i64::MIN) {
                        self.listed(Listed::Smallest);
                    }
                    (Err((6, None)), before.clone())
                }
                Outcome::Answer(builder) if builder.len() > LIMIT => {
                    self.listed(Listed::Limit);
                    (Err((1, None)), before.clone())
                }
                Outcome::Answer(builder) if builder.len() > *room => (Err((7, Some(builder.len()))), before.clone()),
                Outcome::Answer(builder) => (Ok(()), crate_side::built(builder)),
            };
            let mut next_buffer = buffer.clone();
            next_buffer[..state.bytes.len()].copy_from_slice(&state.bytes);
            let said = builder_said(want, &state);
            let (length, opcode) = (before.bytes.len(), remembered(before.remembered) as u32);
            self.ours.ask_buffer((entry_of(call), Via::Raw, 3), &buffer, said, &next_buffer, |buffer, v| {
                raw_call(length, opcode, buffer, call, v)
            });
            // The safe builder is brought to the same state by the calls before.
            self.safe_call(&mut safe_buffer, &before, call, said, &next_buffer);
            if let (Ok(()), Outcome::Answer(builder)) = (want, after) {
                crates = builder;
            }
            buffer = next_buffer;
            safe_buffer.clone_from(&buffer);
            self.as_bytes(&buffer, state.bytes.len(), remembered(state.remembered) as u32);
        }
    }

    /// A call through package brinebutton, if its builder can be brought to this state by a start and, for an opcode that a walk would take
    /// for a push's body, by pushing it.
    fn safe_call(&mut self, buffer: &mut [u8], before: &Built, call: &Call, said: Said, after: &[u8]) {
        let length = before.bytes.len();
        let reached = |buffer: &mut [u8]| -> Option<bool> {
            let builder = bb::Builder::start(buffer, length).ok()?;
            if builder.remembered() == before.remembered {
                return Some(false);
            }
            let last = before.remembered?;
            let mut builder = bb::Builder::start(buffer, length - 1).ok()?;
            builder.push_opcode(last).ok()?;
            (builder.len() == length && builder.remembered() == Some(last)).then_some(true)
        };
        let mut copy = buffer.to_vec();
        let Some(by_push) = reached(&mut copy) else { return };
        self.ours.ask_buffer((entry_of(call), Via::Safe, 3), buffer, said, after, |buffer, v| {
            let mut builder = match by_push {
                false => bb::Builder::start(buffer, length).unwrap(),
                true => {
                    let mut builder = bb::Builder::start(buffer, length - 1).unwrap();
                    builder.push_opcode(before.remembered.unwrap()).unwrap();
                    builder
                }
            };
            let called = match call {
                Call::Opcode(code) => builder.push_opcode(*code),
                Call::Int(n) => builder.push_int(*n),
                Call::Slice(body) => builder.push_slice(body),
                Call::Verify => builder.push_verify(),
                Call::LockTime(n) => builder.push_lock_time(*n),
                Call::Sequence(n) => builder.push_sequence(*n),
            };
            let refused = called.err();
            let state = state_of(&builder);
            match refused {
                None => state.put(v),
                Some(refusal) => {
                    let [length, remembered] = [state.values()[0], state.values()[1]];
                    Said::refusal(refusal).after(remembered).after(length).put(v)
                }
            }
        });
    }

    /// `bb_builder_as_bytes` of a state that may be bad.
    fn as_bytes(&mut self, buffer: &[u8], length: usize, opcode: u32) {
        let used = if state_refused(buffer, length, opcode).is_some() { 0 } else { length as u64 };
        self.ours.ask_buffer((Entry::AsBytes, Via::Raw, 1), buffer, Said::yes(&[used]), buffer, |buffer, v| unsafe {
            ffi::bb_builder_as_bytes(length, opcode, buffer.as_ptr(), buffer.len(), v.as_mut_ptr(), v.len())
        });
        if length <= buffer.len() && length <= LIMIT {
            let want = Said::yes(&[length as u64, 1]);
            self.ours.ask_buffer((Entry::AsBytes, Via::Safe, 2), buffer, want, buffer, |lent, v| {
                let builder = bb::Builder::start(lent, length).unwrap();
                let used = builder.as_bytes();
                Said::yes(&[used.len() as u64, (*used == buffer[..length]).into()]).put(v)
            });
        }
    }

    /// One builder call in any state, bad ones too: document 01 written a second time says what is answered.
    pub(super) fn state(&mut self, state: &State) {
        let State { buffer, length, remembered: opcode, call } = state;
        let (length, opcode) = (*length, *opcode);
        self.as_bytes(buffer, length, opcode);
        let got = Said::yes(&[length as u64, opcode.min(256).into()]);
        let (said, after) = match state_refused(buffer, length, opcode) {
            Some(number) => (Said::new(number, got.values()), buffer.clone()),
            None => {
                let before = Built { bytes: buffer[..length].to_vec(), remembered: u8::try_from(opcode).ok() };
                let (want, built) = match paper::pushed(before.clone(), call) {
                    None => (Err((6, None)), before),
                    Some(built) if built.bytes.len() > LIMIT => (Err((1, None)), before),
                    Some(built) if built.bytes.len() > buffer.len() => (Err((7, Some(built.bytes.len()))), before),
                    Some(built) => (Ok(()), built),
                };
                let mut after = buffer.clone();
                after[..built.bytes.len()].copy_from_slice(&built.bytes);
                (builder_said(want, &built), after)
            }
        };
        self.ours.ask_buffer((entry_of(call), Via::Raw, 3), buffer, said, &after, |buffer, v| {
            raw_call(length, opcode, buffer, call, v)
        });
    }
}

/// Why a builder's state is refused: 1, then 13.
fn state_refused(buffer: &[u8], length: usize, opcode: u32) -> Option<u32> {
    let remembers = u8::try_from(opcode).ok();
    if length > LIMIT {
        Some(1)
    } else if length > buffer.len() || remembers.is_some_and(|code| buffer[..length].last() != Some(&code)) {
        Some(13)
    } else {
        None
    }
}

/// A builder's answer: the state, and after refusal 7 what is needed.
fn builder_said(want: Result<(), (u32, Option<usize>)>, state: &Built) -> Said {
    let (length, opcode) = (state.bytes.len() as u64, remembered(state.remembered));
    match want {
        Ok(()) => Said::yes(&[length, opcode]),
        Err((number, None)) => Said::new(number, &[length, opcode]),
        Err((number, Some(needed))) => Said::new(number, &[length, opcode, needed as u64]),
    }
}

fn remembered(opcode: Option<u8>) -> u64 {
    opcode.map_or(256, u64::from)
}

pub(super) fn state_of(builder: &bb::Builder) -> Said {
    Said::yes(&[builder.len() as u64, remembered(builder.remembered())])
}

fn entry_of(call: &Call) -> Entry {
    match call {
        Call::Opcode(_) => Entry::PushOpcode,
        Call::Int(_) => Entry::PushInt,
        Call::Slice(_) => Entry::PushSlice,
        Call::Verify => Entry::PushVerify,
        Call::LockTime(_) => Entry::PushLockTime,
        Call::Sequence(_) => Entry::PushSequence,
    }
}

fn raw_call(length: usize, opcode: u32, buffer: &mut [u8], call: &Call, values: &mut [u64]) -> u32 {
    let (b, room) = (buffer.as_mut_ptr(), buffer.len());
    let (v, count) = (values.as_mut_ptr(), values.len());
    unsafe {
        match call {
            Call::Opcode(code) => ffi::bb_builder_push_opcode(length, opcode, b, room, *code, v, count),
            Call::Int(n) => ffi::bb_builder_push_int(length, opcode, b, room, *n, v, count),
            Call::Slice(body) => {
                ffi::bb_builder_push_slice(length, opcode, b, room, body.as_ptr(), body.len(), v, count)
            }
            Call::Verify => ffi::bb_builder_push_verify(length, opcode, b, room, v, count),
            Call::LockTime(n) => ffi::bb_builder_push_lock_time(length, opcode, b, room, *n, v, count),
            Call::Sequence(n) => ffi::bb_builder_push_sequence(length, opcode, b, room, *n, v, count),
        }
    }
}
