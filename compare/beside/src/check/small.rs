//! Opcodes, numbers, witness programs, and what asks about nothing.

use brinebutton as bb;
use brinebutton::ffi;
use compare::answers::Outcome;
use compare::crate_side;

use super::builder::state_of;
use super::{Listed, Run, LIMIT};
use crate::entries::Entry;
use crate::our_side::{Said, Via};

impl Run {
    pub(super) fn fronts(&mut self) {
        self.ours.ask(Entry::CursorNew, Via::Raw, 1, Said::yes(&[0]), |v| unsafe {
            ffi::bb_cursor_new(v.as_mut_ptr(), v.len())
        });
        let at = |v: &mut [u64]| Said::yes(&[bb::Cursor::new().at as u64]).put(v);
        self.ours.ask(Entry::CursorNew, Via::Safe, 1, Said::yes(&[0]), at);
        self.ours.ask(Entry::BuilderNew, Via::Raw, 2, Said::yes(&[0, 256]), |v| unsafe {
            ffi::bb_builder_new(v.as_mut_ptr(), v.len())
        });
        self.ours.ask(Entry::BuilderNew, Via::Safe, 2, Said::yes(&[0, 256]), |v| {
            let mut buffer = [0; 4];
            let builder = bb::Builder::new(&mut buffer);
            state_of(&builder).put(v)
        });
    }

    pub(super) fn opcode(&mut self, code: u8) {
        let about = crate_side::about_opcode(code);
        let sort = match (about.direct_push, code, about.number) {
            (Some(_), ..) => Said::yes(&[0, 0]),
            (_, 76, _) => Said::yes(&[0, 1]),
            (_, 77, _) => Said::yes(&[0, 2]),
            (_, 78, _) => Said::yes(&[0, 4]),
            (.., Some(_)) => Said::yes(&[1]),
            _ => Said::yes(&[2]),
        };
        self.ours
            .ask(Entry::Classify, Via::Raw, 2, sort, |v| unsafe { ffi::bb_classify(code, v.as_mut_ptr(), v.len()) });
        self.ours.ask(Entry::Classify, Via::Safe, 2, sort, |v| {
            match bb::opcodes::classify(code) {
                bb::opcodes::Sort::Push(form) => Said::yes(&[0, form.length_bytes() as u64]),
                bb::opcodes::Sort::Number => Said::yes(&[1]),
                bb::opcodes::Sort::Plain => Said::yes(&[2]),
            }
            .put(v)
        });
        let number = Said::perhaps(about.number.map(u64::from));
        self.ours.ask(Entry::DecodePushnum, Via::Raw, 2, number, |v| unsafe {
            ffi::bb_decode_pushnum(code, v.as_mut_ptr(), v.len())
        });
        self.ours.ask(Entry::DecodePushnum, Via::Safe, 2, number, |v| {
            Said::perhaps(bb::opcodes::decode_pushnum(code).map(u64::from)).put(v)
        });
        let verify = Said::perhaps(about.verify_form.map(u64::from));
        self.ours.ask(Entry::OpcodeToVerify, Via::Raw, 2, verify, |v| unsafe {
            ffi::bb_opcode_to_verify(code, v.as_mut_ptr(), v.len())
        });
        self.ours.ask(Entry::OpcodeToVerify, Via::Safe, 2, verify, |v| {
            Said::perhaps(bb::opcodes::opcode_to_verify(code).map(u64::from)).put(v)
        });
        let length = Said::yes(&[about.name.len() as u64]);
        self.ours
            .ask(Entry::NameLen, Via::Raw, 1, length, |v| unsafe { ffi::bb_name_len(code, v.as_mut_ptr(), v.len()) });
        self.ours.ask(Entry::NameLen, Via::Safe, 1, length, |v| Said::count(Ok(bb::opcodes::name_len(code))).put(v));
        self.writes(
            Entry::WriteName,
            1,
            Ok((&about.name, length)),
            |out, v| unsafe { ffi::bb_write_name(code, out.as_mut_ptr(), out.len(), v.as_mut_ptr(), v.len()) },
            |out| Said::count(bb::opcodes::write_name(code, out)),
        );
        self.ours.ask_bytes((Entry::WriteName, Via::Safe, 1), 40, length, &about.name, |out, v| {
            let name = bb::opcodes::name(code);
            out[..name.as_bytes().len()].copy_from_slice(name.as_bytes());
            Said::count(Ok(name.as_str().len())).put(v)
        });
    }

    pub(super) fn number(&mut self, n: i64) {
        let written = crate_side::write_scriptint(n);
        let want = match &written {
            Outcome::Answer(bytes) => Ok((&bytes[..], Said::yes(&[bytes.len() as u64]))),
            Outcome::Panicked => Err(Said::no(6)),
        };
        if n == i64::MIN && written == Outcome::Panicked {
            self.listed(Listed::Smallest);
        } else if want.is_err() {
            self.ours.fail(Entry::WriteScriptint, Via::Raw, || "the crate panicked".into());
        }
        let length = want.map_or_else(|refused| refused, |(_, said)| said);
        self.ours.ask(Entry::ScriptintLen, Via::Raw, 1, length, |v| unsafe {
            ffi::bb_scriptint_len(n, v.as_mut_ptr(), v.len())
        });
        self.ours.ask(Entry::ScriptintLen, Via::Safe, 1, length, |v| Said::count(bb::scriptint_len(n)).put(v));
        self.writes(
            Entry::WriteScriptint,
            1,
            want,
            |out, v| unsafe { ffi::bb_write_scriptint(n, out.as_mut_ptr(), out.len(), v.as_mut_ptr(), v.len()) },
            |out| Said::count(bb::write_scriptint(out, n)),
        );
        if let Outcome::Answer(bytes) = written {
            self.readings(&bytes);
        }
    }

    pub(super) fn readings(&mut self, bytes: &[u8]) {
        let readings = crate_side::read(bytes);
        type Reads = unsafe extern "C" fn(*const u8, usize, *mut i64, usize) -> u32;
        type SafeReads = fn(&[u8]) -> Result<i64, bb::Refusal>;
        let readers: [(Entry, _, Reads, SafeReads); 2] = [
            (Entry::ReadScriptint, readings.strict, ffi::bb_read_scriptint, bb::read_scriptint),
            (
                Entry::ReadScriptintNonMinimal,
                readings.non_minimal,
                ffi::bb_read_scriptint_non_minimal,
                bb::read_scriptint_non_minimal,
            ),
        ];
        for (entry, reading, raw, safe) in readers {
            let want = match reading {
                Ok(n) => Said::yes(&[n as u64]),
                Err(refusal) => Said::no(refusal.number()),
            };
            self.ours.ask(entry, Via::Raw, 1, want, |v| unsafe {
                raw(bytes.as_ptr(), bytes.len(), v.as_mut_ptr().cast(), v.len())
            });
            self.ours.ask(entry, Via::Safe, 1, want, |v| Said::of(safe(bytes), |n| Said::yes(&[n as u64])).put(v));
        }
        let truth = if bytes.len() > LIMIT { Said::no(1) } else { Said::yes(&[readings.truth.into()]) };
        if bytes.len() > LIMIT {
            self.listed(Listed::Limit);
        }
        self.asks(Entry::ReadScriptbool, 1, bytes, truth, ffi::bb_read_scriptbool, || {
            Said::judged(bb::read_scriptbool(bytes))
        });
    }

    pub(super) fn program(&mut self, version: u8, program: &[u8]) {
        let built = crate_side::witness(version, program).map(|about| about.script);
        let want = match &built {
            Ok(script) => Ok((&script[..], Said::yes(&[script.len() as u64]))),
            Err(refusal) => Err(Said::no(refusal.number())),
        };
        self.writes(
            Entry::WitnessProgram,
            1,
            want,
            |out, v| unsafe {
                ffi::bb_witness_program(
                    version,
                    program.as_ptr(),
                    program.len(),
                    out.as_mut_ptr(),
                    out.len(),
                    v.as_mut_ptr(),
                    v.len(),
                )
            },
            |out| Said::count(bb::witness_program(version, program, out)),
        );
    }
}
