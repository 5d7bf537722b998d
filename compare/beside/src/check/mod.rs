//! What the crate answers, put right where document 01 lists a difference, against what ours answers.

mod builder;
mod crate_walk;
mod small;
mod templates;
mod walk;

use compare::answers::{Mode, Outcome};
use compare::crate_side::outcome;

use self::crate_walk::{CrateWalk, Place};
use self::walk::MODES;
use crate::entries::Entry;
use crate::inputs::Input;
use crate::our_side::{Ours, Said, Via, VIAS};

/// The limit of document 01.
pub const LIMIT: usize = 4_194_304;

/// Document 01's differences that were met: (a) to (e).
#[derive(Clone, Copy, Debug, PartialEq, Eq)]
pub enum Listed {
    Count,
    Smallest,
    Keys,
    Fee,
    Limit,
}

pub const LISTED: [(&str, &str); 5] = [
    ("a", "accurate signature count: a number kept across a signature opcode"),
    ("b", "-2^63 written: the crate panics"),
    ("c", "more than 255 pushes in multisig"),
    ("d", "fee overflow"),
    ("e", "over the limit"),
];

type Asks = unsafe extern "C" fn(*const u8, usize, *mut u64, usize) -> u32;

/// Both sides, and what was met.
#[derive(Default)]
pub struct Run {
    pub ours: Ours,
    pub listed: [u64; LISTED.len()],
    /// Whether a script is asked little: one output length of each sort, two rates.
    pub brief: bool,
    plain: Vec<Place>,
    minimal: Vec<Place>,
    turn: usize,
}

impl Run {
    /// Asks both sides about one input. Whether all was as it should be.
    pub fn check(&mut self, input: &Input) -> bool {
        let before = self.ours.failures.len();
        let asked = outcome(|| match input {
            Input::Front => self.fronts(),
            Input::Opcode(code) => self.opcode(*code),
            Input::Number(n) => self.number(*n),
            Input::Bytes(bytes) => self.readings(bytes),
            Input::Script(bytes) => self.script(bytes),
            Input::Program(version, program) => self.program(*version, program),
            Input::Session(session) => self.session(session),
            Input::State(state) => self.state(state),
        });
        if asked == Outcome::Panicked {
            let (entry, via) = self.ours.last;
            self.ours.fail(entry, via, || "panicked".into());
        }
        self.ours.failures.len() == before
    }

    /// As `check` for a script, without a copy of it.
    pub fn check_script(&mut self, bytes: &[u8]) -> bool {
        let before = self.ours.failures.len();
        if outcome(|| self.script(bytes)) == Outcome::Panicked {
            let (entry, via) = self.ours.last;
            self.ours.fail(entry, via, || "panicked".into());
        }
        self.ours.failures.len() == before
    }

    fn listed(&mut self, which: Listed) {
        self.listed[which as usize] += 1;
    }

    /// Which output lengths are tried where so many are needed.
    fn rooms(&mut self, needed: usize) -> Vec<usize> {
        self.turn += 1;
        if self.ours.thorough && needed <= 400 {
            (0..=needed + 2).collect()
        } else if self.brief {
            vec![(needed + 2).saturating_sub(self.turn % 5)]
        } else if needed > 100_000 {
            vec![needed - 1, needed + 1]
        } else {
            let mut rooms = vec![0, needed / 2, needed.saturating_sub(1), needed, needed + 1, needed + 2];
            rooms.dedup();
            rooms
        }
    }

    /// An output of bytes: refused, nothing to write, or these bytes in every room.
    fn writes(
        &mut self,
        entry: Entry,
        needed: usize,
        want: Result<(&[u8], Said), Said>,
        raw: impl Fn(&mut [u8], &mut [u64]) -> u32,
        safe: impl Fn(&mut [u8]) -> Said,
    ) {
        let bytes = want.map_or(&[][..], |(bytes, _)| bytes);
        for room in self.rooms(bytes.len()) {
            let (said, written) = match want {
                Ok((bytes, _)) if room < bytes.len() => (Said::new(7, &[bytes.len() as u64]), &[][..]),
                Ok((bytes, said)) => (said, bytes),
                Err(refused) => (refused, &[][..]),
            };
            self.ours.ask_bytes((entry, Via::Raw, needed), room, said, written, &raw);
            self.ours.ask_bytes((entry, Via::Safe, needed), room, said, written, |out, values| safe(out).put(values));
        }
    }

    /// A question about a script that is lent values alone, by both ways.
    fn asks(&mut self, entry: Entry, needed: usize, bytes: &[u8], want: Said, raw: Asks, safe: impl Fn() -> Said) {
        self.ours.ask(entry, Via::Raw, needed, want, |values| unsafe {
            raw(bytes.as_ptr(), bytes.len(), values.as_mut_ptr(), values.len())
        });
        self.ours.ask(entry, Via::Safe, needed, want, |values| safe().put(values));
    }

    /// Everything about one script.
    fn script(&mut self, bytes: &[u8]) {
        let over = bytes.len() > LIMIT;
        let mut plain = std::mem::take(&mut self.plain);
        let mut minimal = std::mem::take(&mut self.minimal);
        if over {
            self.listed(Listed::Limit);
            plain.clear();
            minimal.clear();
        } else {
            CrateWalk::new(bytes, 0, Mode::Plain).steps(&mut plain);
            CrateWalk::new(bytes, 0, Mode::Minimal).steps(&mut minimal);
        }
        self.cursors(bytes, &plain, over);
        for (mode, steps) in MODES.into_iter().zip([&plain, &minimal]) {
            self.whole_walk(bytes, mode, steps, over);
            self.positions(bytes, mode, steps, over);
        }
        let kind = self.templates(bytes, &plain, over);
        let counts = self.counts(bytes, &plain, over);
        let dust = self.dust(bytes, over);
        self.text(bytes, kind, counts, dust, over);
        self.start(bytes);
        self.plain = plain;
        self.minimal = minimal;
    }
}

/// How often an entry was asked, both ways.
pub fn asked(run: &Run, entry: Entry) -> u64 {
    VIAS.iter().map(|via| run.ours.asked[entry as usize][*via as usize]).sum()
}
