//! The walk: from any place, from the front to the end, and the table of positions.

use bitcoin::script::Instruction;
use bitcoin::Script;
use brinebutton as bb;
use brinebutton::ffi;
use compare::answers::{Mode, Refusal};

use super::crate_walk::{folded, walk_refused, CrateWalk, Place};
use super::Run;
use crate::entries::Entry;
use crate::our_side::{place_in, Said, Via};

fn our_mode(mode: Mode) -> bb::Mode {
    match mode {
        Mode::Plain => bb::Mode::Plain,
        Mode::Minimal => bb::Mode::Minimal,
    }
}

pub(super) const MODES: [Mode; 2] = [Mode::Plain, Mode::Minimal];

impl Run {
    /// The places at which the walk is asked: all of a short script, else those around the first and last instructions, some between them,
    /// and above the length.
    pub(super) fn cursors(&mut self, bytes: &[u8], plain: &[Place], over: bool) {
        let length = bytes.len();
        let mut places: Vec<usize> = if self.brief {
            Vec::new()
        } else if length <= 40 || (self.ours.thorough && length <= 400) {
            (0..=length).collect()
        } else {
            let start = |step: &Place| match step {
                Place::Opcode { place, .. } | Place::Push { place, .. } => *place,
                Place::Refused(
                    Refusal::NonMinimal(place) | Refusal::LengthCut(place, _) | Refusal::BodyCut(place, _),
                ) => *place,
                _ => length,
            };
            let first = plain.iter().take(16).map(start);
            let last = plain.iter().rev().take(16).map(start);
            let between = (1..10).map(|i| length / 10 * i + i);
            first.chain(last).chain(between).chain([length.saturating_sub(1), length]).collect()
        };
        if self.brief {
            places.extend([0, self.turn % (length + 1), length]);
        }
        places.extend([length + 1, usize::MAX]);
        for at in places {
            for mode in MODES {
                self.cursor(bytes, at, mode, over);
            }
        }
    }

    fn cursor(&mut self, bytes: &[u8], at: usize, mode: Mode, over: bool) {
        let script = bb::Script::from_bytes(bytes);
        let (said, next, body) = if over {
            (Said::no(1), at, [0, 0])
        } else if at > bytes.len() {
            (Said::no(8), at, [0, 0])
        } else {
            let mut walk = CrateWalk::new(bytes, at, mode);
            let found = walk.step();
            (found.said(), walk.at(), found.body())
        };
        self.turn += 1;
        let number = match mode {
            Mode::Plain => 0,
            Mode::Minimal => [1, 1, 2, u32::MAX][self.turn % 4],
        };
        let (p, n) = (bytes.as_ptr(), bytes.len());
        let stepped = said.after(next as u64);
        self.ours.ask(Entry::Next, Via::Raw, 6, stepped, |v| unsafe {
            ffi::bb_next(p, n, at, number, v.as_mut_ptr(), v.len())
        });
        let cursor = bb::Cursor { at };
        self.ours.ask(Entry::Next, Via::Safe, 6, stepped, |v| {
            let (next, found) = cursor.next(script, our_mode(mode));
            Said::found(found).after(next.at as u64).put(v)
        });
        self.ours.ask(Entry::Body, Via::Raw, 2, Said::yes(&body), |v| unsafe {
            ffi::bb_body(p, n, at, number, v.as_mut_ptr(), v.len())
        });
        self.ours.ask(Entry::Body, Via::Safe, 2, Said::yes(&body), |v| {
            let part = cursor.body(script, our_mode(mode));
            Said::yes(&[place_in(bytes, part), part.len() as u64]).put(v)
        });
        // The lent cursor is looked at in the place of the first value, which says the same.
        self.ours.ask(Entry::Advance, Via::Safe, 6, stepped, |v| {
            let mut lent = cursor;
            let found = lent.advance(script, our_mode(mode));
            Said::found(found).after(lent.at as u64).put(v)
        });
        self.advance(bytes, at, number, stepped, next);
    }

    /// `bb_advance`: with each number of cursors from 0 to 2.
    fn advance(&mut self, bytes: &[u8], at: usize, mode: u32, said: Said, next: usize) {
        let cursors = if self.ours.thorough { 0..=2 } else { 1..=1 };
        for cursors in cursors {
            let before: Vec<u8> = (0..cursors).flat_map(|i| (at as u64 ^ (i * 0x77)).to_ne_bytes()).collect();
            let mut after = before.clone();
            let said = if cursors == 0 { Said::short_values() } else { said };
            if cursors > 0 {
                after[..8].copy_from_slice(&(next as u64).to_ne_bytes());
            }
            self.ours.ask_buffer((Entry::Advance, Via::Raw, 6), &before, said, &after, |lent, v| {
                let mut cells = [0x1122_3344_5566_7788_u64; 4];
                for (cell, chunk) in cells[1..].iter_mut().zip(lent.chunks(8)) {
                    *cell = u64::from_ne_bytes(chunk.try_into().unwrap());
                }
                let number = unsafe {
                    ffi::bb_advance(
                        cells[1..].as_mut_ptr(),
                        cursors as usize,
                        bytes.as_ptr(),
                        bytes.len(),
                        mode,
                        v.as_mut_ptr(),
                        v.len(),
                    )
                };
                for (cell, chunk) in cells[1..].iter().zip(lent.chunks_mut(8)) {
                    chunk.copy_from_slice(&cell.to_ne_bytes());
                }
                let guards = cells[0] == 0x1122_3344_5566_7788
                    && cells[1 + cursors as usize..].iter().all(|cell| *cell == 0x1122_3344_5566_7788);
                if guards {
                    number
                } else {
                    u32::MAX
                }
            });
        }
    }

    /// The iterators from the front to the end, and the cursor by value and lent.
    pub(super) fn whole_walk(&mut self, bytes: &[u8], mode: Mode, steps: &[Place], over: bool) {
        let script = bb::Script::from_bytes(bytes);
        let mut sum = 0;
        for step in steps {
            // An iterator tells no form and no body's place of an empty push.
            let seen = match *step {
                Place::Push { place, body_place, body_len, .. } => {
                    Said::yes(&[2, place as u64, body_place as u64, body_len as u64])
                }
                other => other.said(),
            };
            sum = folded(sum, seen);
        }
        let mut count = steps.len() as u64;
        if over {
            (sum, count) = (folded(0, Said::no(1)), 1);
        }
        let want = Said::yes(&[count, sum]);
        self.ours.ask(Entry::Next, Via::Safe, 2, want, |v| {
            let walk = match mode {
                Mode::Plain => script.instruction_indices(),
                Mode::Minimal => script.instruction_indices_minimal(),
            };
            let (mut count, mut sum) = (0, 0);
            for item in walk {
                count += 1;
                let said = Said::of(item, |(place, instruction)| match instruction {
                    bb::Instruction::Op(code) => Said::yes(&[1, place as u64, code.into()]),
                    bb::Instruction::PushBytes(body) => {
                        Said::yes(&[2, place as u64, place_in(bytes, body), body.len() as u64])
                    }
                });
                sum = folded(sum, said);
            }
            Said::yes(&[count, sum]).put(v)
        });
        // The bytes themselves, as the crate's iterator hands them out.
        let crates = Script::from_bytes(bytes);
        let same = over || {
            let walks = match mode {
                Mode::Plain => (crates.instructions(), script.instructions()),
                Mode::Minimal => (crates.instructions_minimal(), script.instructions_minimal()),
            };
            let (crates, ours) = walks;
            crates.map(|item| item.ok()).eq_by_items(ours.map(|item| item.ok()))
        };
        self.ours.ask(Entry::Next, Via::Safe, 1, Said::yes(&[1]), |v| Said::yes(&[same.into()]).put(v));
    }

    pub(super) fn positions(&mut self, bytes: &[u8], mode: Mode, steps: &[Place], over: bool) {
        let mut table = Vec::with_capacity(steps.len());
        let mut refused = over.then_some(Said::no(1));
        for step in steps {
            match *step {
                Place::Opcode { place, .. } | Place::Push { place, .. } => table.push(place as u32),
                Place::Refused(refusal) => refused = Some(walk_refused(refusal)),
                Place::End => {}
            }
        }
        let number = match mode {
            Mode::Plain => 0,
            Mode::Minimal => [1, 7][self.turn % 2],
        };
        let script = bb::Script::from_bytes(bytes);
        for room in self.rooms(table.len()) {
            let count = table.len() as u64;
            let (said, written) = match refused {
                Some(refused) => (refused, &[][..]),
                None if room < table.len() => (Said::new(7, &[count]), &[][..]),
                None => (Said::yes(&[count]), &table[..]),
            };
            self.ours.ask_table((Entry::Positions, Via::Raw, 2), room, said, written, |table, v| unsafe {
                ffi::bb_positions(
                    bytes.as_ptr(),
                    bytes.len(),
                    number,
                    table.as_mut_ptr(),
                    table.len(),
                    v.as_mut_ptr(),
                    v.len(),
                )
            });
            self.ours.ask_table((Entry::Positions, Via::Safe, 2), room, said, written, |table, v| {
                Said::count(script.positions(our_mode(mode), table)).put(v)
            });
        }
    }
}

/// Whether two iterators hand out the same instructions: the crate's and ours.
trait SameItems<'a> {
    fn eq_by_items(self, ours: impl Iterator<Item = Option<bb::Instruction<'a>>>) -> bool;
}

impl<'a, I: Iterator<Item = Option<Instruction<'a>>>> SameItems<'a> for I {
    fn eq_by_items(mut self, mut ours: impl Iterator<Item = Option<bb::Instruction<'a>>>) -> bool {
        loop {
            match (self.next(), ours.next()) {
                (None, None) => return true,
                (Some(None), Some(None)) => {}
                (Some(Some(Instruction::Op(a))), Some(Some(bb::Instruction::Op(b)))) if a.to_u8() == b => {}
                (Some(Some(Instruction::PushBytes(a))), Some(Some(bb::Instruction::PushBytes(b))))
                    if a.as_bytes() == b => {}
                _ => return false,
            }
        }
    }
}
