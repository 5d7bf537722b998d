//! Our answers: the functions of the static library, lent slices with guards around them, and the safe functions of package brinebutton
//! brought to the same form. After a call every entry that was lent is looked at, and the guards.

use brinebutton::{ffi, Found, Refusal, Value};

use crate::entries::{Entry, ENTRIES};

/// How a function was reached: itself, or through package brinebutton.
#[derive(Clone, Copy, Debug, PartialEq, Eq)]
pub enum Via {
    Raw,
    Safe,
}

pub const VIAS: [Via; 2] = [Via::Raw, Via::Safe];

/// An answer in the header's terms: 0, a refusal's number or that of too few values, and the values that the answer names.
#[derive(Clone, Copy, PartialEq, Eq)]
pub struct Said {
    pub number: u32,
    count: usize,
    values: [u64; 6],
}

impl Said {
    pub fn new(number: u32, named: &[u64]) -> Said {
        let mut values = [0; 6];
        values[..named.len()].copy_from_slice(named);
        Said { number, count: named.len(), values }
    }

    pub fn yes(named: &[u64]) -> Said {
        Said::new(0, named)
    }

    pub fn no(number: u32) -> Said {
        Said::new(number, &[])
    }

    /// What a call says that is lent too short a slice for its answer.
    pub fn short_values() -> Said {
        Said::no(ffi::SHORT_VALUES)
    }

    pub fn values(&self) -> &[u64] {
        &self.values[..self.count]
    }

    /// Puts the values where a function of the library would, and gives its result.
    pub fn put(self, lent: &mut [u64]) -> u32 {
        lent[..self.count].copy_from_slice(self.values());
        self.number
    }

    /// A refusal of package brinebutton.
    pub fn refusal(refusal: Refusal) -> Said {
        match refusal.value() {
            Value::Is(value) => Said::new(refusal.number(), &[value as u64]),
            Value::Both(place, missing) => Said::new(refusal.number(), &[place as u64, missing as u64]),
            Value::Nothing => Said::no(refusal.number()),
        }
    }

    pub fn of<T>(answer: Result<T, Refusal>, values: impl FnOnce(T) -> Said) -> Said {
        answer.map_or_else(Said::refusal, values)
    }

    pub fn count(answer: Result<usize, Refusal>) -> Said {
        Said::of(answer, |n| Said::yes(&[n as u64]))
    }

    pub fn amount(answer: Result<u64, Refusal>) -> Said {
        Said::of(answer, |n| Said::yes(&[n]))
    }

    pub fn judged(answer: Result<bool, Refusal>) -> Said {
        Said::of(answer, |yes| Said::yes(&[yes.into()]))
    }

    pub fn perhaps(answer: Option<u64>) -> Said {
        match answer {
            Some(n) => Said::yes(&[1, n]),
            None => Said::yes(&[0]),
        }
    }

    /// A part of the caller's own bytes, by where it lies; anything else gives a place that no script has.
    pub fn part(whole: &[u8], part: Option<&[u8]>) -> Said {
        match part {
            Some(part) => Said::yes(&[1, place_in(whole, part), part.len() as u64]),
            None => Said::yes(&[0]),
        }
    }

    /// What the walk found, as the values of `bb_advance`.
    pub fn found(answer: Result<Found, Refusal>) -> Said {
        Said::of(answer, |found| match found {
            Found::End => Said::yes(&[0]),
            Found::Opcode { place, code } => Said::yes(&[1, place as u64, code.into()]),
            Found::Push { place, form, body_place, body } => {
                Said::yes(&[2, place as u64, form.length_bytes() as u64, body_place as u64, body.len() as u64])
            }
        })
    }

    /// The same values with another in front of them.
    pub fn after(self, first: u64) -> Said {
        let mut values = [0; 6];
        values[0] = first;
        values[1..].copy_from_slice(&self.values[..5]);
        Said { count: self.count + 1, values, ..self }
    }
}

impl std::fmt::Debug for Said {
    fn fmt(&self, f: &mut std::fmt::Formatter) -> std::fmt::Result {
        match self.number {
            0 => write!(f, "values {:?}", self.values()),
            ffi::SHORT_VALUES => f.write_str("too few values"),
            number => write!(f, "refusal {number}, values {:?}", self.values()),
        }
    }
}

/// Where a part lies in the bytes that it was taken from.
pub fn place_in(whole: &[u8], part: &[u8]) -> u64 {
    (part.as_ptr() as u64).wrapping_sub(whole.as_ptr() as u64)
}

/// Entries before and after what is lent.
pub const GUARD: usize = 16;

/// Cells of a pattern, of which some in the middle are lent.
pub struct Lent<T> {
    cells: Vec<T>,
    pattern: Vec<T>,
    at: fn(usize) -> T,
}

impl<T: Copy + PartialEq> Lent<T> {
    pub fn new(at: fn(usize) -> T) -> Lent<T> {
        Lent { cells: Vec::new(), pattern: Vec::new(), at }
    }

    /// So many cells, guards aside.
    pub fn lend(&mut self, room: usize) -> &mut [T] {
        for i in self.cells.len()..room + 2 * GUARD {
            self.cells.push((self.at)(i));
            self.pattern.push((self.at)(i));
        }
        &mut self.cells[GUARD..GUARD + room]
    }

    /// Whether just this was written at the front of what was lent. All is put back as it was.
    pub fn took_back(&mut self, room: usize, written: &[T]) -> bool {
        let (front, end) = (GUARD + written.len(), room + 2 * GUARD);
        let as_expected = written.len() <= room
            && self.cells[..GUARD] == self.pattern[..GUARD]
            && self.cells[GUARD..front] == *written
            && self.cells[front..end] == self.pattern[front..end];
        let dirty = if as_expected { GUARD..front } else { 0..end };
        self.cells[dirty.clone()].copy_from_slice(&self.pattern[dirty]);
        as_expected
    }

    /// The cell so many places after the first that is lent, or before it.
    fn cell(&mut self, offset: isize) -> &mut T {
        &mut self.cells[GUARD.wrapping_add_signed(offset)]
    }
}

pub fn byte_pattern(i: usize) -> u8 {
    (i as u8).wrapping_mul(37).wrapping_add(0x5b) ^ (i >> 8) as u8
}

pub fn entry_pattern(i: usize) -> u32 {
    (i as u32).wrapping_mul(0x9e37_79b9) ^ 0xa5a5_5a5a
}

/// The cells that values are lent from.
const CELLS: [u64; 16] = {
    let mut cells = [0xa5c3_96f0_5a3c_690f_u64; 16];
    let mut i = 0;
    while i < 16 {
        cells[i] = cells[i].rotate_left(i as u32 * 3) ^ i as u64;
        i += 1;
    }
    cells
};
const FRONT: usize = 4;

/// Where one bit of an answer of ours is turned round, to see that it is noticed.
#[derive(Clone, Copy, Debug, PartialEq, Eq)]
pub enum Target {
    Number,
    Value(usize),
    /// A cell of what is lent besides, counted from the first; before it and after the last stand guards.
    Cell(isize),
}

#[derive(Clone, Copy, Debug)]
pub struct Wrong {
    pub entry: Entry,
    pub via: Via,
    /// At which call of this entry, the first being 0.
    pub call: u64,
    pub target: Target,
    pub bit: u32,
}

/// An answer that differs.
#[derive(Clone, Debug)]
pub struct Failure {
    pub entry: Entry,
    pub via: Via,
    pub text: String,
}

/// Calls of ours, how many of each entry, and those that differed.
pub struct Ours {
    pub asked: [[u64; 2]; ENTRIES.len()],
    /// The first of each entry.
    pub failures: Vec<Failure>,
    /// Whether the library is lent values of every number from 0 to two more than needed, and outputs of every length.
    pub thorough: bool,
    pub wrong: Option<Wrong>,
    pub bytes: Lent<u8>,
    pub table: Lent<u32>,
    /// What is asked last, for the message if it panics.
    pub last: (Entry, Via),
}

impl Ours {
    pub fn new() -> Ours {
        Ours {
            asked: [[0; 2]; ENTRIES.len()],
            failures: Vec::new(),
            thorough: true,
            wrong: None,
            bytes: Lent::new(byte_pattern),
            table: Lent::new(entry_pattern),
            last: (Entry::Classify, Via::Raw),
        }
    }

    pub fn fail(&mut self, entry: Entry, via: Via, text: impl FnOnce() -> String) {
        if !self.failures.iter().any(|failure| failure.entry == entry) {
            let text = text();
            self.failures.push(Failure { entry, via, text });
        }
    }

    /// Counts the call, and says which bit of its answer is to be turned round.
    #[inline]
    fn count(&mut self, entry: Entry, via: Via) -> Option<(Target, u32)> {
        let asked = &mut self.asked[entry as usize][via as usize];
        let call = *asked;
        *asked += 1;
        match self.wrong {
            Some(wrong) if wrong.entry == entry && wrong.via == via && wrong.call == call => {
                Some((wrong.target, wrong.bit))
            }
            _ => None,
        }
    }

    /// How many values the library is lent.
    fn value_counts(&self, via: Via, needed: usize) -> std::ops::RangeInclusive<usize> {
        if self.thorough && via == Via::Raw {
            0..=needed + 2
        } else {
            needed..=needed
        }
    }

    /// A call that is lent values alone.
    #[inline]
    pub fn ask(&mut self, entry: Entry, via: Via, needed: usize, want: Said, mut call: impl FnMut(&mut [u64]) -> u32) {
        self.ask_beside(entry, via, needed, want, |values| (call(values), true), |_, _| (), "")
    }

    /// A call that is lent values and an output of bytes, at whose front it writes some.
    pub fn ask_bytes(
        &mut self,
        (entry, via, needed): (Entry, Via, usize),
        room: usize,
        want: Said,
        written: &[u8],
        mut call: impl FnMut(&mut [u8], &mut [u64]) -> u32,
    ) {
        let mut bytes = std::mem::replace(&mut self.bytes, Lent::new(byte_pattern));
        self.ask_lent((entry, via, needed), &mut bytes, room, want, written, &mut call, |cell, bit| {
            *cell ^= 1 << (bit % 8)
        });
        self.bytes = bytes;
    }

    /// The same with a table.
    pub fn ask_table(
        &mut self,
        (entry, via, needed): (Entry, Via, usize),
        room: usize,
        want: Said,
        written: &[u32],
        mut call: impl FnMut(&mut [u32], &mut [u64]) -> u32,
    ) {
        let mut table = std::mem::replace(&mut self.table, Lent::new(entry_pattern));
        self.ask_lent((entry, via, needed), &mut table, room, want, written, &mut call, |cell, bit| {
            *cell ^= 1 << (bit % 32)
        });
        self.table = table;
    }

    #[allow(clippy::too_many_arguments)]
    fn ask_lent<T: Copy + PartialEq>(
        &mut self,
        (entry, via, needed): (Entry, Via, usize),
        lent: &mut Lent<T>,
        room: usize,
        want: Said,
        written: &[T],
        call: &mut dyn FnMut(&mut [T], &mut [u64]) -> u32,
        turn: fn(&mut T, u32),
    ) {
        let lent = std::cell::RefCell::new(lent);
        self.ask_beside(
            entry,
            via,
            needed,
            want,
            |values| {
                let enough = values.len() >= needed;
                let number = call(lent.borrow_mut().lend(room), values);
                (number, enough)
            },
            |enough_or_turn, bit| match enough_or_turn {
                After::Turn(offset) => turn(lent.borrow_mut().cell(offset), bit),
                After::Look { enough, as_expected } => {
                    let written = if enough && want.number == 0 { written } else { &[] };
                    *as_expected = lent.borrow_mut().took_back(room, written);
                }
            },
            "an output",
        )
    }

    /// A builder's call, lent a buffer that holds a script: what the whole buffer must be afterwards.
    pub fn ask_buffer(
        &mut self,
        (entry, via, needed): (Entry, Via, usize),
        before: &[u8],
        want: Said,
        after: &[u8],
        mut call: impl FnMut(&mut [u8], &mut [u64]) -> u32,
    ) {
        let guarded = |content: &[u8]| -> Vec<u8> {
            let guard: Vec<u8> = (0..GUARD).map(byte_pattern).collect();
            [&guard, content, &guard].concat()
        };
        let (start, end) = (guarded(before), guarded(after));
        let cells = std::cell::RefCell::new(Vec::new());
        self.ask_beside(
            entry,
            via,
            needed,
            want,
            |values| {
                let enough = values.len() >= needed;
                let mut cells = cells.borrow_mut();
                cells.clone_from(&start);
                (call(&mut cells[GUARD..GUARD + before.len()], values), enough)
            },
            |step, bit| match step {
                After::Turn(offset) => cells.borrow_mut()[GUARD.wrapping_add_signed(offset)] ^= 1 << (bit % 8),
                After::Look { enough, as_expected } => {
                    *as_expected = *cells.borrow() == if enough { &end[..] } else { &start[..] }
                }
            },
            "the buffer",
        )
    }

    /// One question, with each number of values that is to be tried: the call, a bit turned round if one is to be, and a look at everything.
    #[allow(clippy::too_many_arguments)]
    #[inline]
    fn ask_beside(
        &mut self,
        entry: Entry,
        via: Via,
        needed: usize,
        want: Said,
        mut call: impl FnMut(&mut [u64]) -> (u32, bool),
        mut lent: impl FnMut(After, u32),
        what: &str,
    ) {
        self.last = (entry, via);
        for count in self.value_counts(via, needed) {
            let want = if count < needed { Said::short_values() } else { want };
            let mut cells = CELLS;
            let (mut number, enough) = call(&mut cells[FRONT..FRONT + count]);
            if let Some((target, bit)) = self.count(entry, via) {
                match target {
                    Target::Number => number ^= 1 << (bit % 32),
                    Target::Value(i) => cells[FRONT + i] ^= 1 << (bit % 64),
                    Target::Cell(offset) => lent(After::Turn(offset), bit),
                }
            }
            let mut expected = CELLS;
            expected[FRONT..FRONT + want.count].copy_from_slice(want.values());
            if number != want.number || cells != expected {
                let got = cells[FRONT..FRONT + count.max(want.count)].to_vec();
                let beyond = cells[..FRONT] != CELLS[..FRONT] || cells[FRONT + count..] != CELLS[FRONT + count..];
                self.fail(entry, via, || {
                    let beyond = if beyond { ", and values beyond what was lent are changed" } else { "" };
                    let named: Vec<String> = (0..got.len())
                        .map(|i| if got[i] == CELLS[FRONT + i] { "-".into() } else { got[i].to_string() })
                        .collect();
                    let named = named.join(", ");
                    format!("lent {count} values: expected {want:?}; got number {number}, values [{named}]{beyond}")
                });
            }
            let mut as_expected = true;
            lent(After::Look { enough, as_expected: &mut as_expected }, 0);
            if !as_expected {
                self.fail(entry, via, || format!("lent {count} values: {what} is not as expected, {want:?}"));
            }
        }
    }
}

/// What is done with a lent slice after a call.
enum After<'a> {
    Turn(isize),
    Look { enough: bool, as_expected: &'a mut bool },
}

impl Default for Ours {
    fn default() -> Self {
        Ours::new()
    }
}
