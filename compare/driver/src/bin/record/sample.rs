//! The file's parts: its first line, the entries by their numbers, and the records as they are added.

use crate::answer::{number, writing, Answer};

/// The first line of the file.
const HEADER: &[u8] = b"replay 1\n";

/// Records that ask nothing: a mark on the next one, the input of those that follow, and the end.
const MARK: u8 = 0xfd;
const INPUT: u8 = 0xfe;
const END: u8 = 0xff;

/// The entries in the order of their numbers, from 1.
pub const ENTRIES: [&str; 48] = [
    "classify",
    "length_bytes",
    "decode_pushnum",
    "opcode_to_verify",
    "name_len",
    "write_name",
    "name_len_in",
    "name_in",
    "scriptint_len",
    "write_scriptint",
    "read_scriptint",
    "read_scriptint_non_minimal",
    "read_scriptbool",
    "next plain",
    "next minimal",
    "positions plain",
    "positions minimal",
    "is_p2pkh",
    "is_p2sh",
    "is_p2wpkh",
    "is_p2wsh",
    "is_p2tr",
    "is_p2a",
    "is_witness_program",
    "is_p2pk",
    "is_multisig",
    "is_op_return",
    "is_push_only",
    "witness_version",
    "p2pk_key",
    "redeem_script",
    "p2wpkh_script_code",
    "kind",
    "count_sigops",
    "count_sigops_legacy",
    "minimal_non_dust",
    "minimal_non_dust_custom",
    "asm_len",
    "write_asm",
    "new",
    "start",
    "push_opcode",
    "push_slice",
    "push_int",
    "push_lock_time",
    "push_sequence",
    "push_verify",
    "witness_program",
];

/// The longest answer that is recorded.
const LONGEST: usize = 600;

/// The differences of document 01 in which the recorded answer is the paper's and not the crate's.
#[derive(Clone, Copy)]
pub enum Difference {
    A = 1,
    B,
    C,
    D,
    E,
}

/// The file as it grows.
pub struct Sample {
    pub out: Vec<u8>,
    input: Option<Vec<u8>>,
    pub counts: [usize; 48],
    /// How often each of the differences (a) to (e) is marked.
    pub marked: [usize; 5],
    /// Answers that were left out since they are too long.
    pub left_out: usize,
}

impl Sample {
    pub fn new() -> Sample {
        Sample { out: HEADER.to_vec(), input: None, counts: [0; 48], marked: [0; 5], left_out: 0 }
    }

    fn record(&mut self, kind: u8, arg: u64, room: u64, bytes: &[u8]) {
        self.out.push(kind);
        number(&mut self.out, arg);
        number(&mut self.out, room);
        number(&mut self.out, bytes.len() as u64);
        self.out.extend(bytes);
    }

    /// The input of the records that follow. A long run of one byte at its end is written as that byte and a length.
    pub fn input(&mut self, bytes: &[u8]) {
        if self.input.as_deref() == Some(bytes) {
            return;
        }
        let fill = bytes.last().copied().unwrap_or(0);
        self.record(INPUT, fill.into(), bytes.len() as u64, &bytes[..literal(bytes)]);
        self.input = Some(bytes.to_vec());
    }

    pub fn ask(&mut self, entry: &str, arg: u64, room: usize, answer: Answer) {
        let at = ENTRIES.iter().position(|name| *name == entry).expect("an entry");
        if answer.0.len() > LONGEST {
            self.left_out += 1;
            return;
        }
        self.record(at as u8 + 1, arg, room as u64, &answer.0);
        self.counts[at] += 1;
    }

    /// Asks where the expected answer is document 01's and not the crate's.
    pub fn ask_differing(&mut self, difference: Difference, entry: &str, arg: u64, room: usize, answer: Answer) {
        self.record(MARK, difference as u64, 0, &[]);
        self.marked[difference as usize - 1] += 1;
        self.ask(entry, arg, room, answer);
    }

    /// Asks an entry that writes, with so much room. That it needs the crate's count of bytes is document 01's rule.
    pub fn ask_writing(&mut self, entry: &str, arg: u64, room: usize, written: &[u8]) {
        self.ask(entry, arg, room, writing(room, written));
    }

    pub fn records(&self) -> usize {
        self.counts.iter().sum()
    }

    pub fn marks(&self) -> usize {
        self.marked.iter().sum()
    }

    pub fn end(&mut self) {
        self.record(END, self.records() as u64, self.marks() as u64, &[]);
    }
}

/// How many bytes of an input are written out, before the run at its end.
pub fn literal(bytes: &[u8]) -> usize {
    let run = bytes.iter().rev().take_while(|b| Some(*b) == bytes.last()).count();
    if run > 12 {
        bytes.len() - run
    } else {
        bytes.len()
    }
}
