//! What is recorded about numbers, written and read. A record has the magnitude; an input that is not empty says that the
//! number is negative.

use compare::answers::{Outcome, Refusal};
use compare::crate_side;
use compare::lists::Random;

use crate::answer::Answer;
use crate::sample::{Difference, Sample};

pub fn numbers(sample: &mut Sample, random: &mut Random) {
    let mut all: Vec<i64> = (-20..=20).collect();
    for power in [7, 8, 15, 16, 23, 24, 31, 32, 39, 40, 47, 48, 55, 56, 62] {
        all.extend([-1, 0, 1].map(|d| (1_i64 << power) + d));
        all.extend([-1, 0, 1].map(|d| -(1_i64 << power) + d));
    }
    all.extend([-255, 255, i64::MAX, i64::MIN, i64::MIN + 1]);
    all.extend((0..300).map(|i| (random.number() as i64) >> (i % 64)));
    all.sort_by_key(|n| (*n < 0, n.unsigned_abs()));
    all.dedup();
    for n in all {
        sample.input(if n < 0 { &[1] } else { &[] });
        let magnitude = n.unsigned_abs();
        if n == i64::MIN {
            sample.ask_differing(Difference::B, "scriptint_len", magnitude, 0, Answer::refused_with(6));
            for room in [0, 9] {
                let answer = Answer::refused_with(6).lent(&[], room);
                sample.ask_differing(Difference::B, "write_scriptint", magnitude, room, answer);
            }
            continue;
        }
        let Outcome::Answer(bytes) = crate_side::write_scriptint(n) else { panic!("the crate wrote no {n}") };
        let length = bytes.len();
        sample.ask("scriptint_len", magnitude, 0, Answer::done().number(length as u64));
        sample.ask_writing("write_scriptint", magnitude, length + random.below(3), &bytes);
        if length > 0 {
            sample.ask_writing("write_scriptint", magnitude, random.below(length), &bytes);
        }
    }
}

fn read(value: Result<i64, Refusal>) -> Answer {
    match value {
        Ok(n) => Answer::done().number((n < 0).into()).number(n.unsigned_abs()),
        Err(refusal) => Answer::refused(refusal),
    }
}

pub fn readings(sample: &mut Sample, random: &mut Random) {
    let mut all = vec![vec![]];
    all.extend((0..=255).map(|a| vec![a]));
    for last in [0, 1, 0x7f, 0x80, 0x81, 0xff] {
        for count in 2..8 {
            for before in [0, 1, 0x7f, 0x80, 0xff] {
                let mut bytes = random.bytes(count);
                bytes[count - 1] = last;
                bytes[count - 2] = before;
                all.push(bytes);
            }
            all.push([vec![0; count - 1], vec![last]].concat());
        }
    }
    all.extend([vec![0; 300], [vec![0; 300], vec![0x80]].concat(), [vec![0x80], vec![0; 300]].concat()]);
    for bytes in all {
        let readings = crate_side::read(&bytes);
        sample.input(&bytes);
        sample.ask("read_scriptint", 0, 0, read(readings.strict));
        sample.ask("read_scriptint_non_minimal", 0, 0, read(readings.non_minimal));
        sample.ask("read_scriptbool", 0, 0, Answer::done().number(readings.truth.into()));
    }
}
