//! What is recorded about building scripts: sessions of the builder, and witness programs.

use compare::answers::{Built, Call, Outcome};
use compare::crate_side;
use compare::lists::Random;

use crate::answer::Answer;
use crate::inputs::small;
use crate::sample::{Difference, Sample};

// Builder. A session is a start and the calls that follow it, each with the state that the one before left.

fn state(answer: Answer, built: &Built, room: usize) -> Answer {
    let answer = answer.number(built.bytes.len() as u64).nothing_or(built.remembered.map(u64::from));
    answer.number(1).lent(&built.bytes, room)
}

fn after(start: &[u8], calls: &[Call]) -> Outcome<Built> {
    crate_side::build(start, calls).pop().expect("a state")
}

fn session(sample: &mut Sample, start: Option<&[u8]>, calls: &[Call], room: usize) {
    let bytes = start.unwrap_or(&[]);
    let Outcome::Answer(mut built) = after(bytes, &[]) else { panic!("the crate takes over no bytes") };
    sample.input(bytes);
    let entry = if start.is_some() { "start" } else { "new" };
    sample.ask(entry, 0, room, state(Answer::done(), &built, room));
    let mut taken: Vec<Call> = Vec::new();
    for call in calls {
        let (entry, arg, input) = match call {
            Call::Opcode(code) => ("push_opcode", (*code).into(), vec![]),
            Call::Int(n) => ("push_int", n.unsigned_abs(), if *n < 0 { vec![1] } else { vec![] }),
            Call::Slice(body) => ("push_slice", 0, body.clone()),
            Call::Verify => ("push_verify", 0, vec![]),
            Call::LockTime(n) => ("push_lock_time", (*n).into(), vec![]),
            Call::Sequence(n) => ("push_sequence", (*n).into(), vec![]),
        };
        sample.input(&input);
        taken.push(call.clone());
        match after(bytes, &taken) {
            Outcome::Panicked => {
                assert_eq!(*call, Call::Int(i64::MIN));
                sample.ask_differing(Difference::B, entry, arg, 0, state(Answer::refused_with(6), &built, room));
                taken.pop();
            }
            Outcome::Answer(next) if room < next.bytes.len() => {
                sample.ask(entry, arg, 0, state(Answer::no_room(next.bytes.len()), &built, room));
                taken.pop();
            }
            Outcome::Answer(next) => {
                built = next;
                sample.ask(entry, arg, 0, state(Answer::done(), &built, room));
            }
        }
    }
}

/// Calls with short data.
fn short_calls(random: &mut Random) -> Vec<Call> {
    let folding = [0x00, 0x01, 0x51, 0x69, 0x87, 0x88, 0x9c, 0x9d, 0xac, 0xad, 0xae, 0xaf];
    let count = 1 + random.below(5);
    let mut call = || match random.below(9) {
        0 | 1 => Call::Opcode(random.one_of(&folding)),
        2 => Call::Opcode(random.byte()),
        3 => Call::Int(random.below(24) as i64 - 4),
        4 => {
            let kept = random.below(64);
            Call::Int((random.number() as i64) >> kept)
        }
        5 => {
            let length = random.below(5);
            Call::Slice(random.bytes(length))
        }
        6 => Call::LockTime(random.number() as u32 >> random.below(32)),
        7 => Call::Sequence(random.number() as u32 >> random.below(32)),
        _ => Call::Verify,
    };
    (0..count).map(|_| call()).collect()
}

pub fn sessions(sample: &mut Sample, random: &mut Random) {
    for _ in 0..450 {
        let start = match random.below(3) {
            0 => Some(small(random)),
            1 => Some(vec![random.one_of(&[0x00, 0x51, 0x87, 0x9c, 0xac, 0xae, 0xaf])]),
            _ => None,
        };
        let calls = short_calls(random);
        let bytes = start.as_deref().unwrap_or(&[]);
        let whole = match after(bytes, &calls) {
            Outcome::Answer(built) => built.bytes.len(),
            Outcome::Panicked => bytes.len() + 9,
        };
        let room =
            if random.below(4) == 0 { whole.saturating_sub(1 + random.below(3)) } else { whole + random.below(4) };
        session(sample, start.as_deref(), &calls, room.max(bytes.len()));
    }
    for length in [0, 1, 74, 75, 76, 77, 254, 255, 256, 257, 519, 520] {
        let calls = [Call::Opcode(0xac), Call::Slice(vec![0x87; length]), Call::Verify];
        session(sample, None, &calls, length + 6);
        session(sample, None, &[Call::Slice(random.bytes(length))], length + 1);
    }
    for n in [0, 1, 16, 17, 127, 128, 500_000, 0x7fff_ffff, 0x8000_0000, 0xffff_fffe, u32::MAX] {
        session(sample, None, &[Call::LockTime(n), Call::Sequence(n), Call::Verify], 16);
    }
    for n in (-2..=17).chain([127, 128, -255, 2_147_483_647, i64::MAX]) {
        session(sample, None, &[Call::Int(n), Call::Verify], 12);
    }
    session(sample, None, &[Call::Opcode(0x87), Call::Int(i64::MIN), Call::Verify], 12);
    session(sample, None, &[Call::Int(i64::MIN), Call::Int(i64::MIN + 1), Call::Int(i64::MAX)], 20);
}

// Witness programs.

pub fn witnesses(sample: &mut Sample, random: &mut Random) {
    let mut ask = |version: u8, length: usize| {
        let program = random.bytes(length);
        sample.input(&program);
        let room = if random.below(4) == 0 { random.below(length + 2) } else { length + 2 + random.below(3) };
        match crate_side::witness(version, &program) {
            Ok(about) => sample.ask_writing("witness_program", version.into(), room, &about.script),
            Err(refusal) => {
                sample.ask("witness_program", version.into(), room, Answer::refused(refusal).lent(&[], room))
            }
        }
    };
    for length in (0..=5).chain([19, 20, 21, 31, 32, 33, 39, 40, 41, 42]) {
        for version in [0, 1, 2, 16, 17, 255] {
            ask(version, length);
        }
    }
    for version in 0..=20 {
        for length in [2, 20, 32, 40] {
            ask(version, length);
        }
    }
}
