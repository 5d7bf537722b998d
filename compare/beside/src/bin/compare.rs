//! Asks Brinebutton and the crate the same questions and compares every answer.

use std::process::ExitCode;
use std::time::Instant;

use beside::check::{asked, Run, LIMIT, LISTED};
use beside::entries::{declared, Entry, ENTRIES};
use beside::inputs::{shrunk, Input, Session, State};
use beside::our_side::{Target, Via, Wrong, VIAS};
use compare::answers::Call;
use compare::crate_side;
use compare::lists::{self, Random};

const USAGE: &str = "\
compare               the quick comparison
compare --long        all scripts of three bytes too, and more of all that is random
compare --self-check  turns one bit of an answer of ours round, for every entry: each must be noticed";

fn main() -> ExitCode {
    let words: Vec<String> = std::env::args().skip(1).collect();
    let words: Vec<&str> = words.iter().map(String::as_str).collect();
    let run = match words[..] {
        [] => every_entry_is_known().and_then(|()| compare(false)),
        ["--long"] => every_entry_is_known().and_then(|()| compare(true)),
        ["--self-check"] => every_entry_is_known().and_then(|()| self_check()),
        _ => Err(USAGE.into()),
    };
    match run {
        Ok(()) => ExitCode::SUCCESS,
        Err(message) => {
            eprintln!("{message}");
            ExitCode::FAILURE
        }
    }
}

/// The header declares what is compared here, no more and no less.
fn every_entry_is_known() -> Result<(), String> {
    let known: Vec<&str> = ENTRIES.iter().map(|(_, name)| *name).collect();
    match declared()? {
        declared if declared == known => Ok(()),
        declared => Err(format!("include/brinebutton.h declares {declared:?}, compared are {known:?}")),
    }
}

/// A comparison under way: the first input that differs, for each entry.
struct Comparison {
    run: Run,
    inputs: u64,
    differing: Vec<(Entry, Input)>,
    started: Instant,
}

impl Comparison {
    fn ask(&mut self, input: Input) {
        self.inputs += 1;
        let before = self.run.ours.failures.len();
        if !self.run.check(&input) {
            let entries: Vec<Entry> = self.run.ours.failures[before..].iter().map(|failure| failure.entry).collect();
            self.differing.extend(entries.into_iter().map(|entry| (entry, input.clone())));
        }
    }

    fn script(&mut self, bytes: &[u8]) {
        self.inputs += 1;
        let before = self.run.ours.failures.len();
        if !self.run.check_script(bytes) {
            let entries: Vec<Entry> = self.run.ours.failures[before..].iter().map(|failure| failure.entry).collect();
            self.differing.extend(entries.into_iter().map(|entry| (entry, Input::Script(bytes.to_vec()))));
        }
    }

    /// A list of inputs, with a line that says how many.
    fn list(&mut self, name: &str, ask: impl FnOnce(&mut Comparison)) {
        let before = self.inputs;
        ask(self);
        let seconds = self.started.elapsed().as_secs_f64();
        println!("{:>10}  {name} ({seconds:.1} s)", self.inputs - before);
    }
}

fn compare(long: bool) -> Result<(), String> {
    let checks = if crate_side::overflow_checks() { "on" } else { "off" };
    println!("The crate's overflow checks are {checks}. Inputs:");
    let mut comparison = Comparison { run: Run::default(), inputs: 0, differing: Vec::new(), started: Instant::now() };
    ask_everything(&mut comparison, long);
    report(comparison)
}

fn ask_everything(comparison: &mut Comparison, long: bool) {
    let times = |quick: usize, many: usize| if long { many } else { quick };
    comparison.list("nothing: the front cursor, the empty builder", |c| c.ask(Input::Front));
    comparison.list("opcode bytes", |c| (0..=255).for_each(|code| c.ask(Input::Opcode(code))));
    comparison.list("numbers written", |c| {
        numbers(times(1_200, 70_000) as i64, times(20_000, 1_000_000)).for_each(|n| c.ask(Input::Number(n)))
    });
    comparison.list("bytes read", |c| {
        lists::up_to_two_bytes().for_each(|bytes| c.ask(Input::Bytes(bytes)));
        readable(times(20_000, 1_000_000)).for_each(|bytes| c.ask(Input::Bytes(bytes)));
        for length in [LIMIT, LIMIT + 1] {
            c.ask(Input::Bytes(vec![0; length]));
            c.ask(Input::Bytes([vec![0; length - 1], vec![0x80]].concat()));
            c.ask(Input::Bytes([vec![0; length / 2], vec![1], vec![0; length - length / 2 - 1]].concat()));
        }
    });
    comparison.list("witness programs", |c| {
        programs().for_each(|(version, program)| c.ask(Input::Program(version, program)))
    });
    comparison.list("scripts of up to two bytes", |c| {
        for script in lists::up_to_two_bytes() {
            c.run.ours.thorough = script.len() < 2 || script[0] % 16 == script[1] % 16;
            c.script(&script);
        }
        c.run.ours.thorough = true;
    });
    comparison.list("templates", |c| lists::templates().iter().for_each(|script| c.script(script)));
    comparison.list("templates with one byte changed, dropped or added", |c| {
        for script in lists::templates() {
            c.run.ours.thorough = false;
            lists::neighbours(&script).iter().for_each(|script| c.script(script));
            if long {
                more_neighbours(&script).for_each(|script| c.script(&script));
            }
        }
        c.run.ours.thorough = true;
    });
    comparison.list("scripts around each length", |c| {
        for script in lists::around_lengths() {
            c.run.ours.thorough = script.len() < 300;
            c.script(&script);
        }
        c.run.ours.thorough = false;
        around_limit(long).for_each(|script| c.script(&script));
        c.run.ours.thorough = true;
    });
    comparison.list("pushes cut at each byte", |c| lists::cut_pushes().iter().for_each(|script| c.script(script)));
    comparison.list("random scripts and damaged copies", |c| {
        let mut random = Random(7);
        for i in 0..times(30_000, 600_000) {
            c.run.ours.thorough = i % 64 == 0;
            let script = match random.below(4) {
                0 => lists::like_multisig(&mut random),
                1 => counted(&mut random),
                _ => lists::mixture(&mut random),
            };
            c.script(&script);
            c.script(&lists::damaged(&script, &mut random));
        }
        c.run.ours.thorough = true;
    });
    comparison.list("builder sessions", |c| {
        let mut random = Random(8);
        for i in 0..times(15_000, 300_000) {
            c.run.ours.thorough = i % 8 == 0;
            sessions(&mut random).into_iter().for_each(|session| c.ask(Input::Session(session)));
        }
        c.run.ours.thorough = true;
    });
    comparison.list("builder calls in any state", |c| {
        let mut random = Random(9);
        for i in 0..times(60_000, 1_500_000) {
            c.run.ours.thorough = i % 8 == 0;
            c.ask(Input::State(state(&mut random)));
        }
        c.run.ours.thorough = true;
        long_states().for_each(|state| c.ask(Input::State(state)));
    });
    if long {
        comparison.list("scripts of three bytes, each asked little", |c| {
            c.run.ours.thorough = false;
            c.run.brief = true;
            for n in 0..1_u32 << 24 {
                c.script(&n.to_be_bytes()[1..]);
            }
            c.run.brief = false;
            c.run.ours.thorough = true;
        });
    }
}

/// Numbers up to some magnitude, around every power of 2 and of 256, and random ones of every size.
fn numbers(most: i64, random: usize) -> impl Iterator<Item = i64> {
    let around = (0..63).flat_map(|power| (-3..=3).flat_map(move |d| [(1_i64 << power) + d, -(1_i64 << power) + d]));
    let ends = (0..4).flat_map(|d| [i64::MAX - d, i64::MIN + d]);
    let mut numbers = Random(1);
    (-most..=most).chain(around).chain(ends).chain((0..random).map(move |i| (numbers.number() as i64) >> (i % 64)))
}

/// Bytes of three to nine, with ends that a reader looks at.
fn readable(count: usize) -> impl Iterator<Item = Vec<u8>> {
    let mut random = Random(2);
    (0..count).map(move |i| {
        let length = [3, 4, 5, 3, 4, 5, 9][i % 7];
        let mut bytes = random.bytes(length);
        bytes[length - 1] = random.one_of(&[0, 1, 0x7f, 0x80, 0x81, 0xff]);
        bytes[length - 2] &= random.one_of(&[0, 0x7f, 0x80, 0xff]);
        if random.below(3) == 0 {
            bytes[..length - 1].fill(0);
        }
        bytes
    })
}

/// Every version with programs of every length around what is allowed, and a long one.
fn programs() -> impl Iterator<Item = (u8, Vec<u8>)> {
    let short = (0..=255).flat_map(|version| (0..=45).map(move |length| (version, vec![version ^ 0xaa; length])));
    let anchor = (0..=17).map(|version| (version, vec![0x4e, 0x73]));
    let long = [0, 1, 17].into_iter().map(|version| (version, vec![7; LIMIT + 1]));
    short.chain(anchor).chain(long)
}

/// A script with any byte added at any place.
fn more_neighbours(script: &[u8]) -> impl Iterator<Item = Vec<u8>> + '_ {
    (0..=script.len()).flat_map(move |at| (0..=255).map(move |more| [&script[..at], &[more], &script[at..]].concat()))
}

/// Scripts of the limit's length, one less and one more: of opcodes, of pushes in each form, whole and cut.
fn around_limit(long: bool) -> impl Iterator<Item = Vec<u8>> {
    let codes: &[u8] = if long { &[0x61, 0x51, 0xac, 0xae, 0x00, 0x6a, 0xa5] } else { &[0x61, 0xae, 0x00] };
    let lengths = [LIMIT - 1, LIMIT, LIMIT + 1];
    let opcodes = codes.iter().flat_map(move |code| lengths.map(|length| vec![*code; length]));
    let one_push = lengths.into_iter().map(|length| lists::push(3, length - 5, &vec![7; length - 5]));
    let cut = lengths.into_iter().map(|length| lists::push(3, length - 4, &vec![7; length - 5]));
    let pushes = [(2, 520), (0, 75), (1, 255), (2, 65_535), (0, 1)].into_iter().flat_map(move |(form, length)| {
        let push = lists::push(form, length, &vec![0x91; length]);
        let whole: Vec<u8> = push.iter().copied().cycle().take(LIMIT + 1).collect();
        [whole[..LIMIT / push.len() * push.len()].to_vec(), whole[..LIMIT].to_vec(), whole]
    });
    opcodes.chain(one_push).chain(cut).chain(pushes)
}

/// Number and signature opcodes, and now and then something between them.
fn counted(random: &mut Random) -> Vec<u8> {
    let count = random.below(9);
    (0..count)
        .map(|_| random.one_of(&[0x51, 0x52, 0x60, 0xac, 0xad, 0xae, 0xaf, 0xae, 0x00, 0x61, 0x50, 0x4f]))
        .collect()
}

/// One run of builder calls over several buffers: what it needs at most, a little less and more, and much less.
fn sessions(random: &mut Random) -> Vec<Session> {
    let start = if random.below(2) == 0 { Vec::new() } else { lists::mixture(random) };
    let mut calls = lists::session(random);
    if random.below(20) == 0 {
        calls.push(Call::Int(i64::MIN + random.below(2) as i64));
        calls.push(Call::Verify);
    }
    let needed = start.len()
        + calls
            .iter()
            .map(|call| match call {
                Call::Slice(body) => body.len() + 3,
                Call::Int(_) | Call::LockTime(_) | Call::Sequence(_) => 9,
                _ => 1,
            })
            .sum::<usize>();
    let rooms =
        [needed, start.len() + random.below(needed - start.len() + 3), start.len(), start.len() + random.below(4)];
    rooms.into_iter().map(|room| Session { room, start: start.clone(), calls: calls.clone() }).collect()
}

/// A builder in some state, good or bad, and a call.
fn state(random: &mut Random) -> State {
    let room = random.below(14);
    let mut buffer = random.bytes(room);
    if random.below(2) == 0 {
        buffer.iter_mut().for_each(|byte| *byte = [0x87, 0x9c, 0xac, 0xae, 0x00, 0x69][*byte as usize % 6]);
    }
    let length = match random.below(8) {
        0 => room + 1 + random.below(3),
        1 => random.one_of(&[LIMIT, LIMIT + 1, usize::MAX]),
        _ => random.below(room + 1),
    };
    let last = length.checked_sub(1).and_then(|last| buffer.get(last)).copied();
    let remembered = match random.below(6) {
        0 => random.byte().into(),
        1 => 256,
        2 => random.one_of(&[257, 1000, u32::MAX]),
        _ => last.map_or(256, u32::from),
    };
    let call = loop {
        if let Some(call) = lists::session(random).pop() {
            break call;
        }
    };
    let call = if random.below(30) == 0 { Call::Int(i64::MIN) } else { call };
    State { buffer, length, remembered, call }
}

/// Builders at the limit: each call at its edge and one byte on, with room and without.
fn long_states() -> impl Iterator<Item = State> {
    let calls = [
        (1, Call::Opcode(0x51)),
        (1, Call::Verify),
        (3, Call::Slice(vec![7; 2])),
        (3, Call::Int(1000)),
        (1, Call::Int(5)),
        (5, Call::LockTime(500_000)),
        (5, Call::Sequence(u32::MAX >> 1)),
        (LIMIT, Call::Slice(vec![7; LIMIT - 5])),
        (LIMIT + 5, Call::Slice(vec![7; LIMIT])),
    ];
    calls.into_iter().flat_map(|(size, call)| {
        let lengths = [LIMIT.saturating_sub(size), LIMIT.saturating_sub(size) + 1, LIMIT, LIMIT + 1];
        lengths.into_iter().flat_map(move |length| {
            let call = call.clone();
            [LIMIT, LIMIT - 1, LIMIT + 9].into_iter().map(move |room| State {
                buffer: vec![0x87; room],
                length,
                remembered: if length == 0 { 256 } else { 0x87 },
                call: call.clone(),
            })
        })
    })
}

/// What was asked, what listed differences were met, and what else differs.
fn report(comparison: Comparison) -> Result<(), String> {
    let Comparison { run, inputs, differing, started } = comparison;
    println!("\nCalls of each entry, of the library itself and through package brinebutton:");
    for (entry, name) in ENTRIES {
        let [raw, safe] = run.ours.asked[entry as usize];
        println!("{name:<32} {raw:>12} {safe:>12}");
    }
    println!("\nDifferences that document 01 lists, met and put right:");
    for ((letter, what), count) in LISTED.iter().zip(run.listed) {
        println!("({letter}) {what:<68} {count:>10}");
    }
    let calls: u64 = ENTRIES.iter().map(|(entry, _)| asked(&run, *entry)).sum();
    let seconds = started.elapsed().as_secs_f64();
    println!("\n{inputs} inputs, {calls} calls, {seconds:.1} s");
    let unasked: Vec<&str> = ENTRIES.iter().filter(|(e, _)| asked(&run, *e) == 0).map(|(_, name)| *name).collect();
    if !unasked.is_empty() {
        println!("never asked: {unasked:?}");
    } else if differing.is_empty() {
        println!("no other difference");
        return Ok(());
    }
    for (entry, input) in &differing {
        let first = run.ours.failures.iter().find(|failure| failure.entry == *entry).unwrap();
        let (input, text) = shrunk(input.clone(), *entry);
        println!(
            "\nDIFFERENT {} ({:?})\n  smallest input found: {input}\n  {text}\n  first seen: {}",
            entry.name(),
            first.via,
            first.text
        );
    }
    Err(format!("{} entries differ, {} were never asked", differing.len(), unasked.len()))
}

/// Few inputs that reach every entry, refused and not.
fn few_inputs() -> Vec<Input> {
    let mut random = Random(10);
    let mut inputs = vec![Input::Front];
    inputs.extend([0, 0x4c, 0x51, 0x61, 0x87].map(Input::Opcode));
    inputs.extend([0, 5, -1000, 1 << 40, i64::MIN].map(Input::Number));
    inputs.extend([&[][..], &[0x80], &[1, 0], &[1, 2, 3, 4, 5]].map(|bytes| Input::Bytes(bytes.to_vec())));
    inputs.extend(
        [&[0x4c, 5][..], &[0x51, 0x4c], &[0x52, 0xae, 0xae], &[1, 5], &[0x02, 9, 9, 0x4c, 0]]
            .map(|s| Input::Script(s.to_vec())),
    );
    let templates = lists::templates().into_iter().filter(|script| script.len() < 40);
    inputs.extend(templates.map(Input::Script));
    inputs.extend([(0, 20), (1, 32), (17, 5), (0, 3), (2, 41)].map(|(v, n)| Input::Program(v, vec![7; n])));
    let calls = vec![
        Call::Opcode(0x87),
        Call::Verify,
        Call::Verify,
        Call::Slice(vec![7; 3]),
        Call::Int(1000),
        Call::LockTime(70_000),
        Call::Sequence(9),
        Call::Int(i64::MIN),
    ];
    inputs.extend([40, 4, 1].map(|room| Input::Session(Session { room, start: vec![0xac], calls: calls.clone() })));
    inputs.extend((0..40).map(|_| Input::State(state(&mut random))));
    inputs
}

/// Turns one bit of one answer round, for every entry and everything that it answers with. Each must be noticed, at that entry.
fn self_check() -> Result<(), String> {
    let inputs = few_inputs();
    let mut clean = Run::default();
    for input in &inputs {
        if !clean.check(input) {
            return Err(format!("differs before any bit is turned round: {input}, {:?}", clean.ours.failures.last()));
        }
    }
    let mut random = Random(11);
    let mut unnoticed = 0;
    for (entry, name) in ENTRIES {
        let mut tried = 0;
        let mut missed = Vec::new();
        for via in VIAS {
            let calls = clean.ours.asked[entry as usize][via as usize];
            if calls == 0 {
                missed.push(format!("{via:?}: never asked"));
                continue;
            }
            for target in targets(entry, via) {
                for _ in 0..4 {
                    let call = random.number() % calls;
                    let wrong = Wrong { entry, via, call, target, bit: random.below(64) as u32 };
                    let mut run = Run::default();
                    run.ours.wrong = Some(wrong);
                    let noticed = inputs.iter().any(|input| !run.check(input))
                        && run.ours.failures.iter().all(|failure| failure.entry == entry && failure.via == via);
                    tried += 1;
                    if !noticed {
                        missed.push(format!("{wrong:?}"));
                    }
                }
            }
        }
        match missed.is_empty() {
            true => println!("{name:<32} noticed, {tried} bits turned round"),
            false => println!("{name:<32} NOT NOTICED: {}", missed.join("; ")),
        }
        unnoticed += missed.len();
    }
    match unnoticed {
        0 => Ok(()),
        _ => Err(format!("{unnoticed} wrong answers were not noticed")),
    }
}

/// What an entry answers with: its number, values and what lies beside them, and the first cells and the guards of what it is lent.
fn targets(entry: Entry, via: Via) -> Vec<Target> {
    let mut targets = vec![Target::Number];
    targets.extend((0..8).map(Target::Value));
    let writes = matches!(
        entry,
        Entry::WriteName
            | Entry::WriteScriptint
            | Entry::Positions
            | Entry::P2wpkhScriptCode
            | Entry::WriteAsm
            | Entry::WitnessProgram
            | Entry::Inspect
            | Entry::BuilderStart
            | Entry::PushOpcode
            | Entry::PushSlice
            | Entry::PushInt
            | Entry::PushLockTime
            | Entry::PushSequence
            | Entry::PushVerify
            | Entry::AsBytes
    ) || (entry == Entry::Advance && via == Via::Raw);
    // Those that only hand back a string are lent nothing in that call.
    let lent_always = writes && !(via == Via::Safe && matches!(entry, Entry::WriteAsm | Entry::Inspect));
    if lent_always {
        targets.extend([-1, 0, 1, 5].map(Target::Cell));
    }
    targets
}
