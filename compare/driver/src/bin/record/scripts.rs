//! What is recorded about a script: its walk, the templates, the counts, dust and the text. The longest scripts are here
//! too, since they are asked less.

use compare::answers::{About, Outcome, Step};
use compare::crate_side;
use compare::lists::Random;

use crate::answer::{writing, Answer, TABLE_PATTERN};
use crate::opcodes::form;
use crate::sample::{Difference, Sample};

const MAX_SCRIPT: usize = 4_194_304;

/// The calls of a walk up to the end: each found instruction or refusal, and where the cursor then stands. A body is the
/// script's own bytes, so a record has its place and length; 1 says that the part handed back holds those bytes.
fn walk(script: &[u8], steps: &[Step]) -> Answer {
    let end = script.len() as u64;
    let mut answer = Answer::default();
    for step in steps {
        answer = match step {
            Step::Opcode { place, code } => {
                answer.number(1).number(*place as u64).number((*code).into()).number(*place as u64 + 1)
            }
            Step::Push { place, body_place, body } => {
                assert_eq!(&script[*body_place..][..body.len()], body);
                let form = form((body_place - place - 1) as u64);
                let answer = answer.number(2).number(*place as u64).number(form);
                let answer = answer.number(*body_place as u64).number(body.len() as u64).number(1);
                answer.number((body_place + body.len()) as u64)
            }
            Step::Refused(refusal) => {
                let refused = Answer::refused(*refusal);
                answer.number(3).bytes(&refused.0).number(end)
            }
        };
    }
    answer.number(0).number(end)
}

fn place_of(step: &Step) -> Option<usize> {
    match step {
        Step::Opcode { place, .. } | Step::Push { place, .. } => Some(*place),
        Step::Refused(_) => None,
    }
}

/// The places of a walk without refusal; the refusal otherwise.
fn positions(steps: &[Step], room: usize) -> Answer {
    let places: Vec<usize> = steps.iter().filter_map(place_of).collect();
    let untouched = |answer: Answer| (0..room).fold(answer, |answer, _| answer.number(TABLE_PATTERN));
    if let Some(Step::Refused(refusal)) = steps.last() {
        return untouched(Answer::refused(*refusal));
    }
    if room < places.len() {
        return untouched(Answer::no_room(places.len()));
    }
    let answer = Answer::done().number(places.len() as u64);
    let answer = places.iter().fold(answer, |answer, place| answer.number(*place as u64));
    (places.len()..room).fold(answer, |answer, _| answer.number(TABLE_PATTERN))
}

fn number_of(step: Option<&Step>) -> Option<u8> {
    match step {
        Some(Step::Opcode { code: code @ 0x51..=0x60, .. }) => Some(code - 0x50),
        _ => None,
    }
}

/// Document 01's accurate count (a): a number counts directly before the signature opcode only.
fn accurate(steps: &[Step]) -> usize {
    let each = steps.iter().enumerate().map(|(at, step)| match step {
        Step::Opcode { code: 0xac | 0xad, .. } => 1,
        Step::Opcode { code: 0xae | 0xaf, .. } => {
            let before = at.checked_sub(1).and_then(|before| number_of(steps.get(before)));
            before.map_or(20, usize::from)
        }
        _ => 0,
    });
    each.sum()
}

/// Whether the crate's 8-bit count of pushes overflows (c).
fn over_255_pushes(steps: &[Step]) -> bool {
    let pushes = || steps[1..].iter().take_while(|step| matches!(step, Step::Push { .. })).count();
    number_of(steps.first()).is_some() && pushes() > 255
}

/// Document 01's order of kinds, from the crate's answers.
fn kind(about: &About, is_multisig: bool) -> u64 {
    let tests = about.tests().map(|(_, yes)| yes);
    let fits = [&tests[..8], &[is_multisig, about.is_op_return, true]].concat();
    fits.iter().position(|fits| *fits).expect("other fits") as u64
}

fn yes_or_no(yes: bool) -> Answer {
    Answer::done().number(yes.into())
}

/// A part of the script as place and length, with 1 for the part handed back that holds those bytes.
fn part(script: &[u8], place: usize, bytes: &Option<Vec<u8>>) -> Answer {
    match bytes {
        None => Answer::done().number(0),
        Some(bytes) => {
            assert_eq!(&script[place..][..bytes.len()], bytes);
            Answer::done().number(1).number(place as u64).number(bytes.len() as u64).number(1)
        }
    }
}

fn templates(sample: &mut Sample, script: &[u8], about: &About, random: &mut Random) {
    for (entry, yes) in about.tests() {
        sample.ask(entry, 0, 0, yes_or_no(yes));
    }
    let is_multisig = match about.is_multisig {
        _ if over_255_pushes(&about.plain) => {
            sample.ask_differing(Difference::C, "is_multisig", 0, 0, yes_or_no(false));
            false
        }
        Outcome::Answer(yes) => {
            sample.ask("is_multisig", 0, 0, yes_or_no(yes));
            yes
        }
        Outcome::Panicked => panic!("the crate judged no multisig"),
    };
    sample.ask("kind", 0, 0, Answer::done().number(kind(about, is_multisig)));
    sample.ask("witness_version", 0, 0, Answer::done().nothing_or(about.witness_version.map(u64::from)));
    // The published crate gives no key that is no point of the curve.
    if about.is_p2pk == about.p2pk_public_key.is_some() {
        sample.ask("p2pk_key", 0, 0, part(script, 1, &about.p2pk_public_key));
    }
    let last_body = match about.plain.last() {
        Some(Step::Push { body_place, .. }) => *body_place,
        _ => 0,
    };
    sample.ask("redeem_script", 0, 0, part(script, last_body, &about.redeem_script));
    let room = 23 + random.below(5);
    let answer = match &about.p2wpkh_script_code {
        None => Answer::done().number(0).lent(&[], room),
        Some(code) if room < code.len() => writing(room, code),
        Some(code) => Answer::done().number(1).number(code.len() as u64).lent(code, room),
    };
    if about.is_p2wpkh || random.below(8) == 0 {
        sample.ask("p2wpkh_script_code", 0, room, answer);
    }
}

/// Document 01's size for dust, from the crate's figure at the default rate: three satoshi for each byte.
fn dust_size(about: &About) -> u64 {
    assert_eq!(about.minimal_non_dust % 3, 0);
    about.minimal_non_dust / 3
}

fn counts_and_dust(sample: &mut Sample, script: &[u8], about: &About, random: &mut Random) {
    let papers = accurate(&about.plain);
    let answer = Answer::done().number(papers as u64);
    if papers == about.count_sigops {
        sample.ask("count_sigops", 0, 0, answer);
    } else {
        sample.ask_differing(Difference::A, "count_sigops", 0, 0, answer);
    }
    sample.ask("count_sigops_legacy", 0, 0, Answer::done().number(about.count_sigops_legacy as u64));
    sample.ask("minimal_non_dust", 0, 0, Answer::done().number(about.minimal_non_dust));
    let largest = (u64::MAX / dust_size(about).max(1)) / 4;
    let rates = [0, 1, 250, 251, 750, 751, 1_000_000, largest, largest + 1, (1 << 62) - 1, 1 << 62, u64::MAX];
    let any = random.below(100_000) as u64;
    for rate in if random.below(4) == 0 { vec![random.one_of(&rates), any] } else { vec![random.one_of(&rates)] } {
        let fits = rate.checked_mul(4).and_then(|rate| rate.checked_mul(dust_size(about))).is_some();
        match crate_side::minimal_non_dust_custom(script, rate) {
            Outcome::Answer(figure) if fits => {
                sample.ask("minimal_non_dust_custom", rate, 0, Answer::done().number(figure));
            }
            _ => {
                assert!(!fits);
                let answer = Answer::refused_with(9);
                sample.ask_differing(Difference::D, "minimal_non_dust_custom", rate, 0, answer);
            }
        }
    }
}

pub fn script(sample: &mut Sample, script: &[u8], random: &mut Random) {
    let about = crate_side::about(script);
    sample.input(script);
    sample.ask("next plain", 0, 0, walk(script, &about.plain));
    sample.ask("next minimal", 0, 0, walk(script, &about.minimal));
    for (entry, steps) in [("positions plain", &about.plain), ("positions minimal", &about.minimal)] {
        let count = steps.len();
        let room = if random.below(4) == 0 { random.below(count + 1) } else { count + random.below(3) };
        if room <= 300 {
            sample.ask(entry, 0, room, positions(steps, room));
        }
    }
    templates(sample, script, &about, random);
    counts_and_dust(sample, script, &about, random);
    let length = about.asm.len();
    sample.ask("asm_len", 0, 0, Answer::done().number(length as u64));
    sample.ask_writing("write_asm", 0, length + random.below(3), &about.asm);
    if length > 0 && random.below(6) == 0 {
        sample.ask_writing("write_asm", 0, length.min(60) - 1, &about.asm);
    }
}

/// At the limit, where the crate and the paper agree, and one byte over it (e).
pub fn long_scripts(sample: &mut Sample, random: &mut Random) {
    let long = vec![0xac; MAX_SCRIPT];
    let about = crate_side::about(&long);
    sample.input(&long);
    templates(sample, &long, &about, random);
    counts_and_dust(sample, &long, &about, random);
    sample.ask("asm_len", 0, 0, Answer::done().number(about.asm.len() as u64));
    sample.ask("read_scriptbool", 0, 0, yes_or_no(crate_side::read(&long).truth));
    sample.input(&vec![0xac; MAX_SCRIPT + 1]);
    let plain = ["is_p2pkh", "is_p2sh", "is_p2wpkh", "is_p2wsh", "is_p2tr", "is_p2a", "is_witness_program", "is_p2pk"];
    let more = ["is_multisig", "is_op_return", "is_push_only", "kind", "witness_version", "p2pk_key", "redeem_script"];
    let last = ["count_sigops", "count_sigops_legacy", "minimal_non_dust", "minimal_non_dust_custom", "asm_len"];
    for entry in plain.iter().chain(&more).chain(&last).chain(&["read_scriptbool"]) {
        sample.ask_differing(Difference::E, entry, 0, 0, Answer::refused_with(1));
    }
    for entry in ["p2wpkh_script_code", "write_asm"] {
        sample.ask_differing(Difference::E, entry, 0, 4, Answer::refused_with(1).lent(&[], 4));
    }
    let table = (0..3).fold(Answer::refused_with(1), |answer, _| answer.number(TABLE_PATTERN));
    sample.ask_differing(Difference::E, "positions plain", 0, 3, table.clone());
    sample.ask_differing(Difference::E, "positions minimal", 0, 3, table);
    sample.input(&[]);
}
