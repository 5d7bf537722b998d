//! Document 01, written down a second time in Rust, against the crate.

use compare::answers::{AboutOpcode, AboutProgram, Outcome, Refusal};
use compare::lists::{self, Random};
use compare::paper::{about, name, number_of, pushed, readings, started, verify_form, written, CORE_NAMES};
use compare::{crate_side, hex};

// Opcodes.

#[test]
fn opcodes() {
    assert_eq!(CORE_NAMES.split_whitespace().count(), 0xb0 - 0x61 + 1);
    for code in 0..=255 {
        let about = AboutOpcode {
            name: name(code).into_bytes(),
            number: number_of(code),
            direct_push: (code <= 75).then_some(code.into()),
            verify_form: verify_form(code),
        };
        assert_eq!(crate_side::about_opcode(code), about);
    }
}

// Numbers.

#[test]
fn numbers() {
    let mut random = Random(1);
    let mut all: Vec<i64> = (-70_000..=70_000).collect();
    for power in 0..63 {
        all.extend([-1, 0, 1].map(|d| (1_i64 << power) + d));
        all.extend([-1, 0, 1].map(|d| -(1_i64 << power) + d));
    }
    all.extend([i64::MAX, i64::MIN, i64::MIN + 1]);
    all.extend((0..20_000).map(|i| (random.number() as i64) >> (i % 64)));
    for n in all {
        let expected = written(n).map_or(Outcome::Panicked, Outcome::Answer);
        assert_eq!(crate_side::write_scriptint(n), expected, "{n}");
    }
    for bytes in lists::up_to_two_bytes() {
        assert_eq!(crate_side::read(&bytes), readings(&bytes), "{}", hex::show(&bytes));
    }
    for count in 3..9 {
        for _ in 0..5_000 {
            let mut bytes = random.bytes(count);
            bytes[count - 1] = random.one_of(&[0, 1, 0x7f, 0x80, 0x81, 0xff]);
            bytes[count - 2] &= random.one_of(&[0, 0x7f, 0x80, 0xff]);
            if random.below(3) == 0 {
                bytes[..count - 1].fill(0);
            }
            assert_eq!(crate_side::read(&bytes), readings(&bytes), "{}", hex::show(&bytes));
        }
    }
}

// Templates, counts, dust and text.

/// Compares one script. The crate gives a P2PK key only where it is a point of the curve.
fn agree(script: &[u8]) {
    let crates = crate_side::about(script);
    let mut papers = about(script);
    if crates.p2pk_public_key.is_none() {
        papers.p2pk_public_key = None;
    }
    assert_eq!(crates, papers, "{}", hex::show(script));
}

/// How many random scripts and sessions: the variable COMPARE_COUNT, or 4000.
fn count() -> usize {
    std::env::var("COMPARE_COUNT").map_or(4_000, |text| text.parse().unwrap())
}

#[test]
fn scripts_of_up_to_two_bytes() {
    lists::up_to_two_bytes().for_each(|script| agree(&script))
}

#[test]
fn templates_and_their_neighbours() {
    for script in lists::templates() {
        agree(&script);
        lists::neighbours(&script).iter().for_each(|script| agree(script));
    }
}

#[test]
fn pushes_around_each_length() {
    lists::around_lengths().iter().for_each(|script| agree(script))
}

#[test]
fn pushes_cut_at_each_byte() {
    lists::cut_pushes().iter().for_each(|script| agree(script))
}

#[test]
fn random_scripts() {
    let mut random = Random(2);
    for _ in 0..count() {
        let script = match random.below(3) {
            0 => lists::like_multisig(&mut random),
            _ => lists::mixture(&mut random),
        };
        agree(&script);
        agree(&lists::damaged(&script, &mut random));
    }
}

// Builder and witness program.

#[test]
fn builder_sessions() {
    let mut random = Random(3);
    for _ in 0..count() {
        let start = if random.below(2) == 0 { Vec::new() } else { lists::mixture(&mut random) };
        let calls = lists::session(&mut random);
        let mut state = Some(started(&start));
        let mut states = vec![Outcome::Answer(started(&start))];
        for call in &calls {
            state = state.and_then(|built| pushed(built, call));
            states.push(state.clone().map_or(Outcome::Panicked, Outcome::Answer));
            if state.is_none() {
                break;
            }
        }
        assert_eq!(crate_side::build(&start, &calls), states, "{} {calls:?}", hex::show(&start));
    }
}

#[test]
fn witness_programs() {
    for version in 0..=255 {
        for length in 0..=45 {
            for fill in [[0xaa; 45], [0x4e; 45]] {
                let mut program = fill[..length].to_vec();
                if length > 1 && fill[0] == 0x4e {
                    program[1] = 0x73;
                }
                let expected = match (version, length) {
                    (17.., _) => Err(Refusal::BadVersion),
                    (_, ..=1 | 41..) => Err(Refusal::ProgramLength),
                    (0, length) if length != 20 && length != 32 => Err(Refusal::ProgramLengthV0),
                    _ => Ok(AboutProgram {
                        script: [&[if version == 0 { 0 } else { 0x50 + version }, length as u8][..], &program].concat(),
                        is_p2wpkh: version == 0 && length == 20,
                        is_p2wsh: version == 0 && length == 32,
                        is_p2tr: version == 1 && length == 32,
                        is_p2a: version == 1 && program == [0x4e, 0x73],
                    }),
                };
                assert_eq!(crate_side::witness(version, &program), expected, "{version} {}", hex::show(&program));
            }
        }
    }
}
