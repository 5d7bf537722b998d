//! The crate's answers. Only its public interface is used, so that the published crate can be put in its place.

use std::cell::Cell;
use std::panic::{catch_unwind, set_hook, take_hook, AssertUnwindSafe};
use std::sync::Once;

use bitcoin::absolute::LockTime;
use bitcoin::opcodes::{Class, ClassifyContext};
use bitcoin::script::{self, Builder, Instruction, PushBytesBuf};
use bitcoin::{witness_program, FeeRate, Opcode, Script, ScriptBuf, Sequence, WitnessProgram, WitnessVersion};

use crate::answers::{About, AboutOpcode, AboutProgram, Built, Call, Mode, Outcome, Readings, Refusal, Step, RATES};

/// Whether arithmetic that overflows panics in this build.
pub fn overflow_checks() -> bool {
    outcome(|| std::hint::black_box(255_u8) + std::hint::black_box(1)) == Outcome::Panicked
}

/// The steps of the crate's walk, up to the end or with the refusal as the last one.
pub fn walk(bytes: &[u8], mode: Mode) -> Vec<Step> {
    let script = Script::from_bytes(bytes);
    let mut instructions = match mode {
        Mode::Plain => script.instruction_indices(),
        Mode::Minimal => script.instruction_indices_minimal(),
    };
    let mut steps = Vec::new();
    loop {
        let place = bytes.len() - instructions.as_script().len();
        match instructions.next() {
            None => return steps,
            Some(Err(error)) => steps.push(Step::Refused(walk_refusal(error, bytes, place))),
            Some(Ok((place, Instruction::Op(opcode)))) => steps.push(Step::Opcode { place, code: opcode.to_u8() }),
            Some(Ok((place, Instruction::PushBytes(body)))) => {
                let body_place = bytes.len() - instructions.as_script().len() - body.len();
                steps.push(Step::Push { place, body_place, body: body.as_bytes().to_vec() });
            }
        }
    }
}

/// Everything that is asked about one script.
pub fn about(bytes: &[u8]) -> About {
    let script = Script::from_bytes(bytes);
    About {
        length: script.len(),
        plain: walk(bytes, Mode::Plain),
        minimal: walk(bytes, Mode::Minimal),
        is_p2pkh: script.is_p2pkh(),
        is_p2sh: script.is_p2sh(),
        is_p2wpkh: script.is_p2wpkh(),
        is_p2wsh: script.is_p2wsh(),
        is_p2tr: script.is_p2tr(),
        is_p2a: is_p2a(script),
        is_witness_program: script.is_witness_program(),
        witness_version: script.witness_version().map(WitnessVersion::to_num),
        is_p2pk: script.is_p2pk(),
        p2pk_public_key: script.p2pk_public_key().map(|key| key.to_bytes()),
        is_multisig: outcome(|| script.is_multisig()),
        is_op_return: script.is_op_return(),
        is_push_only: script.is_push_only(),
        redeem_script: script.redeem_script().map(Script::to_bytes),
        p2wpkh_script_code: script.p2wpkh_script_code().map(ScriptBuf::into),
        count_sigops: script.count_sigops(),
        count_sigops_legacy: script.count_sigops_legacy(),
        minimal_non_dust: script.minimal_non_dust().to_sat(),
        minimal_non_dust_custom: RATES.map(|rate| (rate, minimal_non_dust_custom(bytes, rate))).to_vec(),
        asm: script.to_asm_string().into_bytes(),
    }
}

/// The crate knows P2A on its witness program alone.
pub fn is_p2a(script: &Script) -> bool {
    match script.witness_version() {
        Some(version) => WitnessProgram::new(version, &script.as_bytes()[2..]).is_ok_and(|program| program.is_p2a()),
        None => false,
    }
}

/// The dust figure at a rate in satoshi per 1000 weight units.
pub fn minimal_non_dust_custom(bytes: &[u8], rate: u64) -> Outcome<u64> {
    let rate = FeeRate::from_sat_per_kwu(rate);
    outcome(|| Script::from_bytes(bytes).minimal_non_dust_custom(rate).to_sat())
}

/// What the crate says about one opcode byte. Its verify form shows in a builder.
pub fn about_opcode(code: u8) -> AboutOpcode {
    let opcode = Opcode::from(code);
    let class = opcode.classify(ClassifyContext::Legacy);
    let verified = Builder::new().push_opcode(opcode).push_verify().into_bytes();
    AboutOpcode {
        name: opcode.to_string().into_bytes(),
        number: match class {
            Class::PushNum(n) => u8::try_from(n).ok(),
            _ => None,
        },
        direct_push: match class {
            Class::PushBytes(n) => Some(n),
            _ => None,
        },
        verify_form: match verified[..] {
            [form] => Some(form),
            _ => None,
        },
    }
}

/// The bytes that the crate writes for a number.
pub fn write_scriptint(n: i64) -> Outcome<Vec<u8>> {
    outcome(|| {
        let mut out = [0; 8];
        let count = script::write_scriptint(&mut out, n);
        out[..count].to_vec()
    })
}

/// Bytes read as a number, strictly and loosely, and as a truth value.
pub fn read(bytes: &[u8]) -> Readings {
    Readings {
        strict: script::read_scriptint(bytes).map_err(number_refusal),
        non_minimal: script::read_scriptint_non_minimal(bytes).map_err(number_refusal),
        truth: script::read_scriptbool(bytes),
    }
}

/// The builder's state at the start and after each call, ending at the first call that panics.
pub fn build(start: &[u8], calls: &[Call]) -> Vec<Outcome<Built>> {
    let mut builder = Builder::from(start.to_vec());
    let mut states = vec![Outcome::Answer(built(&builder))];
    for call in calls {
        let before = builder.clone();
        match outcome(|| push(before, call)) {
            Outcome::Answer(after) => builder = after,
            Outcome::Panicked => {
                states.push(Outcome::Panicked);
                break;
            }
        }
        states.push(Outcome::Answer(built(&builder)));
    }
    states
}

/// The builder after a call.
pub fn push(builder: Builder, call: &Call) -> Builder {
    match call {
        Call::Opcode(code) => builder.push_opcode(Opcode::from(*code)),
        Call::Int(n) => builder.push_int(*n),
        Call::Slice(body) => builder.push_slice(PushBytesBuf::try_from(body.clone()).expect("fewer than 2^32 bytes")),
        Call::Verify => builder.push_verify(),
        Call::LockTime(n) => builder.push_lock_time(LockTime::from_consensus(*n)),
        Call::Sequence(n) => builder.push_sequence(Sequence::from_consensus(*n)),
    }
}

/// Equal builders have equal bytes and remember the same; what is remembered is the last byte, or nothing.
pub fn built(builder: &Builder) -> Built {
    let bytes = builder.as_bytes().to_vec();
    let remembered = bytes.split_last().and_then(|(last, before)| {
        let remembers = Builder::from(before.to_vec()).push_opcode(Opcode::from(*last));
        (remembers == *builder).then_some(*last)
    });
    Built { bytes, remembered }
}

/// The script of a witness version and program, or why there is none.
pub fn witness(version: u8, program: &[u8]) -> Result<AboutProgram, Refusal> {
    let version = WitnessVersion::try_from(version).map_err(|_| Refusal::BadVersion)?;
    let program = WitnessProgram::new(version, program).map_err(|error| match error {
        witness_program::Error::InvalidLength(_) => Refusal::ProgramLength,
        witness_program::Error::InvalidSegwitV0Length(_) => Refusal::ProgramLengthV0,
        other => panic!("the witness program gave {other}"),
    })?;
    Ok(AboutProgram {
        script: ScriptBuf::new_witness_program(&program).into(),
        is_p2wpkh: program.is_p2wpkh(),
        is_p2wsh: program.is_p2wsh(),
        is_p2tr: program.is_p2tr(),
        is_p2a: program.is_p2a(),
    })
}

thread_local! {
    /// Whether this thread is asking something that may panic.
    static ASKING: Cell<bool> = const { Cell::new(false) };
}

/// Asks, and catches a panic without a message on the screen.
pub fn outcome<T>(ask: impl FnOnce() -> T) -> Outcome<T> {
    static QUIET: Once = Once::new();
    QUIET.call_once(|| {
        let usual = take_hook();
        set_hook(Box::new(move |info| {
            if !ASKING.get() {
                usual(info)
            }
        }));
    });
    let before = ASKING.replace(true);
    let answer = catch_unwind(AssertUnwindSafe(ask));
    ASKING.set(before);
    answer.map_or(Outcome::Panicked, Outcome::Answer)
}

/// A walk's error as a refusal at the place of the script where the walk stood.
pub fn walk_refusal(error: script::Error, bytes: &[u8], place: usize) -> Refusal {
    match error {
        script::Error::NonMinimalPush => Refusal::NonMinimal(place),
        script::Error::EarlyEndOfScript => cut(bytes[place], &bytes[place + 1..], place),
        other => panic!("the walk gave {other}"),
    }
}

/// What is cut, and by how much, where the crate says no more than that the script ends early: read from the push's opcode and the bytes behind it. Where
/// nothing is cut there, the crate's error is not explained.
fn cut(code: u8, behind: &[u8], place: usize) -> Refusal {
    let (length, there) = match (code, behind) {
        (0..=0x4b, there) => (u32::from(code), there),
        (0x4c, [a, there @ ..]) => (u32::from(*a), there),
        (0x4d, [a, b, there @ ..]) => (u32::from_le_bytes([*a, *b, 0, 0]), there),
        (0x4e, [a, b, c, d, there @ ..]) => (u32::from_le_bytes([*a, *b, *c, *d]), there),
        (0x4c, _) => return Refusal::LengthCut(place, 1 - behind.len()),
        (0x4d, _) => return Refusal::LengthCut(place, 2 - behind.len()),
        (0x4e, _) => return Refusal::LengthCut(place, 4 - behind.len()),
        _ => panic!("the walk gave an early end at opcode {code:02x}, which is no push"),
    };
    match (length as usize).checked_sub(there.len()) {
        None | Some(0) => panic!("the walk gave an early end at a whole push"),
        Some(missing) => Refusal::BodyCut(place, missing),
    }
}

fn number_refusal(error: script::Error) -> Refusal {
    match error {
        script::Error::NumericOverflow => Refusal::NumberTooLong,
        script::Error::NonMinimalPush => Refusal::NumberNotMinimal,
        other => panic!("the reader gave {other}"),
    }
}
