//! Document 01, written down a second time in Rust, with the two cuts of document 02. Where the crate differs from it on purpose, (a) to (d), this file says what
//! document 01 says of the crate, and `core_sigops` and `fee_overflows` what it says of the port.

use crate::answers::{About, Built, Call, Mode, Outcome, Readings, Refusal, Step, RATES};
use crate::{crate_side, hex, lists};

// Opcodes.

pub fn verify_form(code: u8) -> Option<u8> {
    match code {
        0x87 => Some(0x88),
        0x9c => Some(0x9d),
        0xac => Some(0xad),
        0xae => Some(0xaf),
        _ => None,
    }
}

pub fn number_of(code: u8) -> Option<u8> {
    match code {
        0x51..=0x60 => Some(code - 0x50),
        _ => None,
    }
}

/// Core's names from 0x61 to 0xb0.
pub const CORE_NAMES: &str =
    "NOP VER IF NOTIF VERIF VERNOTIF ELSE ENDIF VERIFY RETURN TOALTSTACK FROMALTSTACK 2DROP 2DUP \
    3DUP 2OVER 2ROT 2SWAP IFDUP DEPTH DROP DUP NIP OVER PICK ROLL ROT SWAP TUCK CAT SUBSTR LEFT RIGHT SIZE INVERT AND \
    OR XOR EQUAL EQUALVERIFY RESERVED1 RESERVED2 1ADD 1SUB 2MUL 2DIV NEGATE ABS NOT 0NOTEQUAL ADD SUB MUL DIV MOD \
    LSHIFT RSHIFT BOOLAND BOOLOR NUMEQUAL NUMEQUALVERIFY NUMNOTEQUAL LESSTHAN GREATERTHAN LESSTHANOREQUAL \
    GREATERTHANOREQUAL MIN MAX WITHIN RIPEMD160 SHA1 SHA256 HASH160 HASH256 CODESEPARATOR CHECKSIG CHECKSIGVERIFY \
    CHECKMULTISIG CHECKMULTISIGVERIFY NOP1";

pub fn name(code: u8) -> String {
    let short = match code {
        0..=75 => format!("PUSHBYTES_{code}"),
        76 => "PUSHDATA1".into(),
        77 => "PUSHDATA2".into(),
        78 => "PUSHDATA4".into(),
        0x4f => "PUSHNUM_NEG1".into(),
        0x50 => "RESERVED".into(),
        0x51..=0x60 => format!("PUSHNUM_{}", code - 0x50),
        0x61..=0xb0 => CORE_NAMES.split_whitespace().nth((code - 0x61).into()).unwrap().into(),
        0xb1 => "CLTV".into(),
        0xb2 => "CSV".into(),
        0xb3..=0xb9 => format!("NOP{}", code - 0xb3 + 4),
        0xba => "CHECKSIGADD".into(),
        0xbb..=0xfe => format!("RETURN_{code}"),
        0xff => "INVALIDOPCODE".into(),
    };
    format!("OP_{short}")
}

// Numbers.

/// The writer's bytes; nothing for -2^63, where the crate panics (b).
pub fn written(n: i64) -> Option<Vec<u8>> {
    if n == i64::MIN {
        return None;
    }
    let sign = if n < 0 { 0x80 } else { 0 };
    let magnitude = n.unsigned_abs().to_le_bytes();
    let mut bytes = magnitude[..8 - n.unsigned_abs().leading_zeros() as usize / 8].to_vec();
    match bytes.last_mut() {
        None => {}
        Some(last) if *last < 0x80 => *last |= sign,
        Some(_) => bytes.push(sign),
    }
    Some(bytes)
}

pub fn readings(bytes: &[u8]) -> Readings {
    let mut magnitude = bytes.to_vec();
    let sign = magnitude.last_mut().map_or(0, |last| {
        let sign = *last & 0x80;
        *last &= 0x7f;
        sign
    });
    let truth = magnitude.iter().any(|b| *b != 0);
    if bytes.len() > 4 {
        return Readings { strict: Err(Refusal::NumberTooLong), non_minimal: Err(Refusal::NumberTooLong), truth };
    }
    let value = magnitude.iter().rev().fold(0, |sum, b| sum * 256 + i64::from(*b));
    let value = if sign == 0 { value } else { -value };
    let strict = if written(value).unwrap() == bytes { Ok(value) } else { Err(Refusal::NumberNotMinimal) };
    Readings { strict, non_minimal: Ok(value), truth }
}

// The walk.

/// Length bytes of a push and the smallest body that makes its form minimal.
pub fn length_form(code: u8) -> Option<(usize, usize)> {
    match code {
        76 => Some((1, 76)),
        77 => Some((2, 0x100)),
        78 => Some((4, 0x10000)),
        _ => None,
    }
}

pub fn step(script: &[u8], place: usize, mode: Mode) -> Option<Step> {
    let code = *script.get(place)?;
    let after = &script[place + 1..];
    let (length_bytes, length, minimal) = match length_form(code) {
        _ if code > 78 => return Some(Step::Opcode { place, code }),
        None => {
            let short = code == 1 && matches!(after.first(), Some(0x81 | 1..=16));
            (0, usize::from(code), !short)
        }
        Some((count, least)) => {
            let Some(stated) = after.get(..count) else {
                return Some(Step::Refused(Refusal::LengthCut(place, count - after.len())));
            };
            let length = stated.iter().rev().fold(0, |sum, b| sum * 256 + usize::from(*b));
            (count, length, length >= least)
        }
    };
    if mode == Mode::Minimal && !minimal {
        return Some(Step::Refused(Refusal::NonMinimal(place)));
    }
    let body_place = place + 1 + length_bytes;
    let behind = &script[body_place..];
    Some(match behind.get(..length) {
        Some(body) => Step::Push { place, body_place, body: body.to_vec() },
        None => Step::Refused(Refusal::BodyCut(place, length - behind.len())),
    })
}

pub fn walk(script: &[u8], mode: Mode) -> Vec<Step> {
    let mut steps = Vec::new();
    let mut at = 0;
    while let Some(found) = step(script, at, mode) {
        at = match &found {
            Step::Opcode { place, .. } => place + 1,
            Step::Push { body_place, body, .. } => body_place + body.len(),
            Step::Refused(_) => script.len(),
        };
        steps.push(found);
    }
    steps
}

// Templates, counts, dust and text.

pub fn matches(script: &[u8], length: usize, front: &[u8], back: &[u8]) -> bool {
    script.len() == length && script.starts_with(front) && script.ends_with(back)
}

pub fn witness_version(script: &[u8]) -> Option<u8> {
    let length = script.len();
    if !(4..=42).contains(&length) || !(2..=40).contains(&script[1]) || usize::from(script[1]) != length - 2 {
        return None;
    }
    if script[0] == 0 {
        Some(0)
    } else {
        number_of(script[0])
    }
}

/// The count of pushes is 8 bits wide in the crate: it panics or wraps (c).
pub fn is_multisig(steps: &[Step]) -> Outcome<bool> {
    let code = |at: usize| match steps.get(at) {
        Some(Step::Opcode { code, .. }) => Some(*code),
        _ => None,
    };
    let Some(m) = code(0).and_then(number_of) else {
        return Outcome::Answer(false);
    };
    let pushes = steps[1..].iter().take_while(|step| matches!(step, Step::Push { .. })).count();
    if pushes > 255 && crate_side::overflow_checks() {
        return Outcome::Panicked;
    }
    let count = pushes as u8;
    let agrees = code(1 + pushes).is_some_and(|n| number_of(n).is_none_or(|n| n == count));
    Outcome::Answer(agrees && code(2 + pushes) == Some(0xae) && steps.len() == 3 + pushes && m <= count)
}

/// The crate's count: a number lasts across signature opcodes (a).
pub fn sigops(steps: &[Step], accurate: bool) -> usize {
    let mut count = 0;
    let mut number = None;
    for step in steps {
        let signature = match step {
            Step::Opcode { code: 0xac | 0xad, .. } => 1,
            Step::Opcode { code: 0xae | 0xaf, .. } => number.filter(|_| accurate).map_or(20, usize::from),
            _ => 0,
        };
        count += signature;
        if signature == 0 {
            number = match step {
                Step::Opcode { code, .. } => number_of(*code),
                _ => None,
            };
        }
    }
    count
}

/// The crate's accurate count, over opcodes and, for pushes, nothing.
pub fn crate_sigops(steps: impl Iterator<Item = Option<u8>>) -> u64 {
    let mut count = 0;
    let mut number = None;
    for code in steps {
        match code {
            Some(0xac | 0xad) => count += 1,
            Some(0xae | 0xaf) => count += number.map_or(20, u64::from),
            other => number = other.and_then(number_of),
        }
    }
    count
}

/// The port's accurate count: a number counts only if it stands directly before (a).
pub fn core_sigops(steps: impl Iterator<Item = Option<u8>>) -> u64 {
    let mut count = 0;
    let mut number = None;
    for code in steps {
        count += match code {
            Some(0xac | 0xad) => 1,
            Some(0xae | 0xaf) => number.map_or(20, u64::from),
            _ => 0,
        };
        number = code.and_then(number_of);
    }
    count
}

/// Whether the port refuses a rate with 9 (d).
pub fn fee_overflows(script: &[u8], rate: u64) -> bool {
    rate.checked_mul(4).and_then(|rate| rate.checked_mul(dust_size(script))).is_none()
}

pub fn dust_size(script: &[u8]) -> u64 {
    if script.first() == Some(&0x6a) {
        return 0;
    }
    let c = match script.len() {
        0..=252 => 1,
        253..=65_535 => 3,
        _ => 5,
    };
    script.len() as u64 + c + if witness_version(script).is_some() { 75 } else { 156 }
}

/// The crate's product by 4 panics or wraps, and its product by the size panics (d).
pub fn custom_dust(script: &[u8], rate: u64) -> Outcome<u64> {
    if rate.checked_mul(4).is_none() && crate_side::overflow_checks() {
        return Outcome::Panicked;
    }
    match rate.wrapping_mul(4).checked_mul(dust_size(script)) {
        Some(product) => Outcome::Answer(product / 1000),
        None => Outcome::Panicked,
    }
}

pub fn asm(script: &[u8]) -> String {
    let mut text = String::new();
    let mut at = 0;
    while at < script.len() {
        let code = script[at];
        let length_bytes = length_form(code).map_or(0, |(count, _)| count);
        let Some(stated) = script[at + 1..].get(..length_bytes) else {
            return text + "<unexpected end>";
        };
        let length = match code {
            0..=75 => code.into(),
            _ => stated.iter().rev().fold(0, |sum, b| sum * 256 + usize::from(*b)),
        };
        if !text.is_empty() {
            text += " ";
        }
        text += &if code == 0 { "OP_0".to_string() } else { name(code) };
        at += 1 + length_bytes;
        if length > 0 {
            match script[at..].get(..length) {
                Some(body) => text += &format!(" {}", hex::show(body)),
                None => return text + " <push past end>",
            }
        }
        at += length;
    }
    text
}

pub fn about(script: &[u8]) -> About {
    let plain = walk(script, Mode::Plain);
    let refused = matches!(plain.last(), Some(Step::Refused(_)));
    let pushes_only = plain.iter().all(|step| matches!(step, Step::Push { .. }));
    let version = witness_version(script);
    let is_p2wpkh = version == Some(0) && script.len() == 22;
    let is_p2pk = matches(script, 67, &[0x41], &[0xac]) || matches(script, 35, &[0x21], &[0xac]);
    About {
        length: script.len(),
        minimal: walk(script, Mode::Minimal),
        is_p2pkh: matches(script, 25, &[0x76, 0xa9, 0x14], &[0x88, 0xac]),
        is_p2sh: matches(script, 23, &[0xa9, 0x14], &[0x87]),
        is_p2wpkh,
        is_p2wsh: version == Some(0) && script.len() == 34,
        is_p2tr: version == Some(1) && script.len() == 34,
        is_p2a: script == [0x51, 0x02, 0x4e, 0x73],
        is_witness_program: version.is_some(),
        witness_version: version,
        is_p2pk,
        p2pk_public_key: is_p2pk.then(|| script[1..=script.len() - 2].to_vec()),
        is_multisig: is_multisig(&plain),
        is_op_return: script.first() == Some(&0x6a),
        is_push_only: !refused && plain.iter().all(|step| !matches!(step, Step::Opcode { code: 0x61.., .. })),
        redeem_script: match plain.last() {
            Some(Step::Push { body, .. }) if pushes_only => Some(body.clone()),
            _ => None,
        },
        p2wpkh_script_code: is_p2wpkh.then(|| [&[0x76, 0xa9, 0x14], &script[2..], &[0x88, 0xac]].concat()),
        count_sigops: sigops(&plain, true),
        count_sigops_legacy: sigops(&plain, false),
        minimal_non_dust: 3000 * dust_size(script) / 1000,
        minimal_non_dust_custom: RATES.map(|rate| (rate, custom_dust(script, rate))).to_vec(),
        asm: asm(script).into_bytes(),
        plain,
    }
}

// Builder and witness program.

pub fn pushed(mut built: Built, call: &Call) -> Option<Built> {
    let opcode = |mut built: Built, code| {
        built.bytes.push(code);
        built.remembered = Some(code);
        Some(built)
    };
    match call {
        Call::Opcode(code) => opcode(built, *code),
        Call::Int(0) => opcode(built, 0),
        Call::Int(n @ (-1 | 1..=16)) => opcode(built, (n + 0x50) as u8),
        Call::Int(n) => pushed(built, &Call::Slice(written(*n)?)),
        Call::LockTime(n) | Call::Sequence(n) => pushed(built, &Call::Int((*n).into())),
        Call::Verify => match built.remembered.and_then(verify_form) {
            Some(form) => {
                built.bytes.pop();
                opcode(built, form)
            }
            None => opcode(built, 0x69),
        },
        Call::Slice(body) => {
            let form = [75, 255, 65_535].into_iter().take_while(|largest| body.len() > *largest).count();
            built.bytes.extend(lists::push(form, body.len(), body));
            Some(Built { remembered: None, ..built })
        }
    }
}

pub fn started(start: &[u8]) -> Built {
    let remembered = match walk(start, Mode::Plain).last() {
        Some(Step::Opcode { code, .. }) => Some(*code),
        _ => None,
    };
    Built { bytes: start.to_vec(), remembered }
}
