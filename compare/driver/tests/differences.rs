//! Where the crate and document 01 part, and what else is easily taken for granted: what the crate does there.

use bitcoin::script::{Error, Instruction};
use bitcoin::Script;
use compare::answers::{Built, Call, Outcome, Refusal, Step};
use compare::crate_side::{
    about, about_opcode, build, minimal_non_dust_custom, overflow_checks, witness, write_scriptint,
};

fn is_multisig(parts: &[&[u8]]) -> Outcome<bool> {
    about(&parts.concat()).is_multisig
}

/// What a build gives that checks for overflow, and one that wraps.
fn checked_or_wrapped<T>(wrapped: T) -> Outcome<T> {
    if overflow_checks() {
        Outcome::Panicked
    } else {
        Outcome::Answer(wrapped)
    }
}

/// (a) A number lasts across signature opcodes, and ends at any other opcode or push.
#[test]
fn a_number_lasts_across_signature_opcodes() {
    assert_eq!(about(&[0x52, 0xae, 0xae]).count_sigops, 4);
    assert_eq!(about(&[0x52, 0xac, 0xad, 0xaf]).count_sigops, 4);
    assert_eq!(about(&[0x52, 0x61, 0xae]).count_sigops, 20);
    assert_eq!(about(&[0x52, 0x00, 0xae]).count_sigops, 20);
}

/// (b) In every build: the ninth byte is written past an array of eight.
#[test]
fn b_the_smallest_number_panics() {
    assert_eq!(write_scriptint(i64::MIN), Outcome::Panicked);
    assert_eq!(build(&[], &[Call::Int(i64::MIN)])[1], Outcome::Panicked);
    assert_eq!(write_scriptint(i64::MIN + 1), Outcome::Answer([0xff; 8].to_vec()));
}

/// (c) The count of pushes is 8 bits wide.
#[test]
fn c_pushes_are_counted_modulo_256() {
    let key: &[u8] = &[0x01, 0xaa];
    assert_eq!(is_multisig(&[&[0x51], &key.repeat(255), &[0x4f, 0xae]]), Outcome::Answer(true));
    assert_eq!(is_multisig(&[&[0x51], &key.repeat(256), &[0x4f, 0xae]]), checked_or_wrapped(false));
    assert_eq!(is_multisig(&[&[0x51], &key.repeat(257), &[0x51, 0xae]]), checked_or_wrapped(true));
    assert_eq!(is_multisig(&[&[0x51], &key.repeat(257), &[0x4f, 0xae]]), checked_or_wrapped(true));
}

/// (d) The product by 4 wraps or panics; the product by the size panics in every build.
#[test]
fn d_the_fee_overflows_in_two_ways() {
    let size = 157;
    let largest = u64::MAX / 4 / size;
    assert_eq!(minimal_non_dust_custom(&[], largest), Outcome::Answer(largest * 4 * size / 1000));
    assert_eq!(minimal_non_dust_custom(&[], largest + 1), Outcome::Panicked);
    assert_eq!(minimal_non_dust_custom(&[], (1 << 62) - 1), Outcome::Panicked);
    assert_eq!(minimal_non_dust_custom(&[], 1 << 62), checked_or_wrapped(0));
    assert_eq!(minimal_non_dust_custom(&[], (1 << 62) + 750), checked_or_wrapped(471));
    assert_eq!(minimal_non_dust_custom(&[0x6a], (1 << 62) - 1), Outcome::Answer(0));
    assert_eq!(minimal_non_dust_custom(&[0x6a], 1 << 62), checked_or_wrapped(0));
    assert_eq!(minimal_non_dust_custom(&[0x6a], u64::MAX), checked_or_wrapped(0));
}

/// (e) and (f): the crate knows no limit, neither ours nor Core's 10,000 bytes.
#[test]
fn e_f_long_scripts_are_answered() {
    assert_eq!(about(&[0x61; 10_001]).minimal_non_dust, 3 * (10_001 + 3 + 156));
    let long = vec![0xac; 4_194_305];
    assert_eq!(Script::from_bytes(&long).count_sigops(), 4_194_305);
    assert_eq!(Script::from_bytes(&long).minimal_non_dust().to_sat(), 3 * (4_194_305 + 5 + 156));
}

/// (g) A cut push is judged for minimality as soon as its length bytes, or its one body byte, are there.
#[test]
fn g_a_cut_push_is_judged() {
    for (script, missing) in [(&[0x4c, 75][..], 75), (&[0x4d, 0xff, 0], 255), (&[0x4e, 0xff, 0xff, 0, 0], 65_535)] {
        assert_eq!(about(script).minimal, [Step::Refused(Refusal::NonMinimal(0))]);
        assert_eq!(about(script).plain, [Step::Refused(Refusal::BodyCut(0, missing))]);
    }
    for (script, missing) in [(&[0x4c, 76][..], 76), (&[0x4d, 0, 1], 256), (&[0x4e, 0, 0, 1, 0], 65_536)] {
        assert_eq!(about(script).minimal, [Step::Refused(Refusal::BodyCut(0, missing))]);
    }
    for script in [&[0x4d, 0xff][..], &[0x4e, 0, 0, 0]] {
        assert_eq!(about(script).minimal, [Step::Refused(Refusal::LengthCut(0, 1))]);
    }
}

/// One error stands for cut length bytes and for a cut body; which it is and what is missing is read from the script.
#[test]
fn one_error_stands_for_two_cuts() {
    let length = |missing| Refusal::LengthCut(0, missing);
    let body = |missing| Refusal::BodyCut(0, missing);
    for (bytes, refusal) in [
        (&[0x4c][..], length(1)),
        (&[0x4d, 0x01], length(1)),
        (&[0x4d], length(2)),
        (&[0x4e], length(4)),
        (&[0x4e, 0, 0], length(2)),
        (&[0x01], body(1)),
        (&[0x4b], body(75)),
        (&[0x4b, 7, 7], body(73)),
        (&[0x4c, 0x05], body(5)),
        (&[0x4d, 0x01, 0x01, 7], body(256)),
        (&[0x4e, 5, 0, 0, 0, 0xaa], body(4)),
        (&[0x4e, 0xff, 0xff, 0xff, 0xff], body(4_294_967_295)),
    ] {
        let walked: Vec<_> = Script::from_bytes(bytes).instructions().collect();
        assert_eq!(walked, [Err(Error::EarlyEndOfScript)]);
        assert_eq!(about(bytes).plain, [Step::Refused(refusal)]);
    }
}

/// Any opcode but another number may stand where the count of keys belongs. Byte 0 is a push.
#[test]
fn multisig_takes_any_opcode_for_the_count() {
    for code in 0x4f..=255 {
        let number = (0x51..=0x60).contains(&code);
        let expected = !number || code == 0x51;
        assert_eq!(is_multisig(&[&[0x51, 0x01, 0xaa, code, 0xae]]), Outcome::Answer(expected), "{code:02x}");
    }
    assert_eq!(is_multisig(&[&[0x51, 0x01, 0xaa, 0x00, 0xae]]), Outcome::Answer(false));
}

/// The figure is rounded down; below one satoshi it is 0.
#[test]
fn dust_is_rounded_down() {
    assert_eq!(minimal_non_dust_custom(&[], 1), Outcome::Answer(0));
    assert_eq!(minimal_non_dust_custom(&[], 2), Outcome::Answer(1));
    assert_eq!(minimal_non_dust_custom(&[], 751), Outcome::Answer(471));
}

/// Instructions know no push form.
#[test]
fn pushes_in_two_forms_are_one_instruction() {
    let first = |bytes: &'static [u8]| Script::from_bytes(bytes).instructions().next();
    let direct = first(&[0x01, 0x05]);
    assert!(matches!(direct, Some(Ok(Instruction::PushBytes(_)))));
    assert_eq!(direct, first(&[0x4c, 0x01, 0x05]));
    assert_eq!(first(&[0x00]), first(&[0x4e, 0, 0, 0, 0]));
}

/// A body is a part of the script's own bytes, but for a direct empty push at the very end.
#[test]
fn bodies_are_parts_of_the_script() {
    let body_at = |bytes: &[u8]| match Script::from_bytes(bytes).instructions().last() {
        Some(Ok(Instruction::PushBytes(body))) => {
            (body.as_bytes().as_ptr() as usize).wrapping_sub(bytes.as_ptr() as usize)
        }
        _ => panic!("no push"),
    };
    assert_eq!(body_at(&[0x51, 0x02, 0xaa, 0xbb]), 2);
    assert_eq!(body_at(&[0x51, 0x4d, 0x01, 0x00, 0xaa]), 4);
    assert_eq!(body_at(&[0x51, 0x4c, 0x00]), 3);
    assert!(body_at(&[0x51, 0x00]) > 2);
}

/// The key is a script's bytes from 1 to length - 2. This one is a point of the curve.
#[test]
fn the_key_stands_between_length_and_opcode() {
    let x = [
        0x79, 0xbe, 0x66, 0x7e, 0xf9, 0xdc, 0xbb, 0xac, 0x55, 0xa0, 0x62, 0x95, 0xce, 0x87, 0x0b, 0x07, 0x02, 0x9b,
        0xfc, 0xdb, 0x2d, 0xce, 0x28, 0xd9, 0x59, 0xf2, 0x81, 0x5b, 0x16, 0xf8, 0x17, 0x98,
    ];
    let script = [&[0x21, 0x02], &x[..], &[0xac]].concat();
    let about = about(&script);
    assert!(about.is_p2pk);
    assert_eq!(about.p2pk_public_key.unwrap(), script[1..=script.len() - 2]);
}

/// Byte 0 has one name in the table and another in the text.
#[test]
fn byte_0_has_two_names() {
    assert_eq!(about_opcode(0).name, b"OP_PUSHBYTES_0");
    assert_eq!(about(&[0]).asm, b"OP_0");
}

/// What a builder remembers is what was called last, not what a walk would find.
#[test]
fn what_a_builder_remembers() {
    let last = |start: &[u8], calls: &[Call]| build(start, calls).pop().unwrap();
    let built = |bytes: &[u8], remembered| Outcome::Answer(Built { bytes: bytes.to_vec(), remembered });
    assert_eq!(last(&[], &[Call::Int(0)]), built(&[0], Some(0)));
    assert_eq!(last(&[], &[Call::Opcode(0)]), built(&[0], Some(0)));
    assert_eq!(last(&[], &[Call::Slice(vec![])]), built(&[0], None));
    assert_eq!(last(&[0], &[]), built(&[0], None));
    assert_eq!(last(&[], &[Call::Opcode(0x01), Call::Opcode(0x87)]), built(&[0x01, 0x87], Some(0x87)));
    assert_eq!(last(&[0x01, 0x87], &[]), built(&[0x01, 0x87], None));
    assert_eq!(last(&[], &[Call::Opcode(0x01), Call::Opcode(0x87), Call::Verify]), built(&[0x01, 0x88], Some(0x88)));
    assert_eq!(last(&[0x01, 0x87], &[Call::Verify]), built(&[0x01, 0x87, 0x69], Some(0x69)));
}

/// P2A is known on the witness program; the script knows it as a witness program of version 1.
#[test]
fn pay_to_anchor_is_a_witness_program() {
    assert!(witness(1, &[0x4e, 0x73]).unwrap().is_p2a);
    assert!(!witness(2, &[0x4e, 0x73]).unwrap().is_p2a);
    assert!(!witness(1, &[0x73, 0x4e]).unwrap().is_p2a);
    assert_eq!(about(&[0x51, 0x02, 0x4e, 0x73]).witness_version, Some(1));
}
