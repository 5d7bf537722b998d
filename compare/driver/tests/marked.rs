//! The marked examples of document 01, W1 to W12, as far as the crate has a say in them; W2, W5 and W6 as document 02 has them.

use compare::answers::{Call, Outcome, Refusal, Step};
use compare::crate_side::{about, build, read, write_scriptint};

fn push(place: usize, body_place: usize, body: &[u8]) -> Step {
    Step::Push { place, body_place, body: body.to_vec() }
}

fn length_cut(place: usize, missing: usize) -> Step {
    Step::Refused(Refusal::LengthCut(place, missing))
}

fn body_cut(place: usize, missing: usize) -> Step {
    Step::Refused(Refusal::BodyCut(place, missing))
}

fn non_minimal(place: usize) -> Step {
    Step::Refused(Refusal::NonMinimal(place))
}

#[test]
fn w1_the_empty_script() {
    let about = about(&[]);
    assert_eq!(about.plain, []);
    assert_eq!(about.minimal, []);
    assert_eq!(about.minimal_non_dust, 471);
    let yes: Vec<_> = about.tests().into_iter().filter(|(_, yes)| *yes).map(|(name, _)| name).collect();
    assert_eq!(yes, ["is_push_only"]);
    assert_eq!(about.is_multisig, Outcome::Answer(false));
}

#[test]
fn w2_a_push_without_its_body() {
    let about = about(&[0x01]);
    assert_eq!(about.plain, [body_cut(0, 1)]);
    assert_eq!(about.minimal, [body_cut(0, 1)]);
}

#[test]
fn w3_five_as_a_direct_push() {
    let about = about(&[0x01, 0x05]);
    assert_eq!(about.plain, [push(0, 1, &[5])]);
    assert_eq!(about.minimal, [non_minimal(0)]);
}

#[test]
fn w4_a_zero_byte_as_a_direct_push() {
    let about = about(&[0x01, 0x00]);
    assert_eq!(about.plain, [push(0, 1, &[0])]);
    assert_eq!(about.minimal, [push(0, 1, &[0])]);
}

#[test]
fn w5_a_cut_push_that_is_not_minimal() {
    let about = about(&[0x4c, 0x05]);
    assert_eq!(about.plain, [body_cut(0, 5)]);
    assert_eq!(about.minimal, [non_minimal(0)]);
}

#[test]
fn w6_an_opcode_before_cut_length_bytes() {
    let about = about(&[0x51, 0x4c]);
    let steps = [Step::Opcode { place: 0, code: 0x51 }, length_cut(1, 1)];
    assert_eq!(about.plain, steps);
    assert_eq!(about.minimal, steps);
    assert_eq!(about.asm, b"OP_PUSHNUM_1<unexpected end>");
}

#[test]
fn w7_a_push_of_256_bytes() {
    let script = [&[0x4d, 0x00, 0x01][..], &[7; 256]].concat();
    let about = about(&script);
    assert_eq!(script.len(), 259);
    assert_eq!(about.plain, [push(0, 3, &[7; 256])]);
    assert_eq!(about.minimal, about.plain);
}

#[test]
fn w8_numbers_written() {
    let written: [(i64, &[u8]); 4] =
        [(127, &[0x7f]), (128, &[0x80, 0]), (-255, &[0xff, 0x80]), (2_147_483_647, &[0xff, 0xff, 0xff, 0x7f])];
    for (n, bytes) in written {
        assert_eq!(write_scriptint(n), Outcome::Answer(bytes.to_vec()));
    }
}

#[test]
fn w9_negative_zero_read() {
    let readings = read(&[0x80]);
    assert_eq!(readings.strict, Err(Refusal::NumberNotMinimal));
    assert_eq!(readings.non_minimal, Ok(0));
    assert!(!readings.truth);
}

/// Document 01 decides for 22 here; 4 is what it says of the crate.
#[test]
fn w10_two_multisignatures_after_one_number() {
    let about = about(&[0x52, 0xae, 0xae]);
    assert_eq!((about.count_sigops, about.count_sigops_legacy), (4, 40));
}

/// Document 01 decides for 21 here; 3 is what it says of the crate.
#[test]
fn w11_a_signature_between_number_and_multisignature() {
    let about = about(&[0x52, 0xac, 0xae]);
    assert_eq!((about.count_sigops, about.count_sigops_legacy), (3, 21));
}

#[test]
fn w12_verify_folds_once() {
    let states = build(&[0x87], &[Call::Verify, Call::Verify]);
    let bytes: Vec<Vec<u8>> = states
        .into_iter()
        .map(|state| match state {
            Outcome::Answer(built) => built.bytes,
            Outcome::Panicked => panic!("the builder panicked"),
        })
        .collect();
    assert_eq!(bytes, [vec![0x87], vec![0x88], vec![0x88, 0x69]]);
}

/// The inspector's example.
#[test]
fn pay_to_anchor() {
    let about = about(&[0x51, 0x02, 0x4e, 0x73]);
    assert!(about.is_p2a);
    assert_eq!((about.count_sigops, about.count_sigops_legacy), (0, 0));
    assert_eq!(about.minimal_non_dust, 240);
    assert_eq!(about.asm, b"OP_PUSHNUM_1 OP_PUSHBYTES_2 4e73");
}
