//! The marked examples of document 01, W1 to W12, with document 02's numbers in W2, W5 and W6, and the inspector's.

use brinebutton::{
    opcodes, read_scriptbool, read_scriptint, read_scriptint_non_minimal, scriptint_len, witness_program,
    write_scriptint, Builder, Cursor, Form, Found, Instruction, Kind, Mode, Refusal, Script, MAX_SCRIPT_LEN,
};

const MODES: [Mode; 2] = [Mode::Plain, Mode::Minimal];

/// The whole walk, by the cursor by value; every other way to walk must agree with it.
fn walk(bytes: &[u8], mode: Mode) -> Vec<Result<Found<'_>, Refusal>> {
    let script = Script::from_bytes(bytes);
    let mut steps = Vec::new();
    let (mut cursor, mut lent) = (Cursor::new(), Cursor::new());
    let mut items = match mode {
        Mode::Plain => script.instruction_indices(),
        Mode::Minimal => script.instruction_indices_minimal(),
    };
    loop {
        let body = cursor.body(script, mode);
        let (next, found) = cursor.next(script, mode);
        assert_eq!(lent.advance(script, mode), found);
        assert_eq!(lent, next);
        let item = match found {
            Ok(Found::End) => None,
            Ok(Found::Opcode { place, code }) => Some(Ok((place, Instruction::Op(code)))),
            Ok(Found::Push { place, body: part, .. }) => Some(Ok((place, Instruction::PushBytes(part)))),
            Err(refusal) => Some(Err(refusal)),
        };
        assert_eq!(items.next(), item);
        assert_eq!(items.as_script().len(), bytes.len() - next.at);
        match found {
            Ok(Found::Push { body: part, .. }) => assert_eq!(part.as_ptr_range(), body.as_ptr_range()),
            _ => assert!(body.is_empty()),
        }
        steps.push(found);
        if item.is_none() {
            return steps;
        }
        cursor = next;
    }
}

fn push(place: usize, form: Form, body: &[u8]) -> Result<Found<'_>, Refusal> {
    Ok(Found::Push { place, form, body_place: place + 1 + form.length_bytes(), body })
}

#[test]
fn w1_the_empty_script() {
    let script = Script::from_bytes(&[]);
    for mode in MODES {
        assert_eq!(walk(&[], mode), [Ok(Found::End)]);
    }
    assert_eq!(script.kind(), Ok(Kind::Other));
    assert_eq!(script.minimal_non_dust(), Ok(471));
}

#[test]
fn w2_a_push_without_its_body() {
    for mode in MODES {
        assert_eq!(walk(&[0x01], mode), [Err(Refusal::BodyCut(0, 1)), Ok(Found::End)]);
    }
}

#[test]
fn w3_five_as_a_direct_push() {
    assert_eq!(walk(&[0x01, 0x05], Mode::Plain), [push(0, Form::Direct, &[5]), Ok(Found::End)]);
    assert_eq!(walk(&[0x01, 0x05], Mode::Minimal), [Err(Refusal::NonMinimal(0)), Ok(Found::End)]);
}

#[test]
fn w4_a_zero_byte_as_a_direct_push() {
    for mode in MODES {
        assert_eq!(walk(&[0x01, 0x00], mode), [push(0, Form::Direct, &[0]), Ok(Found::End)]);
    }
}

#[test]
fn w5_a_cut_push_that_is_not_minimal() {
    assert_eq!(walk(&[0x4c, 0x05], Mode::Plain), [Err(Refusal::BodyCut(0, 5)), Ok(Found::End)]);
    assert_eq!(walk(&[0x4c, 0x05], Mode::Minimal), [Err(Refusal::NonMinimal(0)), Ok(Found::End)]);
}

#[test]
fn w6_an_opcode_before_cut_length_bytes() {
    let bytes = [0x51, 0x4c];
    for mode in MODES {
        let opcode = Ok(Found::Opcode { place: 0, code: 0x51 });
        assert_eq!(walk(&bytes, mode), [opcode, Err(Refusal::LengthCut(1, 1)), Ok(Found::End)]);
    }
    assert_eq!(Script::from_bytes(&bytes).to_asm_string().unwrap(), "OP_PUSHNUM_1<unexpected end>");
}

#[test]
fn w7_a_push_of_256_bytes() {
    let bytes = [&[0x4d, 0x00, 0x01][..], &[7; 256]].concat();
    for mode in MODES {
        assert_eq!(walk(&bytes, mode), [push(0, Form::PushData2, &[7; 256]), Ok(Found::End)]);
    }
}

#[test]
fn w8_numbers_written() {
    let written: [(i64, &[u8]); 4] =
        [(127, &[0x7f]), (128, &[0x80, 0]), (-255, &[0xff, 0x80]), (2_147_483_647, &[0xff, 0xff, 0xff, 0x7f])];
    for (n, bytes) in written {
        let mut out = [0xaa; 8];
        assert_eq!(write_scriptint(&mut out, n), Ok(bytes.len()));
        assert_eq!(scriptint_len(n), Ok(bytes.len()));
        assert_eq!(out[..bytes.len()], *bytes);
        assert!(out[bytes.len()..].iter().all(|byte| *byte == 0xaa));
        assert_eq!(read_scriptint(bytes), Ok(n));
        assert_eq!(write_scriptint(&mut out[..bytes.len() - 1], n), Err(Refusal::NoRoom(bytes.len())));
    }
    assert_eq!(scriptint_len(i64::MIN), Err(Refusal::NumberOutOfRange));
}

#[test]
fn w9_negative_zero_read() {
    assert_eq!(read_scriptint(&[0x80]), Err(Refusal::NumberNotMinimal));
    assert_eq!(read_scriptint_non_minimal(&[0x80]), Ok(0));
    assert_eq!(read_scriptbool(&[0x80]), Ok(false));
    assert_eq!(read_scriptint(&[0; 5]), Err(Refusal::NumberTooLong));
}

#[test]
fn w10_two_multisignatures_after_one_number() {
    let script = Script::from_bytes(&[0x52, 0xae, 0xae]);
    assert_eq!((script.count_sigops(), script.count_sigops_legacy()), (Ok(22), Ok(40)));
}

#[test]
fn w11_a_signature_between_number_and_multisignature() {
    let script = Script::from_bytes(&[0x52, 0xac, 0xae]);
    assert_eq!((script.count_sigops(), script.count_sigops_legacy()), (Ok(21), Ok(21)));
}

#[test]
fn w12_verify_folds_once() {
    let mut one = [0x87];
    let mut builder = Builder::start(&mut one, 1).unwrap();
    assert_eq!(builder.remembered(), Some(0x87));
    assert_eq!(builder.push_verify().unwrap().as_bytes(), [0x88]);
    assert_eq!(builder.push_verify().unwrap_err(), Refusal::NoRoom(2));
    assert_eq!((builder.as_bytes(), builder.remembered()), (&[0x88][..], Some(0x88)));

    let mut two = [0x87, 0xaa];
    let mut builder = Builder::start(&mut two, 1).unwrap();
    assert_eq!(builder.push_verify().unwrap().push_verify().unwrap().as_bytes(), [0x88, 0x69]);
}

#[test]
fn the_inspectors_example() {
    let script = Script::from_bytes(&[0x51, 0x02, 0x4e, 0x73]);
    let screen = "length 4\nkind p2a\nsigops 0 0\ndust 240\nasm OP_PUSHNUM_1 OP_PUSHBYTES_2 4e73\n";
    assert_eq!(script.to_inspect_string(), screen);
    let mut out = [0xaa; 100];
    assert_eq!(script.inspect(&mut out), Ok(screen.len()));
    assert_eq!(out[..screen.len()], *screen.as_bytes());
    assert!(out[screen.len()..].iter().all(|byte| *byte == 0xaa));
    assert_eq!(Script::from_bytes(&[0; 2801]).to_inspect_string(), "refused 2800\n");
}

#[test]
fn the_other_wrappers() {
    assert_eq!(opcodes::classify(75), opcodes::Sort::Push(Form::Direct));
    assert_eq!(opcodes::classify(78), opcodes::Sort::Push(Form::PushData4));
    assert_eq!(opcodes::classify(0x60), opcodes::Sort::Number);
    assert_eq!(opcodes::classify(0x61), opcodes::Sort::Plain);
    assert_eq!((opcodes::decode_pushnum(0x60), opcodes::decode_pushnum(0x61)), (Some(16), None));
    assert_eq!((opcodes::opcode_to_verify(0xae), opcodes::opcode_to_verify(0xaf)), (Some(0xaf), None));
    for code in 0..=255 {
        assert_eq!(opcodes::name(code).as_bytes().len(), opcodes::name_len(code));
    }
    assert_eq!(opcodes::name(0xb1).as_str(), "OP_CLTV");

    let mut out = [0; 40];
    let built = witness_program(0, &[9; 20], &mut out).unwrap();
    let script = Script::from_bytes(&out[..built]);
    assert_eq!((script.kind(), script.witness_version()), (Ok(Kind::P2wpkh), Ok(Some(0))));
    let code = script.p2wpkh_script_code().unwrap().unwrap();
    assert_eq!(Script::from_bytes(&code).is_p2pkh(), Ok(true));
    assert_eq!(script.redeem_script().unwrap().unwrap().as_bytes(), [9; 20]);
    assert_eq!(script.redeem_part(), [9; 20]);
    assert_eq!(script.minimal_non_dust_custom(u64::MAX), Err(Refusal::FeeTooLarge));

    let p2pk = [&[0x21][..], &[3; 33], &[0xac]].concat();
    let p2pk = Script::from_bytes(&p2pk);
    assert_eq!(p2pk.p2pk_public_key_bytes(), Ok(Some(&[3; 33][..])));
    assert_eq!((p2pk.p2pk_key_part(), p2pk.redeem_script()), (&[3; 33][..], Ok(None)));

    let mut table = [7; 3];
    assert_eq!(p2pk.positions(Mode::Plain, &mut table), Ok(2));
    assert_eq!(table, [0, 34, 7]);
    assert_eq!(p2pk.positions(Mode::Plain, &mut table[..1]), Err(Refusal::NoRoom(2)));
}

/// Which part of a push is cut and how many bytes are missing, by every way to walk and in the table, which is left as it was.
#[test]
fn what_was_cut() {
    let long = [0x4e, 0xff, 0xff, 0xff, 0xff];
    for (bytes, refusal, text) in [
        (&[0x4d, 0x01][..], Refusal::LengthCut(0, 1), "the length of the push at 0 is cut, missing bytes: 1"),
        (&[0x4e], Refusal::LengthCut(0, 4), "the length of the push at 0 is cut, missing bytes: 4"),
        (&[0x4b], Refusal::BodyCut(0, 75), "the body of the push at 0 is cut, missing bytes: 75"),
        (&long, Refusal::BodyCut(0, 4_294_967_295), "the body of the push at 0 is cut, missing bytes: 4294967295"),
    ] {
        let mut table = [7; 3];
        for mode in MODES {
            assert_eq!(walk(bytes, mode), [Err(refusal), Ok(Found::End)]);
            assert_eq!(Script::from_bytes(bytes).positions(mode, &mut table), Err(refusal));
        }
        assert_eq!(table, [7; 3]);
        assert_eq!(refusal.to_string(), text);
    }
    let bytes = [0x4e, 0x05, 0x00, 0x00, 0x00, 0xaa];
    assert_eq!(walk(&bytes, Mode::Plain), [Err(Refusal::BodyCut(0, 4)), Ok(Found::End)]);
    assert_eq!(walk(&bytes, Mode::Minimal), [Err(Refusal::NonMinimal(0)), Ok(Found::End)]);
}

/// A builder whose calls are refused can be used on.
#[test]
fn a_builder_in_a_short_buffer() {
    let mut buffer = [0xaa; 6];
    let mut builder = Builder::new(&mut buffer);
    assert_eq!(builder.push_int(5).unwrap().push_int(1000).unwrap().as_bytes(), [0x55, 2, 0xe8, 3]);
    assert_eq!(builder.push_slice(&[1, 2]).unwrap_err(), Refusal::NoRoom(7));
    assert_eq!(builder.push_int(i64::MIN).unwrap_err(), Refusal::NumberOutOfRange);
    assert_eq!(builder.push_opcode(0xb1).unwrap().push_verify().unwrap().as_script().len(), 6);
    assert_eq!(builder.push_sequence(0).unwrap_err(), Refusal::NoRoom(7));
    assert_eq!(builder.push_lock_time(500_000).unwrap_err(), Refusal::NoRoom(10));
    assert_eq!(buffer, [0x55, 2, 0xe8, 3, 0xb1, 0x69]);
    assert_eq!(Builder::start(&mut buffer, 7).unwrap_err(), Refusal::BadBuilder);
}

/// Over the limit every question is refused, and a walk ends.
#[test]
fn over_the_limit() {
    let long = vec![0x51; MAX_SCRIPT_LEN + 1];
    let script = Script::from_bytes(&long);
    assert_eq!(script.is_op_return(), Err(Refusal::TooLong));
    assert_eq!(script.instructions().collect::<Vec<_>>(), [Err(Refusal::TooLong)]);
    let mut text = String::from("before");
    assert_eq!(script.fmt_asm(&mut text), Err(Refusal::TooLong));
    assert_eq!(text, "before");
    assert_eq!(Cursor { at: 5 }.next(script, Mode::Plain), (Cursor { at: 5 }, Err(Refusal::TooLong)));
    let short = Script::from_bytes(&long[..4]);
    assert_eq!(Cursor { at: 5 }.next(short, Mode::Plain), (Cursor { at: 5 }, Err(Refusal::BadCursor)));
}
