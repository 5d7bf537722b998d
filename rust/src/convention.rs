//! What include/brinebutton.h says of every function: values that are too few have a number of their own, and nothing is changed; a
//! refused call changes of what it is lent only the front of the values, and `bb_advance` its cursor; a slice without entries may be NULL.

use std::ptr::{null_mut, NonNull};
use std::vec::Vec;

use crate::ffi::*;
use crate::Value;

/// What stands in values that nobody has written.
const LENT: u64 = 0xa5a5_a5a5_a5a5_a5a5;

type Ask<'a> = &'a mut dyn FnMut(*mut u64, usize) -> u32;

/// Lends that many values in the middle of ten; what is answered, and all ten.
fn lend(count: usize, ask: Ask) -> (u32, [u64; 10]) {
    let mut all = [LENT; 10];
    let number = ask(all[1..].as_mut_ptr(), count);
    (number, all)
}

/// With `needed` values the call answers `number` and writes at most those; with fewer it is no refusal but `SHORT_VALUES`, and nothing is
/// written.
fn needs(name: &str, needed: usize, number: u32, ask: Ask) {
    for fewer in 0..needed {
        assert_eq!(lend(fewer, ask), (SHORT_VALUES, [LENT; 10]), "{name} with {fewer} values");
    }
    assert_eq!(ask(null_mut(), 0), SHORT_VALUES, "{name} with NULL");
    for more in 0..3 {
        let (got, all) = lend(needed + more, ask);
        assert_eq!(got, number, "{name}");
        assert_eq!(all[0], LENT, "{name}");
        assert_eq!(all[1 + needed..], [LENT; 10][1 + needed..], "{name}");
    }
}

#[test]
fn values_that_are_too_few() {
    let s = &[0x51, 0x02, 0x4e, 0x73];
    let (p, n) = (s.as_ptr(), s.len());
    unsafe {
        needs("classify", 2, 0, &mut |v, c| bb_classify(5, v, c));
        needs("decode_pushnum", 2, 0, &mut |v, c| bb_decode_pushnum(0x51, v, c));
        needs("opcode_to_verify", 2, 0, &mut |v, c| bb_opcode_to_verify(0x87, v, c));
        needs("name_len", 1, 0, &mut |v, c| bb_name_len(0, v, c));
        needs("scriptint_len", 1, 0, &mut |v, c| bb_scriptint_len(5, v, c));
        needs("scriptint_len", 1, 6, &mut |v, c| bb_scriptint_len(i64::MIN, v, c));
        needs("read_scriptbool", 1, 0, &mut |v, c| bb_read_scriptbool(p, n, v, c));
        needs("cursor_new", 1, 0, &mut |v, c| bb_cursor_new(v, c));
        needs("next", 6, 0, &mut |v, c| bb_next(p, n, 0, PLAIN, v, c));
        needs("next", 6, 8, &mut |v, c| bb_next(p, n, 5, PLAIN, v, c));
        needs("next", 6, 15, &mut |v, c| bb_next(p, 3, 1, MINIMAL, v, c));
        needs("next", 6, 14, &mut |v, c| bb_next([0x4d, 0x01].as_ptr(), 2, 0, MINIMAL, v, c));
        needs("body", 2, 0, &mut |v, c| bb_body(p, n, 1, PLAIN, v, c));
        needs("is_p2sh", 1, 0, &mut |v, c| bb_is_p2sh(p, n, v, c));
        needs("is_p2pkh", 1, 0, &mut |v, c| bb_is_p2pkh(p, n, v, c));
        needs("is_witness_program", 1, 0, &mut |v, c| bb_is_witness_program(p, n, v, c));
        needs("is_p2wpkh", 1, 0, &mut |v, c| bb_is_p2wpkh(p, n, v, c));
        needs("is_p2wsh", 1, 0, &mut |v, c| bb_is_p2wsh(p, n, v, c));
        needs("is_p2tr", 1, 0, &mut |v, c| bb_is_p2tr(p, n, v, c));
        needs("is_p2a", 1, 0, &mut |v, c| bb_is_p2a(p, n, v, c));
        needs("is_p2pk", 1, 0, &mut |v, c| bb_is_p2pk(p, n, v, c));
        needs("is_multisig", 1, 0, &mut |v, c| bb_is_multisig(p, n, v, c));
        needs("is_op_return", 1, 0, &mut |v, c| bb_is_op_return(p, n, v, c));
        needs("is_push_only", 1, 0, &mut |v, c| bb_is_push_only(p, n, v, c));
        needs("witness_version", 2, 0, &mut |v, c| bb_witness_version(p, n, v, c));
        needs("p2pk_key", 3, 0, &mut |v, c| bb_p2pk_key(p, n, v, c));
        needs("redeem_script", 3, 0, &mut |v, c| bb_redeem_script(p, n, v, c));
        needs("p2pk_key_part", 2, 0, &mut |v, c| bb_p2pk_key_part(p, n, v, c));
        needs("redeem_part", 2, 0, &mut |v, c| bb_redeem_part(p, n, v, c));
        needs("kind", 1, 0, &mut |v, c| bb_kind(p, n, v, c));
        needs("count_sigops", 1, 0, &mut |v, c| bb_count_sigops(p, n, v, c));
        needs("count_sigops_legacy", 1, 0, &mut |v, c| bb_count_sigops_legacy(p, n, v, c));
        needs("minimal_non_dust", 1, 0, &mut |v, c| bb_minimal_non_dust(p, n, v, c));
        needs("minimal_non_dust_custom", 1, 9, &mut |v, c| bb_minimal_non_dust_custom(p, n, u64::MAX, v, c));
        needs("asm_len", 1, 0, &mut |v, c| bb_asm_len(p, n, v, c));
        needs("builder_new", 2, 0, &mut |v, c| bb_builder_new(v, c));
        needs("builder_start", 3, 13, &mut |v, c| bb_builder_start(p, n, 5, v, c));
        needs("builder_as_bytes", 1, 0, &mut |v, c| bb_builder_as_bytes(4, NOTHING, p, n, v, c));
    }
}

/// The same where bytes or entries are lent besides: with too few values they are as they were.
#[test]
fn lent_bytes_when_values_are_too_few() {
    let p2wpkh = [&[0x00, 0x14][..], &[9; 20]].concat();
    type Write<'a> = &'a dyn Fn(*mut u8, usize, *mut u64, usize) -> u32;
    let writers: [(&str, usize, Write); 13] = unsafe {
        [
            ("write_name", 1, &|o, r, v, c| bb_write_name(0x51, o, r, v, c)),
            ("write_scriptint", 1, &|o, r, v, c| bb_write_scriptint(1000, o, r, v, c)),
            ("p2wpkh_script_code", 2, &|o, r, v, c| bb_p2wpkh_script_code(p2wpkh.as_ptr(), 22, o, r, v, c)),
            ("write_asm", 1, &|o, r, v, c| bb_write_asm([0x51].as_ptr(), 1, o, r, v, c)),
            ("push_opcode", 3, &|o, r, v, c| bb_builder_push_opcode(0, NOTHING, o, r, 0x51, v, c)),
            ("push_slice", 3, &|o, r, v, c| bb_builder_push_slice(0, NOTHING, o, r, [7; 5].as_ptr(), 5, v, c)),
            ("push_int", 3, &|o, r, v, c| bb_builder_push_int(0, NOTHING, o, r, 1000, v, c)),
            ("push_lock_time", 3, &|o, r, v, c| bb_builder_push_lock_time(0, NOTHING, o, r, 1000, v, c)),
            ("push_sequence", 3, &|o, r, v, c| bb_builder_push_sequence(0, NOTHING, o, r, 1000, v, c)),
            ("push_verify", 3, &|o, r, v, c| bb_builder_push_verify(0, NOTHING, o, r, v, c)),
            ("push_verify in place", 3, &|o, r, v, c| bb_builder_push_verify(1, 0xac, o, r, v, c)),
            ("witness_program", 1, &|o, r, v, c| bb_witness_program(1, [7; 32].as_ptr(), 32, o, r, v, c)),
            ("inspect", 1, &|o, r, v, c| bb_inspect([0x51].as_ptr(), 1, o, r, v, c)),
        ]
    };
    for (name, needed, write) in writers {
        for fewer in 0..needed {
            let mut out = [0xac_u8; 200];
            let got = lend(fewer, &mut |v, c| write(out.as_mut_ptr(), 200, v, c));
            assert_eq!((got, out), ((SHORT_VALUES, [LENT; 10]), [0xac; 200]), "{name} with {fewer} values");
            assert_eq!(write(out.as_mut_ptr(), 0, null_mut(), 0), SHORT_VALUES, "{name} with neither room nor values");
        }
        let mut out = [0xac_u8; 200];
        assert_eq!(lend(needed, &mut |v, c| write(out.as_mut_ptr(), 200, v, c)).0, 0, "{name}");
        assert!(out != [0xac; 200], "{name} wrote nothing");
    }
}

#[test]
fn the_table_the_cursor_and_the_number() {
    let s = [0x51, 0x52];
    let mut table = [LENT as u32; 4];
    for (fewer, room) in [(0, 4), (1, 4), (0, 1), (1, 1)] {
        let got =
            lend(fewer, &mut |v, c| unsafe { bb_positions(s.as_ptr(), 2, PLAIN, table.as_mut_ptr(), room, v, c) });
        assert_eq!((got, table), ((SHORT_VALUES, [LENT; 10]), [LENT as u32; 4]), "{fewer} values");
    }
    let mut values = [LENT; 10];
    values[1] = 2;
    let got = lend(2, &mut |v, c| unsafe { bb_positions(s.as_ptr(), 2, PLAIN, table.as_mut_ptr(), 4, v, c) });
    assert_eq!((got, table), ((0, values), [0, 1, LENT as u32, LENT as u32]));

    let mut cursor = [1, LENT];
    for (places, values) in [(0, 6), (1, 5), (1, 0), (0, 0)] {
        let got =
            lend(values, &mut |v, c| unsafe { bb_advance(cursor.as_mut_ptr(), places, s.as_ptr(), 2, PLAIN, v, c) });
        assert_eq!((got, cursor), ((SHORT_VALUES, [LENT; 10]), [1, LENT]));
    }

    let mut number = [LENT as i64; 2];
    for bytes in [&[1][..], &[0x80], &[0; 5]] {
        let refused = unsafe {
            [
                bb_read_scriptint(bytes.as_ptr(), bytes.len(), number.as_mut_ptr(), 0),
                bb_read_scriptint_non_minimal(bytes.as_ptr(), bytes.len(), number.as_mut_ptr(), 0),
            ]
        };
        assert_eq!((refused, number), ([SHORT_VALUES; 2], [LENT as i64; 2]));
    }
}

/// Each refusal that can come with a lent buffer leaves all of it as it was, and answers what document 01 says.
#[test]
fn refused_calls_change_no_lent_byte() {
    let p2wpkh = [&[0x00, 0x14][..], &[9; 20]].concat();
    let long = std::vec![0x51; crate::MAX_SCRIPT_LEN + 1];
    type Write<'a> = &'a dyn Fn(*mut u8, usize, *mut u64, usize) -> u32;
    let builder = [LENT, LENT, LENT];
    let refusals: [(&str, usize, (u32, [u64; 3]), Write); 13] = unsafe {
        [
            ("write_name", 11, (7, [12, LENT, LENT]), &|o, r, v, c| bb_write_name(0x51, o, r, v, c)),
            ("write_scriptint", 1, (7, [2, LENT, LENT]), &|o, r, v, c| bb_write_scriptint(1000, o, r, v, c)),
            ("write_scriptint", 9, (6, builder), &|o, r, v, c| bb_write_scriptint(i64::MIN, o, r, v, c)),
            ("script code", 24, (7, [25, LENT, LENT]), &|o, r, v, c| {
                bb_p2wpkh_script_code(p2wpkh.as_ptr(), 22, o, r, v, c)
            }),
            ("write_asm", 11, (7, [12, LENT, LENT]), &|o, r, v, c| bb_write_asm([0x51].as_ptr(), 1, o, r, v, c)),
            ("write_asm", 99, (1, builder), &|o, r, v, c| bb_write_asm(long.as_ptr(), long.len(), o, r, v, c)),
            ("push_opcode", 3, (7, [3, 256, 4]), &|o, r, v, c| bb_builder_push_opcode(3, NOTHING, o, r, 0x51, v, c)),
            ("push_opcode", 3, (13, [4, 256, LENT]), &|o, r, v, c| {
                bb_builder_push_opcode(4, NOTHING, o, r, 0x51, v, c)
            }),
            ("push_opcode", 3, (13, [3, 0x51, LENT]), &|o, r, v, c| bb_builder_push_opcode(3, 0x51, o, r, 0x51, v, c)),
            ("push_slice", 8, (7, [3, 0xac, 9]), &|o, r, v, c| {
                bb_builder_push_slice(3, 0xac, o, r, [7; 5].as_ptr(), 5, v, c)
            }),
            ("push_int", 99, (6, [3, 0xac, LENT]), &|o, r, v, c| bb_builder_push_int(3, 0xac, o, r, i64::MIN, v, c)),
            ("witness_program", 33, (7, [34, LENT, LENT]), &|o, r, v, c| {
                bb_witness_program(1, [7; 32].as_ptr(), 32, o, r, v, c)
            }),
            ("inspect", 12, (7, [13, LENT, LENT]), &|o, r, v, c| bb_inspect(long.as_ptr(), long.len(), o, r, v, c)),
        ]
    };
    for (name, room, expected, write) in refusals {
        let mut out: Vec<u8> = std::vec![0xac; room + 2];
        let (number, all) = lend(3, &mut |v, c| write(out[1..].as_mut_ptr(), room, v, c));
        assert_eq!((number, [all[1], all[2], all[3]]), expected, "{name}");
        assert!(out.iter().all(|byte| *byte == 0xac), "{name} wrote something");
        assert_eq!((all[0], &all[4..]), (LENT, &[LENT; 6][..]), "{name}");
    }
}

/// Refusals 2, 14 and 15 move a lent cursor to the script's end, 1 and 8 leave it. The place for the next call stands before the refusal's values.
#[test]
fn a_refused_advance() {
    let s = [0x51, 0x01, 0x05, 0x02, 0xaa];
    let long = std::vec![0x51; crate::MAX_SCRIPT_LEN + 1];
    for (script, mode, number, at, next, named) in [
        (&s[..], MINIMAL, 2, 1, 5, [1, LENT]),
        (&s[..], PLAIN, 15, 3, 5, [3, 1]),
        (&s[..], PLAIN, 8, 6, 6, [LENT, LENT]),
        (&long[..], PLAIN, 1, 3, 3, [LENT, LENT]),
    ] {
        let mut cursor = [at, LENT];
        let got = lend(6, &mut |v, c| unsafe {
            bb_advance(cursor.as_mut_ptr(), 1, script.as_ptr(), script.len(), mode, v, c)
        });
        let mut values = [LENT; 10];
        values[1] = next;
        values[2..4].copy_from_slice(&named);
        assert_eq!((got, cursor), ((number, values), [next, LENT]));
    }
}

/// A cut push: its place and how many bytes are missing. In the walk they stand behind the place for the next call, beside a table at the front; what lies
/// behind them is as it was, and the table too.
#[test]
fn both_values_of_a_cut_push() {
    for (script, mode, number, place, missing) in [
        (&[0x51, 0x4c][..], PLAIN, 14, 1, 1),
        (&[0x4d, 0x01], MINIMAL, 14, 0, 1),
        (&[0x4e], PLAIN, 14, 0, 4),
        (&[0x4b], MINIMAL, 15, 0, 75),
        (&[0x4e, 5, 0, 0, 0, 0xaa], PLAIN, 15, 0, 4),
        (&[0x4e, 0xff, 0xff, 0xff, 0xff], MINIMAL, 15, 0, 4_294_967_295),
    ] {
        let (p, n, end) = (script.as_ptr(), script.len(), script.len() as u64);
        let mut walked = [LENT; 10];
        walked[1..4].copy_from_slice(&[end, place, missing]);
        let got = lend(6, &mut |v, c| unsafe { bb_next(p, n, place as usize, mode, v, c) });
        assert_eq!(got, (number, walked));
        let mut cursor = [place, LENT];
        let got = lend(6, &mut |v, c| unsafe { bb_advance(cursor.as_mut_ptr(), 1, p, n, mode, v, c) });
        assert_eq!((got, cursor), ((number, walked), [end, LENT]));

        let mut beside = [LENT; 10];
        beside[1..3].copy_from_slice(&[place, missing]);
        let mut table = [LENT as u32; 4];
        for count in 0..5 {
            let got = lend(count, &mut |v, c| unsafe { bb_positions(p, n, mode, table.as_mut_ptr(), 4, v, c) });
            let expected = if count < 2 { (SHORT_VALUES, [LENT; 10]) } else { (number, beside) };
            assert_eq!((got, table), (expected, [LENT as u32; 4]), "{count} values");
        }
    }
}

/// A slice without entries may be NULL: the answer is that for one which points to a place, and for the dangling one that Rust makes.
#[test]
fn no_entries_at_null() {
    let p2wpkh = [&[0x00, 0x14][..], &[9; 20]].concat();
    let long = [0x51; 2801];
    let (wp, one, body) = (p2wpkh.as_ptr(), [0x51].as_ptr(), [7; 32].as_ptr());
    type Ask<'a> = &'a dyn Fn(*mut u8, *mut u64, usize) -> u32;
    let asked: [(&str, u32, Ask); 59] = unsafe {
        [
            ("read_scriptint", 0, &|p, v, c| bb_read_scriptint(p, 0, v.cast(), c)),
            ("read_scriptint_non_minimal", 0, &|p, v, c| bb_read_scriptint_non_minimal(p, 0, v.cast(), c)),
            ("read_scriptint, no number", SHORT_VALUES, &|p, _, _| bb_read_scriptint(one, 1, p.cast(), 0)),
            ("loosely, no number", SHORT_VALUES, &|p, _, _| bb_read_scriptint_non_minimal(one, 1, p.cast(), 0)),
            ("read_scriptbool", 0, &|p, v, c| bb_read_scriptbool(p, 0, v, c)),
            ("next", 0, &|p, v, c| bb_next(p, 0, 0, PLAIN, v, c)),
            ("next above the end", 8, &|p, v, c| bb_next(p, 0, 1, MINIMAL, v, c)),
            ("body", 0, &|p, v, c| bb_body(p, 0, 0, PLAIN, v, c)),
            ("advance", 0, &|p, v, c| bb_advance(&mut 0, 1, p, 0, MINIMAL, v, c)),
            ("advance, no cursor", SHORT_VALUES, &|p, v, c| bb_advance(p.cast(), 0, one, 1, PLAIN, v, c)),
            ("advance, no values", SHORT_VALUES, &|p, _, _| bb_advance(&mut 0, 1, one, 1, PLAIN, p.cast(), 0)),
            ("positions, no values", SHORT_VALUES, &|p, _, _| bb_positions(one, 1, PLAIN, &mut 9, 1, p.cast(), 0)),
            ("positions", 0, &|p, v, c| bb_positions(p, 0, PLAIN, p.cast(), 0, v, c)),
            ("positions, no table", 7, &|p, v, c| bb_positions(one, 1, PLAIN, p.cast(), 0, v, c)),
            ("is_p2sh", 0, &|p, v, c| bb_is_p2sh(p, 0, v, c)),
            ("is_p2pkh", 0, &|p, v, c| bb_is_p2pkh(p, 0, v, c)),
            ("is_witness_program", 0, &|p, v, c| bb_is_witness_program(p, 0, v, c)),
            ("is_p2wpkh", 0, &|p, v, c| bb_is_p2wpkh(p, 0, v, c)),
            ("is_p2wsh", 0, &|p, v, c| bb_is_p2wsh(p, 0, v, c)),
            ("is_p2tr", 0, &|p, v, c| bb_is_p2tr(p, 0, v, c)),
            ("is_p2a", 0, &|p, v, c| bb_is_p2a(p, 0, v, c)),
            ("is_p2pk", 0, &|p, v, c| bb_is_p2pk(p, 0, v, c)),
            ("is_multisig", 0, &|p, v, c| bb_is_multisig(p, 0, v, c)),
            ("is_op_return", 0, &|p, v, c| bb_is_op_return(p, 0, v, c)),
            ("is_push_only", 0, &|p, v, c| bb_is_push_only(p, 0, v, c)),
            ("witness_version", 0, &|p, v, c| bb_witness_version(p, 0, v, c)),
            ("p2pk_key", 0, &|p, v, c| bb_p2pk_key(p, 0, v, c)),
            ("redeem_script", 0, &|p, v, c| bb_redeem_script(p, 0, v, c)),
            ("p2pk_key_part", 0, &|p, v, c| bb_p2pk_key_part(p, 0, v, c)),
            ("redeem_part", 0, &|p, v, c| bb_redeem_part(p, 0, v, c)),
            ("p2wpkh_script_code", 0, &|p, v, c| bb_p2wpkh_script_code(p, 0, p, 0, v, c)),
            ("p2wpkh_script_code, no room", 7, &|p, v, c| bb_p2wpkh_script_code(wp, 22, p, 0, v, c)),
            ("kind", 0, &|p, v, c| bb_kind(p, 0, v, c)),
            ("count_sigops", 0, &|p, v, c| bb_count_sigops(p, 0, v, c)),
            ("count_sigops_legacy", 0, &|p, v, c| bb_count_sigops_legacy(p, 0, v, c)),
            ("minimal_non_dust", 0, &|p, v, c| bb_minimal_non_dust(p, 0, v, c)),
            ("minimal_non_dust_custom", 0, &|p, v, c| bb_minimal_non_dust_custom(p, 0, 9, v, c)),
            ("asm_len", 0, &|p, v, c| bb_asm_len(p, 0, v, c)),
            ("write_asm", 0, &|p, v, c| bb_write_asm(p, 0, p, 0, v, c)),
            ("write_asm, no room", 7, &|p, v, c| bb_write_asm(one, 1, p, 0, v, c)),
            ("write_name, no room", 7, &|p, v, c| bb_write_name(0, p, 0, v, c)),
            ("write_scriptint of 0", 0, &|p, v, c| bb_write_scriptint(0, p, 0, v, c)),
            ("write_scriptint, no room", 7, &|p, v, c| bb_write_scriptint(9, p, 0, v, c)),
            ("builder_start", 0, &|p, v, c| bb_builder_start(p, 0, 0, v, c)),
            ("builder_start of 1", 13, &|p, v, c| bb_builder_start(p, 0, 1, v, c)),
            ("push_opcode, no room", 7, &|p, v, c| bb_builder_push_opcode(0, NOTHING, p, 0, 0x51, v, c)),
            ("push_slice, no room", 7, &|p, v, c| bb_builder_push_slice(0, NOTHING, p, 0, body, 32, v, c)),
            ("push_slice of nothing", 0, &|p, v, c| bb_builder_push_slice(0, NOTHING, &mut 9, 1, p, 0, v, c)),
            ("push_slice of nothing, no room", 7, &|p, v, c| bb_builder_push_slice(0, NOTHING, p, 0, p, 0, v, c)),
            ("push_int, no room", 7, &|p, v, c| bb_builder_push_int(0, NOTHING, p, 0, 1000, v, c)),
            ("push_lock_time, no room", 7, &|p, v, c| bb_builder_push_lock_time(0, NOTHING, p, 0, 1000, v, c)),
            ("push_sequence, no room", 7, &|p, v, c| bb_builder_push_sequence(0, NOTHING, p, 0, 1000, v, c)),
            ("push_verify, no room", 7, &|p, v, c| bb_builder_push_verify(0, NOTHING, p, 0, v, c)),
            ("builder_as_bytes", 0, &|p, v, c| bb_builder_as_bytes(0, NOTHING, p, 0, v, c)),
            ("witness_program of nothing", 10, &|p, v, c| bb_witness_program(1, p, 0, p, 0, v, c)),
            ("witness_program, no room", 7, &|p, v, c| bb_witness_program(1, body, 32, p, 0, v, c)),
            ("inspect", 0, &|p, v, c| bb_inspect(p, 0, [0; 99].as_mut_ptr(), 99, v, c)),
            ("inspect, no room", 7, &|p, v, c| bb_inspect(p, 0, p, 0, v, c)),
            ("inspect of 2,801 bytes, no room", 7, &|p, v, c| bb_inspect(long.as_ptr(), long.len(), p, 0, v, c)),
        ]
    };
    for (name, number, ask) in asked {
        let mut place = [LENT];
        let there = lend(6, &mut |v, c| ask(place.as_mut_ptr().cast(), v, c));
        assert_eq!((there.0, place), (number, [LENT]), "{name}");
        assert_eq!(lend(6, &mut |v, c| ask(null_mut(), v, c)), there, "{name} at NULL");
        assert_eq!(lend(6, &mut |v, c| ask(NonNull::<u64>::dangling().as_ptr().cast(), v, c)), there, "{name}");
    }
}

/// A number that is no refusal's becomes neither an answer nor a refusal.
#[test]
#[should_panic(expected = "gave 16, which is not a refusal's number")]
fn an_unknown_number_ends_here() {
    crate::Refusal::given(16, &[0, 0]);
}

/// A library that still has refusal 3 is not the one that this package was written for.
#[test]
#[should_panic(expected = "gave 3, which is not a refusal's number")]
fn the_retired_number_ends_here() {
    crate::Refusal::given(3, &[0, 0]);
}

/// Where a function is lent too few values for a refusal's, it does not have that refusal.
#[test]
#[should_panic(expected = "gave 14, which is not a refusal that this function has")]
fn a_refusal_without_its_values_ends_here() {
    crate::Refusal::given(14, &[0]);
}

/// Too few values are no refusal, and this package never lends too few.
#[test]
#[should_panic(expected = "was lent fewer values than it asks for")]
fn too_few_values_end_here() {
    crate::Refusal::given(SHORT_VALUES, &[0, 0]);
}

#[test]
fn every_refusal_keeps_its_number_and_values() {
    for number in (1..=15).filter(|number| *number != 3) {
        let refusal = crate::Refusal::given(number, &[77, 88]);
        let value = match number {
            2 | 7 => Value::Is(77),
            14 | 15 => Value::Both(77, 88),
            _ => Value::Nothing,
        };
        assert_eq!((refusal.number(), refusal.value()), (number, value));
    }
}
