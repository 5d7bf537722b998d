//! The functions of include/brinebutton.h, and the numbers that they speak in.

pub const PLAIN: u32 = 0;
pub const MINIMAL: u32 = 1;

pub const END: u64 = 0;
pub const OPCODE: u64 = 1;
pub const PUSH: u64 = 2;

pub const SORT_PUSH: u64 = 0;
pub const SORT_NUMBER: u64 = 1;
pub const SORT_PLAIN: u64 = 2;

/// What a builder remembers where it remembers no opcode.
pub const NOTHING: u32 = 256;

/// What a call returns that is lent too short a slice for its answer. It is no refusal, and nothing is changed.
pub const SHORT_VALUES: u32 = 255;

extern "C" {
    pub fn bb_classify(code: u8, values: *mut u64, values_len: usize) -> u32;
    pub fn bb_decode_pushnum(code: u8, values: *mut u64, values_len: usize) -> u32;
    pub fn bb_opcode_to_verify(code: u8, values: *mut u64, values_len: usize) -> u32;
    pub fn bb_name_len(code: u8, values: *mut u64, values_len: usize) -> u32;
    pub fn bb_write_name(code: u8, out: *mut u8, out_len: usize, values: *mut u64, values_len: usize) -> u32;
    pub fn bb_scriptint_len(n: i64, values: *mut u64, values_len: usize) -> u32;
    pub fn bb_write_scriptint(n: i64, out: *mut u8, out_len: usize, values: *mut u64, values_len: usize) -> u32;
    pub fn bb_read_scriptint(v: *const u8, v_len: usize, number: *mut i64, number_len: usize) -> u32;
    pub fn bb_read_scriptint_non_minimal(v: *const u8, v_len: usize, number: *mut i64, number_len: usize) -> u32;
    pub fn bb_read_scriptbool(v: *const u8, v_len: usize, values: *mut u64, values_len: usize) -> u32;
    pub fn bb_cursor_new(values: *mut u64, values_len: usize) -> u32;
    pub fn bb_next(
        script: *const u8,
        script_len: usize,
        at: usize,
        mode: u32,
        values: *mut u64,
        values_len: usize,
    ) -> u32;
    pub fn bb_body(
        script: *const u8,
        script_len: usize,
        at: usize,
        mode: u32,
        values: *mut u64,
        values_len: usize,
    ) -> u32;
    pub fn bb_advance(
        cursor: *mut u64,
        cursor_len: usize,
        script: *const u8,
        script_len: usize,
        mode: u32,
        values: *mut u64,
        values_len: usize,
    ) -> u32;
    pub fn bb_positions(
        script: *const u8,
        script_len: usize,
        mode: u32,
        table: *mut u32,
        table_len: usize,
        values: *mut u64,
        values_len: usize,
    ) -> u32;
    pub fn bb_is_p2sh(script: *const u8, script_len: usize, values: *mut u64, values_len: usize) -> u32;
    pub fn bb_is_p2pkh(script: *const u8, script_len: usize, values: *mut u64, values_len: usize) -> u32;
    pub fn bb_is_witness_program(script: *const u8, script_len: usize, values: *mut u64, values_len: usize) -> u32;
    pub fn bb_is_p2wpkh(script: *const u8, script_len: usize, values: *mut u64, values_len: usize) -> u32;
    pub fn bb_is_p2wsh(script: *const u8, script_len: usize, values: *mut u64, values_len: usize) -> u32;
    pub fn bb_is_p2tr(script: *const u8, script_len: usize, values: *mut u64, values_len: usize) -> u32;
    pub fn bb_is_p2a(script: *const u8, script_len: usize, values: *mut u64, values_len: usize) -> u32;
    pub fn bb_is_p2pk(script: *const u8, script_len: usize, values: *mut u64, values_len: usize) -> u32;
    pub fn bb_is_multisig(script: *const u8, script_len: usize, values: *mut u64, values_len: usize) -> u32;
    pub fn bb_is_op_return(script: *const u8, script_len: usize, values: *mut u64, values_len: usize) -> u32;
    pub fn bb_is_push_only(script: *const u8, script_len: usize, values: *mut u64, values_len: usize) -> u32;
    pub fn bb_witness_version(script: *const u8, script_len: usize, values: *mut u64, values_len: usize) -> u32;
    pub fn bb_p2pk_key(script: *const u8, script_len: usize, values: *mut u64, values_len: usize) -> u32;
    pub fn bb_redeem_script(script: *const u8, script_len: usize, values: *mut u64, values_len: usize) -> u32;
    pub fn bb_p2pk_key_part(script: *const u8, script_len: usize, values: *mut u64, values_len: usize) -> u32;
    pub fn bb_redeem_part(script: *const u8, script_len: usize, values: *mut u64, values_len: usize) -> u32;
    pub fn bb_p2wpkh_script_code(
        script: *const u8,
        script_len: usize,
        out: *mut u8,
        out_len: usize,
        values: *mut u64,
        values_len: usize,
    ) -> u32;
    pub fn bb_kind(script: *const u8, script_len: usize, values: *mut u64, values_len: usize) -> u32;
    pub fn bb_count_sigops(script: *const u8, script_len: usize, values: *mut u64, values_len: usize) -> u32;
    pub fn bb_count_sigops_legacy(script: *const u8, script_len: usize, values: *mut u64, values_len: usize) -> u32;
    pub fn bb_minimal_non_dust(script: *const u8, script_len: usize, values: *mut u64, values_len: usize) -> u32;
    pub fn bb_minimal_non_dust_custom(
        script: *const u8,
        script_len: usize,
        rate: u64,
        values: *mut u64,
        values_len: usize,
    ) -> u32;
    pub fn bb_asm_len(script: *const u8, script_len: usize, values: *mut u64, values_len: usize) -> u32;
    pub fn bb_write_asm(
        script: *const u8,
        script_len: usize,
        out: *mut u8,
        out_len: usize,
        values: *mut u64,
        values_len: usize,
    ) -> u32;
    pub fn bb_builder_new(values: *mut u64, values_len: usize) -> u32;
    pub fn bb_builder_start(
        buffer: *const u8,
        buffer_len: usize,
        length: usize,
        values: *mut u64,
        values_len: usize,
    ) -> u32;
    pub fn bb_builder_push_opcode(
        length: usize,
        remembered: u32,
        buffer: *mut u8,
        buffer_len: usize,
        code: u8,
        values: *mut u64,
        values_len: usize,
    ) -> u32;
    pub fn bb_builder_push_slice(
        length: usize,
        remembered: u32,
        buffer: *mut u8,
        buffer_len: usize,
        body: *const u8,
        body_len: usize,
        values: *mut u64,
        values_len: usize,
    ) -> u32;
    pub fn bb_builder_push_int(
        length: usize,
        remembered: u32,
        buffer: *mut u8,
        buffer_len: usize,
        n: i64,
        values: *mut u64,
        values_len: usize,
    ) -> u32;
    pub fn bb_builder_push_lock_time(
        length: usize,
        remembered: u32,
        buffer: *mut u8,
        buffer_len: usize,
        locktime: u32,
        values: *mut u64,
        values_len: usize,
    ) -> u32;
    pub fn bb_builder_push_sequence(
        length: usize,
        remembered: u32,
        buffer: *mut u8,
        buffer_len: usize,
        sequence: u32,
        values: *mut u64,
        values_len: usize,
    ) -> u32;
    pub fn bb_builder_push_verify(
        length: usize,
        remembered: u32,
        buffer: *mut u8,
        buffer_len: usize,
        values: *mut u64,
        values_len: usize,
    ) -> u32;
    pub fn bb_builder_as_bytes(
        length: usize,
        remembered: u32,
        buffer: *const u8,
        buffer_len: usize,
        values: *mut u64,
        values_len: usize,
    ) -> u32;
    pub fn bb_witness_program(
        version: u8,
        program: *const u8,
        program_len: usize,
        out: *mut u8,
        out_len: usize,
        values: *mut u64,
        values_len: usize,
    ) -> u32;
    pub fn bb_inspect(
        script: *const u8,
        script_len: usize,
        out: *mut u8,
        out_len: usize,
        values: *mut u64,
        values_len: usize,
    ) -> u32;
}
