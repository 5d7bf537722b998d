//! The entries of include/brinebutton.h.

macro_rules! entries {
    ($($variant:ident $name:literal)*) => {
        #[derive(Clone, Copy, Debug, PartialEq, Eq, PartialOrd, Ord)]
        pub enum Entry {
            $($variant,)*
        }

        pub const ENTRIES: [(Entry, &str); [$($name),*].len()] = [$((Entry::$variant, $name)),*];
    };
}

entries! {
    Classify "bb_classify"
    DecodePushnum "bb_decode_pushnum"
    OpcodeToVerify "bb_opcode_to_verify"
    NameLen "bb_name_len"
    WriteName "bb_write_name"
    ScriptintLen "bb_scriptint_len"
    WriteScriptint "bb_write_scriptint"
    ReadScriptint "bb_read_scriptint"
    ReadScriptintNonMinimal "bb_read_scriptint_non_minimal"
    ReadScriptbool "bb_read_scriptbool"
    CursorNew "bb_cursor_new"
    Next "bb_next"
    Body "bb_body"
    Advance "bb_advance"
    Positions "bb_positions"
    IsP2sh "bb_is_p2sh"
    IsP2pkh "bb_is_p2pkh"
    IsWitnessProgram "bb_is_witness_program"
    IsP2wpkh "bb_is_p2wpkh"
    IsP2wsh "bb_is_p2wsh"
    IsP2tr "bb_is_p2tr"
    IsP2a "bb_is_p2a"
    IsP2pk "bb_is_p2pk"
    IsMultisig "bb_is_multisig"
    IsOpReturn "bb_is_op_return"
    IsPushOnly "bb_is_push_only"
    WitnessVersion "bb_witness_version"
    P2pkKey "bb_p2pk_key"
    RedeemScript "bb_redeem_script"
    P2pkKeyPart "bb_p2pk_key_part"
    RedeemPart "bb_redeem_part"
    P2wpkhScriptCode "bb_p2wpkh_script_code"
    Kind "bb_kind"
    CountSigops "bb_count_sigops"
    CountSigopsLegacy "bb_count_sigops_legacy"
    MinimalNonDust "bb_minimal_non_dust"
    MinimalNonDustCustom "bb_minimal_non_dust_custom"
    AsmLen "bb_asm_len"
    WriteAsm "bb_write_asm"
    BuilderNew "bb_builder_new"
    BuilderStart "bb_builder_start"
    PushOpcode "bb_builder_push_opcode"
    PushSlice "bb_builder_push_slice"
    PushInt "bb_builder_push_int"
    PushLockTime "bb_builder_push_lock_time"
    PushSequence "bb_builder_push_sequence"
    PushVerify "bb_builder_push_verify"
    AsBytes "bb_builder_as_bytes"
    WitnessProgram "bb_witness_program"
    Inspect "bb_inspect"
}

impl Entry {
    pub fn name(self) -> &'static str {
        ENTRIES[self as usize].1
    }
}

/// The functions that the header declares, in its order.
pub fn declared() -> Result<Vec<String>, String> {
    let path = concat!(env!("CARGO_MANIFEST_DIR"), "/../../include/brinebutton.h");
    let header = std::fs::read_to_string(path).map_err(|e| format!("include/brinebutton.h: {e}"))?;
    let name = |line: &str| Some(line.strip_prefix("uint32_t ")?.split_once('(')?.0.to_string());
    Ok(header.lines().filter_map(name).collect())
}
