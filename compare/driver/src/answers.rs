//! What a side answers, as numbers and bytes.

/// How a walk judges pushes.
#[derive(Clone, Copy, Debug, PartialEq, Eq)]
pub enum Mode {
    Plain,
    Minimal,
}

/// The refusals that both sides know, under the names of documents 01 and 02. The crate has one error for both cuts, which `crate_side` tells apart.
#[derive(Clone, Copy, Debug, PartialEq, Eq)]
pub enum Refusal {
    /// The place where the push starts.
    NonMinimal(usize),
    NumberTooLong,
    NumberNotMinimal,
    ProgramLength,
    ProgramLengthV0,
    BadVersion,
    /// The place, and how many length bytes are missing.
    LengthCut(usize, usize),
    /// The place, and how many bytes of the body are missing.
    BodyCut(usize, usize),
}

impl Refusal {
    /// The refusal's number. 3 is retired.
    pub fn number(self) -> u32 {
        match self {
            Refusal::NonMinimal(_) => 2,
            Refusal::NumberTooLong => 4,
            Refusal::NumberNotMinimal => 5,
            Refusal::ProgramLength => 10,
            Refusal::ProgramLengthV0 => 11,
            Refusal::BadVersion => 12,
            Refusal::LengthCut(..) => 14,
            Refusal::BodyCut(..) => 15,
        }
    }

    /// What stands beside the number: the place, the place and what is missing, or nothing.
    pub fn values(self) -> Vec<u64> {
        match self {
            Refusal::NonMinimal(place) => vec![place as u64],
            Refusal::LengthCut(place, missing) | Refusal::BodyCut(place, missing) => vec![place as u64, missing as u64],
            _ => Vec::new(),
        }
    }
}

/// An answer, or that the side panicked instead.
#[derive(Clone, Debug, PartialEq, Eq)]
pub enum Outcome<T> {
    Answer(T),
    Panicked,
}

/// One step of a walk. Push forms are left out: the crate does not tell them apart.
#[derive(Clone, Debug, PartialEq, Eq)]
pub enum Step {
    Opcode { place: usize, code: u8 },
    Push { place: usize, body_place: usize, body: Vec<u8> },
    Refused(Refusal),
}

/// Everything that is asked about one script.
#[derive(Clone, Debug, PartialEq, Eq)]
pub struct About {
    pub length: usize,
    pub plain: Vec<Step>,
    pub minimal: Vec<Step>,
    pub is_p2pkh: bool,
    pub is_p2sh: bool,
    pub is_p2wpkh: bool,
    pub is_p2wsh: bool,
    pub is_p2tr: bool,
    pub is_p2a: bool,
    pub is_witness_program: bool,
    pub witness_version: Option<u8>,
    pub is_p2pk: bool,
    /// The crate gives the key only where it is a point of the curve.
    pub p2pk_public_key: Option<Vec<u8>>,
    pub is_multisig: Outcome<bool>,
    pub is_op_return: bool,
    pub is_push_only: bool,
    pub redeem_script: Option<Vec<u8>>,
    pub p2wpkh_script_code: Option<Vec<u8>>,
    pub count_sigops: usize,
    pub count_sigops_legacy: usize,
    pub minimal_non_dust: u64,
    /// Each rate of `RATES` with the figure at it.
    pub minimal_non_dust_custom: Vec<(u64, Outcome<u64>)>,
    pub asm: Vec<u8>,
}

impl About {
    /// The tests that cannot fail, under their names: eight in document 01's order of kinds, and the last two.
    pub fn tests(&self) -> [(&'static str, bool); 10] {
        [
            ("is_p2pkh", self.is_p2pkh),
            ("is_p2sh", self.is_p2sh),
            ("is_p2wpkh", self.is_p2wpkh),
            ("is_p2wsh", self.is_p2wsh),
            ("is_p2tr", self.is_p2tr),
            ("is_p2a", self.is_p2a),
            ("is_witness_program", self.is_witness_program),
            ("is_p2pk", self.is_p2pk),
            ("is_op_return", self.is_op_return),
            ("is_push_only", self.is_push_only),
        ]
    }
}

/// Custom rates, in satoshi per 1000 weight units: small ones, the default (750), and around what 64 bits hold.
pub const RATES: [u64; 10] = [0, 1, 251, 750, 751, 1_000_000, 1 << 53, (1 << 62) - 1, 1 << 62, u64::MAX];

/// What is asked about one opcode byte.
#[derive(Clone, Debug, PartialEq, Eq)]
pub struct AboutOpcode {
    pub name: Vec<u8>,
    /// The number of a number opcode, 1 to 16.
    pub number: Option<u8>,
    /// The body's length of a direct push.
    pub direct_push: Option<u32>,
    pub verify_form: Option<u8>,
}

/// The three readings of bytes as a number or a truth value.
#[derive(Clone, Debug, PartialEq, Eq)]
pub struct Readings {
    pub strict: Result<i64, Refusal>,
    pub non_minimal: Result<i64, Refusal>,
    pub truth: bool,
}

/// A call of a builder session.
#[derive(Clone, Debug, PartialEq, Eq)]
pub enum Call {
    Opcode(u8),
    Int(i64),
    Slice(Vec<u8>),
    Verify,
    LockTime(u32),
    Sequence(u32),
}

/// A builder's state: its bytes and the opcode it remembers.
#[derive(Clone, Debug, PartialEq, Eq)]
pub struct Built {
    pub bytes: Vec<u8>,
    pub remembered: Option<u8>,
}

/// What is asked about a witness version and program: the script's bytes, and what kind of program it is.
#[derive(Clone, Debug, PartialEq, Eq)]
pub struct AboutProgram {
    pub script: Vec<u8>,
    pub is_p2wpkh: bool,
    pub is_p2wsh: bool,
    pub is_p2tr: bool,
    pub is_p2a: bool,
}
