// The crate's files that are compiled unchanged, below the folder that BITCOIN_SRC names.
// Both the build script and the test include this file.

pub const PUBLISHED: [&str; 15] = [
    "src/array_vec.rs",
    "src/blockdata/locktime/absolute.rs",
    "src/blockdata/mod.rs",
    "src/blockdata/opcodes.rs",
    "src/blockdata/script/borrowed.rs",
    "src/blockdata/script/builder.rs",
    "src/blockdata/script/instruction.rs",
    "src/blockdata/script/mod.rs",
    "src/blockdata/script/witness_program.rs",
    "src/blockdata/script/witness_version.rs",
    "src/consensus/encode.rs",
    "src/consensus/mod.rs",
    "src/const_tools.rs",
    "src/internal_macros.rs",
    "src/policy.rs",
];
