//! Brinebutton and crate bitcoin 0.32.102, asked the same questions, and every answer compared.
//!
//! `our_side` calls the static library and lends it slices whose every entry is looked at afterwards; `check` says for each input what
//! the crate answers, put right where document 01 lists a difference; `inputs` are what is asked about, and how they are made smaller.

pub mod check;
pub mod entries;
pub mod inputs;
pub mod our_side;
