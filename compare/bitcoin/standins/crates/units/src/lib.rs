//! Stand-in for bitcoin-units: amounts, fee rates and lock times as bare numbers.

pub use parse::ParseIntError;

pub mod amount {
    #[derive(Clone, Copy, Debug, PartialEq, Eq, PartialOrd, Ord, Hash)]
    pub struct Amount(u64);

    impl Amount {
        pub const fn from_sat(satoshi: u64) -> Amount {
            Amount(satoshi)
        }
        pub const fn to_sat(self) -> u64 {
            self.0
        }
    }
}

pub mod fee_rate {
    #[derive(Clone, Copy, Debug, PartialEq, Eq, PartialOrd, Ord, Hash)]
    pub struct FeeRate(u64);

    impl FeeRate {
        pub const fn from_sat_per_kwu(rate: u64) -> FeeRate {
            FeeRate(rate)
        }
        pub const fn to_sat_per_kwu(self) -> u64 {
            self.0
        }
    }
}

pub mod weight {
    pub struct Weight;
}

pub mod locktime {
    pub mod absolute {
        pub const LOCK_TIME_THRESHOLD: u32 = 500_000_000;

        pub struct ParseHeightError;
        pub struct ParseTimeError;

        #[derive(Debug)]
        pub struct ConversionError;

        pub fn is_block_height(n: u32) -> bool {
            n < LOCK_TIME_THRESHOLD
        }

        macro_rules! kept_number {
            ($($name:ident if $test:expr;)*) => {
                $(
                    #[derive(Clone, Copy, Debug, PartialEq, Eq, PartialOrd, Ord, Hash)]
                    pub struct $name(u32);

                    impl $name {
                        pub fn from_consensus(n: u32) -> Result<Self, ConversionError> {
                            if $test(n) { Ok($name(n)) } else { Err(ConversionError) }
                        }
                        pub fn to_consensus_u32(self) -> u32 { self.0 }
                    }

                    impl std::fmt::Display for $name {
                        fn fmt(&self, f: &mut std::fmt::Formatter) -> std::fmt::Result { self.0.fmt(f) }
                    }
                )*
            };
        }
        kept_number! {
            Height if is_block_height;
            Time if |n| !is_block_height(n);
        }

        impl Height {
            pub const ZERO: Height = Height(0);
        }
    }
}

pub mod parse {
    pub use std::num::ParseIntError;

    pub fn int<T: std::str::FromStr<Err = ParseIntError>, S: AsRef<str>>(text: S) -> Result<T, ParseIntError> {
        text.as_ref().parse()
    }

    pub fn hex_u32(text: &str) -> Result<u32, ParseIntError> {
        u32::from_str_radix(text, 16)
    }
}
