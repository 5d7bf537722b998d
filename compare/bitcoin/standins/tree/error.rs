//! Stand-in for the errors of reading a lock time from hex.

use units::parse::ParseIntError;

/// Declares an error about a text's prefix, and the one that joins it with the error of reading a number.
macro_rules! hex_errors {
    ($($about_prefix:ident in $joined:ident),*) => {
        $(
            #[derive(Debug)]
            pub struct $about_prefix(String);

            impl $about_prefix {
                pub(crate) fn new(text: &str) -> Self { $about_prefix(text.into()) }
            }

            #[derive(Debug)]
            pub enum $joined {
                Prefix($about_prefix),
                Number(ParseIntError),
            }

            impl From<$about_prefix> for $joined {
                fn from(e: $about_prefix) -> Self { $joined::Prefix(e) }
            }

            impl From<ParseIntError> for $joined {
                fn from(e: ParseIntError) -> Self { $joined::Number(e) }
            }
        )*
    };
}
hex_errors!(MissingPrefixError in PrefixedHexError, ContainsPrefixError in UnprefixedHexError);
