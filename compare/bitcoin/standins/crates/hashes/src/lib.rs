//! Stand-in for bitcoin_hashes: the types of hashes. Nothing is hashed here; asking for it panics.

#[derive(Debug)]
pub struct FromSliceError;

pub trait Hash: Sized {
    type Bytes;

    fn from_byte_array(bytes: Self::Bytes) -> Self;
    fn as_byte_array(&self) -> &Self::Bytes;
    fn to_byte_array(self) -> Self::Bytes;
    fn from_slice(bytes: &[u8]) -> Result<Self, FromSliceError>;
    fn hash(_: &[u8]) -> Self {
        unimplemented!("hashing is not part of this comparison")
    }
}

macro_rules! hash_module {
    ($name:ident, $length:literal) => {
        pub mod $name {
            #[derive(Clone, Copy, Debug, PartialEq, Eq, PartialOrd, Ord, Hash)]
            pub struct Hash([u8; $length]);

            impl crate::Hash for Hash {
                type Bytes = [u8; $length];

                fn from_byte_array(bytes: [u8; $length]) -> Self {
                    Hash(bytes)
                }
                fn as_byte_array(&self) -> &[u8; $length] {
                    &self.0
                }
                fn to_byte_array(self) -> [u8; $length] {
                    self.0
                }
                fn from_slice(bytes: &[u8]) -> Result<Self, crate::FromSliceError> {
                    bytes.try_into().map(Hash).map_err(|_| crate::FromSliceError)
                }
            }

            impl std::ops::Index<usize> for Hash {
                type Output = u8;

                fn index(&self, at: usize) -> &u8 {
                    &self.0[at]
                }
            }
        }
    };
}

hash_module!(hash160, 20);
hash_module!(sha256, 32);
hash_module!(sha256d, 32);

#[macro_export]
macro_rules! hash_newtype {
    ($($(#[$note:meta])* pub struct $name:ident($inner:ty);)*) => {
        $(
            $(#[$note])*
            #[derive(Clone, Copy, Debug, PartialEq, Eq, PartialOrd, Ord, Hash)]
            pub struct $name($inner);

            impl $crate::Hash for $name {
                type Bytes = <$inner as $crate::Hash>::Bytes;

                fn from_byte_array(bytes: Self::Bytes) -> Self {
                    $name(<$inner as $crate::Hash>::from_byte_array(bytes))
                }
                fn as_byte_array(&self) -> &Self::Bytes { $crate::Hash::as_byte_array(&self.0) }
                fn to_byte_array(self) -> Self::Bytes { $crate::Hash::to_byte_array(self.0) }
                fn from_slice(bytes: &[u8]) -> Result<Self, $crate::FromSliceError> {
                    <$inner as $crate::Hash>::from_slice(bytes).map($name)
                }
            }
        )*
    };
}
