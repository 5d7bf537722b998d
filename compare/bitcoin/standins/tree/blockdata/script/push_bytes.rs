//! Stand-in for push_bytes.rs: bytes whose count a 32-bit number states.

use core::ops::{Index, RangeTo};

#[derive(Debug, PartialEq, Eq)]
#[repr(transparent)]
pub struct PushBytes([u8]);

impl PushBytes {
    fn over(bytes: &[u8]) -> &PushBytes {
        // SAFETY: PushBytes is a transparent struct over the slice, so both references have one layout.
        unsafe { &*(bytes as *const [u8] as *const PushBytes) }
    }

    pub fn empty() -> &'static PushBytes {
        PushBytes::over(&[])
    }
    pub fn as_bytes(&self) -> &[u8] {
        &self.0
    }
    pub fn len(&self) -> usize {
        self.0.len()
    }
    pub fn is_empty(&self) -> bool {
        self.0.is_empty()
    }
}

/// Given for bytes whose count exceeds 32 bits.
#[derive(Debug)]
pub struct PushBytesError;

fn countable(bytes: &[u8]) -> Result<(), PushBytesError> {
    u32::try_from(bytes.len()).map(|_| ()).map_err(|_| PushBytesError)
}

impl<'a> TryFrom<&'a [u8]> for &'a PushBytes {
    type Error = PushBytesError;

    fn try_from(bytes: &'a [u8]) -> Result<Self, PushBytesError> {
        countable(bytes).map(|_| PushBytes::over(bytes))
    }
}

impl<'a, const N: usize> From<&'a [u8; N]> for &'a PushBytes {
    fn from(bytes: &'a [u8; N]) -> Self {
        PushBytes::over(bytes)
    }
}

impl Index<RangeTo<usize>> for PushBytes {
    type Output = PushBytes;

    fn index(&self, range: RangeTo<usize>) -> &PushBytes {
        PushBytes::over(&self.0[range])
    }
}

impl AsRef<PushBytes> for PushBytes {
    fn as_ref(&self) -> &PushBytes {
        self
    }
}

impl<const N: usize> AsRef<PushBytes> for [u8; N] {
    fn as_ref(&self) -> &PushBytes {
        PushBytes::over(self)
    }
}

#[derive(Clone, Debug, PartialEq, Eq)]
pub struct PushBytesBuf(Vec<u8>);

impl TryFrom<Vec<u8>> for PushBytesBuf {
    type Error = PushBytesError;

    fn try_from(bytes: Vec<u8>) -> Result<Self, PushBytesError> {
        countable(&bytes).map(|_| PushBytesBuf(bytes))
    }
}

impl<const N: usize> From<&[u8; N]> for PushBytesBuf {
    fn from(bytes: &[u8; N]) -> Self {
        PushBytesBuf(bytes.to_vec())
    }
}

impl AsRef<PushBytes> for PushBytesBuf {
    fn as_ref(&self) -> &PushBytes {
        PushBytes::over(&self.0)
    }
}
