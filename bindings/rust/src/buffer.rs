//! What the owning types are made of.

use core::fmt;

/// Bytes of a fixed size. Printed, they are only counted.
#[derive(Clone, PartialEq, Eq)]
pub(crate) struct Buffer<const N: usize>(pub(crate) [u8; N]);

impl<const N: usize> Buffer<N> {
    pub(crate) const fn new() -> Self {
        Buffer([0; N])
    }
}

impl<const N: usize> fmt::Debug for Buffer<N> {
    fn fmt(&self, f: &mut fmt::Formatter<'_>) -> fmt::Result {
        write!(f, "{N} bytes")
    }
}
