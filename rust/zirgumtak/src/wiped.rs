//! Octets that are zeros when they are given back.

use core::ptr::write_volatile;
use core::sync::atomic::{compiler_fence, Ordering};

/// Octets that are wiped when they are dropped.
#[derive(Clone)]
pub(crate) struct Wiped<const N: usize>(pub(crate) [u8; N]);

impl<const N: usize> Drop for Wiped<N> {
    fn drop(&mut self) {
        wipe(&mut self.0);
    }
}

/// Zeros in place of all octets. A volatile write is made, though nobody reads it.
#[allow(unsafe_code)]
fn wipe(octets: &mut [u8]) {
    for octet in octets {
        // SAFETY: the pointer is that of an octet that is lent for writing.
        unsafe { write_volatile(octet, 0) };
    }
    compiler_fence(Ordering::SeqCst);
}
