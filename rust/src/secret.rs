//! Secret bytes, overwritten where they lie when they are dropped.

use core::ptr;
use core::sync::atomic::{Ordering, compiler_fence};

/// Overwrites bytes with zeros. Nobody reads them afterwards, so the compiler would leave a plain write out.
fn wipe(bytes: &mut [u8]) {
    for byte in bytes {
        // SAFETY: the pointer comes from a reference.
        unsafe { ptr::write_volatile(byte, 0) };
    }
    compiler_fence(Ordering::SeqCst);
}

/// Compares without an early exit, so that the time doesn't tell how much was right.
pub(crate) fn same<const LENGTH: usize>(a: &[u8; LENGTH], b: &[u8; LENGTH]) -> bool {
    a.iter().zip(b).fold(0, |differ, (x, y)| differ | (x ^ y)) == 0
}

/// A key, a challenge or a capability, which is wiped when it is dropped. A move copies the bytes and wipes nothing.
#[derive(Clone, Eq)]
pub(crate) struct Secret<const LENGTH: usize>(pub(crate) [u8; LENGTH]);

impl<const LENGTH: usize> Secret<LENGTH> {
    pub(crate) const fn zeros() -> Self {
        Secret([0; LENGTH])
    }

    pub(crate) fn wipe(&mut self) {
        wipe(&mut self.0);
    }
}

impl<const LENGTH: usize> PartialEq for Secret<LENGTH> {
    fn eq(&self, other: &Self) -> bool {
        same(&self.0, &other.0)
    }
}

impl<const LENGTH: usize> Drop for Secret<LENGTH> {
    fn drop(&mut self) {
        self.wipe();
    }
}
