//! What the handles of the library share.

use crate::raw;

/// A block that can be neither read nor written: a READ of it ends with 3/11/00, a WRITE with 3/0c/00.
#[derive(Clone, Copy, Debug, PartialEq, Eq, Hash)]
pub struct BadBlock {
    /// The number of the logical unit.
    pub unit: u32,
    pub lba: u32,
}

pub(crate) fn raw_bad(bad: &[BadBlock]) -> Vec<raw::BadBlock> {
    bad.iter().map(|&BadBlock { unit, lba }| raw::BadBlock { unit, lba }).collect()
}

/// A type that owns a handle of the library and frees it.
macro_rules! handle {
    ($name:ident, $free:ident) => {
        // SAFETY: the library keeps all that a handle is about behind its pointer, and asks only that a handle be in one call at a time.
        // The type owns its handle, so whoever has a value of it alone calls; its shared calls stay in the one thread, as it isn't `Sync`.
        unsafe impl Send for $name {}

        impl Drop for $name {
            fn drop(&mut self) {
                // SAFETY: the handle is live and isn't used again.
                unsafe { raw::$free(self.handle.as_ptr()) }
            }
        }
    };
}

pub(crate) use handle;
