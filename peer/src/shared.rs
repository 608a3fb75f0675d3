//! A value that this process and those that it forks have in common.

use crate::system::map_shared;
use std::io;
use std::marker::PhantomData;
use std::ops::Deref;

/// What may lie in shared memory.
///
/// # Safety
/// Zeros are a value of it, it holds no address, and what is written while others look is atomic.
pub unsafe trait Plain {}

pub struct Shared<T: Plain> {
    at: *mut T,
    of: PhantomData<T>,
}

impl<T: Plain> Shared<T> {
    /// A value of zeros, which stays until the process ends.
    pub fn new() -> io::Result<Self> {
        let at = map_shared(std::mem::size_of::<T>())?.cast();
        Ok(Shared {
            at,
            of: PhantomData,
        })
    }
}

impl<T: Plain> Deref for Shared<T> {
    type Target = T;

    fn deref(&self) -> &T {
        // SAFETY: mapped for good at the start of a page, and zeros are a value.
        unsafe { &*self.at }
    }
}
