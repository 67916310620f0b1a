//! What the library keeps a policy or a member in.
use crate::sys::DONE;
use std::ffi::c_void;
use std::marker::PhantomData;

/// What a place holds, by the call that ends it.
pub(crate) trait Held: Sized {
    const CLOSE: unsafe extern "C" fn(&mut Place<Self>) -> u32;
}

/// A place that a call has filled, until it is dropped. It is no `Copy`, and moves as memory does: nothing keeps its address.
#[repr(C)]
pub(crate) struct Place<T: Held> {
    at: *mut c_void,
    is_full: bool,
    holds: PhantomData<T>,
}

// SAFETY: that a place may go to another thread is proved of its type (`Send` of the slots in crates/fochillun), and the one that has
// a `&mut Place` makes its only call. It has no `Sync`: each call takes the place as `&mut`.
unsafe impl<T: Held> Send for Place<T> {}

impl<T: Held> Place<T> {
    /// A place that this call fills, or its status.
    pub(crate) fn filled_by(open: impl FnOnce(&mut Place<T>) -> u32) -> Result<Place<T>, u32> {
        // All zeros is an empty place.
        let mut place = Place {
            at: std::ptr::null_mut(),
            is_full: false,
            holds: PhantomData,
        };
        match open(&mut place) {
            DONE => Ok(place),
            status => Err(status),
        }
    }
}

impl<T: Held> Drop for Place<T> {
    fn drop(&mut self) {
        // SAFETY: the place is lent to this call alone, and is empty afterwards. Of an empty one it does nothing.
        unsafe { (T::CLOSE)(self) };
    }
}
