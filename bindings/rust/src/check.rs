//! What a check is told by.
use crate::errors::CheckError;
use crate::sys::{GRANTED, REFUSED};

/// Only GRANTED grants.
#[inline]
pub(crate) fn verdict(status: u32) -> Result<bool, CheckError> {
    match status {
        GRANTED => Ok(true),
        REFUSED => Ok(false),
        other => Err(CheckError::of(other)),
    }
}
