//! What a call writes.
use crate::sys::{DONE, SHORT_BUFFER};

/// The text that a call writes to a buffer, which is called again where that was too short; or its status.
pub(crate) fn written_by(
    buffer: &mut Vec<u8>,
    mut call: impl FnMut(&mut [u8], &mut usize) -> u32,
) -> Result<&str, u32> {
    let mut written = 0;
    let mut status = call(buffer, &mut written);
    if status == SHORT_BUFFER {
        buffer.resize(written, 0);
        status = call(buffer, &mut written);
    }
    match status {
        DONE => Ok(str::from_utf8(&buffer[..written]).expect("a text of the library is JSON")),
        other => Err(other),
    }
}

/// A buffer that most texts fit into.
pub(crate) fn buffer() -> Vec<u8> {
    vec![0; 256]
}
