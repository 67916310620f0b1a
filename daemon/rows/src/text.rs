//! What one set can have, whatever the engine.
use crate::engine::Fault;
use bytes::Bytes;

/// The most cells of one set: etcd has 128 operations a transaction.
pub const MOST_CELLS: usize = 100;

/// The most bytes of the texts of one set together: etcd has 1.5 MB a request, in which each three bytes take four.
pub const MOST_BYTES: usize = 1_000_000;

/// What is told where there is more.
pub(crate) const MOST: &str = "100 cells and 1,000,000 bytes";

/// Whether one set can have these texts: at least one, each of one line, and no more than there is room for.
///
/// # Errors
/// `BadText` and `TooMuch`.
pub(crate) fn check_texts(texts: &[Bytes]) -> Result<(), Fault> {
    if texts.is_empty() || !texts.iter().all(|text| is_text(text)) {
        return Err(Fault::BadText);
    }
    let bytes: usize = texts.iter().map(Bytes::len).sum();
    if texts.len() > MOST_CELLS || bytes > MOST_BYTES {
        return Err(Fault::TooMuch(MOST));
    }
    Ok(())
}

fn is_text(text: &[u8]) -> bool {
    memchr::memchr2(b'\n', b'\t', text).is_none()
}

#[cfg(test)]
mod tests {
    use super::is_text;

    #[test]
    fn a_text_is_one_line_without_a_tab() {
        assert!(is_text(b"{\"a\":1}") && is_text(b""));
        assert!(!is_text(b"a\nb") && !is_text(b"a\tb"));
    }
}
