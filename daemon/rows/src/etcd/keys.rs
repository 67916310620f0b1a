//! The keys of cells: `<prefix>/<row>/<number>`, the number with 20 digits, so that keys lie in the order of numbers, and all rows of a node
//! under one prefix, to which etcd can give a right.
use crate::engine::Fault;
use crate::name::RowName;

const LONGEST_PREFIX: usize = 128;

/// Which keys cells have.
#[derive(Clone, Debug)]
pub(super) struct Keys {
    prefix: String,
}

impl Keys {
    /// Under a prefix.
    ///
    /// # Errors
    /// `Refused`, where it is none.
    pub(super) fn of(prefix: &str) -> Result<Keys, Fault> {
        let is_plain = |byte: u8| byte.is_ascii_alphanumeric() || b"_-./".contains(&byte);
        let is_prefix = (1..=LONGEST_PREFIX).contains(&prefix.len()) && !prefix.ends_with('/');
        if is_prefix && prefix.bytes().all(is_plain) {
            let prefix = prefix.to_owned();
            return Ok(Keys { prefix });
        }
        Err(Fault::Refused(format!(
            "a prefix of keys has 1 to {LONGEST_PREFIX} bytes of A-Z a-z 0-9 _ - . /, and no / at its end"
        )))
    }

    /// That of a cell.
    pub(super) fn cell(&self, row: &RowName, number: u64) -> Vec<u8> {
        format!("{}/{row}/{number:020}", self.prefix).into_bytes()
    }

    /// The number of a cell of the row, by its key.
    pub(super) fn number(&self, row: &RowName, key: &[u8]) -> Option<u64> {
        let number = key.strip_prefix(format!("{}/{row}/", self.prefix).as_bytes())?;
        std::str::from_utf8(number).ok()?.parse().ok()
    }

    /// What lies behind the row's cells, and before all else that does: the byte behind the digits.
    pub(super) fn end(&self, row: &RowName) -> Vec<u8> {
        format!("{}/{row}/:", self.prefix).into_bytes()
    }
}

#[cfg(test)]
mod tests {
    use super::Keys;
    use crate::name::RowName;

    #[test]
    fn keys_lie_in_the_order_of_numbers_before_the_end() {
        let keys = Keys::of("/groups/ward").unwrap();
        let row = RowName::of_node("n1", 1).unwrap();
        let told = keys.cell(&row, 7);
        assert_eq!(told, b"/groups/ward/n1/g1/00000000000000000007");
        assert_eq!(keys.number(&row, &told), Some(7));
        let numbers = [0, 1, 9, 10, 65_536, u64::MAX];
        let mut all: Vec<Vec<u8>> = numbers.map(|number| keys.cell(&row, number)).to_vec();
        all.push(keys.end(&row));
        assert!(all.is_sorted());
        let next = RowName::of_node("n1", 10).unwrap();
        assert!(keys.cell(&next, 0) < keys.cell(&row, 0) || keys.cell(&next, 0) > keys.end(&row));
    }

    #[test]
    fn a_prefix_is_plain() {
        for prefix in ["", "/", "a/", "a b", "a\u{e9}", &"a".repeat(129)] {
            assert!(Keys::of(prefix).is_err(), "{prefix}");
        }
        assert!(Keys::of("a").is_ok() && Keys::of(&"/a".repeat(64)).is_ok());
    }
}
